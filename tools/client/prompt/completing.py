"""What may be typed next in a command: its name, fields, operators, and names of collections and views.

Fields and operators are those of the tables of tools/client/model, which is compared with docd.
"""
import re

from model.commands import COMMANDS
from model.fields import DELETE_ENTRY, FIELDS, UPDATE_ENTRY
from model.filters import LOGIC, OPERATORS as CONDITIONS
from model.pipelines import ACCUMULATORS, STAGES
from model.updates import OPERATORS as UPDATES
from model.values import ARRAY, DOCUMENT, TEXT

PART = re.compile(r'"(?:[^"\\]|\\.)*"?|[$\w.]+|[{}\[\]:,]')
NAMING = {"viewOn", "from", "collection"} | {name.decode() for name in FIELDS} - {"explain", "getMore"}
TRUTHS = {"ordered", "multi", "upsert", "unique", "singleBatch", "preserveNullAndEmptyArrays"}


def words(table):
    return sorted(name.decode() for name in table)


# What may be in the documents under a name, at any depth, up to the next of these names.
FILTERS = dict.fromkeys(["filter", "q", "$match", "$elemMatch", "$not", "$pull", *words(LOGIC)], words([*LOGIC, *CONDITIONS]))
INSIDE = {
    **FILTERS,
    "u": words(UPDATES), "$push": ["$each"], "updates": words(UPDATE_ENTRY), "deletes": words(DELETE_ENTRY),
    "indexes": ["key", "name", "unique"], "cursor": ["batchSize"], "explain": words(FIELDS[b"find"]),
    "pipeline": words(STAGES), "$group": ["_id", *words(ACCUMULATORS)], "$project": ["$literal"],
    "$lookup": ["from", "localField", "foreignField", "as"], "$unwind": ["path", "preserveNullAndEmptyArrays"],
    "documents": [], "$set": [], "$inc": [], "$unset": [], "sort": [], "$sort": [], "key": [],
}


class Place:
    """Where in a command a text ends: under which names, and whether a name or a value has to follow."""

    def __init__(self, text):
        self.above, self.under, self.is_value, self.command, self.is_quoted = [], None, False, None, False
        for part in PART.findall(text):
            self.pass_by(part)

    def pass_by(self, part):
        self.is_quoted = part[0] == '"' and (len(part) < 2 or part[-1] != '"')
        if part in "{[":
            self.above.append((part, self.under))
            self.under, self.is_value = None, part == "["
        elif part in "}]":
            self.above[-1:] = []
        elif part == ",":
            self.under, self.is_value = None, self.above[-1:] != [] and self.above[-1][0] == "["
        elif part == ":":
            self.is_value = True
        elif not self.is_value:
            self.under = part.strip('"')
            if len(self.above) == 1 and not self.command:
                self.command = self.under
        elif not self.is_quoted:
            self.under = None  # its value is there

    def names(self):
        """The names that may follow here."""
        if len(self.above) == 1:
            return [name.decode() for name in FIELDS.get((self.command or "").encode(), {})] if self.command else words(COMMANDS)
        for _, name in reversed(self.above):
            if name in INSIDE:
                return INSIDE[name]
        return []


def candidates(text, word, names):
    """The completions of a word after a text; `names` are the known names of collections and views."""
    place = Place(text)
    if place.is_quoted or place.is_value and place.under in NAMING:
        # (readline itself closes a quote after which a word has begun)
        opening, closing = '"' * (not place.is_quoted), '"' * (not place.is_quoted or not word)
        fitting = [opening + name + closing for name in names] if place.under in NAMING else []
    elif place.is_value:
        fitting = ["true", "false"] if place.under in TRUTHS else []
    else:
        fitting = ["%s: " % name for name in place.names()]
    return [one for one in fitting if one.startswith(word)]


class Names:
    """The names of collections and views that were seen, by their databases."""

    def __init__(self):
        self.seen = {}

    def of(self, database):
        return sorted(self.seen.get(database, ()))

    def learn(self, fields, reply):
        """Takes in the names in a command that succeeded."""
        given = dict(fields)
        if dict(reply).get(b"ok", (None, 0))[1] != 1 or b"$db" not in given:
            return
        database = self.seen.setdefault(given[b"$db"][1].decode(), set())
        database.update(named_in(fields))
        if fields[0][0] == b"drop":
            database.discard(fields[0][1][1].decode())


def named_in(fields):
    """The collections and views that are named in a document, and in those below it."""
    for name, (kind, held) in fields:
        if kind == TEXT and name.decode() in NAMING:
            yield held.decode()
        elif kind == DOCUMENT and name not in (b"documents", b"u", b"q", b"filter"):
            yield from named_in(held)
        elif kind == ARRAY and name == b"pipeline":
            for inner, one in held:
                yield from named_in(one if inner == DOCUMENT else [])
