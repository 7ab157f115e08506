#!/usr/bin/python3
"""Makes the script with which each gate runs docd, and what docd must print, from the examples in tools/check/worked_examples.txt.

The examples and their replies are written by hand; this tool writes them as bytes. The file crates/docd/stdin has each example's
title as a comment above the example's lines. The files that are loaded are in crates/docd/data. What would make the gate's script
too long is left out of it.

    python3 tools/check/worked_examples.py             writes crates/docd/stdin, stdout, args and data
    python3 tools/check/worked_examples.py --look      checks whether these files are what the examples give
    python3 tools/check/worked_examples.py --program crates/docd/out/docd
                                                 has a program answer all examples, and prints each that it answers differently
"""
import argparse
import os
import re
import struct
import sys
from collections import namedtuple

import folders  # noqa: F401
from model.messages import message as reply_message
from model.values import ARRAY, BOOLEAN, DOCUMENT, INT32, INT64, TEXT, spelling
from notation import fields_of, values
from program import program_at, run_within
from spelled import PIECE, joined, pieces, section

HERE = os.path.dirname(os.path.abspath(__file__))
TABLE = os.path.join(HERE, "worked_examples.txt")
CRATE = os.path.join(os.path.dirname(os.path.dirname(HERE)), "crates", "docd")
SESSIONS = range(1000)

# What a line of the table asks: its text, the script's lines that it stands for, what these print, the namespace and the
# documents of a file that is loaded, and whether the gate's script has it. If a line asks for several things, there is a
# step for each.
Step = namedtuple("Step", "text lines prints loaded is_in_gate", defaults=[None, True])
Example = namedtuple("Example", "title steps is_in_gate")

TITLE = re.compile(r"([a-z_0-9]+)(, left out of the gate)?: .*")
EACH = re.compile(r"each of (.*?) as @ in (.*)")
REPEATED = re.compile(r"([0-9]+) times (.*)")
TIMES = re.compile(r"\(([0-9]+) times ([^()]*)\)")
NUMBER = re.compile(r"#(?:%([0-9]+))?")
FOR_EACH = re.compile(r"\(each of ((?:[^()]|\([^()]*\))*?) as @: ([^()]*)\)")
BYTES = re.compile(r"([0-9]+|every session) (end|(?:bytes )?[0-9A-Fa-f][0-9A-Fa-f |]*)")
PRINTED = re.compile(r"=> (\d+) (?:(end \d+|closed \d)|([0-9a-f ]+))")
COMMAND = re.compile(r"(?:(\d+)> )?(?:(first \d+ of|next \d+|rest|quietly|exactly) ?)?(.*)")
SHORT = re.compile(r"([a-z]+)(?: ([a-z]+[0-9]?))?(?: on ([a-z]+[0-9]?))?(?: (?=[{[])(.*))?")
A_RUN = 120  # seconds that docd may take for a script
QUIET = 2  # the flag of a message that wants no reply

# For each command that a line may begin with, the fields whose values the line has, in order.
FIELDS = {"insert": [b"documents"], "delete": [b"deletes"], "find": [b"filter", b"sort"], "aggregate": [b"pipeline"],
          "drop": []}
EVERYTHING = b"q", (DOCUMENT, [])
OK = b"ok", (INT32, 1)


def text(held):
    return TEXT, held.encode()


def document(*fields):
    return DOCUMENT, list(fields)


def command_of(written):
    """The fields of a command, without its database."""
    if written.startswith("{"):
        return fields_of(written)
    if written.startswith("change "):
        identity, update = values(written.partition(" ")[2])
        entry = document((b"q", document((b"_id", identity))), (b"u", update))
        return [(b"update", text("c")), (b"updates", (ARRAY, [entry]))]
    word, name, source, rest = SHORT.fullmatch(written).groups()
    on, given = text(name or "c"), values(rest or "")
    if word == "stats":
        return [(b"viewStats", on)]
    if word == "view":
        return [(b"create", on), (b"viewOn", text(source or "c")), (b"pipeline", *given)]
    if word == "explain":
        return [(b"explain", document((b"find", on), (b"filter", *given)))]
    return [(word.encode(), on), *zip(FIELDS[word], given)]


def section_of(written):
    """A list next to a body: its name, and the documents, or the bytes of one."""
    name, _, held = written.partition(" ")
    if held.startswith("["):
        (_, documents), = values(held)
        return section(name.encode(), [spelling(fields) for _, fields in documents])
    levels, _, digits = held.rpartition("bytes ")
    data = bytes.fromhex(digits)
    for _ in range(int(levels.split(" ")[0] or 0)):
        data = struct.pack("<i", len(data) + 7) + b"\3\0" + data + b"\0"
    return section(name.encode(), [data])


def index_command(word, paths):
    unique = [(b"unique", (BOOLEAN, True))] * (word == "unique")
    entries = [document((b"key", document((path.encode(), (INT32, 1)))), (b"name", text(path + "_1")), *unique) for path in paths]
    return [(b"createIndexes", text("c")), (b"indexes", (ARRAY, entries))]


def write_errors(command, number, name, count):
    told = (b"code", (INT32, number)), (b"errmsg", text(name))
    entries = [document((b"index", (INT32, index)), *told) for index in range(count)]
    modified = [(b"nModified", (INT32, 0))] if command[0][0] == b"update" else []
    return [(b"n", (INT32, 0)), *modified, (b"writeErrors", (ARRAY, entries)), OK]


def stats(state, rows, ticks):
    return [(b"state", text(state)), (b"rows", (INT64, rows)), (b"ticks", (INT64, ticks)), OK]


def list_of(command):
    """The statements of a write."""
    return next(held for name, (_, held) in command if name in (b"documents", b"updates", b"deletes"))


class Script:
    """Makes the steps of the examples, one after the other."""

    def __init__(self):
        self.requests, self.updated, self.rests = 0, 0, {}

    def begin(self, database):
        self.database, self.inserted = database, []

    def steps(self, line, printed):
        """The steps that a line of the table stands for. If it is a line of bytes, `printed` is what it prints."""
        found = BYTES.fullmatch(line)
        if found:
            self.rests.pop(found[1], None)
            return [Step(None, bytes_lines(*found.groups()), [printed_line(one) for one in printed])]
        assert not printed, line
        return [self.step(one)._replace(is_in_gate=is_in_gate) for one, is_in_gate in lines_of(line)]

    def step(self, line):
        whole = FOR_EACH.sub(said_of_each, TIMES.sub(repeated, line))
        if line.startswith("update "):
            return Step(line, *self.update(whole))
        if line.startswith("file "):
            return Step(line, [], [], self.loaded(whole))
        return Step(line, *self.command(whole))

    def command(self, line):
        asked, arrow, wanted = (line + " ").partition(" => ")
        session, how, written = COMMAND.fullmatch(asked.strip()).groups()
        session, how, wanted = session or "0", (how or "").split(" "), wanted.strip()
        if how[0] in ("next", "rest"):
            data, request, command = self.rests.pop(session)
        else:
            written, *lists = written.split(" beside ")
            word, *paths = written.split()
            command = index_command(word, paths) if word in ("index", "unique") else command_of(written)
            data, request = self.message(command, how[0], map(section_of, lists))
        count = int(how[1]) if len(how) > 1 else len(data)
        if count < len(data):
            self.rests[session] = data[count:], request, command
        assert bool(arrow) == (count == len(data)), line
        prints = [] if not arrow or wanted == "nothing" else [self.printed(session, request, self.reply(command, wanted))]
        return [session + " " + piece.hex() for piece in pieces(data[:count], PIECE)], prints

    def loaded(self, line):
        """The namespace and the documents of a file."""
        _, name, documents = line.split(" ", 2)
        return ("%s.%s" % (self.database, name)).encode(), [fields for _, fields in values(documents)]

    def update(self, line):
        """An update of a document that is alone in a collection of its own."""
        written, wanted = line.split(" => ")
        outcome, _, rest = wanted.partition(" ")
        self.updated += 1
        on, (was, update) = text("u%d" % self.updated), values(written.partition(" ")[2])
        change = [(b"update", on), (b"updates", (ARRAY, [document(EVERYTHING, (b"u", update))]))]
        counts = "{n: 1, nModified: %d, ok: 1}" % (outcome == "rows")
        exchanges = [([(b"insert", on), (b"documents", (ARRAY, [was]))], fields_of("{n: 1, ok: 1}")),
                     (change, self.reply(change, wanted if outcome == "error" else counts)),
                     ([(b"find", on)], self.batch(on, values(rest) if outcome == "rows" else [was]))]
        lines, prints = [], []
        for command, reply in exchanges:
            data, request = self.message(command)
            lines.append("0 " + data.hex())
            prints.append(self.printed("0", request, reply))
        return lines, prints

    def message(self, command, how="", lists=()):
        """A command's message and its number. A command without a database gets it at its end, unless it is sent exactly."""
        self.requests += 1
        fields = dict(command)
        if command[:1] == [(b"insert", text("c"))] and fields.get(b"documents", (None, None))[0] == ARRAY:
            self.inserted += [held for kind, held in fields[b"documents"][1] if kind == DOCUMENT]
        has_database = how == "exactly" or b"$db" in fields
        body = spelling(command if has_database else [*command, (b"$db", text(self.database))])
        return joined([section(None, [body]), *lists], self.requests, QUIET if how == "quietly" else 0), self.requests

    def reply(self, command, wanted):
        """The reply that the table writes as `wanted`."""
        word, _, rest = wanted.partition(" ")
        if word == "code":
            number, _, said = rest.partition(" ")
            name = said.partition(":")[0]
            return [(b"ok", (INT32, 0)), (b"errmsg", text(said)), (b"code", (INT32, int(number))), (b"codeName", text(name))]
        if word in ("error", "errors"):
            number, name = rest.split(" ")
            return write_errors(command, int(number), name, 1 if word == "error" else len(list_of(command)))
        if word in ("live", "stale"):
            return stats(word, *map(int, rest.split(" ") if rest else (0, 0)))
        if word in ("rows", "ids"):
            rows = values(rest)
            return self.batch(command[0][1], map(self.inserted_under, rows) if word == "ids" else rows)
        return fields_of(wanted)

    def inserted_under(self, identity):
        return next((DOCUMENT, one) for one in reversed(self.inserted) if (b"_id", identity) in one)

    def batch(self, on, rows):
        namespace = TEXT, self.database.encode() + b"." + on[1]
        return [(b"cursor", document((b"firstBatch", (ARRAY, list(rows))), (b"id", (INT64, 0)), (b"ns", namespace))), OK]

    def printed(self, session, request, reply):
        return session + " " + reply_message(request, reply).hex()


def lines_of(line):
    """The lines that a line of the table stands for, each with whether it is in the gate's script."""
    found = EACH.fullmatch(line)
    if found:
        in_gate, _, left_out = found[1].partition("||")
        parts = [(in_gate, True)] + [(left_out, False)] * bool(left_out)
        return [(found[2].replace("@", one.strip()), is_in_gate) for part, is_in_gate in parts for one in part.split("|")]
    found = REPEATED.fullmatch(line)
    return [(found[2].replace("#", str(number + 1)), True) for number in range(int(found[1]))] if found else [(line, True)]


def repeated(found):
    """A text so many times. Each has its number in place of a number sign, or the number's remainder by a divisor."""
    if "#" not in found[2]:
        return found[2] * int(found[1])
    return "".join(NUMBER.sub(lambda sign: str(number % int(sign[1]) if sign[1] else number), found[2])
                   for number in range(1, int(found[1]) + 1))


def said_of_each(found):
    """A text once for each of some others, which is put in place of an at sign, and its number in place of a number sign."""
    others = enumerate(found[1].split("|"), 1)
    return "".join(found[2].replace("@", other.strip()).replace("#", str(number)) for number, other in others)


def bytes_lines(session, said):
    """The lines of a script that send these bytes, or end the session."""
    if said.startswith("bytes "):
        digits = said[6:].replace(" ", "")
        parts = [digits[at:at + 2] for at in range(0, len(digits), 2)]
    else:
        parts = [part.strip() for part in said.split("|")]
    numbers = SESSIONS if session == "every session" else [session]
    return ["%s %s" % (number, part) for number in numbers for part in parts]


def printed_line(line):
    session, word, digits = PRINTED.fullmatch(line).groups()
    return session + " " + (word or digits.replace(" ", ""))


def joined_lines(table):
    """The table's lines without comments; a line that is indented by more than four spaces belongs to the one before."""
    lines = []
    for line in table.splitlines():
        if line.startswith("     "):
            lines[-1] += " " + line.strip()
        elif line.strip() and not line.startswith("#"):
            lines.append(line)
    return lines


def scripts():
    """The examples of the gate's script, and each other example as a script of its own."""
    found = examples()
    return [[one for one in found if one.is_in_gate], *([one] for one in found if not one.is_in_gate)]


def examples():
    with open(TABLE, encoding="utf-8") as file:
        lines = joined_lines(file.read())
    script, found, at = Script(), [], 0
    while at < len(lines):
        line, at = lines[at], at + 1
        if not line.startswith(" "):
            database, left_out = TITLE.fullmatch(line).groups()
            found.append(Example(line, [], not left_out))
            script = Script() if left_out else script
            script.begin(database)
            continue
        printed = []
        while at < len(lines) and lines[at].startswith("    => "):
            printed.append(lines[at].strip())
            at += 1
        found[-1].steps.extend(script.steps(line.strip(), printed))
    assert not script.rests, "a message isn't brought whole"
    return found


def written(found, is_gate):
    """The files, by their names in the crate, of the gate's script or of all steps of the examples."""
    script, printed = ["# Made by tools/check/worked_examples.py of tools/check/worked_examples.txt."], []
    args, files = ["run", "--hex"], {}
    for example in found:
        script += ["", "# " + example.title]
        for step in [one for one in example.steps if one.is_in_gate or not is_gate]:
            script += step.lines
            printed += step.prints
            if step.loaded:
                place, documents = step.loaded
                name = "%d.bson" % (len(files) + 1)
                args += ["--load", place.decode() + "=" + name]
                files[os.path.join("data", name)] = b"".join(map(spelling, documents))
    texts = {"stdin": script, "stdout": printed, "args": args}
    return {**{name: ("\n".join(lines) + "\n").encode() for name, lines in texts.items()}, **files}


def answers(machine, script):
    """Each step of a script's examples, and what the model of tools/check/machine.py answers to it."""
    for example in script:
        for place, documents in filter(None, (step.loaded for step in example.steps)):
            for document in documents:
                machine.load(place, document)
    for example in script:
        for step in example.steps:
            yield example, step, [one.decode() for line in step.lines for one in machine.line(line.encode())]


def differences(found, printed):
    """The steps whose lines aren't printed at their places, each as a text."""
    at = 0
    for example in found:
        for step in example.steps:
            said = printed[at:at + len(step.prints)]
            at += len(step.prints)
            if said != step.prints:
                lines = ["\n             ".join(ones) for ones in (step.prints, said)]
                yield "%s\n    %s\n    written: %s\n    printed: %s" % (example.title, step.text or step.lines[0], *lines)
    if printed[at:]:
        yield "%d lines more than are written" % len(printed[at:])


def answered_otherwise(program, script):
    """What a program answers differently to the examples of a script, each as a text."""
    files = written(script, is_gate=False)
    words = [program, *files["args"].decode().split()]
    status, output, error = run_within(A_RUN, words, files["stdin"], os.path.join(CRATE, "data"))
    found = [*differences(script, output.decode().splitlines())]
    return found + ["exit status: %s; standard error: %r" % (status, error.decode())] * (status != 0)


def main():
    options = argparse.ArgumentParser(description=__doc__, formatter_class=argparse.RawDescriptionHelpFormatter)
    options.add_argument("--look", action="store_true")
    options.add_argument("--program")
    given, found = options.parse_args(), scripts()
    program = None if given.program is None else program_at(given.program, "worked_examples")
    wrong = [one for script in found for one in answered_otherwise(program, script)] if program else []
    for name, held in written(found[0], is_gate=True).items():
        path = os.path.join(CRATE, name)
        if given.look:
            with open(path, "rb") as file:
                wrong += [path + " isn't what the table gives"] if file.read() != held else []
        elif not program:
            with open(path, "wb") as file:
                file.write(held)
    for one in wrong:
        print("worked_examples: " + one)
    print("%d examples, %d wrong" % (sum(map(len, found)), len(wrong)))
    return 1 if wrong else 0


if __name__ == "__main__":
    sys.exit(main())
