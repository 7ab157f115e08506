#!/usr/bin/python3
"""Checks what the prompt of `tools/client/lines.py` says against the documents and the model of `tools/check/machine.py`, and what
it does against rows that were written by hand.

The codes that docs/MANUAL.md lists, and the commands that it names in brackets after them, must be those with which the model
refuses commands: in tools/check/worked_examples.txt, and in random scripts.

    python3 tools/check/prompt_rows.py
"""
import random
import sys

import folders  # noqa: F401
import machine
from checking import status_of
from making.values import Values
from model import commands, refusals, values
from model.messages import answer, message
from model.values import ARRAY, DOCUMENT, INT32, TEXT
from notation import document_of
from prompt import guide, telling
from prompt.completing import candidates
from prompt.layout import Layout
from prompt.suspects import suspect
from random_scripts import Maker
from worked_examples import answers, scripts

SCRIPTS, DOCUMENTS = 150, 500
ANY = {refusals.WANT_OF_MEMORY, refusals.INVALID_BSON, refusals.COMMAND_NOT_FOUND}  # of any command, or of a name that is none
RARE = {("find", refusals.TOO_LARGE)}  # of a view's row of over 16,777,216 bytes: no example and no random script has one
NAMES = ["orders", "spent"]

# What is typed, with a bar where the word that Tab completes begins, and what Tab offers for it.
COMPLETED = [
    ("|fin", []), ("{|fin", ["find: "]), ('{find: "|o', ["orders"]), ("{find: |", ['"orders"', '"spent"']), ('{find: "spent"|', []),
    ('{find: "c", |s', ["sort: ", "skip: ", "singleBatch: "]), ('{find: "c", filter: {a: {|$gt', ["$gt: ", "$gte: "]),
    ('{find: "c", filter: {|$o', ["$or: "]), ('{aggregate: "c", pipeline: [{|$l', ["$limit: ", "$lookup: "]),
    ('{aggregate: "c", pipeline: [{$group: {_id: "$a", n: {|$s', ["$sum: "]), ('{aggregate: "c", pipeline: [{$lookup: {|f', ["from: ", "foreignField: "]),
    ('{aggregate: "c", pipeline: [{$lookup: {from: "|s', ["spent"]), ('{update: "c", updates: [{|q', ["q: "]),
    ('{update: "c", updates: [{q: {}, u: {|$', ["$inc: ", "$pull: ", "$push: ", "$set: ", "$unset: "]),
    ('{update: "c", updates: [{q: {}, u: {}, multi: |t', ["true"]), ('{delete: "c", deletes: [{q: {a: 1}, |l', ["limit: "]),
    ('{create: "v", viewOn: "|sp', ["spent"]), ('{insert: "c", documents: [{|a', []), ('{find: "c", filter: {a: "|o', []),
]

# A topic of help, and a part of what help says about it.
TOLD = [
    ("$min", "the least"), ("$max", "the greatest value"), ("$literal", "is that value"), ("$each", "appends a value"), ("$push", "appends"),
    ("$in", "one of the list"), ("lookup", "into each row"), ("more", "the next rows"), ("insert", "by their _id"), ("$x", "no operator"),
    ("view", "Views over views"), ("indexes", "Unique indexes"), ("quokka", "type help for the commands"),
]

# A command that is refused, the code, the index of the refused statement or None, and a part of what the prompt says is wrong.
SUSPECTED = [
    ('{fnid: "c"}', 59, None, "find may be meant"), ('{find: "c", fliter: {}}', 9, None, "filter may be meant"),
    ('{find: "c", skip: -1}', 2, None, "skip: -1"), ('{find: "c", skip: "x"}', 14, None, 'skip: "x"'), ('{find: "$c"}', 2, None, '"$c"'),
    ('{find: "c", filter: {a: {$gtt: 1}}}', 2, None, "$gt"), ('{find: "c", filter: {"a.": 1}}', 2, None, '{"a.": 1}'),
    ('{find: "c", sort: {a: 2}}', 2, None, "{a: 2}"), ('{aggregate: "c", pipeline: [{$match: {}}, {$limit: 0}]}', 9, None, "stage 2"),
    ('{aggregate: "c", pipeline: [{$gruop: {}}]}', 9, None, "$group may be meant"), ('{aggregate: "c"}', 9, None, "pipeline is missing"),
    ('{drop: "c"}', 26, None, '"c"'), ('{insert: "c", documents: [{_id: 1}, {a: 1}]}', 2, 1, "has no _id"),
    ('{insert: "c", documents: [{_id: 1}]}', 11000, 0, "_id"), ('{update: "c", updates: [{q: {}, u: {$st: {a: 1}}}]}', 9, 0, "$set may be meant"),
    ('{update: "c", updates: [{q: {}}]}', 9, 0, "u is missing"), ('{update: "c", updates: [{q: {}, w: {}}]}', 9, 0, "in updates.0 there is no field w"), ('{update: "c", updates: [{q: {}, u: {$inc: {a: "x"}}}]}', 14, 0, '$inc: {a: "x"}'),
    ('{update: "c", updates: [{q: {}, u: {a: 1}}]}', 28, 0, "updates.0"), ('{delete: "c", deletes: [{q: {}, limit: 2}]}', 2, 0, "limit: 2"),
    ('{explain: {count: "c"}}', 59, None, "only a find"), ('{find: "c", filter: {a: {$regex: "b"}}}', 2, None, "$regex"),
    ('{find: "c", projection: {a: 1}}', 9, None, "only {}"), ('{find: "c", skip: 1, skip: 2}', 22, None, "skip is given twice"), ('{aggregate: "c", pipeline: [{$group: {_id: 1, n: {$avg: "$a"}}}]}', 9, None, "$avg"),
    ('{$db: "t"}', 59, None, "no command"), ('{explain: {find: "c", limt: 5}}', 9, None, "limit may be meant"), ('{createIndexes: "c", indexes: [{key: {a: 1}}]}', 9, None, "in indexes.0 the field name is missing"),
    ('{createIndexes: "c", indexes: [{key: {a: 1, b: 1}, name: "i"}]}', 9, None, "only one path"), ('{createIndexes: "c", indexes: [{key: {a: 2}, name: "i"}]}', 2, None, "the index"),
    ('{createIndexes: "c", indexes: [{key: {a: 1}, name: "i", uniqe: true}]}', 9, None, "unique may be meant"), ('{aggregate: "c", pipeline: [{$group: {n: {$sum: 1}}}]}', 9, None, "the field _id is missing"),
    ('{aggregate: "c", pipeline: [{$lookup: {from: "d", localField: "a", as: "d"}}]}', 9, None, "foreignField is missing"), ('{aggregate: "c", pipeline: [{$project: {a: {$add: [1]}}}]}', 9, None, "no operator $add"),
    ('{create: "v", viewOn: "c", pipeline: [{$match: {a: {$gtt: 1}}}]}', 2, None, "$gt"), ('{ping: 1, $db: "a.b"}', 2, None, "the database"),
    ('{count: "c"}', 59, None, "an aggregate counts"), ('{find: "c", sort: {a: "desc"}}', 2, None, "1 (ascending) or -1"), ('{find: "c"}', 900, None, "delete documents"),
    ('{insert: "v", documents: [{_id: 1}]}', 902, None, '"v" is a view'), ('{drop: "v"}', 904, None, "drop that view first"),
    ('{createIndexes: "c", indexes: [{key: {a: 1}, name: "i"}]}', 40, None, "dropIndexes"), ('{createIndexes: "c", indexes: [{key: {a: 1}, name: "i", unique: true}]}', 11000, None, "the same key"),
]


def refused_with():
    """The commands that the model refuses, each with its code, in the worked examples and in random scripts."""
    plain, seen = commands.carry_out, set()

    def carry_out(store, session, body, lists, cut):
        name = body[0][0].decode(errors="replace") if body else ""
        try:
            reply = plain(store, session, body, lists, cut)
        except refusals.Refusal as refusal:
            seen.add((name, refusal.code))
            raise
        errors = dict(reply).get(b"writeErrors", (None, []))[1]
        seen.update((name, dict(error)[b"code"][1]) for _, error in errors)
        return reply

    commands.carry_out = carry_out
    for script in scripts():
        for _ in answers(machine.Machine(), script):
            pass
    for place in range(SCRIPTS):
        Maker(random.Random(place)).script()
    commands.carry_out = plain
    return seen


def check_codes(tell):
    told = {number: code.name for number, code in guide.codes().items()}
    tell(told == {number: name.decode() for number, name in refusals.NAMES.items()}, "other codes are listed: %r" % told)
    seen = refused_with()
    for name, code in sorted(seen):
        tell(code in ANY or code in [one.number for one in guide.codes_of(name)], "%s is refused with %d" % (name, code))
    for code in guide.codes().values():
        for name in code.commands:
            tell((name, code.number) in seen | RARE, "%s isn't refused with %d" % (name, code.number))


def check_help(tell):
    for name in map(bytes.decode, commands.COMMANDS):
        lines = telling.help_of(name, 100)
        tell(guide.row_of(name) and guide.section_at(guide.row_of(name).place)[0], "README.md's table lacks %s" % name)
        tell("for example" in lines, "the manual has no example of %s" % name)
    for table in (telling.FIELDS.values(), (telling.UPDATE_ENTRY, telling.DELETE_ENTRY)):
        for name, kind in (one for fields in table for one in fields.items()):
            tell(kind in telling.KINDS, "nothing tells what %s may be" % name)
    for topic, word in TOLD:
        told = " ".join(telling.help_of(topic, 100))
        tell(word in told, "help %s tells: %s" % (topic, told))


def check_completions(tell):
    for typed, wanted in COMPLETED:
        text, _, word = typed.partition("|")
        found = candidates(text, word, NAMES)
        tell(sorted(found) == sorted(wanted), "%s is completed by %r" % (typed, found))


def check_suspects(tell):
    for line, code, index, word in SUSPECTED:
        fields = document_of(line)
        fields += [(b"$db", document_of('{a: "t"}')[0][1])] * (b"$db" not in dict(fields))
        told = suspect(fields, code, index) or "nothing"
        tell(word in told, "of %s is told: %s" % (line, told))


def check_layout(tell):
    for place in range(DOCUMENTS):
        fields = Values(random.Random(place)).fields(8, 0)
        text = Layout(60).laid((DOCUMENT, fields), "")
        tell("..cut" in text or document_of(text) == fields, "another is read than was laid out: " + text)


def check_replies(tell):
    deep = (INT32, 1)
    for _ in range(values.MOST_LEVELS):
        deep = (DOCUMENT, [(b"a", deep)])
    for row in deep, (DOCUMENT, [(b"a", (TEXT, b"x" * (values.MOST_BYTES - 13)))]):
        fields = [(b"cursor", (DOCUMENT, [(b"firstBatch", (ARRAY, [row]))]))]
        tell(values.fits(row[1]) and answer(message(1, fields)) == fields, "a reply with a row at the limits isn't read")


if __name__ == "__main__":
    sys.exit(status_of("prompt_rows", check_codes, check_help, check_completions, check_suspects, check_layout,
                       check_replies))
