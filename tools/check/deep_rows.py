#!/usr/bin/python3
"""Sends rows about as deep as rows can be through each stage, with two megabytes of stack.

A stored document has at most 100 levels, and a stage wraps a value in at most 96 documents. But each of a pipeline's 16 stages
may wrap it again, a view may be over seven others, and an aggregate over the highest. Code that goes down such a row by recursive
calls takes stack for each of its levels, and a program that runs out of stack is killed. Here rows of up to some 13,800 levels are
matched, projected, unwound, sorted, grouped, looked up, compared by a live view, refused as a reply, and dropped. Each case has a
docd of its own, which has to give the answers that are written here, and to end with status 0. A case that doesn't is printed, and
then the exit status is 1. Over fewer views the rows are less deep and have less stack, but as much for each level, and a run takes
a fraction of the time.

Needs the built program (./docd run < /dev/null).

    python3 tools/check/deep_rows.py
    python3 tools/check/deep_rows.py --measure --cases "sort,group"      prints the least stack that they need, and that for a level
    python3 tools/check/deep_rows.py --stack 1024 --program crates/docd/out/docd
    python3 tools/check/deep_rows.py --views 4                           rows half as deep, with half as much stack
"""
import argparse
import contextlib
import os
import struct
import subprocess
import sys
from collections import namedtuple
from concurrent.futures import ThreadPoolExecutor

import folders  # noqa: F401
from extended_json import json_of, value_of
from model.messages import answer
from model.values import DOCUMENT, spelling
from program import named, parsed
from spelled import joined, section

VIEWS, STAGES = 8, 16  # how many views are over one another, and how many stages a pipeline has
STORED = 98  # documents around a number, or an array of numbers, in a stored document
WRAPPED = 96  # documents in which a stage wraps a value
STACK = 256  # kilobytes for each of the views
MOST, STEP = 4 << 10, 8  # kilobytes of stack: the most that a measurement tries, and how exact it is
SECONDS = 60  # of processor time that a run may take

# The stages, as a function of the path to the deepest value and of the view that they read; the rows of an aggregate with them;
# those of a view with them, after some writes; the deepest value of a document, as a function of its number; whether stages that
# wrap it come before.
Probe = namedtuple("Probe", "stages asked kept end wrapped", defaults=[lambda number: number, True])
# A command's name and bytes, and what it has to be answered.
Asked = namedtuple("Asked", "name data wanted")
# What is asked one after the other; how many levels the deepest row has; whether a measurement includes the end of docd, when all
# that it has is dropped.
Case = namedtuple("Case", "asked levels to_end", defaults=[False])


def identities(*numbers):
    return [{"_id": number} for number in numbers]


def alone(*values):
    return [{"n": value} for value in values]


def project(**fields):
    return {"$project": fields}


def grouped(key, **accumulators):
    return {"$group": {"_id": key, **accumulators}}


def by(key):
    """Counts the rows under each key, and leaves out the key, which a reply may not have."""
    return lambda path, view: [grouped(key, n={"$sum": 1}), project(_id=0, n=1)]


def gathering(accumulator):
    """An accumulator of the deepest values."""
    return lambda path, view: [grouped(None, n={accumulator: "$" + path})]


def gathering_documents(accumulator):
    """An accumulator of the documents around the deepest values, and a projection to these: a reply may not have the documents."""
    return lambda path, view: [grouped(None, m={accumulator: "$a"}), project(n="$m" + path[1:])]


def looked_up(by_path):
    def stages(path, view):
        field = path if by_path else "a"
        return [{"$lookup": {"from": view, "localField": field, "foreignField": field, "as": "n"}}, project(n="$n._id")]
    return stages


def with_nine(number):
    return [number, 9]


def one(value):
    return [{"_id": None, "n": value}]


def pairs(first, second, of=lambda value: value):
    return [{"_id": first[0], "n": of(first[1])}, {"_id": second[0], "n": of(second[1])}]


# The documents of an aggregate have the numbers 6 and 5 in their deepest values. After the writes the first has 8, the second is
# removed, and a third has 7.
PROBES = {
    "nothing else": Probe(lambda path, view: [], identities(1, 2), identities(1, 3)),
    "a match": Probe(lambda path, view: [{"$match": {path: {"$in": [6, 7]}}}], identities(1), identities(3)),
    "a match in arrays": Probe(lambda path, view: [{"$match": {path: {"$elemMatch": {"$in": [6, 7]}}}}], identities(1), identities(3),
                               with_nine),
    "an inclusion": Probe(lambda path, view: [project(**{path: 1})], identities(1, 2), identities(1, 3)),
    "an inclusion of two paths": Probe(lambda path, view: [project(**{path: 1, path[:-1] + "b": 1})], identities(1, 2), identities(1, 3)),
    "an exclusion": Probe(lambda path, view: [project(**{path: 0})], identities(1, 2), identities(1, 3)),
    "an exclusion of two paths": Probe(lambda path, view: [project(**{path: 0, path[:-1] + "b": 0})], identities(1, 2), identities(1, 3)),
    "a computed path": Probe(lambda path, view: [project(n="$" + path)], pairs((1, 6), (2, 5)), pairs((1, 8), (3, 7))),
    "a computed path to arrays": Probe(lambda path, view: [project(n="$" + path)], pairs((1, 6), (2, 5), with_nine),
                                       pairs((1, 8), (3, 7), with_nine), with_nine),
    "an unwind": Probe(lambda path, view: [{"$unwind": "$" + path}], identities(1, 1, 2, 2), identities(1, 1, 3, 3), with_nine),
    "a sort": Probe(lambda path, view: [{"$sort": {"a": 1}}], identities(2, 1), identities(3, 1)),
    "a sort along the path": Probe(lambda path, view: [{"$sort": {path: 1}}], identities(2, 1), identities(3, 1)),
    "a sort by arrays": Probe(lambda path, view: [{"$sort": {path: -1}}], identities(1, 2), identities(1, 3), with_nine),
    "a limit": Probe(lambda path, view: [{"$limit": 1}], identities(1), identities(1)),
    "a group by documents": Probe(by("$a"), alone(1, 1), alone(1, 1)),
    "a group by documents of documents": Probe(by({"k": "$a"}), alone(1, 1), alone(1, 1)),
    "a group along the path": Probe(lambda path, view: [grouped("$" + path, n={"$sum": 1})], pairs((5, 1), (6, 1)),
                                    pairs((7, 1), (8, 1))),
    "a $sum": Probe(gathering("$sum"), one(11), one(15)),
    "a $sum of documents": Probe(lambda path, view: [grouped(None, n={"$sum": "$a"})], one(0), one(0)),
    "a $min": Probe(gathering("$min"), one(5), one(7)),
    "a $min of documents": Probe(gathering_documents("$min"), one(5), one(7)),
    "a $max": Probe(gathering("$max"), one(6), one(8)),
    "a $max of documents": Probe(gathering_documents("$max"), one(6), one(8)),
    "a $push": Probe(gathering("$push"), one([6, 5]), one([8, 7])),
    "a $push of documents": Probe(gathering_documents("$push"), one([6, 5]), one([8, 7])),
    "a lookup by documents": Probe(looked_up(False), pairs((1, [1]), (2, [2])), pairs((1, [1]), (3, [3])), wrapped=False),
    "a lookup along the path": Probe(looked_up(True), pairs((1, [1]), (2, [2])), pairs((1, [1]), (3, [3])), wrapped=False),
    "a lookup by arrays": Probe(looked_up(True), pairs((1, [1, 2]), (2, [1, 2])), pairs((1, [1, 3]), (3, [1, 3])), with_nine, False),
}


def nested(value, levels):
    """The value in this many documents, among other fields in each."""
    for _ in range(levels):
        value = {"b": "x", "a": value, "c": "x"}
    return value


def path_of(levels):
    """The path to a value in this many documents, each under `a`."""
    return ".".join(["a"] * levels)


def bytes_of(document):
    return spelling(value_of(document)[1])


def asked(command, wanted, *documents):
    """A command and its answer. Documents are in a section next to its body: there each may have as many levels as a stored one."""
    sections = [section(None, [bytes_of({**command, "$db": "t"})])]
    if documents:
        sections.append(section(b"documents", map(bytes_of, documents)))
    return Asked(next(iter(command)), joined(sections, 1, 0), wanted)


def put(identity, end):
    return asked({"insert": "c"}, "ok", {"_id": identity, "a": nested(end, STORED)})


def deleted(query):
    return asked({"delete": "c", "deletes": [{"q": query, "limit": 0}]}, "ok")


def aggregate(view, stages, wanted):
    return asked({"aggregate": view, "pipeline": stages, "cursor": {}}, wanted)


def find(view, wanted, **others):
    return asked({"find": view, **others}, wanted)


class Tower:
    """`height` views over one another. Each of their stages wraps what is under `a` in `width` documents."""

    def __init__(self, width, height):
        self.width, self.height = width, height
        self.wrapping = [self.view(place, self.wraps(STAGES)) for place in range(height)]

    def wraps(self, count):
        return [project(a=nested("$a", self.width))] * count

    def view(self, below, stages):
        return asked({"create": "v%d" % (below + 1), "viewOn": "v%d" % below if below else "c", "pipeline": stages}, "ok")

    def levels(self, stages):
        """The levels of a row after this many wrapping stages, and the components of the path to its deepest value."""
        return 1 + STORED + self.width * stages

    def begun(self, height, end=lambda number: number):
        """The commands that make two documents, and this many views over one another."""
        return [put(1, end(6)), put(2, end(5)), *self.wrapping[:height]]

    def staged(self, probe, below, behind):
        """A probe's stages over this many views, with room for `behind` stages more; and the levels of the rows that reach it."""
        count = STAGES - behind - len(probe.stages("a", "")) if probe.wrapped else 0
        levels = self.levels(STAGES * below + count)
        return [*self.wraps(count), *probe.stages(path_of(levels), "v%d" % below)], levels

    def in_an_aggregate(self, probe):
        stages, levels = self.staged(probe, self.height, 1)
        return Case([*self.begun(self.height, probe.end), aggregate("v%d" % self.height, [*stages, project(n=1)], probe.asked)], levels)

    def in_a_view(self, probe):
        """The probe in the highest view, after one write of each kind."""
        top = "v%d" % self.height
        stages, levels = self.staged(probe, self.height - 1, 0)
        changed = {"q": {"_id": 1}, "u": {"$set": {path_of(STORED + 1): probe.end(8)}}}
        writes = [put(3, probe.end(7)), asked({"update": "c", "updates": [changed]}, "ok"), deleted({"_id": 2})]
        shown = [asked({"viewStats": top}, "live"), aggregate(top, [project(n=1)], probe.kept)]
        return Case([*self.begun(self.height - 1, probe.end), self.view(self.height - 1, stages), *writes, *shown], levels)

    def cases(self):
        """All cases, by their names."""
        levels = self.levels(STAGES * self.height)
        path, top, begun = path_of(levels), "v%d" % self.height, self.begun(self.height)
        drops = [asked({"drop": name}, "ok") for name in [*("v%d" % place for place in range(self.height, 0, -1)), "c"]]
        others = {
            "a reply": [find(top, 901), aggregate(top, [], 901)],
            "a find along the path": [find(top, 901, filter={path: 5}), find(top, [], filter={path: 7})],
            "a sorted find": [find(top, 901, sort={"a": 1}), find(top, 901, sort={path: 1})],
            "documents dropped": [deleted({}), find(top, [])],
            "views dropped": drops,
            "all dropped at the end": [],
        }
        made = {name + " in an aggregate": self.in_an_aggregate(probe) for name, probe in PROBES.items()}
        made.update((name + " in a view", self.in_a_view(probe)) for name, probe in PROBES.items())
        made.update((name, Case([*begun, *asked], levels, not asked)) for name, asked in others.items())
        return made


def told(reply):
    """What a reply says: the code or codes of a refusal, a view's state, the rows, or that all went well."""
    if "writeErrors" in reply:
        return [error["code"] for error in reply["writeErrors"]]
    if "cursor" in reply:
        return reply["cursor"].get("firstBatch", reply["cursor"].get("nextBatch"))
    return reply.get("code", reply.get("state", "ok"))


def answered(docd, data):
    """What docd answers to a message; None if it has ended."""
    try:
        docd.stdin.write(data)
        docd.stdin.flush()
    except BrokenPipeError:
        return None
    length = docd.stdout.read(4)
    if len(length) < 4:
        return None
    return told(json_of(DOCUMENT, answer(length + docd.stdout.read(struct.unpack("<i", length)[0] - 4))))


def wrong(program, case, kilobytes, to_end=True):
    """What is wrong with a case if docd has this much stack; None if all is right. How docd ends counts only with `to_end`."""
    words = ["sh", "-c", 'ulimit -t %d && ulimit -s %d && exec "$0" run' % (SECONDS, kilobytes), program]
    found, docd = None, subprocess.Popen(words, stdin=subprocess.PIPE, stdout=subprocess.PIPE)
    for name, data, wanted in case.asked:
        got = answered(docd, data)
        if got != wanted:
            found = "%s is answered %.200s, not %s" % (name, got, wanted)
            break
    with contextlib.suppress(BrokenPipeError):
        docd.communicate()
    return found or ("it ends with status %d" % docd.returncode if docd.returncode and to_end else None)


def least(program, case):
    """The kilobytes of stack that a case takes; None if it takes more than are tried."""
    low, high = 0, MOST
    while low + STEP < high:
        middle = (low + high) // 2
        if wrong(program, case, middle, case.to_end):
            low = middle
        else:
            high = middle
    return high if high < MOST else None


def measured(program, name, deep, flat):
    """The stack that a case takes, and that for a level: by the difference to a case whose rows aren't so deep."""
    took, less = least(program, deep), least(program, flat)
    if took is None or less is None:
        return "%s: over %d KB at %d levels" % (name, MOST, deep.levels)
    each = 1024 * (took - less) / (deep.levels - flat.levels)
    return "%s: %d KB at %d levels, %.0f bytes a level" % (name, took, deep.levels, each)


def main():
    options = argparse.ArgumentParser(description=__doc__, formatter_class=argparse.RawDescriptionHelpFormatter)
    options.add_argument("--cases", default="", help="words, joined by commas: run the cases whose name has one of them")
    options.add_argument("--views", type=int, default=VIEWS, help="how many views are over one another")
    options.add_argument("--stack", type=int, help="the kilobytes of stack, %d for each of the views if it is left out" % STACK)
    options.add_argument("--measure", action="store_true", help="instead of the checks, print how much stack is used")
    given = parsed(options, "deep_rows")
    deep = Tower(WRAPPED, given.views).cases()
    names = named("deep_rows", given.cases, deep)
    with ThreadPoolExecutor(len(os.sched_getaffinity(0))) as pool:
        if given.measure:
            flat = Tower(1, given.views).cases()
            for line in pool.map(lambda name: measured(given.program, name, deep[name], flat[name]), names):
                print(line, flush=True)
            return 0
        found = [*zip(names, pool.map(lambda name: wrong(given.program, deep[name], given.stack or STACK * given.views), names))]
    for name, fault in found:
        if fault:
            print("%s, %d levels: %s" % (name, deep[name].levels, fault))
    right = sum(fault is None for _, fault in found)
    print("%d right, %d wrong" % (right, len(found) - right))
    return 0 if right == len(found) else 1


if __name__ == "__main__":
    sys.exit(main())
