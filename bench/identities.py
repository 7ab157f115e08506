#!/usr/bin/python3
"""What views keep for a document, and what a write under them takes, by the kind of the documents' `_id`s.

Needs what bench/measuring.py says. The `_id`s are integers, ObjectIds, strings such as `user-00000001`, strings of 24 hexadecimal
digits, e-mail addresses or documents. Over 100,000 documents, it measures the bytes that a view adds for each document of its
collection, and the processor time of an update of one field, without the view and with it. With `--beside`, another program, for
example an earlier one, does the same in turn, and its figures are in columns after the others.

    /usr/bin/python3 bench/identities.py
    /usr/bin/python3 bench/identities.py --count 10000 --beside ../before/docd
"""
import argparse
import itertools
import random

from bson.objectid import ObjectId

import measuring
from listening import memory_of
from measuring import heads, in_turn, inserts, load, row
from program import program_at

WRITES = 5_000  # in a run
GROUPS = 1_000
MOST = 1_000_000  # of an amount

KINDS = {
    "integer": lambda place: place,
    "ObjectId": lambda place: ObjectId("%08x%016x" % (1_600_000_000 + place // 7, place)),
    "`user-00000001`": lambda place: "user-%08d" % place,
    "24 digits": lambda place: "%08x%016x" % (1_600_000_000 + place // 7, place),
    "e-mail address": lambda place: "someone.else.%d@example.org" % place,
    "document": lambda place: {"shop": place // 100, "order": place % 100},
}

VIEWS = {
    "no view": None,
    "`$match`, `$project`": [{"$match": {"amount": {"$gte": MOST // 5}}}, {"$project": {"amount": 1, "group": 1}}],
    "`$group`": [{"$group": {"_id": "$group", "n": {"$sum": 1}, "sum": {"$sum": "$amount"}, "least": {"$min": "$amount"}}}],
    "`$sort`, `$limit`": [{"$sort": {"amount": -1}}, {"$limit": 10}],
}


class Store:
    """A running program with the documents."""

    def __init__(self, program, identities):
        measuring.DOCD = program
        self.docd, rng = measuring.Docd(), random.Random(len(identities))
        self.identities, self.rng = identities, rng
        documents = [{"_id": identity, "group": rng.randrange(GROUPS), "amount": rng.randrange(MOST), "name": "name %d" % place}
                     for place, identity in enumerate(identities)]
        self.answered(*inserts(documents))

    def answered(self, *commands):
        for reply in self.docd.ask(*commands):
            if reply["ok"] != 1 or "writeErrors" in reply:
                raise SystemExit("bench: a command is refused: %r" % reply)

    def make(self, stages):
        """Makes a view, and returns the bytes that it adds for a document."""
        before = memory_of(self.docd.process)
        self.answered({"create": "v", "viewOn": "c", "pipeline": stages})
        return (memory_of(self.docd.process) - before) / len(self.identities)

    def writes(self):
        """An action that carries out the next of some streams of updates, of which there is one for each run."""
        streams = iter([measuring.stream_of([self.update() for _ in range(WRITES)]) for _ in range(measuring.RUNS)])
        return lambda: self.docd.send(next(streams), WRITES)

    def update(self):
        fields = {"amount": self.rng.randrange(MOST)}
        return {"update": "c", "updates": [{"q": {"_id": self.rng.choice(self.identities)}, "u": {"$set": fields}}]}


def measured(programs, identities, stages):
    """For each program, the bytes that the view adds for a document, or None without a view, and the seconds of a write."""
    stores = [Store(program, identities) for program in programs]
    taken = [stages and store.make(stages) for store in stores]
    spent = in_turn(*((store.writes(), store.docd.clock) for store in stores))
    for store in stores:
        store.docd.close()
    return [(bytes_, seconds / WRITES) for bytes_, seconds in zip(taken, spent)]


def main():
    words = argparse.ArgumentParser(description=__doc__, formatter_class=argparse.RawDescriptionHelpFormatter)
    words.add_argument("--count", type=int, default=100_000, help="how many documents")
    words.add_argument("--beside", help="another program")
    given = measuring.asked(words)
    programs = [given.program, *([program_at(given.beside, "bench")] if given.beside else [])]
    print("%d documents; %s.\n" % (given.count, load()))
    heads("`_id`", "view", *itertools.chain.from_iterable(("bytes" + of, "microseconds" + of) for of in ["", " beside"][:len(programs)]))
    for kind, made in KINDS.items():
        identities = [made(place) for place in range(given.count)]
        for view, stages in VIEWS.items():
            cells = measured(programs, identities, stages)
            row(kind, view, *itertools.chain.from_iterable(("-" if taken is None else "%.0f" % taken, "%.1f" % (1e6 * spent)) for taken, spent in cells))


if __name__ == "__main__":
    main()
