#!/usr/bin/python3
"""What a write and a read of a view cost, by how many documents it is over, compared with what one would use instead.

Needs what bench/measuring.py says. For each view of bench/view_cases.py, over 1,000, 10,000 and 100,000 documents, it measures an
update of one document by its `_id`, one in a message, without the view and with it, and a find of the first 101 rows of the view.
In the same run, on the same values, it measures SQLite in process, where triggers written by hand keep a table, or an index keeps
a sort; the same 101 rows recomputed, by an aggregate of docd and by a query of SQLite; and PostgreSQL's REFRESH MATERIALIZED VIEW,
if its server is installed (`apt-get install postgresql`). For the largest size, the table also has the bytes that the view keeps
for a document of its collection.

The chain of eight views of bench/view_chain.py has a table of its own: a write, and a write with a read of the last view. It also
has what the eight views take by themselves, added up. For this, each is the only view, over a collection of the rows that its
source has in the chain, and counts with what a write takes with it, minus what a write takes without it. A row that moves in the
chain's sort is removed and inserted for the views after it, but is only changed in these collections. SQLite's triggers set off
one another; PostgreSQL refreshes the eight in their order.

All times are processor time, the least of some runs in turn. docd's include reading its messages and writing its replies, SQLite's
include preparing the statement and making Python's rows, and PostgreSQL's are those of its own process.

The picture bench/views.svg is drawn if all views are measured, without `--only` and `--rows`, and with PostgreSQL. With
`--picture`, a picture is drawn of whatever is measured.

    /usr/bin/python3 bench/views.py
    /usr/bin/python3 bench/views.py --rows 1000,10000 --only "group,sort" --program crates/docd/out/docd
"""
import argparse
import itertools
import os
import random
import signal
import sqlite3
import sys
import time
from collections import namedtuple

import measuring
from listening import memory_of
from measuring import heads, in_turn, inserts, load, row
from picture import Line, drawn
from program import named
from refreshing import Postgres
from view_cases import CASES, COLUMNS, MOST, PART, SHOWN, as_json, rows_of
from view_chain import CHAIN, CHANGED, FIRST, LEVELS, NAMES, POSTGRES

ROWS = "1000,10000,100000"
READS = 200  # in a run
LARGEST = 200_000  # about how many documents a run that recomputes rows goes through
CREATE = "CREATE TABLE %s (%s)"
PICTURE = os.path.join(os.path.dirname(os.path.abspath(__file__)), "views.svg")
CAPTION = "Processor time of one, by the documents that the view is over; both scales are logarithmic."

# What was measured of a view over so many documents: seconds of a write without the view, and with it; of a read; of recomputing
# the same rows; and of a REFRESH, None if there is no PostgreSQL. All except the REFRESH are pairs: docd's and SQLite's.
Measured = namedtuple("Measured", "case count bare write read anew refresh")


class Docd:
    """A running docd with the documents of a case, and with its view if that is wanted."""

    def __init__(self, case, count, has_view=False):
        self.case, self.docd = case, measuring.Docd()
        self.insert("c", case.documents(count))
        self.insert("d", case.foreign(count))
        if has_view:
            self.make()

    def insert(self, collection, documents):
        self.answered(*({**one, "insert": collection} for one in inserts(documents)))

    def answered(self, *commands):
        replies = self.docd.ask(*commands)
        for reply in replies:
            if reply["ok"] != 1 or "writeErrors" in reply:
                sys.exit("bench: %s: docd refuses: %r" % (self.case.name, reply))
        return replies

    def make(self):
        self.answered({"create": "v", "viewOn": "c", "pipeline": self.case.stages})

    def writes(self, changes, *behind):
        """An action that makes the next of these lists of changes each time, with these commands after each change."""
        commands = [[command for one in some for command in (self.update(*one), *behind)] for some in changes]
        streams = iter([measuring.stream_of(some) for some in commands])
        return lambda: self.docd.send(next(streams), len(commands[0]))

    def update(self, identity, fields):
        return {"update": self.case.changed, "updates": [{"q": {"_id": identity}, "u": {"$set": fields}}]}

    def find(self):
        return {"find": "v", "limit": SHOWN}

    def aggregate(self):
        return {"aggregate": "c", "pipeline": [*self.case.stages, {"$limit": SHOWN}], "cursor": {}}

    def asks(self, command, times):
        stream = measuring.stream_of([command] * times)
        return lambda: self.docd.send(stream, times)

    def rows(self, command):
        reply, = self.answered(command)
        return reply["cursor"]["firstBatch"]


class Sqlite:
    """SQLite in process with the rows of a case."""

    def __init__(self, case, count):
        self.case, self.base = case, sqlite3.connect(":memory:")
        for collection, documents in (("c", case.documents(count)), ("d", case.foreign(count))):
            columns = COLUMNS[collection]
            self.base.execute(CREATE % (collection, ", ".join(["id INTEGER PRIMARY KEY", *columns[1:]])))
            marks = ", ".join("?" * len(columns))
            self.base.executemany("INSERT INTO %s VALUES (%s)" % (collection, marks), rows_of(documents, collection, as_json))
        self.base.execute("CREATE INDEX by_code ON d (code)")
        self.base.commit()

    def make(self):
        for statement in self.case.kept:
            self.base.execute(statement)
        self.base.commit()

    def writes(self, changes, *behind):
        lists = iter([[self.update(*one) for one in some] for some in changes])

        def write():
            for statement, values in next(lists):
                self.base.execute(statement, values)
                for query in behind:
                    self.rows(query)
            self.base.commit()
        return write

    def update(self, identity, fields):
        (field, value), = fields.items()
        column, _, place = field.partition(".")
        new = "json_set(%s, '$[%s]', ?)" % (column, place) if place else "?"
        return "UPDATE %s SET %s = %s WHERE id = ?" % (self.case.changed, column, new), (value, identity)

    def rows(self, query):
        return self.base.execute(query).fetchmany(SHOWN)

    def asks(self, query, times):
        def ask():
            for _ in range(times):
                self.rows(query)
        return ask


class Changes:
    """Changes of a case over so many documents. Each change is a document's number and what is set in it."""

    def __init__(self, case, count):
        self.case, self.rng = case, random.Random(count)
        documents = case.documents(count)
        self.rows = len(documents)
        self.changed = len(case.foreign(count)) if case.changed == "d" else self.rows
        by_amount = sorted(documents, key=lambda one: one["amount"])
        self.least = itertools.cycle(one["_id"] for one in by_amount)

    def lists(self, writes):
        """Lists of `writes` changes, one list for each run."""
        return [[self.one() for _ in range(writes)] for _ in range(measuring.RUNS)]

    def one(self):
        chosen = next(self.least) if self.case.least else self.rng.randrange(self.changed)
        return chosen, self.case.change(self.rng, self.rows)


def each(times, *timed):
    """The least seconds of one request, for each action, which makes `times` of them."""
    return [spent / times for spent in in_turn(*timed)]


def written(docd, base, lists):
    """The least seconds of a write, of docd and of SQLite."""
    return each(len(lists[0]), (docd.writes(lists), docd.docd.clock), (base.writes(lists), time.thread_time))


def measured(case, count, writes, postgres):
    """What is measured of a case."""
    times = max(1, LARGEST // count)
    docd, base, changes = Docd(case, count), Sqlite(case, count), Changes(case, count)
    clock = docd.docd.clock
    bare = written(docd, base, changes.lists(writes))
    anew = each(times, (docd.asks(docd.aggregate(), times), clock), (base.asks(case.query[0], times), time.thread_time))
    docd.make()
    base.make()
    write = written(docd, base, changes.lists(writes))
    read = each(READS, (docd.asks(docd.find(), READS), clock), (base.asks(case.read, READS), time.thread_time))
    check(docd, base)
    docd.docd.close()
    return Measured(case, count, bare, write, read, anew, postgres and postgres.refreshed(case, count))


def check(docd, base):
    """Checks that the view has the rows that an aggregate of its pipeline returns, and what SQLite keeps those of its query."""
    kept, anew = docd.rows(docd.find()), docd.rows(docd.aggregate())
    if kept != anew:
        sys.exit("bench: %s: the view has other rows than its pipeline" % docd.case.name)
    others = [sorted(base.base.execute(query).fetchall()) for query in (docd.case.read, docd.case.query[0])]
    if others[0] != others[1] or min(SHOWN, len(others[0])) != len(kept):
        sys.exit("bench: %s: SQLite has other rows" % docd.case.name)


# The chain.

# What was measured of the chain over so many documents: seconds of a write without it, of one with it, and of one with a read of
# the last view; of the eight views by themselves; of recomputing the same rows; and of eight REFRESH. All except those of the eight
# and the REFRESH are pairs: docd's and SQLite's.
Chained = namedtuple("Chained", "count bare write both alone anew refresh")


class Chain(Docd):
    """A running docd with the documents of the chain."""

    def make(self):
        for name, source, level in zip(NAMES, ["c", *NAMES], LEVELS):
            self.answered({"create": name, "viewOn": source, "pipeline": level.stages})

    def find(self):
        return {"find": NAMES[-1], "limit": SHOWN}

    def all_rows(self, name):
        return self.rows({"find": name, "batchSize": measuring.ALL})


def changes_of(level, writes):
    """Lists of `writes` changes of rows of a view's source. The rows are those of the groups that stay among the first."""
    rng, most, least = random.Random(writes), FIRST, PART * MOST
    if level.field == "amount":
        most, least = CHANGED, MOST
    return [[(rng.randrange(most), {level.field: least + rng.randrange(least)}) for _ in range(writes)]
            for _ in range(measuring.RUNS)]


def own(level, rows, others, writes):
    """What a write over these rows takes with only this view of the chain, minus what it takes without it."""
    held = CHAIN._replace(stages=level.stages, documents=lambda count: rows, foreign=lambda count: others)
    pair, lists = [Docd(held, len(rows), has_view) for has_view in (False, True)], changes_of(level, writes)
    bare, write = each(writes, *((docd.writes(lists), docd.docd.clock) for docd in pair))
    for docd in pair:
        docd.docd.close()
    return write - bare


def chained(count, writes, postgres):
    """What is measured of the chain."""
    times = max(1, LARGEST // count)
    docd, base, changes = Chain(CHAIN, count), Sqlite(CHAIN, count), Changes(CHAIN, count)
    changes.changed = min(count, CHANGED)
    clock = docd.docd.clock
    bare = written(docd, base, changes.lists(writes))
    anew = each(times, (docd.asks(docd.aggregate(), times), clock), (base.asks(CHAIN.query[0], times), time.thread_time))
    docd.make()
    base.make()
    write = written(docd, base, changes.lists(writes))
    lists = changes.lists(writes)
    both = each(writes, (docd.writes(lists, docd.find()), clock), (base.writes(lists, CHAIN.read), time.thread_time))
    check(docd, base)
    sources = [docd.all_rows(name) for name in ["c", *NAMES[:-1]]]
    docd.docd.close()
    alone = sum(own(level, rows, CHAIN.foreign(count), writes) for level, rows in zip(LEVELS, sources))
    return Chained(count, bare, write, both, alone, anew, postgres and postgres.chain_refreshed(CHAIN, POSTGRES, count))


def tell_chain(sizes, writes, postgres):
    heads("the chain, microseconds", "documents", "a write without it", "a write", "SQLite", "less the one without",
          "the eight by themselves", "a write and a read", "SQLite", "recomputed: docd", "SQLite", "PostgreSQL: eight REFRESH")
    for count in sizes:
        it = chained(count, writes, postgres)
        told = [it.bare[0], *it.write, it.write[0] - it.bare[0], it.alone, *it.both, *it.anew, it.refresh]
        row(CHAIN.name, "%d" % count, *map(microseconds, told))
    print()


def kept_bytes(case, count):
    """The bytes that a view keeps for a document."""
    taken = []
    for has_view in (False, True):
        docd = Docd(case, count, has_view)
        docd.docd.ask({"ping": 1})
        taken.append(memory_of(docd.docd.process))
        docd.docd.close()
    return (taken[1] - taken[0]) / len(case.documents(count))


def microseconds(seconds):
    return "-" if seconds is None else "%.1f" % (1e6 * seconds) if seconds < 1e-3 else "%.0f" % (1e6 * seconds)


def tell(it, bytes_kept):
    told = [it.bare[0], *it.write, *it.read, *it.anew, it.refresh]
    row(it.case.name, "%d" % it.count, *map(microseconds, told), "-" if bytes_kept is None else "%.0f" % bytes_kept)


def lines_of(found):
    """The lines of a case's picture, each with its points."""
    counts = [it.count for it in found]
    lines = [("a write through the view", [it.write[0] for it in found]), ("a read of 101 rows", [it.read[0] for it in found]),
             ("recomputed rows", [it.anew[0] for it in found]), ("PostgreSQL's REFRESH", [it.refresh for it in found])]
    return [Line(name, list(zip(counts, [1e6 * one for one in seconds]))) for name, seconds in lines if None not in seconds]


def tell_views(cases, sizes, writes, postgres):
    """Prints the table of these views. Returns what was measured of each, by its name."""
    heads("a view, microseconds", "documents", "a write without it", "a write", "SQLite", "a read", "SQLite",
          "recomputed: docd", "SQLite", "PostgreSQL: REFRESH", "bytes kept for a document")
    found = {}
    for case in cases:
        for count in sizes:
            it = measured(case, count, writes, postgres)
            found.setdefault(case.name, []).append(it)
            tell(it, kept_bytes(case, count) if count == max(sizes) else None)
    return found


def draw(found, path):
    with open(path, "w", encoding="utf-8") as file:
        file.write(drawn({name: lines_of(some) for name, some in found.items()}, CAPTION))


def main():
    options = argparse.ArgumentParser(description=__doc__, formatter_class=argparse.RawDescriptionHelpFormatter)
    options.add_argument("--rows", default=ROWS, help="over how many documents: numbers, joined by commas")
    options.add_argument("--only", default="", help="words, joined by commas: measure the views whose name has one of them")
    options.add_argument("--writes", type=int, default=1_000, help="how many writes a run has")
    options.add_argument("--picture", metavar="FILE", help="write a picture of whatever is measured to this file")
    given = measuring.asked(options)
    sizes = [int(one) for one in given.rows.split(",")]
    names = named("bench", given.only, [*(case.name for case in CASES), CHAIN.name])
    cases, found = [case for case in CASES if case.name in names], {}
    signal.signal(signal.SIGTERM, lambda *_: sys.exit("bench: ended"))  # so that the server of PostgreSQL ends too
    with Postgres() as postgres:
        print(postgres.told if postgres.told else "PostgreSQL has refreshed its views.")
        print(load() + "\n")
        server = None if postgres.told else postgres
        if CHAIN.name in names:
            tell_chain(sizes, given.writes, server)
        if cases:
            found = tell_views(cases, sizes, given.writes, server)
    is_whole = server and (given.rows, cases) == (ROWS, CASES)
    if found and (given.picture or is_whole):
        draw(found, given.picture or PICTURE)


if __name__ == "__main__":
    main()
