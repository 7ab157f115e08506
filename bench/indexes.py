#!/usr/bin/python3
"""What finds by indexes cost, and what indexes, also unique ones, cost writes, compared with SQLite in process with the same.

Needs what bench/measuring.py says. The documents have ten fields. SQLite stores them as JSON in memory, with indexes on
`json_extract` of the same fields. Without a sort, it returns them in the order of its indexes, docd in that of `_id`. A hundred
documents share each `bucket`; each document has a different `serial`. All times are processor time, the least of some runs in
turn, except that of making the indexes, which is of one run. docd's include reading its messages and writing its replies, and
SQLite's include preparing the statement and making Python's rows. An update of all documents is one statement; the bytes are the
most that docd has resident while it is carried out, minus those before it.

    /usr/bin/python3 bench/indexes.py
    /usr/bin/python3 bench/indexes.py --count 10000 --program crates/docd/out/docd
"""
import json
import random
import sqlite3
import sys
import time
from collections import namedtuple

import measuring
from listening import memory_of
from measuring import documents_to_find, heads, in_turn, inserts, load, loaded, loaded_sqlite, row

FIELDS = ["bucket", "serial", "age", "balance"]  # the fields that have indexes, in the order in which they get them
AT_END = 20  # documents in a range
BETWEEN = (20, 2_000)  # documents between two bounds
MEMBERS = 20  # of an `$in`
STATEMENTS = 1_000  # in a message
FIRST = 10  # documents of a sort

# Finds: how many there are, the filter of each by its number, the same as the end of an SQL statement with its values, and the
# sort and the limit if there are any.
Finds = namedtuple("Finds", "name times filter sql values first", defaults=[{}])


def extracted(field):
    return "json_extract(body, '$.%s')" % field


def finds(count):
    rng = random.Random(count)
    buckets, many = range(buckets_of(count)), ", ".join("?" * MEMBERS)
    picked = [rng.sample(range(count), MEMBERS) for _ in range(1_000)]
    picked_buckets = [rng.sample(buckets, min(MEMBERS, len(buckets))) for _ in range(100)]
    several = ", ".join("?" * len(picked_buckets[0]))
    return [
        Finds("by `_id`", 1_000, lambda at: {"_id": picked[at][0]}, "id = ?", lambda at: picked[at][:1]),
        Finds("an equality", 100, lambda at: {"bucket": at % len(buckets)}, extracted("bucket") + " = ?",
              lambda at: [at % len(buckets)]),
        Finds("a range at the end", 1_000, lambda at: {"serial": {"$gte": count - AT_END}}, extracted("serial") + " >= ?",
              lambda at: [count - AT_END]),
        *(between(count, many) for many in BETWEEN),
        between(count, AT_END, "_id", "id"),
        Finds("`$in` of %d members, a document each" % MEMBERS, 1_000, lambda at: {"serial": {"$in": picked[at]}},
              "%s IN (%s)" % (extracted("serial"), many), lambda at: picked[at]),
        Finds("`$in` of %d members, %d documents each" % (len(picked_buckets[0]), count // len(buckets)), 100,
              lambda at: {"bucket": {"$in": picked_buckets[at]}}, "%s IN (%s)" % (extracted("bucket"), several),
              lambda at: picked_buckets[at]),
        *(first_of(*sort) for sort in [("serial", 1), ("serial", -1), ("bucket", 1)]),
        first_of("_id", -1, "id"),
        first_of("serial", 1, least=count // 2),
    ]


def first_of(field, direction, column=None, least=None):
    """A find of the first documents in a sort by a field that has an index: of all documents, or of those from a number on."""
    order, word = ("", "ascending") if direction == 1 else (" DESC", "descending")
    column, of, bounds = column or extracted(field), "", {}
    condition, values = "1", []
    if least is not None:
        of, bounds, condition, values = " of half", {field: {"$gte": least}}, "%s >= ?" % column, [least]
    return Finds("a sort%s with limit %d by `%s`, %s" % (of, FIRST, field, word), 1_000, lambda at: bounds,
                 "%s ORDER BY %s%s, id LIMIT %d" % (condition, column, order, FIRST), lambda at: values,
                 {"sort": {field: direction}, "limit": FIRST})


def between(count, many, field="serial", column=None):
    """A find by a range with two bounds that holds `many` documents."""
    starts, column = random.Random(many).sample(range(count - many), 100), column or extracted(field)
    return Finds("between two bounds" + " of `_id`" * (field == "_id"), 100,
                 lambda at: {field: {"$gte": starts[at], "$lt": starts[at] + many}},
                 "%s >= ? AND %s < ?" % (column, column), lambda at: [starts[at], starts[at] + many])


def buckets_of(count):
    return max(1, count // 100)


def documents(count):
    """A hundred documents share each `bucket`."""
    buckets = buckets_of(count)
    return [{**one, "bucket": (one["_id"] * 7_919) % buckets} for one in documents_to_find(count)]


def index_of(field, is_unique=False):
    return {"key": {field: 1}, "name": field + "_1", "unique": is_unique}


def indexed_docd(fields, is_unique=False):
    """A running program with indexes on the fields, and without documents."""
    docd = measuring.Docd()
    reply, = docd.ask({"createIndexes": "c", "indexes": [index_of(field, is_unique) for field in fields]})
    if reply["ok"] != 1:
        sys.exit("bench: the indexes are refused: %r" % reply)
    return docd


def indexed_sqlite(base, fields, is_unique=False):
    for field in fields:
        base.execute("CREATE %s by_%s ON c (%s)" % ("UNIQUE INDEX" if is_unique else "INDEX", field, extracted(field)))
    base.commit()
    return base


def print_finds(found):
    docd, base = loaded(found), indexed_sqlite(loaded_sqlite(found), FIELDS[:2])
    print_making(docd, found)
    heads("a find by an index", "documents found", "microseconds", "SQLite: microseconds", "times SQLite")
    for asked in finds(len(found)):
        tell_find(docd, base, asked)
    tell_with_arrays(docd, len(found))
    docd.close()


def tell_with_arrays(docd, count):
    """Prints the finds between two bounds if one document in a hundred has its `serial` in an array. SQLite has no such index."""
    numbers = [{"q": {"_id": place}, "u": {"$set": {"serial": [place, place]}}} for place in range(0, count, 100)]
    docd.ask({"update": "c", "updates": numbers})
    for many in BETWEEN:
        asked = between(count, many)
        given, stream = asked_docd(docd, asked)
        spent = measuring.least(lambda: docd.send(stream, asked.times), docd.clock)
        row(asked.name + ", with arrays", "%.0f" % (given / asked.times), "%.1f" % (1e6 * spent / asked.times), "", "")


def print_making(docd, found):
    """Prints what it takes to make the indexes over existing documents."""
    start = docd.clock()
    docd.ask({"createIndexes": "c", "indexes": [index_of(field) for field in FIELDS[:2]]})
    spent = docd.clock() - start
    base = loaded_sqlite(found)
    start = time.thread_time()
    indexed_sqlite(base, FIELDS[:2])
    other = time.thread_time() - start
    print("Two indexes over %d documents: %.0f milliseconds, SQLite %.0f." % (len(found), 1e3 * spent, 1e3 * other))
    print()


def asked_docd(docd, asked):
    """How many documents docd returns for all finds, and the stream that asks for them."""
    commands = [{"find": "c", "filter": asked.filter(at), **asked.first, "batchSize": measuring.ALL}
                for at in range(asked.times)]
    given = sum(len(reply["cursor"]["firstBatch"]) for reply in docd.ask(*commands))
    return given, measuring.stream_of(commands)


def tell_find(docd, base, asked):
    given, stream = asked_docd(docd, asked)
    sql = "SELECT body FROM c WHERE %s" % asked.sql
    statements = [asked.values(at) for at in range(asked.times)]

    def ask_sqlite():
        for values in statements:
            base.execute(sql, values).fetchall()
    told = sum(len(base.execute(sql, values).fetchall()) for values in statements)
    if given != told:
        sys.exit("bench: %s: docd returns %d documents and SQLite %d" % (asked.name, given, told))
    explained, = docd.ask({"explain": {"find": "c", "filter": asked.filter(0)}})
    if explained["stage"] != "IXSCAN" and not asked.first:
        sys.exit("bench: %s: docd does not use an index: %r" % (asked.name, explained))
    spent, other = in_turn((lambda: docd.send(stream, asked.times), docd.clock), (ask_sqlite, time.thread_time))
    row(asked.name, "%.0f" % (given / asked.times), "%.1f" % (1e6 * spent / asked.times), "%.1f" % (1e6 * other / asked.times),
        "%.2f" % (other / spent))


def print_writes(found):
    heads("a write, with so many indexes", "indexes", "microseconds", "SQLite: microseconds", "times SQLite")
    for many in (0, 1, 4):
        fields = FIELDS[:many]
        inserted, updated = least_of_writes(found, fields)
        for name, (spent, other) in [("an insert", inserted), ("an update of four fields", updated)]:
            row(name, "%d" % many, "%.1f" % (1e6 * spent), "%.1f" % (1e6 * other), "%.2f" % (other / spent))


def least_of_writes(found, fields):
    """Seconds that docd and SQLite take for an insert, and for an update."""
    least = [[float("inf")] * 2 for _ in range(2)]
    stream, updates = measuring.stream_of(inserts(found)), updates_of(len(found))
    for _ in range(measuring.RUNS):
        for system, times in enumerate((docd_writes(found, stream, updates, fields), sqlite_writes(found, updates, fields))):
            for write, spent in enumerate(times):
                least[write][system] = min(least[write][system], spent)
    return least


def updates_of(count):
    """For a tenth of the documents, in random order, a new number for each field that may have an index."""
    rng = random.Random(count)
    return [(place, [rng.randrange(buckets_of(count)), count + place, rng.randrange(100, 200), rng.randrange(10**9)])
            for place in rng.sample(range(count), count // 10)]


def docd_writes(found, stream, updates, fields):
    docd = indexed_docd(fields)
    start = docd.clock()
    docd.send(stream, len(inserts(found)))
    inserted = docd.clock() - start
    entries = [{"q": {"_id": place}, "u": {"$set": dict(zip(FIELDS, values))}} for place, values in updates]
    commands = [{"update": "c", "updates": entries[i:i + STATEMENTS]} for i in range(0, len(entries), STATEMENTS)]
    start = docd.clock()
    replies = docd.ask(*commands)
    updated = docd.clock() - start
    docd.close()
    if sum(reply.get("nModified", 0) for reply in replies) != len(updates):
        sys.exit("bench: docd does not change %d documents: %r" % (len(updates), replies[0]))
    return inserted / len(found), updated / len(updates)


def sqlite_writes(found, updates, fields):
    base = indexed_sqlite(loaded_sqlite([]), fields)
    rows = [(one["_id"], json.dumps(one)) for one in found]
    start = time.thread_time()
    base.executemany("INSERT INTO c VALUES (?, ?)", rows)
    base.commit()
    inserted = time.thread_time() - start
    sql = "UPDATE c SET body = json_set(body, %s) WHERE id = ?" % ", ".join("'$.%s', ?" % field for field in FIELDS)
    values = [(*values, place) for place, values in updates]
    start = time.thread_time()
    base.executemany(sql, values)
    base.commit()
    updated = time.thread_time() - start
    base.close()
    return inserted / len(found), updated / len(updates)


def print_unique(found):
    """Prints an insert and an update of all documents: with a unique index on `serial`, one that isn't unique, and none."""
    kinds = [("none", [], False), ("one", ["serial"], False), ("a unique one", ["serial"], True)]
    heads("a write", "index on `serial`", "microseconds a document", "SQLite: microseconds", "times SQLite",
          "bytes a document at most")
    for index, fields, is_unique in kinds:
        docd, base, inserted = filled(found, fields, is_unique)
        tell_unique("an insert", index, inserted, len(found), "")
        updated, most = updates_of_all(docd, base, len(found))
        tell_unique("an update of all", index, updated, len(found), "%.0f" % (most / len(found)))
        if is_unique:
            refused = refused_updates(docd, base, len(found))
            tell_unique("an update of all, refused for the last", index, refused, len(found), "")
        docd.close()
        base.close()


def tell_unique(write, index, spent, count, most):
    ours, other = spent
    row(write, index, "%.2f" % (1e6 * ours / count), "%.2f" % (1e6 * other / count), "%.2f" % (other / ours), most)


def filled(found, fields, is_unique):
    """A running docd and an SQLite with the documents, and the least seconds that their inserts took in some runs."""
    rows, spent = [(one["_id"], json.dumps(one)) for one in found], []
    for run in range(measuring.RUNS):
        docd, base = indexed_docd(fields, is_unique), indexed_sqlite(loaded_sqlite([]), fields, is_unique)
        spent.append([seconds(lambda: insert_all(docd, found), docd.clock), seconds(lambda: insert_all_sqlite(base, rows))])
        if run < measuring.RUNS - 1:
            docd.close()
            base.close()
    return docd, base, list(map(min, zip(*spent)))


def seconds(action, clock=time.thread_time):
    start = clock()
    action()
    return clock() - start


def insert_all(docd, found):
    replies = docd.ask(*inserts(found))
    if any("writeErrors" in reply for reply in replies):
        sys.exit("bench: an insert is refused: %r" % replies[0])


def insert_all_sqlite(base, rows):
    base.executemany("INSERT INTO c VALUES (?, ?)", rows)
    base.commit()


def updates_of_all(docd, base, count):
    """The least seconds of an update of all documents in some runs, and the most bytes that docd had resident, minus those
    before it."""
    spent, most = [], 0
    for _ in range(measuring.RUNS):
        before = forget_peak(docd)
        spent.append([seconds(lambda: update_all(docd, count), docd.clock), seconds(lambda: update_all_sqlite(base, count))])
        most = max(most, memory_of(docd.process, "VmHWM") - before)
    return list(map(min, zip(*spent))), most


def update_all(docd, count, is_free=True):
    """Adds a number to each `serial`. All numbers then differ from those before."""
    reply, = docd.ask({"update": "c", "updates": [{"q": {}, "u": {"$inc": {"serial": count}}, "multi": True}]})
    if ("writeErrors" in reply) == is_free:
        sys.exit("bench: the reply to an update of all is %r" % reply)


def update_all_sqlite(base, count, is_free=True):
    path = extracted("serial")
    try:
        base.execute("UPDATE c SET body = json_set(body, '$.serial', %s + ?)" % path, [count])
        base.commit()
    except sqlite3.IntegrityError:
        base.rollback()
        is_free = not is_free
    if not is_free:
        sys.exit("bench: SQLite carries out an update that it should refuse, or refuses one that it should carry out")


def refused_updates(docd, base, count):
    """Seconds of an update of all that is refused, since the last document but one would get the number that the last still has."""
    last, = docd.ask({"find": "c", "filter": {"_id": count - 1}})
    taken = {"_id": count, "serial": last["cursor"]["firstBatch"][0]["serial"] + count}
    docd.ask({"insert": "c", "documents": [taken]})
    base.execute("INSERT INTO c VALUES (?, ?)", (taken["_id"], json.dumps(taken)))
    base.commit()
    return in_turn((lambda: update_all(docd, count, False), docd.clock),
                   (lambda: update_all_sqlite(base, count, False), time.thread_time))


def forget_peak(docd):
    """Resets the system's count of the most bytes that a running program had resident, and returns how many it has now."""
    with open("/proc/%d/clear_refs" % docd.process.pid, "w") as file:
        file.write("5")
    return memory_of(docd.process)


def main():
    found = documents(measuring.count_asked(__doc__))
    print("%d documents; %s" % (len(found), load()))
    print_finds(found)
    print()
    print_writes(found)
    print()
    print_unique(found)


if __name__ == "__main__":
    main()
