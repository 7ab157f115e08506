#!/usr/bin/python3
"""What finds and deletes that scan a collection cost, compared with SQLite in process and mongomock on the same documents.

Needs what bench/measuring.py says. The documents have ten fields. SQLite stores them as JSON, in memory and without an
index (`json_extract`). mongomock (`apt-get install python3-mongomock`; left out if it is missing) stores a tenth of them.
docd and SQLite have to return equally many documents. All times are processor time, the least of some runs in turn.

    /usr/bin/python3 bench/finds.py
    /usr/bin/python3 bench/finds.py --count 10000 --program crates/docd/out/docd
"""
import random
import sys
import time
from collections import namedtuple

import measuring
from measuring import documents_to_find, heads, in_turn, load, loaded, loaded_sqlite, row

try:
    import mongomock
except ImportError:
    mongomock = None

# A find, and the same as the end of an SQL statement.
Find = namedtuple("Find", "name filter sort limit sql")
FIELD = "json_extract(body, '$.%s')"


def finds(count):
    """Finds. Each, except the last, matches a thousandth of the documents."""
    middle, width = count // 2, count // 1_000
    members = random.Random(count).sample(range(count), width)
    serial = FIELD % "serial"
    items = "EXISTS (SELECT 1 FROM json_each(body, '$.items') WHERE json_extract(value, '$.item') = 700)"
    return [
        Find("an equality", {"bucket": 70}, {}, 0, "WHERE %s = 70" % FIELD % "bucket"),
        Find("a range", {"serial": {"$gte": middle, "$lt": middle + width}}, {}, 0,
             "WHERE %s >= %d AND %s < %d" % (serial, middle, serial, middle + width)),
        Find("a path through an array", {"items.item": 700}, {}, 0, "WHERE " + items),
        Find("`$in` of %d members" % width, {"serial": {"$in": members}}, {}, 0,
             "WHERE %s IN (%s)" % (serial, ", ".join(map(str, members)))),
        Find("a sort with limit 10", {}, {"serial": -1}, 10, "ORDER BY %s DESC LIMIT 10" % serial),
    ]


# What a system is asked: the action, the clock of the process that carries it out, and a function that returns how many
# documents the last action found or deleted.
Asked = namedtuple("Asked", "action clock told")


def asked_of_docd(docd, find):
    command = {"find": "c", "filter": find.filter, "sort": find.sort, "limit": find.limit, "batchSize": measuring.ALL}
    stream = measuring.stream_of([command])
    reply, = docd.ask(command)
    if "cursor" not in reply:
        sys.exit("bench: the find is refused: %r" % reply)
    return Asked(lambda: docd.send(stream, 1), docd.clock, lambda: len(reply["cursor"]["firstBatch"]))


def asked_of_sqlite(base, find):
    found = []

    def ask():
        found[:] = base.execute("SELECT body FROM c " + find.sql).fetchall()
    return Asked(ask, time.thread_time, lambda: len(found))


def asked_of_mongomock(collection, find):
    def ask():
        cursor = collection.find(find.filter)
        list(cursor.sort(list(find.sort.items())).limit(find.limit) if find.sort else cursor)
    return Asked(ask, time.thread_time, None)


def deletes(clock, delete):
    """A delete of a hundredth of the documents, a different hundredth each time."""
    places, gone = iter(range(measuring.RUNS)), []
    return Asked(lambda: gone.append(delete(*bounds_of(next(places)))), clock, lambda: gone[-1])


def deleted_by_docd(docd):
    def delete(least, end):
        reply, = docd.ask({"delete": "c", "deletes": [{"q": {"bucket": {"$gte": least, "$lt": end}}, "limit": 0}]})
        return reply["n"]
    return deletes(docd.clock, delete)


def deleted_by_sqlite(base):
    def delete(*bounds):
        sql = "DELETE FROM c WHERE %s >= ? AND %s < ?" % (FIELD % "bucket", FIELD % "bucket")
        gone = base.execute(sql, bounds).rowcount
        base.commit()
        return gone
    return deletes(time.thread_time, delete)


def deleted_by_mongomock(collection):
    def delete(least, end):
        return collection.delete_many({"bucket": {"$gte": least, "$lt": end}}).deleted_count
    return deletes(time.thread_time, delete)


def bounds_of(place):
    return 10 * place + 500, 10 * place + 510


def mongomock_with(documents):
    if mongomock is None:
        return None
    collection = mongomock.MongoClient().t.c
    collection.insert_many(documents)
    return collection


def tell(name, count, few, by_docd, by_sqlite, by_mongomock):
    """Prints a line of the table: milliseconds, and how many thousands of documents are examined in a second."""
    asked = [by_docd, by_sqlite] + [by_mongomock] * (by_mongomock is not None)
    spent, other, *mocked = in_turn(*((one.action, one.clock) for one in asked))
    if by_docd.told() != by_sqlite.told():
        sys.exit("bench: %s: docd returns %d documents and SQLite %d" % (name, by_docd.told(), by_sqlite.told()))
    cells = [name, "%d" % by_docd.told(), "%.1f" % (1e3 * spent), "%.0f" % (count / spent / 1e3)]
    cells += ["%.0f" % (count / other / 1e3), "%.1f" % (other / spent)]
    row(*cells, *(["%.1f" % (few / mocked[0] / 1e3), "%.0f" % (count / spent / few * mocked[0])] if mocked else ["-", "-"]))


def main():
    count = measuring.count_asked(__doc__)
    documents, few = documents_to_find(count), count // 10
    docd, base, collection = loaded(documents), loaded_sqlite(documents), mongomock_with(documents_to_find(few))
    print(load())
    heads("over %d documents" % count, "documents", "milliseconds", "thousands a second looked at",
          "SQLite: thousands a second", "times SQLite", "mongomock, of %d: thousands a second" % few, "times mongomock")
    for find, smaller in zip(finds(count), finds(few)):
        mocked = None if collection is None else asked_of_mongomock(collection, smaller)
        tell(find.name, count, few, asked_of_docd(docd, find), asked_of_sqlite(base, find), mocked)
    mocked = None if collection is None else deleted_by_mongomock(collection)
    tell("a delete of 1 %", count, few, deleted_by_docd(docd), deleted_by_sqlite(base), mocked)
    docd.close()


if __name__ == "__main__":
    main()
