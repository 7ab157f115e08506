#!/usr/bin/python3
"""What groups and lookups cost in aggregates, compared with SQLite in process on the same values as columns.

Needs what bench/measuring.py says. A group counts the documents and adds up a number by a field of few or of many values.
A lookup finds for each document the document of another collection that has the same number; SQLite does it by a join on an
indexed column. All times are processor time, the least of some runs in turn.

    /usr/bin/python3 bench/groups.py
    /usr/bin/python3 bench/groups.py --count 10000 --program crates/docd/out/docd
"""
import random
import sqlite3
import sys
import time

import measuring
from measuring import heads, in_turn, inserts, load, row

FEW = 100  # values of the field of few values


def documents(count):
    """`few` is one of a hundred numbers, `many` a different one in each document, `code` one of `count // 10` numbers."""
    rng = random.Random(count)
    return [{"_id": place, "few": rng.randrange(FEW), "many": (place * 7_919) % count, "code": rng.randrange(count // 10),
             "amount": rng.randrange(1_000)} for place in range(count)]


def foreign_documents(count):
    return [{"_id": place, "code": place, "name": "name %d" % place} for place in range(count // 10)]


def loaded_docd(count):
    docd = measuring.loaded(documents(count))
    docd.ask(*({**one, "insert": "d"} for one in inserts(foreign_documents(count))))
    return docd


def loaded_sqlite(count):
    base = sqlite3.connect(":memory:")
    base.execute("CREATE TABLE c (id INTEGER PRIMARY KEY, few INTEGER, many INTEGER, code INTEGER, amount INTEGER)")
    base.execute("CREATE TABLE d (id INTEGER PRIMARY KEY, code INTEGER, name TEXT)")
    base.executemany("INSERT INTO c VALUES (?, ?, ?, ?, ?)", [tuple(one.values()) for one in documents(count)])
    base.executemany("INSERT INTO d VALUES (?, ?, ?)", [tuple(one.values()) for one in foreign_documents(count)])
    base.execute("CREATE INDEX by_code ON d (code)")
    base.commit()
    return base


def grouped_by(field):
    stages = [{"$group": {"_id": "$" + field, "n": {"$sum": 1}, "total": {"$sum": "$amount"}}}]
    return stages, "SELECT %s, count(*), sum(amount) FROM c GROUP BY %s" % (field, field)


LOOKUP = ([{"$lookup": {"from": "d", "localField": "code", "foreignField": "code", "as": "o"}},
           {"$project": {"name": "$o.name"}}],
          "SELECT c.id, d.name FROM c JOIN d ON d.code = c.code")


def main():
    count = measuring.count_asked(__doc__)
    docd, base = loaded_docd(count), loaded_sqlite(count)
    print(load())
    heads("over %d documents" % count, "rows", "milliseconds", "thousands a second", "SQLite: thousands a second",
          "times SQLite")
    cases = {"`$group`, %d groups" % FEW: grouped_by("few"), "`$group`, %d groups" % count: grouped_by("many"),
             "`$lookup` into %d" % (count // 10): LOOKUP}
    for name, (stages, sql) in cases.items():
        command = {"aggregate": "c", "pipeline": stages, "cursor": {"batchSize": measuring.ALL}}
        stream = measuring.stream_of([command])
        reply, = docd.ask(command)
        found, told = len(reply["cursor"]["firstBatch"]), len(base.execute(sql).fetchall())
        if found != told:
            sys.exit("bench: %s: docd returns %d rows and SQLite %d" % (name, found, told))
        spent, other = in_turn((lambda: docd.send(stream, 1), docd.clock),
                               (lambda: base.execute(sql).fetchall(), time.thread_time))
        row(name, "%d" % found, "%.1f" % (1e3 * spent), "%.0f" % (count / spent / 1e3),
            "%.0f" % (count / other / 1e3), "%.2f" % (other / spent))
    docd.close()


if __name__ == "__main__":
    main()
