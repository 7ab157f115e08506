#!/usr/bin/python3
"""What finding by a key costs, without a scan: by `_id`, in aggregates and their `$lookup`s, and of rows of views, compared with
SQLite in process with the same documents and indexes.

Needs what bench/measuring.py says. The documents are those of bench/indexes.py, with an index on `serial`. SQLite stores them as
JSON in memory, with an index on `json_extract` of the same field. The collection `d` has a document for each number that a `serial`
can be. The views are two of bench/view_cases.py; in SQLite, triggers written by hand keep them as tables. All times are processor
time, the least of some runs in turn. docd's include reading its messages and writing its replies, and SQLite's include preparing
the statement and making Python's rows.

    /usr/bin/python3 bench/found.py
    /usr/bin/python3 bench/found.py --count 10000 --program crates/docd/out/docd
"""
import json
import random
import sys
import time
from collections import namedtuple

import measuring
from indexes import MEMBERS, documents, extracted, index_of, indexed_sqlite
from measuring import heads, in_turn, inserts, load, loaded, loaded_sqlite, row
from view_cases import CASES
from views import Changes, Docd, Sqlite

TIMES = 1_000  # requests of a run

# Requests, each by its number: the commands that docd is sent, and SQLite's statements with their values.
Requests = namedtuple("Requests", "name commands statements")


def requests(count):
    rng = random.Random(count)
    picked = [rng.sample(range(count), MEMBERS) for _ in range(TIMES)]
    found, serial = "SELECT body FROM c WHERE ", extracted("serial")
    joined = "SELECT c.body, d.body FROM c LEFT JOIN d ON d.id = json_extract(c.body, '$.serial') WHERE c.id = ?"
    join = {"$lookup": {"from": "d", "localField": "serial", "foreignField": "_id", "as": "others"}}
    return [
        Requests("`$in` of %d `_id`s" % MEMBERS, lambda at: [{"find": "c", "filter": {"_id": {"$in": picked[at]}}}],
                 lambda at: [("%sid IN (%s)" % (found, ", ".join("?" * MEMBERS)), picked[at])]),
        Requests("the first of all, by `singleBatch`", lambda at: [{"find": "c", "batchSize": 1, "singleBatch": True}],
                 lambda at: [("SELECT body FROM c LIMIT 1", [])]),
        Requests("a delete by a range of `_id` that holds nothing",
                 lambda at: [{"delete": "c", "deletes": [{"q": {"_id": {"$gte": count + at}}, "limit": 0}]}],
                 lambda at: [("DELETE FROM c WHERE id >= ?", [count + at])]),
        aggregates("`$match` by `_id`", lambda at: [{"$match": {"_id": picked[at][0]}}], found + "id = ?",
                   lambda at: picked[at][:1]),
        aggregates("`$match` by an index", lambda at: [{"$match": {"serial": picked[at][0]}}], found + serial + " = ?",
                   lambda at: picked[at][:1]),
        aggregates("`$match` and `$lookup` by `_id`", lambda at: [{"$match": {"_id": picked[at][0]}}, join], joined,
                   lambda at: picked[at][:1]),
    ]


def aggregates(name, stages, sql, values):
    return Requests(name, lambda at: [{"aggregate": "c", "pipeline": stages(at), "cursor": {}}], lambda at: [(sql, values(at))])


def requests_of_views():
    """The requests of views: each with its case."""
    cases = {case.name: case for case in CASES}
    return [(cases["a lookup of one, its row changed"], write_and_find), (cases["groups of one document"], find_a_row)]


def find_of(identity):
    return {"find": "v", "filter": {"_id": identity}}, ("SELECT * FROM v WHERE id = ?", [identity])


def write_and_find(docd, base, changes):
    made = [changes.one() for _ in range(TIMES)]
    return Requests("a write under a `$lookup` view, and its row by `_id`",
                    lambda at: [docd.update(*made[at]), find_of(made[at][0])[0]],
                    lambda at: [base.update(*made[at]), find_of(made[at][0])[1]])


def find_a_row(docd, base, changes):
    ids = [changes.one()[0] for _ in range(TIMES)]
    return Requests("a row of a `$group` view by `_id`", lambda at: [find_of(ids[at])[0]], lambda at: [find_of(ids[at])[1]])


def rows_given(reply):
    if reply["ok"] != 1 or "writeErrors" in reply:
        sys.exit("bench: docd refuses: %r" % reply)
    return len(reply["cursor"]["firstBatch"]) if "cursor" in reply else 0


def tell(docd, base, asked):
    """Prints a line of what a request takes, once both have returned equally many rows."""
    commands = [command for at in range(TIMES) for command in asked.commands(at)]
    statements = [one for at in range(TIMES) for one in asked.statements(at)]
    given = sum(map(rows_given, docd.ask(*commands)))
    told = sum(len(base.execute(*one).fetchall()) for one in statements)
    if given != told:
        sys.exit("bench: %s: docd returns %d rows and SQLite %d" % (asked.name, given, told))
    stream = measuring.stream_of(commands)

    def ask_sqlite():
        for one in statements:
            base.execute(*one).fetchall()
    spent, other = in_turn((lambda: docd.send(stream, len(commands)), docd.clock), (ask_sqlite, time.thread_time))
    row(asked.name, "%.1f" % (1e6 * spent / TIMES), "%.1f" % (1e6 * other / TIMES), "%.2f" % (other / spent))


def with_foreign(found):
    """docd and SQLite with the documents, their index, and the collection `d`."""
    docd, base = loaded(found), indexed_sqlite(loaded_sqlite(found), ["serial"])
    others = [{"_id": place, "name": "other %d" % place} for place in range(len(found))]
    docd.ask({"createIndexes": "c", "indexes": [index_of("serial")]}, *({**one, "insert": "d"} for one in inserts(others)))
    base.execute("CREATE TABLE d (id INTEGER PRIMARY KEY, body TEXT)")
    base.executemany("INSERT INTO d VALUES (?, ?)", [(one["_id"], json.dumps(one)) for one in others])
    base.commit()
    return docd, base


def main():
    found = documents(measuring.count_asked(__doc__))
    print("%d documents; %s" % (len(found), load()))
    docd, base = with_foreign(found)
    heads("a request", "microseconds", "SQLite: microseconds", "times SQLite")
    for asked in requests(len(found)):
        tell(docd, base, asked)
    docd.close()
    for case, requests_of in requests_of_views():
        view, table = Docd(case, len(found), True), Sqlite(case, len(found))
        table.make()
        tell(view.docd, table.base, requests_of(view, table, Changes(case, len(found))))
        view.docd.close()


if __name__ == "__main__":
    main()
