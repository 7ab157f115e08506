#!/usr/bin/python3
"""What updates of one field cost, by one statement for all documents and by one for each, compared with SQLite in process.

Needs what bench/measuring.py says. The documents have ten fields. SQLite stores them as JSON in memory (`json_set`), and
finds the document of a statement by its primary key. All times are processor time, the least of some runs in turn.

    /usr/bin/python3 bench/updates.py
    /usr/bin/python3 bench/updates.py --count 10000 --program crates/docd/out/docd
"""
import sys
import time
from collections import namedtuple

import measuring
from measuring import documents_to_find, heads, in_turn, load, loaded, loaded_sqlite, row

# An update with a number, which is a different one in each run; the same in SQL; and how often the number is in that.
Update = namedtuple("Update", "name made sql numbers")
UPDATES = [
    Update("`$set`", lambda number: {"$set": {"age": number}}, "json_set(body, '$.age', ?)", 1),
    Update("`$set` of a new field", lambda number: {"$set": {"new%d" % number: number}}, "json_set(body, '$.new' || ?, ?)", 2),
    Update("`$inc`", lambda number: {"$inc": {"age": number}}, "json_set(body, '$.age', json_extract(body, '$.age') + ?)", 1),
    Update("`$push`", lambda number: {"$push": {"tags": number}}, "json_insert(body, '$.tags[#]', ?)", 1),
]
STATEMENTS = 1_000  # in a message


def updated_by_docd(docd, update, count, is_each):
    numbers = iter(range(1_000, 1_000 + measuring.RUNS))

    def run():
        made = update.made(next(numbers))
        one_each = [{"q": {"_id": place}, "u": made} for place in range(count)]
        entries = one_each if is_each else [{"q": {}, "u": made, "multi": True}]
        commands = [{"update": "c", "updates": entries[i:i + STATEMENTS]} for i in range(0, len(entries), STATEMENTS)]
        replies = docd.ask(*commands)
        if sum(reply.get("nModified", 0) for reply in replies) != count:
            sys.exit("bench: %s: docd does not change %d documents: %r" % (update.name, count, replies[0]))
    return run, docd.clock


def updated_by_sqlite(base, update, count, is_each):
    numbers = iter(range(1_000, 1_000 + measuring.RUNS))

    def run():
        values = [next(numbers)] * update.numbers
        if is_each:
            base.executemany("UPDATE c SET body = %s WHERE id = ?" % update.sql, [(*values, place) for place in range(count)])
        else:
            base.execute("UPDATE c SET body = %s" % update.sql, values)
        base.commit()
    return run, time.thread_time


def print_updates(documents, is_each):
    docd, base, count = loaded(documents), loaded_sqlite(documents), len(documents)
    heads("one statement for each" if is_each else "one statement for all", "documents", "milliseconds", "thousands a second",
          "SQLite: thousands a second", "times SQLite")
    for update in UPDATES:
        spent, other = in_turn(updated_by_docd(docd, update, count, is_each), updated_by_sqlite(base, update, count, is_each))
        row(update.name, "%d" % count, "%.1f" % (1e3 * spent), "%.0f" % (count / spent / 1e3), "%.0f" % (count / other / 1e3),
            "%.2f" % (other / spent))
    docd.close()


def main():
    documents = documents_to_find(measuring.count_asked(__doc__))
    print(load())
    print_updates(documents, False)
    print()
    print_updates(documents[:len(documents) // 10], True)


if __name__ == "__main__":
    main()
