#!/usr/bin/python3
"""What a live view with a `$push` costs, compared with an aggregate of its pipeline.

Needs what bench/measuring.py says. Documents are in groups of one size, and the view counts the documents of each group and
pushes a number of each. One document's number changes, and the row of its group is read. In the last row of the table, one
statement changes the number of each document of a group, once. Each change of a group's row copies its array. All times are
processor time.

    /usr/bin/python3 bench/pushes.py
    /usr/bin/python3 bench/pushes.py --count 10000 --program crates/docd/out/docd
"""
import sys

import measuring
from measuring import heads, in_turn, load, row

SIZES = 10, 1_000, 100_000  # documents of a group
LARGE = 20_000  # documents of the group that one statement changes
STAGES = [{"$group": {"_id": "$k", "n": {"$sum": 1}, "all": {"$push": "$amount"}}}]


def documents(count, size):
    """`k` is the number of a document's group."""
    return [{"_id": place, "k": place // size, "amount": place} for place in range(count)]


def with_view(count, size):
    docd = measuring.loaded(documents(count, size))
    docd.ask({"create": "v", "viewOn": "c", "pipeline": STAGES})
    return docd


def changing(changed):
    """An update that changes the number of one document, or those of the first group."""
    query, is_multi = ({"_id": 1}, False) if changed == 1 else ({"k": 0}, True)
    return {"update": "c", "updates": [{"q": query, "u": {"$inc": {"amount": 1}}, "multi": is_multi}]}


def once(docd, stream, replies):
    """The processor seconds that the messages take."""
    start = docd.clock()
    docd.send(stream, replies)
    return docd.clock() - start


def compared(docd, changed):
    """The processor seconds of a change with a read of the first group's row, and of an aggregate that computes that row: the
    least of some runs, or those of one run if many documents change."""
    reading = {"find": "v", "limit": 1}
    making = {"aggregate": "c", "pipeline": [*STAGES, {"$limit": 1}], "cursor": {}}
    found, made = docd.ask(reading, making)
    if found["cursor"]["firstBatch"] != made["cursor"]["firstBatch"]:
        sys.exit("bench: the view has other rows than the aggregate")
    kept, anew = measuring.stream_of([changing(changed), reading]), measuring.stream_of([making])
    if changed > 1:
        return once(docd, kept, 2), once(docd, anew, 1)
    return in_turn((lambda: docd.send(kept, 2), docd.clock), (lambda: docd.send(anew, 1), docd.clock))


def main():
    count = measuring.count_asked(__doc__)
    print(load())
    heads("over %d documents" % count, "changed", "view: milliseconds", "aggregate: milliseconds", "times the aggregate")
    large = min(LARGE, count)
    for size, changed, of_all in [*((min(size, count), 1, count) for size in SIZES), (large, large, large)]:
        docd = with_view(of_all, size)
        spent, other = compared(docd, changed)
        row("groups of %d" % size, "%d of %d" % (changed, of_all), "%.2f" % (1e3 * spent), "%.2f" % (1e3 * other),
            "%.2f" % (spent / other))
        docd.close()


if __name__ == "__main__":
    main()
