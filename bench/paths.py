#!/usr/bin/python3
"""What a path of many components costs in a document that it leads through in very many ways, and how that grows.

Needs what bench/measuring.py says. The document is {"0": [{"0": [..]}]}, 10 to 98 levels deep, and the path is `0` fifty
times. In an array, `0` leads both to the element and to its field `0`, so the number of ways grows as a power of the levels. A
filter tests the leaves at the path, and a sort takes their least key; each reads a value at most once for each component. A time
is that of a find, minus that of a find of the same two documents by a name that they don't have, divided by two. So the program's
start is left out.

    /usr/bin/python3 bench/paths.py
    /usr/bin/python3 bench/paths.py --program crates/docd/out/docd
"""
import sys

from measuring import Docd, heads, inserts, row, seconds, stream_of, take_words

COMPONENTS = 50
FINDS = 2_000
PATH = ".".join(["0"] * COMPONENTS)


def nested(levels):
    """A document of so many levels, which are documents and arrays in turn."""
    value = 1
    for level in range(levels, 1, -1):
        value = [value] if level % 2 == 0 else {"0": value}
    return {"0": value}


def documents(levels):
    return [dict(_id=i, **nested(levels)) for i in (1, 2)]


def check_find():
    """Ends the script if docd's find refuses a filter or a sort by a path."""
    docd = Docd()
    _, reply = docd.ask(*inserts(documents(10)), {"find": "c", "filter": {PATH: 1}, "sort": {PATH: 1}})
    docd.close()
    if reply["ok"] != 1:
        sys.exit("bench: find refuses a filter or a sort by a path: %s" % reply["errmsg"])


def microseconds(levels, **fields):
    stream = stream_of(inserts(documents(levels))) + stream_of([{"find": "c", **fields}]) * FINDS
    return 1e6 * seconds(stream, FINDS + 1) / FINDS


def main():
    take_words(__doc__)
    check_find()
    heads("levels", "microseconds of a filter", "of a sort", "of a filter, a value", "of a sort, a value")
    for levels in (10, 20, 30, 40, 50, 60, 70, 80, 90, 98):
        plain = microseconds(levels, filter={"x": 1})
        filtered = (microseconds(levels, filter={PATH: 2}) - plain) / 2
        ordered = (microseconds(levels, filter={}, sort={PATH: 1}) - microseconds(levels, filter={}, sort={"x": 1})) / 2
        row("%d" % levels, "%.2f" % filtered, "%.2f" % ordered, "%.3f" % (filtered / levels), "%.3f" % (ordered / levels))


if __name__ == "__main__":
    main()
