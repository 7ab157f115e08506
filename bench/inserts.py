#!/usr/bin/python3
"""What inserts, finds and pings cost in docd, and how that grows, compared with another BSON library on the same bytes.

Needs what bench/measuring.py says. Inputs are seeded, so that runs can be compared. The program's start is left out.

    /usr/bin/python3 bench/inserts.py
    /usr/bin/python3 bench/inserts.py --count 10000 --program crates/docd/out/docd
"""
import random

import bson
from bson.int64 import Int64

import measuring
from measuring import ALL, WORDS, count_asked, heads, least, load, person, row, seconds, stream_of

MOST_BYTES = 16_777_216  # of the documents in one answer


def document(rng, identity):
    """A document of ten fields and some 200 bytes."""
    return {
        **person(rng, identity),
        "address": {"street": rng.choice(WORDS), "number": rng.randrange(200)},
        "score": rng.randrange(10**6),
        "note": " ".join(rng.choices(WORDS, k=4)),
    }


def documents(count, is_shuffled):
    rng = random.Random(count)
    identities = list(range(count))
    if is_shuffled:
        rng.shuffle(identities)
    return [document(rng, identity) for identity in identities]


def store(bodies):
    """Decodes the messages with another library, and puts their documents into a dict."""
    collection = {}
    for body in bodies:
        for one in bson.decode(body)["documents"]:
            collection.setdefault(one["_id"], one)


def rates(count, size, spent):
    """Thousands of documents and megabytes a second."""
    return "%.0f" % (count / spent / 1e3), "%.1f" % (size / spent / 1e6)


def print_inserts(sizes):
    idle = seconds(b"", 0)
    heads("documents", "in a message", "order of `_id`", "MB", "seconds", "thousands a second", "MB a second",
          "python3-bson and a dict: thousands a second", "MB a second")
    for batch in (100, 1):
        for is_shuffled in (False, True):
            for count in sizes:
                found = documents(count, is_shuffled)
                size = sum(len(bson.encode(one)) for one in found)
                commands = measuring.inserts(found, batch)
                spent = seconds(stream_of(commands), len(commands)) - idle
                bodies = [bson.encode(command) for command in commands]
                other = least(lambda: store(bodies))
                row("%d" % count, "%d" % batch, "shuffled" if is_shuffled else "ascending", "%.2f" % (size / 1e6),
                    "%.3f" % spent, *rates(count, size, spent), *rates(count, size, other))


def fitting(found):
    """As many documents as one answer may have."""
    size = 0
    for place, one in enumerate(found):
        size += len(bson.encode(one))
        if size > MOST_BYTES:
            return found[:place]
    return found


def print_finds(sizes):
    heads("documents found", "MB", "milliseconds a find", "thousands a second", "MB a second",
          "python3-bson, encoding the answer: thousands a second", "MB a second")
    for count in sizes:
        found = fitting(documents(count, True))
        found_in_order = sorted(found, key=lambda one: one["_id"])
        size = sum(len(bson.encode(one)) for one in found)
        commands, find = measuring.inserts(found, 100), {"find": "c", "batchSize": ALL}
        times = max(2, sizes[-1] // count)
        before = seconds(stream_of(commands), len(commands))
        spent = (seconds(stream_of(commands + [find] * times), len(commands) + times) - before) / times
        answer = {"cursor": {"firstBatch": found_in_order, "id": Int64(0), "ns": "t.c"}, "ok": 1}
        other = least(lambda: bson.encode(answer))
        row("%d" % len(found), "%.2f" % (size / 1e6), "%.2f" % (1e3 * spent), *rates(len(found), size, spent),
            *rates(len(found), size, other))
    print()
    print("One answer has at most %d bytes of documents, so the last row has as many as fit." % MOST_BYTES)


def print_pings(sizes):
    idle = seconds(b"", 0)
    heads("pings", "seconds", "microseconds each")
    for count in sizes:
        spent = seconds(stream_of([{"ping": 1}] * count), count) - idle
        row("%d" % count, "%.3f" % spent, "%.2f" % (1e6 * spent / count))


def main():
    most = count_asked(__doc__)
    sizes = [most // 100, most // 10, most]
    print(load())
    print_inserts(sizes)
    print()
    print_finds(sizes)
    print()
    print_pings(sizes)


if __name__ == "__main__":
    main()
