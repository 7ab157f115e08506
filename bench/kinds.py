#!/usr/bin/python3
"""What reading and writing values of each type costs in docd, compared with another BSON library on the same bytes in the same run.

Needs what bench/measuring.py says. A document has an `_id` and 20 fields of one type. docd reads it in an insert and writes
it in the reply to a find; the times of an insert include storing it. The other library decodes and encodes the same
documents.

    /usr/bin/python3 bench/kinds.py
    /usr/bin/python3 bench/kinds.py --program crates/docd/out/docd
"""
import datetime

import bson
from bson.binary import Binary
from bson.int64 import Int64
from bson.max_key import MaxKey
from bson.min_key import MinKey
from bson.objectid import ObjectId
from bson.timestamp import Timestamp

import measuring
from measuring import ALL, heads, least, row, seconds, stream_of, take_words

DOCUMENTS = 5_000
FIELDS = 20
BATCH = 100

KINDS = {
    "int32": 7,
    "int64": Int64(7),
    "text of 12 bytes": "hello, world",
    "document of one field": {"a": 1},
    "array of two": [1, 2],
    "binary of 12 bytes": Binary(b"hello, world", 0),
    "ObjectId": ObjectId("507f1f77bcf86cd799439011"),
    "boolean": True,
    "date": datetime.datetime(2026, 1, 1),
    "null": None,
    "timestamp": Timestamp(7, 7),
    "MinKey": MinKey(),
    "MaxKey": MaxKey(),
}


def main():
    take_words(__doc__)
    idle = seconds(b"", 0)
    heads("kind", "bytes a document", "nanoseconds a value inserted", "found", "python3-bson decoded", "encoded")
    for name, value in KINDS.items():
        documents = [dict({"_id": i}, **{"f%d" % k: value for k in range(FIELDS)}) for i in range(DOCUMENTS)]
        inserts, find = measuring.inserts(documents, BATCH), {"find": "c", "filter": {}, "batchSize": ALL}
        inserted = seconds(stream_of(inserts), len(inserts)) - idle
        found = seconds(stream_of(inserts + [find]), len(inserts) + 1) - idle - inserted
        bodies = [bson.encode(command) for command in inserts]
        decoded = least(lambda: [bson.decode(body) for body in bodies])
        encoded = least(lambda: [bson.encode(document) for document in documents])
        each = [1e9 * spent / (DOCUMENTS * FIELDS) for spent in (inserted, found, decoded, encoded)]
        row(name, "%d" % len(bson.encode(documents[0])), *("%.0f" % one for one in each))


if __name__ == "__main__":
    main()
