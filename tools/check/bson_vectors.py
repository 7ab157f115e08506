#!/usr/bin/python3
"""Prints crates/dv_tests_values/src/bson/vectors.rt: the bytes that another library writes for documents, and
what these documents are. A test in that crate compares the bytes with those that dv_bson writes.

The bytes come from the BSON library of Debian's package python3-bson (`apt-get install python3-bson`, run with
/usr/bin/python3). The text next to them shows the values that it was given: plain numbers are int32, L marks int64.

    /usr/bin/python3 tools/check/bson_vectors.py > crates/dv_tests_values/src/bson/vectors.rt
"""
import datetime
import struct
import sys

import bson
from bson.binary import Binary
from bson.int64 import Int64
from bson.max_key import MaxKey
from bson.min_key import MinKey
from bson.objectid import ObjectId
from bson.timestamp import Timestamp

EPOCH = datetime.datetime(1970, 1, 1)
ID = ObjectId("507f1f77bcf86cd799439011")

DOCUMENTS = [
    {},
    {"hello": "world"},
    {"": ""},
    {"a": 0},
    {"a": 1, "b": -1},
    {"least": -2147483648, "greatest": 2147483647},
    {"a": Int64(0)},
    {"a": Int64(1), "b": Int64(-1)},
    {"least": Int64(-9223372036854775808), "greatest": Int64(9223372036854775807)},
    {"above": Int64(2147483648), "below": Int64(-2147483649)},
    {"yes": True, "no": False},
    {"text": "a\0b"},
    {"text": "\0"},
    {"ä": "é€😀"},
    {"long": "x" * 300},
    {"a" * 16: 1, "a" * 17: 2, "é" * 8: 3},
    {"a.b": 1, "$c": 2},
    {"0": 1, "1": 2},
    {"b": 1, "a": 2},
    {"d": {}},
    {"d": {"d": {"d": {}}}},
    {"a": []},
    {"a": [[]]},
    {"a": [1, Int64(2), "three", True, {"four": 4}, [5]]},
    {"a": list(range(12))},
    {"a": [{}, {}, {}]},
    {"a": [False] * 101},
    {"_id": 1, "name": "Ada", "tags": ["x", "y"], "address": {"street": "Main", "number": 12}},
    {"_id": Int64(7), "n": {"m": [{"k": Int64(8)}, {"k": 9}]}},
    {"ping": 1, "$db": "t"},
    {"find": "c", "filter": {}, "$db": "t"},
    {"insert": "c", "documents": [{"_id": 1}, {"_id": 2, "v": "two"}], "ordered": False, "$db": "t"},
    {"cursor": {"firstBatch": [{"_id": 1}], "id": Int64(0), "ns": "t.c"}, "ok": 1},
    {chr(ord("a") + i): i for i in range(26)},
    {"n%d" % i: Int64(i) for i in range(40)},
    {"nothing": None},
    {"a": [None, None]},
    {"": None},
    {"id": ID},
    {"_id": ObjectId("000000000000000000000000")},
    {"_id": ObjectId("ffffffffffffffffffffffff"), "of": [ID, ID]},
    {"b": Binary(b"")},
    {"b": Binary(b"\0")},
    {"b": Binary(b"\x01\x02\xff", 0)},
    {"b": Binary(b"function", 1)},
    {"b": Binary(b"old", 2)},
    {"b": Binary(b"", 2)},
    {"b": Binary(bytes(range(16)), 3)},
    {"b": Binary(bytes(range(16)), 4)},
    {"b": Binary(bytes(16), 5)},
    {"b": Binary(b"\xc3\x28", 6)},
    {"b": Binary(b"user", 128)},
    {"b": Binary(b"user", 254)},
    {"b": Binary(bytes(range(256)), 0), "c": Binary(b"c", 9)},
    {"at": EPOCH},
    {"at": datetime.datetime(2026, 11, 22, 18, 30, 15, 123000)},
    {"at": datetime.datetime(1969, 12, 31, 23, 59, 59, 999000)},
    {"first": datetime.datetime(1, 1, 1), "last": datetime.datetime(9999, 12, 31, 23, 59, 59, 999000)},
    {"time": Timestamp(0, 0)},
    {"time": Timestamp(0, 1), "next": Timestamp(1, 0)},
    {"time": Timestamp(4294967295, 4294967295)},
    {"time": Timestamp(2147483648, 2147483647)},
    {"least": MinKey()},
    {"greatest": MaxKey()},
    {"bounds": [MinKey(), MaxKey(), None]},
    {"a": [1, Int64(2), "3", {}, [], Binary(b"b", 7), ID, True, EPOCH, None, Timestamp(1, 2), MinKey(), MaxKey()]},
    {"_id": ID, "made": datetime.datetime(2020, 2, 29), "d": {"n": None, "b": Binary(b"\0\0", 128), "t": Timestamp(3, 4)}},
    {"delete": "c", "deletes": [{"q": {"_id": ID}, "limit": 1}], "lsid": {"id": Binary(bytes(range(16)), 4)}, "$db": "t"},
]


def shown(value):
    if isinstance(value, dict):
        return "{%s}" % ", ".join("%s: %s" % (name, shown(v)) for name, v in value.items())
    if isinstance(value, list):
        return "[%s]" % ", ".join(shown(v) for v in value)
    if isinstance(value, bool):
        return "true" if value else "false"
    if isinstance(value, Int64):
        return "%dL" % value
    if isinstance(value, int):
        return "%d" % value
    if value is None:
        return "null"
    if isinstance(value, ObjectId):
        return "id x%s" % value
    if isinstance(value, Binary):
        # The old subtype 2 has a length of its own before its bytes.
        own = struct.pack("<i", len(value)) + value if value.subtype == 2 else value
        return "binary %d x%s" % (value.subtype, own.hex())
    if isinstance(value, bytes):
        return "binary 0 x%s" % value.hex()
    if isinstance(value, datetime.datetime):
        return "date %d" % ((value - EPOCH) // datetime.timedelta(milliseconds=1))
    if isinstance(value, Timestamp):
        return "timestamp %d" % (value.time << 32 | value.inc)
    if isinstance(value, MinKey):
        return "least"
    if isinstance(value, MaxKey):
        return "greatest"
    return "'%s'" % value


def escaped(data):
    """A literal's text: plain characters as they are, other bytes as escapes."""
    return "".join(chr(b) if 32 <= b < 127 and chr(b) not in '"\\' else "\\x%02x" % b for b in data)


def escaped_text(text):
    return "".join(c if ord(c) >= 32 and c not in '"\\' else "\\x%02x" % ord(c) for c in text)


def main():
    print("//! Made by `tools/check/bson_vectors.py` with the BSON library of Debian's package python3-bson.")
    print()
    print("/// Documents as their bytes and as text.")
    print("#[rattlefmt::skip]")
    print("pub static VECTORS: [(&[u8], &str); %d] = [" % len(DOCUMENTS))
    for document in DOCUMENTS:
        print('    (b"%s", "%s"),' % (escaped(bson.BSON.encode(document)), escaped_text(shown(document))))
    print("];")


if __name__ == "__main__":
    sys.exit(main())
