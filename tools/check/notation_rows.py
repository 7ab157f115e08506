#!/usr/bin/python3
"""Checks the notation of `tools/client/notation.py` against texts and values that were written by hand, and that every value, also
of random documents, is read back as it was.

    python3 tools/check/notation_rows.py
"""
import random
import sys

import folders  # noqa: F401
from checking import status_of
from making.values import Values
from model.values import (ARRAY, BINARY, BOOLEAN, DATETIME, DOCUMENT, INT32, INT64, MAX_KEY, MIN_KEY, NULL, OBJECT_ID, TEXT,
                          TIMESTAMP)
from notation import Unfinished, document_of, shown

DOCUMENTS = 2_000
ID = bytes.fromhex("507f1f77bcf86cd799439011")

# A value, how it is printed, and other texts that are read as this value.
ROWS = [
    ((TEXT, b'say "a"\n\0\\'), r'"say \"a\"\n\u0000\\"', r'"say \"a\"\n\0\\"', r'"\u0073ay \"a\"\u000a\u0000\u005c"'),
    ((TEXT, "é😀".encode()), '"é😀"', r'"\u00e9\ud83d\ude00"'),
    ((DOCUMENT, [(b"a", (INT32, 1)), (b"$b_2", (NULL, None))]), "{a: 1, $b_2: null}", '{"a" :1,"$b_2":null}', "{ a:1 , $b_2:null }"),
    ((DOCUMENT, [(b"a.b", (INT32, 1)), (b"0", (INT32, 2)), (b"", (INT32, 3))]), '{"a.b": 1, "0": 2, "": 3}', '{"a.b": 1, 0: 2, "": 3}'),
    ((DOCUMENT, [(b"null", (INT32, 1)), (b"Date", (INT32, 2))]), "{null: 1, Date: 2}"),
    ((DOCUMENT, [(b"$oid", (TEXT, ID.hex().encode()))]), '{$oid: "507f1f77bcf86cd799439011"}'),
    ((ARRAY, [(INT32, 1), (ARRAY, []), (DOCUMENT, [])]), "[1, [], {}]", "[ 1,[ ],{ } ]"),
    ((BOOLEAN, True), "true"),
    ((BOOLEAN, False), "false"),
    ((INT32, -2**31), "-2147483648", '{"$numberInt": "-2147483648"}'),
    ((INT64, 2**31), "2147483648L", "2147483648", '{"$numberLong": "2147483648"}'),
    ((INT64, -2**63), "-9223372036854775808L", "-9223372036854775808"),
    ((INT64, 5), "5L", '{"$numberLong": "5"}'),
    ((BINARY, (0, b"")), 'Binary(0, "")', '{"$binary": {"base64": "", "subType": "00"}}'),
    ((BINARY, (4, bytes(range(16)))), 'Binary(4, "000102030405060708090a0b0c0d0e0f")', '{"$uuid": "00010203-0405-0607-0809-0a0b0c0d0e0f"}'),
    ((BINARY, (255, b"\0\xff")), 'Binary(255, "00ff")', 'Binary(255, "00FF")', '{"$binary": {"subType": "ff", "base64": "AP8="}}'),
    ((OBJECT_ID, ID), 'ObjectId("507f1f77bcf86cd799439011")', '{"$oid": "507F1F77BCF86CD799439011"}'),
    ((DATETIME, 0), 'Date("1970-01-01T00:00:00.000Z")', "Date(0)", '{"$date": "1970-01-01T00:00:00Z"}', '{"$date": {"$numberLong": "0"}}'),
    ((DATETIME, -1), 'Date("1969-12-31T23:59:59.999Z")', 'Date("1970-01-01T00:59:59.999+01:00")'),
    ((DATETIME, 253_402_300_799_999), 'Date("9999-12-31T23:59:59.999Z")', "Date(253402300799999L)"),
    ((DATETIME, 253_402_300_800_000), "Date(253402300800000)"),
    ((DATETIME, -2**63), "Date(-9223372036854775808)"),
    ((NULL, None), "null"),
    ((TIMESTAMP, 1 << 32 | 2), "Timestamp(1, 2)", '{"$timestamp": {"t": 1, "i": 2}}'),
    ((TIMESTAMP, 2**64 - 1), "Timestamp(4294967295, 4294967295)"),
    ((MIN_KEY, None), "MinKey", '{"$minKey": 1}'),
    ((MAX_KEY, None), "MaxKey", '{"$maxKey": 1}'),
]

# Texts that are no document, each with the column and a word of the message.
FAULTS = [
    ("", 1, "begins with {"), ("[1]", 1, "begins with {"), ("find", 1, "begins with {"), ("{a: 1} {b: 2}", 8, "one a line"),
    ("{a: 1", 6, "}"), ("{a: [1", 7, "]"), ('{a: "x', 5, "double quote"), ("{a: 1 b: 2}", 7, "comma"), ("{a: [1,]}", 8, "value is missing"),
    ("{a: 1,}", 7, "name is missing"), ("{a:}", 4, "value is missing"), ("{a.b: 1}", 3, "double quotes"), ("{a: 'x'}", 5, "double quotes"),
    ("{a: x}", 5, "double quotes"), ("{a: 1.5}", 5, "no whole number"), ("{a: 1e3}", 5, "no whole number"), ("{a: 5l}", 5, "5L"),
    ("{a: 9223372036854775808L}", 5, "64 bits"), ("{a: -9223372036854775809}", 5, "64 bits"), (r'{a: "\q"}', 5, "escape"),
    (r'{a: "\ud800"}', 5, "escape"), (r'{"a\0": 1}', 2, "zero byte"), ('{a: ObjectId("50")}', 5, "24"), ("{a: Date()}", 5, "Date("),
    ('{a: Date("2026-11-22")}', 5, "Date("), ('{a: Date("2026-11-22T18:30:15.1234Z")}', 5, "Date("),
    ("{a: Timestamp(1, 4294967296)}", 5, "Timestamp("), ('{a: Binary(256, "")}', 5, "Binary("), ('{a: Binary(0, "0")}', 5, "Binary("),
    ('{a: {"$numberInt": "2147483648"}}', 6, "$numberInt"), ('{a: {"$date": 5}}', 6, "$date"), ("{a: Foo(1)}", 5, "no value"),
    ('{"$oid": "507f1f77bcf86cd799439011"}', 1, "no value of another kind"), ('{a: {"$numberDouble": "1.5"}}', 6, "doesn't have"),
    ('{a: {"$uuid": "00"}}', 6, "$uuid"), ("{'a': 1}", 2, "double quotes"), ('{a: ISODate("2026-11-22")}', 5, "Date("),
    ("{a: new Date()}", 5, "leave new out"), ("{a: NumberLong(5)}", 5, "5L"), ('{a: BinData(0, "AP8=")}', 5, "Binary("),
]

# A command in two lines, with a bar wherever the first one may end.
PARTED = '{|a|: |[|1,| {|"b"|: |Timestamp(|1|, |2|)|,| c: |"x"|}|]|,| d: |5L|'


def read(text):
    (_, value), = document_of("{a: %s}" % text)
    return value


def check_rows(tell):
    for value, printed, *others in ROWS:
        tell(shown(value) == printed, "%r is printed %s" % (value, shown(value)))
        for text in (printed, *others):
            tell(read(text) == value, "%s is read as %r" % (text, read(text)))


def check_faults(tell):
    for text, column, word in FAULTS:
        try:
            told = "nothing: it is read as %s" % shown((DOCUMENT, document_of(text)))
        except ValueError as error:
            told = str(error)
        tell(told.startswith("column %d: " % column) and word in told, "of %s is told: %s" % (text, told))


def check_parted(tell):
    parts = PARTED.split("|")
    for count in range(1, len(parts) + 1):
        text = "".join(parts[:count])
        try:
            told = "nothing: it is read as %s" % shown((DOCUMENT, document_of(text)))
        except Unfinished:
            told = ""
        except ValueError as error:
            told = str(error)
        tell(not told, "of %s, which another line may end, is told: %s" % (text, told))


def check_random(tell):
    for place in range(DOCUMENTS):
        fields = Values(random.Random(place)).fields(8, 0)
        tell(document_of(shown((DOCUMENT, fields))) == fields, "another is read than was printed: " + shown((DOCUMENT, fields)))


if __name__ == "__main__":
    sys.exit(status_of("notation_rows", check_rows, check_faults, check_parted, check_random))
