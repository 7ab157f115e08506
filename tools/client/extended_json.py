"""Values as JSON, and JSON as values, as in MongoDB's Extended JSON.

Whole numbers that fit are int32, others int64; types that JSON lacks are written as MongoDB's drivers write them, relaxed or
canonical:

    {"$numberInt": "5"}  {"$numberLong": "5"}  {"$oid": "24 hexadecimal digits"}
    {"$binary": {"base64": "AP8=", "subType": "00"}}  {"$date": {"$numberLong": "0"}}  {"$date": "1970-01-01T00:00:00.000Z"}
    {"$timestamp": {"t": 1, "i": 2}}  {"$minKey": 1}  {"$maxKey": 1}  null
    {"$uuid": "00112233-4455-6677-8899-aabbccddeeff"}, binary data of subtype 4

Types that docd doesn't have, such as {"$numberDouble": "1.5"}, are refused.

Values are written as JSON with int32 as plain numbers, int64 as $numberLong and datetimes as $date with $numberLong, so that
each type can be seen. `tools/client/notation.py` reads this as text.
"""
import base64
import datetime
import re
import sys
import uuid

if sys.version_info < (3, 10):  # before the first import that an older Python can't run
    sys.exit("this needs Python 3.10 or newer, and runs under %d.%d" % sys.version_info[:2])

from model.values import (ARRAY, BINARY, BOOLEAN, DATETIME, DOCUMENT, INT32, INT64, MAX_KEY, MIN_KEY, NULL,  # noqa: E402
                          NUMBERS, OBJECT_ID, TEXT, TIMESTAMP)

START = datetime.datetime(1970, 1, 1, tzinfo=datetime.timezone.utc)
MILLISECOND = datetime.timedelta(milliseconds=1)


def value_of(held):
    """What JSON holds, as a value of the model."""
    if held is None:
        return NULL, None
    if isinstance(held, bool):
        return BOOLEAN, held
    if isinstance(held, int):
        return integer(held)
    if isinstance(held, str):
        return TEXT, held.encode()
    if isinstance(held, list):
        return ARRAY, [value_of(one) for one in held]
    if isinstance(held, dict):
        return extended([(name.encode(), value_of(one)) for name, one in held.items()])
    raise ValueError("%r is a double, or of another type that docd doesn't have" % (held,))


def integer(number):
    """A number without a mark of its width."""
    if not -2**63 <= number < 2**63:
        raise ValueError("%d has more than 64 bits: write a smaller number" % number)
    return (INT32 if -2**31 <= number < 2**31 else INT64), number


def extended(fields):
    """The value that a document of JSON is: a document, or a value of a type that JSON lacks."""
    names = tuple(name for name, _ in fields)
    if names in LACKING:
        raise ValueError("%s is of a type that docd doesn't have" % names[0].decode())
    if names not in EXTENDED:
        return DOCUMENT, fields
    made, form = EXTENDED[names]
    try:
        return made(fields[0][1])
    except (ValueError, TypeError, KeyError, OverflowError):
        raise ValueError("%s has a wrong value: write %s" % (names[0].decode(), form)) from None


def digits_of(value, bits):
    """The whole number in a text, of at most `bits` bits."""
    number = int(of_kind(value, TEXT))
    if not -2**(bits - 1) <= number < 2**(bits - 1):
        raise ValueError
    return number


def of_kind(value, *kinds):
    kind, held = value
    if kind not in kinds:
        raise TypeError
    return held


def members_of(value, *names):
    """The values of a document that has fields of these names, in any order, and no others."""
    fields = dict(of_kind(value, DOCUMENT))
    if fields.keys() != set(names):
        raise KeyError
    return [fields[name] for name in names]


def date_of(value):
    kind, held = value
    return DATETIME, milliseconds_of(held.decode()) if kind == TEXT else of_kind(value, INT64)


def milliseconds_of(text):
    """The milliseconds since 1970 of a time such as 1970-01-01T00:00:00.000Z."""
    passed = datetime.datetime.fromisoformat(re.sub("Z$", "+00:00", text)) - START
    if passed % MILLISECOND:
        raise ValueError
    return passed // MILLISECOND


def object_id_of(digits):
    if not re.fullmatch("[0-9A-Fa-f]{24}", digits):
        raise ValueError
    return OBJECT_ID, bytes.fromhex(digits)


def binary_of(value):
    data, subtype = (of_kind(one, TEXT).decode() for one in members_of(value, b"base64", b"subType"))
    (number,) = bytes.fromhex(subtype.zfill(2))
    return BINARY, (number, base64.b64decode(data, validate=True))


def timestamp_of(seconds, count):
    """A timestamp of two numbers of 32 bits without a sign."""
    if not all(0 <= one < 2**32 for one in (seconds, count)):
        raise ValueError
    return TIMESTAMP, seconds << 32 | count


# How a document of these names is read, and how it is written.
EXTENDED = {
    (b"$numberInt",): (lambda value: (INT32, digits_of(value, 32)), '{"$numberInt": "5"}'),
    (b"$numberLong",): (lambda value: (INT64, digits_of(value, 64)), '{"$numberLong": "5"}'),
    (b"$oid",): (lambda value: object_id_of(of_kind(value, TEXT).decode()), '{"$oid": "507f1f77bcf86cd799439011"}'),
    (b"$binary",): (binary_of, '{"$binary": {"base64": "AP8=", "subType": "00"}}'),
    (b"$uuid",): (lambda value: (BINARY, (4, uuid.UUID(of_kind(value, TEXT).decode()).bytes)),
                  '{"$uuid": "00112233-4455-6677-8899-aabbccddeeff"}'),
    (b"$date",): (date_of, '{"$date": "1970-01-01T00:00:00.000Z"} or {"$date": {"$numberLong": "0"}}'),
    (b"$timestamp",): (lambda value: timestamp_of(*(of_kind(one, *NUMBERS) for one in members_of(value, b"t", b"i"))),
                       '{"$timestamp": {"t": 1, "i": 2}}'),
    (b"$minKey",): (lambda value: (MIN_KEY, None), '{"$minKey": 1}'),
    (b"$maxKey",): (lambda value: (MAX_KEY, None), '{"$maxKey": 1}'),
}


# The documents of these names stand for values that docd doesn't have.
LACKING = {(b"$numberDouble",), (b"$numberDecimal",), (b"$regularExpression",), (b"$code",), (b"$code", b"$scope"), (b"$symbol",),
           (b"$dbPointer",), (b"$undefined",)}


def json_of(kind, held):
    if kind == DOCUMENT:
        return {name.decode(): json_of(*one) for name, one in held}
    if kind == ARRAY:
        return [json_of(*one) for one in held]
    if kind == INT64:
        return {"$numberLong": str(held)}
    if kind == OBJECT_ID:
        return {"$oid": held.hex()}
    if kind == BINARY:
        return {"$binary": {"base64": base64.b64encode(held[1]).decode(), "subType": "%02x" % held[0]}}
    if kind == DATETIME:
        return {"$date": {"$numberLong": str(held)}}
    if kind == TIMESTAMP:
        return {"$timestamp": {"t": held >> 32, "i": held & 0xFFFFFFFF}}
    if kind in (MIN_KEY, MAX_KEY):
        return {"$minKey" if kind == MIN_KEY else "$maxKey": 1}
    return held.decode() if kind == TEXT else held
