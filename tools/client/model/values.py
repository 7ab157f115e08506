"""Values, their bytes and their order, as in BSON 1.1 and MongoDB's comparison order, as far as docd has them.

A value is a pair of its type byte and what it holds: a number (also of a datetime or a timestamp), a boolean, the bytes
of a text or an ObjectId, a binary's pair of subtype and bytes, a document's list of fields (pairs of a name's bytes and a
value), an array's list of values, or nothing.
"""
import struct

TEXT, DOCUMENT, ARRAY, BOOLEAN, INT32, INT64 = 0x02, 0x03, 0x04, 0x08, 0x10, 0x12
BINARY, OBJECT_ID, DATETIME, NULL, TIMESTAMP, MIN_KEY, MAX_KEY = 0x05, 0x07, 0x09, 0x0A, 0x11, 0xFF, 0x7F
KINDS = {TEXT, DOCUMENT, ARRAY, BOOLEAN, INT32, INT64, BINARY, OBJECT_ID, DATETIME, NULL, TIMESTAMP, MIN_KEY, MAX_KEY}
NUMBERS = (INT32, INT64)
MOST_BYTES = 16_777_216  # of a document that is read or stored, and of the documents of one answer
MOST_LEVELS = 100


class BsonFault(Exception):
    """The first fault of a document's bytes from the left, as a text."""


def read_document(data):
    """The fields of the one document that the bytes are. Its length is known to be the number of bytes."""
    length = int32(data, 0)
    if length > MOST_BYTES:
        raise BsonFault(b"TooLarge")
    return read_fields(data, 0, length, 1, is_array=False)


def int32(data, at):
    return struct.unpack_from("<i", data, at)[0]


def read_fields(data, start, end, level, is_array):
    """The fields between a document's length, which was checked, and its closing zero."""
    at, last, fields, names = start + 4, end - 1, [], set()
    while at < last or data[last] != 0:
        kind = data[at]
        if kind == 0:
            raise BsonFault(b"BadLength")
        if kind not in KINDS:
            raise BsonFault(b"RefusedType 0x%02x at %d" % (kind, at))
        zero = data.find(0, at + 1, last)
        if zero < 0:
            raise BsonFault(b"BadLength")
        name = utf8(data[at + 1:zero])
        if is_array and name != b"%d" % len(fields):
            raise BsonFault(b"BadArrayName")
        if name in names:
            raise BsonFault(b"RepeatedName")
        names.add(name)
        value, at = read_value(data, kind, zero + 1, last, level)
        fields.append((name, value))
    return fields


# How many bytes a value has, if that is fixed, and how `struct` reads it.
SIZES = {BOOLEAN: 1, OBJECT_ID: 12, DATETIME: 8, INT64: 8, TIMESTAMP: 8, NULL: 0, MIN_KEY: 0, MAX_KEY: 0}
FORMS = {INT32: "<i", DATETIME: "<q", INT64: "<q", TIMESTAMP: "<Q"}


def read_value(data, kind, at, last, level):
    """The value of this type at a place, and where it ends, at most at its document's closing zero."""
    end = at + SIZES.get(kind, 4)
    if end > last:
        raise BsonFault(b"BadLength")
    if kind == BOOLEAN:
        if data[at] > 1:
            raise BsonFault(b"BadBool")
        return (BOOLEAN, data[at] == 1), end
    if kind in FORMS:
        return (kind, struct.unpack_from(FORMS[kind], data, at)[0]), end
    if kind in SIZES:
        return (kind, data[at:end] if kind == OBJECT_ID else None), end
    if kind == TEXT:
        return read_text(data, at, last)
    if kind == BINARY:
        return read_binary(data, at, last)
    end = at + int32(data, at)
    if end < at + 5 or end > last:
        raise BsonFault(b"BadLength")
    if level == MOST_LEVELS:
        raise BsonFault(b"TooDeep")
    fields = read_fields(data, at, end, level + 1, kind == ARRAY)
    return (kind, [value for _, value in fields] if kind == ARRAY else fields), end


def read_text(data, at, last):
    count = int32(data, at)
    end = at + 4 + count
    if count < 1 or end > last or data[end - 1] != 0:
        raise BsonFault(b"BadLength")
    return (TEXT, utf8(data[at + 4:end - 1])), end


def read_binary(data, at, last):
    count = int32(data, at)
    end = at + 5 + count
    if count < 0 or end > last:
        raise BsonFault(b"BadLength")
    return (BINARY, (data[at + 4], data[at + 5:end])), end


def utf8(text):
    try:
        text.decode("utf-8")
    except UnicodeDecodeError:
        raise BsonFault(b"BadUtf8") from None
    return text


def spelling(fields):
    """The bytes of a document."""
    body = b"".join(b"%c%s\0%s" % (kind, name, payload(kind, held)) for name, (kind, held) in fields)
    return struct.pack("<i", len(body) + 5) + body + b"\0"


def payload(kind, held):
    """The bytes of a value after its name."""
    if kind == TEXT:
        return struct.pack("<i", len(held) + 1) + held + b"\0"
    if kind == DOCUMENT:
        return spelling(held)
    if kind == ARRAY:
        return spelling([(b"%d" % i, value) for i, value in enumerate(held)])
    if kind == BINARY:
        return struct.pack("<iB", len(held[1]), held[0]) + held[1]
    if kind in (NULL, MIN_KEY, MAX_KEY):
        return b""
    return held if kind == OBJECT_ID else struct.pack("<?" if kind == BOOLEAN else FORMS[kind], held)


def size(fields):
    """How many bytes a document's encoding has."""
    return len(spelling(fields))


def levels(kind, held):
    """How many levels of documents and arrays a value has: a document of plain values has one."""
    if kind == DOCUMENT:
        return 1 + max((levels(*value) for _, value in held), default=0)
    return 1 + max((levels(*value) for value in held), default=0) if kind == ARRAY else 0


def fits(document):
    return size(document) <= MOST_BYTES and levels(DOCUMENT, document) <= MOST_LEVELS


# From low to high; both widths of integers are one class.
CLASSES = [MIN_KEY, NULL, INT32, TEXT, DOCUMENT, ARRAY, BINARY, OBJECT_ID, BOOLEAN, DATETIME, TIMESTAMP, MAX_KEY]
RANKS = {kind: rank for rank, kind in enumerate(CLASSES)} | {INT64: CLASSES.index(INT32)}

# A key that no value has, between those of MinKey and null.
NO_ELEMENT = 0.5, None


def key(value):
    """Equal for values that differ only in the width of integers; keys compare as their values."""
    kind, held = value
    rank = RANKS[kind]
    if kind == DOCUMENT:
        inner = [(name, key(one)) for name, one in held]
        return rank, tuple((rank, name, one) for name, (rank, one) in inner)
    if kind == ARRAY:
        return rank, tuple(key(one) for one in held)
    if kind == BINARY:
        return rank, (len(held[1]), *held)
    return rank, held


def begins_with_operator(fields):
    """Whether a document's first name begins with a dollar sign."""
    return bool(fields) and fields[0][0].startswith(b"$")


def is_storable(fields):
    """Whether no top-level name begins with a dollar sign, and none at any level has a dot."""
    return not any(name.startswith(b"$") for name, _ in fields) and not has_dotted_name(DOCUMENT, fields)


def has_dotted_name(kind, held):
    """Whether a value has a name with a dot, at any level."""
    if kind == DOCUMENT:
        return any(b"." in name or has_dotted_name(*inner) for name, inner in held)
    return kind == ARRAY and any(has_dotted_name(*inner) for inner in held)
