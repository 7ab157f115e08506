"""Values as people write them, and as replies are printed: `{a: 1, b: 2L, "c.d": ["x", null, true]}`.

A plain number is int32, L marks int64. The other types that JSON lacks are written

    ObjectId("507f1f77bcf86cd799439011")   Date("2026-11-22T18:30:15.123Z")   Timestamp(1, 2)   Binary(0, "00ff")
    MinKey   MaxKey

A date may also be a number of milliseconds since 1970, and is printed as one outside the years 1 to 9999. A timestamp has its
seconds and its count, binary data its subtype and its bytes in hexadecimal digits. A name is written without quotes if it is a
word of letters, digits, `_` and `$`; in JSON, which is read as well, it has them. Texts have the escapes of JSON, and `\\0`. A
plain number that doesn't fit 32 bits is read as int64.

A document all of whose names have quotes is read as in extended JSON (tools/client/extended_json.py): {"$oid": ".."} is an ObjectId,
and {$oid: ".."} a document.
"""
import json
import re

from extended_json import MILLISECOND, START, extended, milliseconds_of, object_id_of, timestamp_of
from model.values import (ARRAY, BINARY, BOOLEAN, DATETIME, DOCUMENT, INT32, INT64, MAX_KEY, MIN_KEY, NULL, NUMBERS, OBJECT_ID,
                          TEXT, TIMESTAMP)

SPACE = re.compile(r"\s*")
QUOTED = re.compile(r'"(?:[^"\\]|\\.)*"', re.S)
NUMBER = re.compile(r"-?[0-9.][0-9A-Za-z_.+-]*")
WHOLE = re.compile(r"(-?[0-9]+)(L?)")
WORD = re.compile(r"[$_A-Za-z][$_A-Za-z0-9]*")
DIGITS = re.compile(r"[0-9]+")
ESCAPE = re.compile(r"\\(.)", re.S)
WORDS = {"true": (BOOLEAN, True), "false": (BOOLEAN, False), "null": (NULL, None), "MinKey": (MIN_KEY, None),
         "MaxKey": (MAX_KEY, None)}


def object_id(digits):
    return object_id_of(text_of(digits))


def date(time):
    return DATETIME, time[1] if time[0] in NUMBERS else milliseconds_of(text_of(time))


def timestamp(seconds, count):
    return timestamp_of(number_of(seconds), number_of(count))


def binary(subtype, digits):
    (number,) = bytes([number_of(subtype)])
    return BINARY, (number, bytes.fromhex(text_of(digits)))


def text_of(value):
    kind, held = value
    if kind != TEXT:
        raise TypeError
    return held.decode()


def number_of(value):
    kind, held = value
    if kind not in NUMBERS:
        raise TypeError
    return held


# The types that are written with brackets: how they are read, and the message if they can't be.
CALLS = {
    "ObjectId": (object_id, 'write an ObjectId with 24 hexadecimal digits: ObjectId("507f1f77bcf86cd799439011")'),
    "Date": (date, 'write a date as Date("2026-11-22T18:30:15.123Z"), or with its milliseconds since 1970: Date(0)'),
    "Timestamp": (timestamp, "write a timestamp with its seconds and its count: Timestamp(1, 2)"),
    "Binary": (binary, 'write binary data with their subtype and pairs of hexadecimal digits: Binary(0, "00ff")'),
}
# The messages for words of MongoDB's shell.
FOREIGN = {
    "new": "leave new out", "ISODate": CALLS["Date"][1], "BinData": CALLS["Binary"][1], "UUID": CALLS["Binary"][1],
    **dict.fromkeys(["NumberInt", "NumberLong", "NumberDecimal", "Int32", "Long", "Double", "Decimal128"],
                    "docd has only whole numbers: write 5 (32 bits) or 5L (64 bits)"),
}


class Unfinished(ValueError):
    """A text ends inside a value."""


class Reader:
    """Reads values one after the other. The error for what it can't read has the column, and says what to write."""

    def __init__(self, text):
        self.text, self.at = text, 0
        self.match(SPACE)

    def has(self):
        return self.at < len(self.text)

    def match(self, form):
        """The text here that has this form, empty if there is none. It is taken, with the space after it."""
        found = form.match(self.text, self.at)
        if not found:
            return ""
        self.at = SPACE.match(self.text, found.end()).end()
        return found[0]

    def takes(self, sign):
        if not self.text.startswith(sign, self.at):
            return False
        self.at = SPACE.match(self.text, self.at + 1).end()
        return True

    def fail(self, told, at=None, kind=ValueError):
        raise kind("column %d: %s" % ((self.at if at is None else at) + 1, told))

    def lacks(self, told):
        """Fails because something is missing here; if the text ends here, another line may have it."""
        self.fail(told, kind=ValueError if self.has() else Unfinished)

    def value(self):
        start = self.at
        if self.takes("{"):
            return self.document()
        if self.takes("["):
            return ARRAY, self.members("]", self.value)
        if self.text.startswith('"', start):
            return TEXT, self.quoted()
        if digits := self.match(NUMBER):
            return self.number(digits, start)
        word = self.match(WORD)
        if word in WORDS:
            return WORDS[word]
        if word in CALLS and self.takes("("):
            return self.call(word, start)
        if word:
            self.fail(FOREIGN.get(word, "`%s` is no value: write a string in double quotes" % word), start)
        if self.text.startswith("'", start):
            self.fail("write a string in double quotes")
        return self.lacks("a value is missing: a number, a string in double quotes, {..}, [..], true, false or null")

    def number(self, digits, start):
        form = WHOLE.fullmatch(digits)
        if not form:
            self.fail("%s is no whole number, and docd has only whole numbers: write 5 or 5L" % digits, start)
        number = int(form[1])
        if not -2**63 <= number < 2**63:
            self.fail("%s has more than 64 bits: write a smaller number" % digits, start)
        return INT64 if form[2] or not -2**31 <= number < 2**31 else INT32, number

    def quoted(self):
        """The bytes of a text in quotes."""
        start, written = self.at, self.match(QUOTED)
        if not written:
            self.fail("this string has no end: write a double quote after it")
        try:
            return json.loads(ESCAPE.sub(lambda one: "\\u0000" if one[1] == "0" else one[0], written), strict=False).encode()
        except ValueError:
            return self.fail('%s has a wrong escape: write one of \\" \\\\ \\/ \\b \\f \\n \\r \\t \\0 and \\u00e9' % written, start)

    def members(self, closing, one):
        found = []
        while not self.takes(closing):
            if not self.has():
                self.lacks("a %s is missing at the end of the line" % closing)
            if found and not self.takes(","):
                self.fail("a comma is missing, or a %s" % closing)
            if found and self.text.startswith(closing, self.at):
                wanted = "name" if closing == "}" else "value"
                self.fail("a %s is missing after the comma: write no comma after the last one" % wanted)
            found.append(one())
        return found

    def document(self):
        start, fields = self.at, self.members("}", self.field)
        if not all(is_quoted for is_quoted, _, _ in fields):
            return DOCUMENT, [(name, value) for _, name, value in fields]
        try:
            return extended([(name, value) for _, name, value in fields])
        except ValueError as error:
            return self.fail(error, start)

    def field(self):
        """Whether a name has quotes, the name, and its value."""
        start, is_quoted = self.at, self.text.startswith('"', self.at)
        name = self.quoted() if is_quoted else (self.match(WORD) or self.match(DIGITS)).encode()
        if not is_quoted and not name:
            self.lacks("a name is missing: write {name: value}, or the name in double quotes")
        if b"\0" in name:
            self.fail("a name can't have a zero byte", start)
        if not self.takes(":"):
            self.lacks("a colon is missing after the name; write a name that is more than a word in double quotes")
        return is_quoted, name, self.value()

    def call(self, word, start):
        (made, form), given = CALLS[word], self.members(")", self.value)
        try:
            return made(*given)
        except (ValueError, TypeError, OverflowError):
            return self.fail(form, start)


class TableReader(Reader):
    """Reads values of a table of examples, where commas may be left out."""

    def members(self, closing, one):
        return self.until(lambda: self.takes(closing), one)

    def values(self):
        return self.until(lambda: not self.has(), self.value)

    def until(self, has_ended, one):
        found = []
        while not has_ended():
            found.append(one())
            self.takes(",")
        return found


def values(text):
    """The values of a text in a table of examples."""
    return TableReader(text).values()


def fields_of(text):
    """The fields of the one document that a text in a table of examples is."""
    (kind, fields), = values(text)
    if kind != DOCUMENT:
        raise ValueError("no document: " + text)
    return fields


def document_of(text):
    """The fields of the one document that a line is."""
    reader = Reader(text)
    if not text.lstrip().startswith("{"):
        reader.fail("a document begins with {: write {name: value, ..}")
    try:
        kind, fields = reader.value()
    except RecursionError:
        reader.fail("this is nested too deep: a document has at most 100 levels")
    if reader.has():
        reader.fail("the document has ended here: write one a line")
    if kind != DOCUMENT:
        raise ValueError("column 1: this has to be a document, and no value of another kind: write {name: value, ..}")
    return fields


def shown(value):
    """A value as a text that is read as that value."""
    kind, held = value
    if kind == DOCUMENT:
        return "{%s}" % ", ".join("%s: %s" % (shown_name(name), shown(one)) for name, one in held)
    if kind == ARRAY:
        return "[%s]" % ", ".join(map(shown, held))
    if kind == TEXT:
        return quotes(held)
    if kind in NUMBERS:
        return "%d" % held if kind == INT32 else "%dL" % held
    if kind == DATETIME:
        return "Date(%s)" % shown_time(held)
    if kind == TIMESTAMP:
        return "Timestamp(%d, %d)" % (held >> 32, held & 0xFFFFFFFF)
    if kind == BINARY:
        return 'Binary(%d, "%s")' % (held[0], held[1].hex())
    if kind == OBJECT_ID:
        return 'ObjectId("%s")' % held.hex()
    return next(word for word, one in WORDS.items() if one == (kind, held))


def shown_name(name):
    text = name.decode()
    return text if WORD.fullmatch(text) else quotes(name)


def quotes(held):
    return json.dumps(held.decode(), ensure_ascii=False)


def shown_time(milliseconds):
    try:
        time = (START + milliseconds * MILLISECOND).isoformat(timespec="milliseconds")
    except OverflowError:
        return "%d" % milliseconds
    return '"%s"' % time.replace("+00:00", "Z")
