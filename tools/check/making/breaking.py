"""Breaks messages: where their parts are, and what can be wrong with each."""
import struct
from collections import namedtuple

from model.messages import BODY, Closing, take_message
from model.values import ARRAY, BINARY, BsonFault, DOCUMENT, KINDS, SIZES, TEXT, int32, read_document

# The place of a length, and where the bytes that it counts start and end.
Length = namedtuple("Length", "at start end")

STRANGE = [b"\0", b"\xff", b"\0\0\0\0", b"\xff\xff\xff\x7f", b"\5\0\0\0\0", b"\x10a\0\1\0\0\0", b"\2", b"a\0"]
NUMBERS = [0, -1, 1, 4, 5, 16_777_216, 16_777_217, 2**31 - 1, -2**31]
WRONG_UTF8 = [b"\xff", b"\xc0\x80", b"\xed\xa0\x80", b"\xf4\x90\x80\x80", b"\xe2\x82", b"\x80", b"\xf0\x80\x80\x80", b"\xc3"]
RIGHT_UTF8 = ["é".encode(), "€".encode(), "😀".encode(), b"\xf4\x8f\xbf\xbf", b"\xef\xbf\xbf", b"\x7f"]


class Parts:
    """Where the parts of a message are; a message that isn't right has none. The outer lengths are those of the message, its lists
    and the documents that are no values. If one of these is wrong, the session is closed."""

    def __init__(self, data):
        self.data, self.lengths, self.outer = data, [], []
        self.spans = {"section": [], "type": [], "name": [], "text": [], "document": [], "value": []}
        if is_right(data):
            self.outer.append(Length(0, 0, len(data)))
            self.sections()

    def sections(self):
        at = 20
        while at < len(self.data):
            self.spans["section"].append((at, at + 1))
            if self.data[at] == BODY:
                at = self.outer_document(at + 1)
                continue
            end = at + 1 + int32(self.data, at + 1)
            self.outer.append(Length(at + 1, at + 1, end))
            at = self.name(at + 5)
            while at < end:
                at = self.outer_document(at)

    def name(self, at):
        zero = self.data.index(0, at)
        self.spans["name"].append((at, zero))
        return zero + 1

    def outer_document(self, start):
        end = start + int32(self.data, start)
        self.outer.append(Length(start, start, end))
        return self.fields(start, end)

    def document(self, start):
        end = start + int32(self.data, start)
        self.lengths.append(Length(start, start, end))
        self.spans["document"].append((start, end))
        return self.fields(start, end)

    def fields(self, start, end):
        at = start + 4
        while at < end - 1:
            field = at
            self.spans["type"].append((at, at + 1))
            at = self.value(self.data[at], self.name(at + 1))
            self.spans["value"].append((field, at))
        return end

    def value(self, kind, at):
        if kind in (DOCUMENT, ARRAY):
            return self.document(at)
        if kind not in (TEXT, BINARY):
            return at + SIZES.get(kind, 4)
        start = at + (4 if kind == TEXT else 5)
        end = start + int32(self.data, at)
        self.lengths.append(Length(at, start, end))
        if kind == TEXT:
            self.spans["text"].append((start, end - 1))
        return end


def is_right(data):
    """Whether the bytes are one message whose documents are right."""
    try:
        length, _, _, sections = take_message(data) or (0, 0, 0, [])
        for _, documents in sections:
            for one in documents:
                read_document(one)
        return length == len(data)
    except (BsonFault, Closing):
        return False


class Breaker:
    """Breaks messages."""

    def __init__(self, rng):
        self.rng, self.latest = rng, b""
        self.ways = [self.changed, self.cut, self.repeated, self.swapped, self.put_in, self.moved, self.wrong_length,
                     self.wrong_type, self.wrong_name, self.wrong_text, self.wrong_zero]
        self.closing = [self.wrong_header, self.wrong_section, self.joined]

    def broken(self, data):
        """The message, broken in one way or in several."""
        for _ in range(self.rng.choice([1, 1, 1, 2, 3])):
            ways = self.closing if self.rng.random() < 0.01 else self.ways
            data = self.rng.choice(ways)(Parts(data)) or data
        self.latest = data
        return data

    def replaced(self, parts, start, end, new):
        """The message with other bytes in one place. Mostly the lengths around it are corrected, sometimes only the outer ones."""
        data, grown = bytearray(parts.data), len(new) - (end - start)
        data[start:end] = new
        how = self.rng.random()
        if not parts.outer and how < 0.98 and len(data) >= 4:
            return struct.pack("<i", len(data)) + data[4:]
        for one in parts.outer * (how < 0.98) + parts.lengths * (how < 0.75):
            if one.start <= start and end <= one.end and (one.at + 4 <= start or end <= one.at):
                at = one.at + (grown if one.at >= end else 0)
                data[at:at + 4] = struct.pack("<i", int32(data, at) + grown)
        return bytes(data)

    def span(self, parts):
        """Where some bytes after the header are: a field, a document, a text, a name, or any bytes."""
        spans = parts.spans[self.rng.choice(["value", "value", "document", "text", "name"])]
        if spans and self.rng.random() < 0.7:
            return self.rng.choice(spans)
        start = self.rng.randrange(min(20, len(parts.data)), len(parts.data) + 1)
        return start, min(len(parts.data), start + self.rng.choice([0, 1, 1, 2, 4, 5, 8, 30]))

    def some(self):
        """Some strange bytes, or random ones."""
        return self.rng.choice([*STRANGE, self.rng.randbytes(self.rng.randrange(1, 20))])

    def changed(self, parts):
        front = 20 if self.rng.random() < 0.1 else 26
        if len(parts.data) <= front:
            return None
        at = self.rng.randrange(front, len(parts.data))
        old = parts.data[at]
        new = self.rng.choice([0, 1, 0x7f, 0x80, 0xff, old ^ 1 << self.rng.randrange(8), self.rng.randrange(256)])
        return parts.data[:at] + bytes([new]) + parts.data[at + 1:]

    def cut(self, parts):
        return self.replaced(parts, *self.span(parts), b"")

    def repeated(self, parts):
        start, end = self.span(parts)
        return self.replaced(parts, end, end, parts.data[start:end] * self.rng.choice([1, 1, 2, 30]))

    def put_in(self, parts):
        start, end = self.span(parts)
        return self.replaced(parts, start, self.rng.choice([start, end]), self.some())

    def moved(self, parts):
        """A part of this message, or of the one before, in place of another part."""
        other = Parts(self.rng.choice([parts.data, self.latest]))
        if len(other.data) < 20:
            return None
        start, end = self.span(other)
        return self.replaced(parts, *self.span(parts), other.data[start:end])

    def swapped(self, parts):
        """Two parts that don't overlap change places."""
        (start, end), (first, last) = sorted([self.span(parts), self.span(parts)])
        if end > first:
            return None
        data = parts.data
        return self.replaced(parts, start, last, data[first:last] + data[end:first] + data[start:end])

    def wrong_length(self, parts):
        """A length of a document, a list, a text or binary data, mostly within a document."""
        lengths = parts.outer[1:] if self.rng.random() < 0.03 else parts.lengths
        if not lengths:
            return None
        at = self.rng.choice(lengths).at
        old = int32(parts.data, at)
        new = self.rng.choice([*NUMBERS, old + 1, old - 1, old + 4, old - 4, -old, old + 256, old + 65_536, old + 2**30])
        new = (new + 2**31) % 2**32 - 2**31
        return parts.data[:at] + struct.pack("<i", new) + parts.data[at + 4:]

    def wrong_type(self, parts):
        if not parts.spans["type"]:
            return None
        start, end = self.rng.choice(parts.spans["type"])
        new = self.rng.choice([*KINDS, 0, 1, 6, 0x0b, 0x0d, 0x13, 0x14, 0x80, self.rng.randrange(256)])
        return parts.data[:start] + bytes([new]) + parts.data[end:]

    def wrong_name(self, parts):
        """A name without its closing zero, with a zero in it, an empty one, that of another field or of an operator, or a path."""
        names = parts.spans["name"]
        if not names:
            return None
        start, end = self.rng.choice(names)
        other = parts.data[slice(*self.rng.choice(names))]
        names = [b"", b"0", b"1", b"00", b"_id", b"$db", b"$or", b"\0"]
        new = self.rng.choice([*names, other, b"\0" + other, b"$" + other, other + b"."])
        return self.replaced(parts, start, self.rng.choice([end, end, end + 1]), new)

    def wrong_text(self, parts):
        """Bytes that are no UTF-8, or valid ones such as the highest code point, in a name or a text."""
        spans = parts.spans["text"] + parts.spans["name"]
        if not spans:
            return None
        start, end = self.rng.choice(spans)
        at = self.rng.randint(start, end)
        return self.replaced(parts, at, at, self.rng.choice(WRONG_UTF8 * 2 + RIGHT_UTF8))

    def wrong_zero(self, parts):
        """The closing zero of a document or a text is another byte, is doubled or is missing."""
        ends = [end for _, end in parts.spans["document"]] + [end + 1 for _, end in parts.spans["text"]]
        if not ends:
            return None
        end = self.rng.choice(ends)
        return self.replaced(parts, end - 1, end, self.rng.choice([b"\1", b"", b"\0\0", b"\x10"]))

    def wrong_header(self, parts):
        """A length, an operation code or flag bits that aren't right, or only just are."""
        data, at = parts.data, self.rng.choice([0, 0, 4, 8, 12, 16, 16])
        if len(data) < 20:
            return None
        new = {0: [len(data) - 1, len(data) + 1, 0, 20, 25, 26, -1, 48_000_000, 48_000_001, 2**31 - 1, -2**31],
               12: [2004, 2012, 2010, 1, 0, 2013 << 8, -2013], 16: [1 << self.rng.randrange(31), 65_539, -1, 2, 65_536, 3]}
        return data[:at] + struct.pack("<i", self.rng.choice(new.get(at, [-1, 0, 7]))) + data[at + 4:]

    def wrong_section(self, parts):
        """A section of another kind, or one section more, whose size or name may be wrong."""
        sections = parts.spans["section"]
        if not sections:
            return None
        start, end = self.rng.choice(sections)
        other = b"\1" + struct.pack("<i", self.rng.choice([4, 5, 6, 7, -1, -5, -2**31, 2**31 - 1, 14])) + self.rng.choice(
            [b"x\0", b"\0", b"documents\0", b"\xff\0", b"x"]) + self.rng.choice([b"", b"\5\0\0\0\0", b"\4\0\0\0"])
        if self.rng.random() < 0.3:
            return parts.data[:start] + bytes([self.rng.choice([0, 1, 2, 255])]) + parts.data[end:]
        at = self.rng.choice([start, len(parts.data)])
        return self.replaced(parts, at, at, other)

    def joined(self, parts):
        """A piece of the last message and this one, in either order; or only the start of this one."""
        piece = self.latest[:self.rng.randrange(len(self.latest) + 1)]
        return self.rng.choice([piece + parts.data, parts.data + piece, parts.data[:self.rng.randrange(len(parts.data))]])
