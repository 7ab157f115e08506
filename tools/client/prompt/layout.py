"""Replies in lines that are no wider than a terminal, in the notation of tools/client/notation.py, so that they can be pasted back.

What doesn't fit a line is written over several: a member in each, and the rows of an answer one below the other. A text or
binary data of many bytes is cut, and a note after it says how many bytes it has in all.
"""
from model.values import ARRAY, BINARY, DOCUMENT, TEXT
from notation import shown, shown_name

INDENT = "  "
MOST = 400  # bytes of a text or of binary data that are shown
CUT = "..cut: %s bytes in all"
BATCHES = b"firstBatch", b"nextBatch"


def batch_of(reply):
    """The rows of a reply's batch and its cursor's id; None if the reply has no batch."""
    kind, cursor = dict(reply).get(b"cursor", (None, None))
    if kind != DOCUMENT:
        return None
    fields = dict(cursor)
    return next(((fields[name][1], fields[b"id"]) for name in BATCHES if name in fields), None)


class Layout:
    """Lays values out in lines of a width, and cuts long values unless `is_whole`. `has_cut` says whether one was cut."""

    def __init__(self, width, is_whole=False):
        self.width, self.is_whole, self.has_cut = width, is_whole, False

    def reply(self, fields):
        """The text of a reply."""
        text = self.flat((DOCUMENT, fields))
        if len(text) <= self.width:
            return text
        return self.batch(fields) if batch_of(fields) else self.laid((DOCUMENT, fields), "")

    def batch(self, fields):
        """The text of an answer, its rows one below the other."""
        (first, (_, cursor)), *others = fields
        (name, (_, rows)), *behind = cursor
        head = "{%s: {%s: [" % (shown_name(first), shown_name(name))
        tail = "], %s}, %s}" % (self.members(behind), self.members(others))
        return "\n".join([head, *self.rows(rows), tail])

    def rows(self, rows):
        """The lines of some rows, without the last one's comma."""
        for place, row in enumerate(rows, 1):
            yield INDENT + self.laid(row, INDENT) + "," * (place < len(rows))

    def members(self, fields):
        return ", ".join("%s: %s" % (shown_name(name), self.flat(value)) for name, value in fields)

    def laid(self, value, indent, taken=0):
        """The text of a value that follows the indent and `taken` characters of a line; its further lines have this indent."""
        text, (kind, held) = self.flat(value), value
        if len(indent) + taken + len(text) <= self.width or kind not in (DOCUMENT, ARRAY) or not held:
            return text
        inner, (opening, closing) = indent + INDENT, "{}" if kind == DOCUMENT else "[]"
        members = held if kind == DOCUMENT else [(None, one) for one in held]
        lines = [inner + self.member(name, one, inner) for name, one in members]
        return "%s\n%s\n%s%s" % (opening, ",\n".join(lines), indent, closing)

    def member(self, name, value, indent):
        front = "" if name is None else "%s: " % shown_name(name)
        return front + self.laid(value, indent, len(front))

    def flat(self, value):
        """The text of a value in one line."""
        kind, held = value
        if kind == DOCUMENT:
            return "{%s}" % self.members(held)
        if kind == ARRAY:
            return "[%s]" % ", ".join(map(self.flat, held))
        if kind == TEXT and len(held) > MOST:
            return self.cut(value, held, (TEXT, held[:MOST].decode(errors="ignore").encode()))
        if kind == BINARY and len(held[1]) > MOST:
            return self.cut(value, held[1], (BINARY, (held[0], held[1][:MOST])))
        return shown(value)

    def cut(self, value, data, front):
        if self.is_whole:
            return shown(value)
        self.has_cut = True
        return shown(front) + CUT % format(len(data), ",")
