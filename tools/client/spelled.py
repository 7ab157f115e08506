"""Short functions that make documents and messages, whose bytes may be wrong, and the lines of scripts that send them.

Values are those of `model.values`; to make broken ones, what a value holds may be `Broken` bytes.
"""
import struct

from model.values import ARRAY, BOOLEAN, DOCUMENT, INT32, INT64, NULL, TEXT, payload

PIECE = 65_000  # bytes of a message in one line at most
NOTHING = NULL, None


class Broken(bytes):
    """Bytes that follow a value's name in place of those that its type asks for."""


def spelled(fields):
    body = b"".join(b"%c%s\0%s" % (kind, name, data_of(kind, held)) for name, (kind, held) in fields)
    return struct.pack("<i", len(body) + 5) + body + b"\0"


def data_of(kind, held):
    if isinstance(held, Broken):
        return bytes(held)
    if kind == DOCUMENT:
        return spelled(held)
    if kind == ARRAY:
        return spelled((b"%d" % i, value) for i, value in enumerate(held))
    return payload(kind, held)


def number(value, is_wide=False):
    return (INT64 if is_wide or not -2**31 <= value < 2**31 else INT32), value


def text(data):
    return TEXT, data


def boolean(value):
    return BOOLEAN, value


def document(fields):
    return DOCUMENT, fields


def array(values):
    return ARRAY, list(values)


def message(body, request=1, flags=0):
    return joined([section(None, [body])], request, flags)


def joined(sections, request, flags):
    """The bytes of a message of these sections."""
    data = b"".join(sections)
    return struct.pack("<iiiiI", 20 + len(data), request, 0, 2013, flags) + data


def section(name, documents):
    """The bytes of a section: the body, or a list of documents under a name."""
    data = b"".join(documents)
    return b"\0" + data if name is None else b"\1" + struct.pack("<i", 5 + len(name) + len(data)) + name + b"\0" + data


def pieces(data, most):
    """The bytes in pieces of `most` bytes; the last piece may have fewer."""
    return [data[at:at + most] for at in range(0, len(data), most)]


def script_lines(session, data, most=PIECE):
    """A script's lines that send these bytes to a session."""
    return [b"%d %s" % (session, piece.hex().encode()) for piece in pieces(data, most)]


def lines_of(session, *bodies):
    """A script's lines that send these commands for the database `t` to a session."""
    return script_lines(session, b"".join(message(spelled([*body, (b"$db", text(b"t"))])) for body in bodies))
