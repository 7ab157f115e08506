"""OP_MSG: takes whole messages off a stream, makes messages, and reads replies."""
import struct

from model.values import BsonFault, int32, read_fields, spelling, utf8

BODY, LIST = 0, 1  # kinds of sections
HEADER = 21  # the bytes before the body of a message that has nothing else


class Closing(Exception):
    """A session is closed, with the number of the fault."""


def wanted(is_right):
    if not is_right:
        raise Closing(5)


def take_message(stream):
    """The length, requestID, flag bits and sections of the message at the start of a stream, None if not all of it is there
    yet. A section is its identifier, None for the body's, and the bytes of its documents. A closing fault is raised as soon
    as the bytes show it."""
    length = int32(stream, 0) if len(stream) >= 4 else None
    if length is not None and not 26 <= length <= 48_000_000:
        raise Closing(1)
    if len(stream) >= 16 and int32(stream, 12) != 2013:
        raise Closing(2)
    flags = struct.unpack_from("<I", stream, 16)[0] if len(stream) >= 20 else 0
    if flags & 1:
        raise Closing(4)
    if flags & 0xFFFC:
        raise Closing(3)
    if length is None or len(stream) < length:
        return None
    sections = sections_of(stream[20:length])
    return length, int32(stream, 4), flags, sections


def sections_of(data):
    sections, at = [], 0
    while at < len(data):
        kind = data[at]
        if kind == BODY:
            documents, at = framed(data, at + 1, len(data), most=1)
            sections.append((None, documents))
            continue
        wanted(kind == LIST and at + 5 <= len(data))
        start, end = at + 5, at + 1 + int32(data, at + 1)
        wanted(start < end <= len(data))
        zero = data.find(0, start, end)
        wanted(zero >= 0)
        documents, at = framed(data, zero + 1, end)
        sections.append((identifier(data[start:zero]), documents))
    names = [name for name, _ in sections]
    wanted(names.count(None) == 1 and len(set(names)) == len(names))
    return sections


def identifier(text):
    try:
        return utf8(text)
    except BsonFault:
        raise Closing(5) from None


def framed(data, at, end, most=None):
    """The bytes of the documents from a place to the end, or of the first `most`, and where they end."""
    documents = []
    while at < end and len(documents) != most:
        wanted(at + 4 <= end and 5 <= int32(data, at) <= end - at)
        documents.append(data[at:at + int32(data, at)])
        at += len(documents[-1])
    wanted(most in (None, len(documents)))
    return documents, at


def message(answered, body, number=0):
    """The bytes of a message with the requestID `number`. `answered` is the requestID that it replies to, 0 in a command."""
    data = spelling(body)
    return struct.pack("<iiiiIB", HEADER + len(data), number, answered, 2013, 0, BODY) + data


def answer(data):
    """The body of a reply, which may have more bytes than a document that docd reads, and three levels above its rows."""
    body = data[HEADER:]
    return read_fields(body, 0, len(body), -2, is_array=False)
