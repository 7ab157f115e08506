"""The largest messages, the most messages and the most sessions. These cases yield bytes."""
import struct

from cases.commands import DATABASE, ONE, case, put_bytes
from model.values import BINARY
from spelled import joined, message, section, spelled


@case(200_000)
def sections_of_a_message(count):
    body = section(None, [spelled([(b"ping", ONE), DATABASE])])
    yield joined([body, *(section(b"s%d" % at, []) for at in range(count))], 1, 0)


@case(200_000)
def pings(count):
    yield message(spelled([(b"ping", ONE), DATABASE])) * count


@case(3_000_000)
def documents_of_a_section(count):
    yield put_bytes([b"\5\0\0\0\0"] * count)


@case(40_000_000)
def bytes_of_a_message_that_is_no_document(size):
    yield message(struct.pack("<i", size) + b"\1" * (size - 4))


@case(1_000)
def sessions(count):
    """The lines of a script, in which each session gets half a message of 30,000 bytes."""
    half = message(spelled([(b"ping", (BINARY, (0, b"x" * 30_000))), DATABASE]))[:15_000].hex().encode()
    yield b"".join(b"%d %s\n" % (place, half) for place in range(count))
