"""What broken_connections.py sends, and a client's end of a connection, which sends and receives any bytes."""
import socket
import struct

import folders  # noqa: F401
from model.messages import answer, message as reply_of
from model.values import INT32
from spelled import array, document, joined, message, number, section, spelled, text

PATIENCE = 60  # seconds that an answer may take
SOON = 10  # seconds that a closing may take
LARGEST = 48_000_000  # bytes of a message
LINGER = struct.pack("ii", 1, 0)  # closing then resets the connection
MEGABYTE = 1 << 20


def asks(*fields, request=1):
    return message(spelled([*fields, (b"$db", text(b"t"))]), request)


def ping(request=1):
    return asks((b"ping", number(1)), request=request)


def pong(request=1):
    return reply_of(request, [(b"ok", (INT32, 1))])


def large_ping():
    """A ping of nearly as many bytes as a message may have, most of them in a list of documents."""
    one = spelled([(b"t", text(b"x" * MEGABYTE))])
    body = spelled([(b"ping", number(1)), (b"$db", text(b"t"))])
    return joined([section(None, [body]), section(b"list", [one] * (LARGEST // len(one) - 1))], 1, 0)


def insert(identity, size=0):
    return asks((b"insert", text(b"c")), (b"documents", array([document([(b"_id", number(identity)), (b"t", text(b"x" * size))])])))


def find(identity):
    return asks((b"find", text(b"c")), (b"filter", document([(b"_id", number(identity))])))


INSERTED = reply_of(1, [(b"n", (INT32, 1)), (b"ok", (INT32, 1))])


class Connection:
    """A client's end of a connection."""

    def __init__(self, port):
        self.socket = socket.create_connection(("127.0.0.1", port), timeout=PATIENCE)
        self.socket.setsockopt(socket.IPPROTO_TCP, socket.TCP_NODELAY, 1)

    def send(self, data):
        self.socket.sendall(data)

    def taken(self, count):
        """The next `count` bytes, or fewer if the end comes before."""
        data = b""
        while len(data) < count and (piece := self.socket.recv(min(count - len(data), MEGABYTE))):
            data += piece
        return data

    def reply(self):
        """The next reply, empty at the end."""
        head = self.taken(4)
        return head and head + self.taken(int.from_bytes(head, "little") - 4)

    def is_at_end(self):
        """Whether the other end is closed, or is closed soon."""
        self.socket.settimeout(SOON)
        try:
            return self.socket.recv(1) == b""
        except ConnectionResetError:
            return True
        except TimeoutError:
            return False

    def is_answered(self, data, wanted):
        self.send(data)
        return self.taken(len(wanted)) == wanted

    def finds(self, identity):
        """How many documents a find by `_id` gives."""
        self.send(find(identity))
        cursor = dict(dict(answer(self.reply()))[b"cursor"][1])
        return len(cursor[b"firstBatch"][1])

    def finish_sending(self):
        self.socket.shutdown(socket.SHUT_WR)

    def reset(self):
        self.socket.setsockopt(socket.SOL_SOCKET, socket.SO_LINGER, LINGER)
        self.socket.close()

    def close(self):
        self.socket.close()
