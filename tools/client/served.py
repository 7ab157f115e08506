"""A connection to a docd that serves on this machine, with nothing but Python's own library."""
import select
import socket
import struct

from extended_json import json_of, value_of
from model.messages import answer
from model.values import DOCUMENT, spelling
from spelled import message

PATIENCE = 2  # seconds after which the user is told that no first reply has arrived
LENGTHS = range(26, 48_000_001)  # of a reply


class NotDocd(ConnectionError):
    """The program that listens sends no message of docd's form."""


class Served:
    """A connection, which carries one command after the other. If the first reply doesn't arrive soon, `tell_waiting` is called:
    docd may have as many connections as it serves, and it takes the next one when one of these ends."""

    def __init__(self, port, tell_waiting=None):
        self.connection = socket.create_connection(("127.0.0.1", port))
        self.replies, self.number, self.tell_waiting = self.connection.makefile("rb"), 0, tell_waiting

    def ask(self, command):
        """The reply to a command. Both are dicts, as json makes them of the texts that tools/client/extended_json.py describes."""
        _, fields = value_of(command)
        return json_of(DOCUMENT, self.reply_to(fields))

    def ask_together(self, commands):
        """The bytes of the replies to commands that are sent in one piece."""
        self.connection.sendall(b"".join(self.message_of(value_of(one)[1]) for one in commands))
        return [self.reply() for _ in commands]

    def reply_to(self, fields):
        """The fields of the reply to a command with these fields, the first of which names the command."""
        self.connection.sendall(self.message_of(fields))
        if self.tell_waiting and self.number == 1 and not select.select([self.connection], [], [], PATIENCE)[0]:
            self.tell_waiting()
        return answer(self.reply())

    def message_of(self, fields):
        self.number += 1
        return message(spelling(fields), self.number)

    def reply(self):
        """The bytes of the next reply."""
        head = self.taken(4)
        length = struct.unpack("<i", head)[0]
        if length not in LENGTHS:
            raise NotDocd("no message of docd")
        return head + self.taken(length - 4)

    def taken(self, count):
        """The next `count` bytes of the replies."""
        data = self.replies.read(count)
        if len(data) < count:
            raise ConnectionError("it was closed")
        return data

    def close(self):
        self.replies.close()
        self.connection.close()


def free_port():
    """The number of a port that nobody listens at."""
    with socket.create_server(("127.0.0.1", 0)) as server:
        return server.getsockname()[1]
