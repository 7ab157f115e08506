"""Sends commands, written as in the manual, to a docd that serves, and returns their replies."""
import re
import struct

from model.values import BsonFault, TEXT
from notation import document_of
from served import NotDocd, Served

COMMAND = re.compile(r"(?:(\d{0,3})>)?\s*(.*)", re.S)
DATABASE = b"$db"
ADDRESS = "127.0.0.1:%d"
WAITS = ("no reply from %s yet: docd may be carrying out a long command, or have as many connections as it serves (1,000 under "
         "`listen`, one under `serve`); or another program listens there. Wait, or press Control-C to end this" % ADDRESS)


class NoDocd(Exception):
    """There is no docd, or none any more: what is wrong and what to do."""


def command_of(line, database):
    """The session that a line names (None if it names none), and the fields of its command, which is written as in the manual."""
    found = COMMAND.fullmatch(line)
    fields = document_of(" " * found.start(2) + found[2])
    if database and all(name != DATABASE for name, _ in fields):
        fields.append((DATABASE, (TEXT, database.encode())))
    return int(found[1]) if found[1] else None, fields


class Asker:
    """A connection to a docd. Commands that name no database are for `database`. If the first reply doesn't arrive soon, `tell` is
    called with a text that says so."""

    def __init__(self, port, database, tell):
        self.address, self.database = ADDRESS % port, database
        try:
            self.served = Served(port, lambda: tell(WAITS % port))
        except OSError as error:
            raise NoDocd("nothing serves at %s (%s): start ./docd listen --port %d in another terminal, or give docd's port" % (
                self.address, error.strerror, port)) from None

    def fields_of(self, line):
        """The fields of a line's command."""
        session, fields = command_of(line, self.database)
        if session:
            raise ValueError("a connection is one session: leave %d> out, or make a script, without --port" % session)
        return fields

    def reply_to(self, fields):
        """The fields of the reply to a command."""
        try:
            return self.served.reply_to(fields)
        except (NotDocd, BsonFault, struct.error):
            raise NoDocd("another program than docd listens at %s, since its reply has another form: give docd's port" % self.address) from None
        except ConnectionError as error:
            raise NoDocd("the connection to %s has ended (%s): see in docd's terminal whether docd has ended or has closed this "
                         "connection" % (self.address, error.strerror or error)) from None

    def close(self):
        self.served.close()
