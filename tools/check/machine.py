#!/usr/bin/python3
"""What docd must print for a script: a second, plain model of the whole machine.

It reads a script on standard input and prints each reply, closing and end as docd must print them. It shares no code
with docd: it has its own reader of BSON and its own filters, updates and pipelines (in tools/client/model), keeps each
collection as a sorted list, scans for every find and runs a view's pipeline again each time. To count a view's work, it
evaluates each stage over all rows before each change and after it, and counts the differences. Memory never runs out here.
`tools/check/compare.py` runs random scripts through both.

    python3 tools/check/machine.py < examples/inserts.hex
"""
import argparse
import re
import sys

import folders  # noqa: F401
from model.commands import answer_to
from model.messages import Closing, message, take_message
from model.store import Store
from model.writes import done_to, insert_one

LONGEST_LINE = 131_200
LINE = re.compile(rb"(?s:#.*)?|(0|[1-9][0-9]{0,2}) (?:(end)|([0-9A-Fa-f]{2}(?: *[0-9A-Fa-f]{2})*))")


class Session:
    """Its bytes that no message has taken, and whether a fault has closed it."""

    def __init__(self):
        self.stream, self.is_closed = b"", False


class Machine:
    """The store, and the open sessions by their numbers in the script."""

    def __init__(self):
        self.store, self.sessions = Store(), {}

    def line(self, text):
        """What one line of a script prints, as a list of lines, or None if the line is bad."""
        form = LINE.fullmatch(text)
        if len(text) > LONGEST_LINE or not form:
            return None
        number = form[1]
        if number is None:
            return []
        return self.end(number) if form[2] else self.feed(number, bytes.fromhex(form[3].decode()))

    def load(self, place, document):
        """Inserts a document before the script, outside any session."""
        self.store.change(place, done_to(self.store.collection(place), insert_one, document).changes)

    def session(self, number):
        """The session of this number, which is opened if it isn't open."""
        return self.sessions.setdefault(number, Session())

    def end(self, number):
        """Ends a session, and returns the line that is printed for that."""
        session = self.session(number)
        del self.sessions[number]
        self.store.cursors.end(session)
        return [b"%s end %d" % (number, 0 if session.is_closed else len(session.stream))]

    def feed(self, number, data):
        """The lines that answer a session's next bytes."""
        session, said = self.session(number), []
        if session.is_closed:
            return said
        session.stream += data
        try:
            while (taken := take_message(session.stream)) is not None:
                length, request, flags, sections = taken
                session.stream = session.stream[length:]
                reply = answer_to(self.store, session, sections)
                if not flags & 2:
                    said.append(b"%s %s" % (number, message(request, reply).hex().encode()))
        except Closing as fault:
            session.is_closed = True
            said.append(b"%s closed %d" % (number, fault.args[0]))
        return said


def run(script):
    """The exit status for a script's bytes, and what they print on standard output and on standard error."""
    machine, printed = Machine(), []
    for number, line in enumerate(script.split(b"\n"), 1):
        said = machine.line(line)
        if said is None:
            return 1, b"".join(printed), b"docd: line %d: bad line\n" % number
        printed += [one + b"\n" for one in said]
    return 0, b"".join(printed), b""


def main():
    options = argparse.ArgumentParser(description=__doc__, formatter_class=argparse.RawDescriptionHelpFormatter)
    options.parse_args()
    status, output, told = run(sys.stdin.buffer.read())
    sys.stdout.buffer.write(output)
    sys.stderr.buffer.write(told)
    sys.exit(status)


if __name__ == "__main__":
    main()
