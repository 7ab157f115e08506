#!/usr/bin/python3
"""Runs random scripts through docd and through the model of `tools/check/machine.py`, and prints the first difference.

Needs the built program (./docd run < /dev/null). The same seed makes the same scripts (`tools/check/random_scripts.py`). They have
the commands that docd has, good ones and ones with every kind of fault, in sessions that end and open again, in messages
cut anywhere into lines; a few scripts at the limits of sizes and counts come last. In as many of a hundred scripts as `--broken`
says, half the messages have broken bytes (`tools/check/making/breaking.py`). The first script that docd answers differently from
the model is cut down and printed with both answers, and the exit status is 1. Progress is printed on standard error; the model
takes some 0.1 seconds for a script. A few in ten thousand have towers of views that each join the one below with itself: those for
which the model takes over a minute of processor time are skipped, and counted separately.

    python3 tools/check/compare.py
    python3 tools/check/compare.py --seed 7 --count 10000 --broken 33 --program crates/docd/out/docd
"""
import argparse
import random
import signal
import struct
import sys
from collections import Counter

import folders  # noqa: F401
import machine
from making.edges import edges
from model.messages import HEADER
from model.refusals import DUPLICATE_KEY, READ_BY_VIEW
from model.values import ARRAY, BsonFault, DOCUMENT, read_document, spelling
from notation import shown
from program import parsed, run_within
from random_scripts import Maker

A_RUN = 600  # seconds that docd may take for a script
MOST_TRIES = 3_000  # runs of docd that cutting a script down may take
A_LOOK = 500  # scripts from one line of progress to the next
MOST_SECONDS = 60  # of processor time that a script may take to be made and to be answered by the model


class TooLong(Exception):
    """A script takes too long."""


def stop(*_):
    raise TooLong


def answer(program, lines):
    """How docd answers these lines: the exit status, or a text if docd doesn't end in time, and both outputs."""
    return run_within(A_RUN, [program, "run", "--hex"], b"\n".join([*lines, b""]))


def wanted_answer(lines):
    """How the model answers these lines: the exit status and both outputs."""
    return machine.run(b"\n".join([*lines, b""]))


def random_script(seed, place, breaks):
    """A script's lines; lines with the same messages, one message in each; how many random messages there are; and what the model
    answers. None if that takes too long."""
    signal.setitimer(signal.ITIMER_PROF, MOST_SECONDS)
    try:
        maker = Maker(random.Random("%d/%d" % (seed, place)), breaks)
        cut, plain = maker.script()
        return cut, plain, maker.messages, wanted_answer(cut)
    except TooLong:
        return None
    finally:
        signal.setitimer(signal.ITIMER_PROF, 0)


class Cutting:
    """Finds a smaller script that docd and the model answer differently."""

    def __init__(self, program):
        self.program, self.tries = program, 0

    def is_bad(self, lines):
        self.tries += 1
        if self.tries > MOST_TRIES:
            return False
        return answer(self.program, lines) != wanted_answer(lines)

    def cut(self, cut, plain):
        """A smaller script, made from one of these two, which have the same messages."""
        lines = fewer(plain if self.is_bad(plain) else cut, self.is_bad)
        for place, line in enumerate(lines):
            front, fields = message_of(line)
            if fields is not None:
                lines[place] = line_of(front, self.cut_fields(
                    fields, lambda new: self.is_bad(lines[:place] + [line_of(front, new)] + lines[place + 1:])))
        return lines

    def cut_fields(self, fields, is_bad):
        """As few of a document's fields as are still bad, each of them cut down too."""
        fields = fewer(fields, is_bad)
        for at, (name, value) in enumerate(fields):
            fields[at] = name, self.cut_value(value, lambda new: is_bad(fields[:at] + [(name, new)] + fields[at + 1:]))
        return fields

    def cut_value(self, value, is_bad):
        kind, held = value
        if kind == DOCUMENT:
            return DOCUMENT, self.cut_fields(held, lambda new: is_bad((DOCUMENT, new)))
        if kind != ARRAY:
            return value
        held = fewer(held, lambda new: is_bad((ARRAY, new)))
        for at, one in enumerate(held):
            held[at] = self.cut_value(one, lambda new: is_bad((ARRAY, held[:at] + [new] + held[at + 1:])))
        return ARRAY, held


def fewer(items, is_bad):
    """Fewer of the items, which are still bad."""
    items, size = list(items), len(items)
    while size:
        start = 0
        while start < len(items):
            rest = items[:start] + items[start + size:]
            if is_bad(rest):
                items = rest
            else:
                start += size
        size //= 2
    return items


def message_of(line):
    """A line's session with its message's header, and the message's fields, which are None if none can be read."""
    session, _, digits = line.partition(b" ")
    try:
        data = bytes.fromhex(digits.decode())
        return (session, data[:HEADER]), read_document(data[HEADER:]) if len(data) > HEADER else None
    except (ValueError, IndexError, struct.error, BsonFault):
        return (session, b""), None


def line_of(front, fields):
    (session, header), body = front, spelling(fields)
    return b"%s %s" % (session, (struct.pack("<i", HEADER + len(body)) + header[4:] + body).hex().encode())


def readable(line):
    """A line's message or reply as text; empty if the line has none."""
    front, fields = message_of(line)
    return "" if fields is None else " " * 8 + shown((DOCUMENT, fields))[:4_000]


def tell(program, lines):
    """Prints a script that docd and the model answer differently, and both answers."""
    for line in lines:
        print(line.decode(errors="replace") if len(line) < 4_000 else "%s.. (%d bytes)" % (line[:200].decode(), len(line)))
        print(readable(line))
    for who, (status, output, error) in (("docd", answer(program, lines)), ("the model", wanted_answer(lines))):
        print("%s: status %s %s" % (who, status, error.decode(errors="replace").strip()))
        for line in output.splitlines():
            print("    " + line[:2_000].decode(errors="replace"))
            print(readable(line))


def is_right(program, name, lines, wanted, plain=None):
    """Whether docd answers a script as it should. If not, the difference is printed: that of a smaller script if there are plain
    lines with the same messages, which can be cut down."""
    said = answer(program, lines)
    if said == wanted:
        return True
    if isinstance(said[0], str):
        print("compare: %s: %s" % (name, said[0]))
        return False
    print("compare: %s differs:" % name, flush=True)
    tell(program, Cutting(program).cut(lines, plain) if plain else lines)
    return False


def count_replies(output, seen):
    """Counts what the replies say: documents found, documents written, codes."""
    for line in output.splitlines():
        _, fields = message_of(line)
        reply = dict(fields or [])
        if b"cursor" in reply:
            _, (_, found) = reply[b"cursor"][1][0]
            seen["answers with documents" if found else "answers without"] += 1
            seen["answers with more to come"] += dict(reply[b"cursor"][1])[b"id"][1] != 0
        elif b"state" in reply:
            seen["views that counted" if reply[b"ticks"][1] else "views that didn't"] += 1
        elif b"stage" in reply:
            seen["plans by an index" if b"index" in reply else "plans without"] += 1
        elif b"n" in reply:
            seen["writes that write" if reply[b"n"][1] else "writes that don't"] += 1
            errors = [dict(error)[b"code"][1] for _, error in reply.get(b"writeErrors", (ARRAY, []))[1]]
            seen["write errors"] += len(errors)
            seen["updates that a unique index refuses"] += b"nModified" in reply and errors.count(DUPLICATE_KEY)
        elif b"code" in reply:
            seen["refusals"] += 1
            seen["unique indexes that aren't made"] += reply[b"code"][1] == DUPLICATE_KEY
            seen["refusals since a view reads what is named"] += reply[b"code"][1] == READ_BY_VIEW


def main():
    options = argparse.ArgumentParser(description=__doc__, formatter_class=argparse.RawDescriptionHelpFormatter)
    options.add_argument("--seed", type=int, default=1)
    options.add_argument("--count", type=int, default=2_000, help="how many random scripts")
    options.add_argument("--start", type=int, default=0, help="the number of the first script")
    options.add_argument("--broken", type=int, default=0, help="how many scripts of a hundred have broken messages")
    options.add_argument("--without-limits", action="store_true", help="leave out the scripts at the limits")
    given = parsed(options, "compare")
    signal.signal(signal.SIGPROF, stop)
    compared, messages, at_limits, seen = 0, 0, 0, Counter()
    for place in range(given.start, given.start + given.count):
        made = random_script(given.seed, place, place % 100 < given.broken)
        if made is None:
            print("compare: seed %d, script %d is skipped: the model takes too long" % (given.seed, place), file=sys.stderr, flush=True)
            continue
        cut, plain, count, wanted = made
        if not is_right(given.program, "seed %d, script %d" % (given.seed, place), cut, wanted, plain):
            return 1
        compared, messages = compared + 1, messages + count
        count_replies(wanted[1], seen)
        seen["closings"] += wanted[1].count(b" closed ")
        if compared % A_LOOK == 0:
            print("compare: no difference in %d scripts so far" % compared, file=sys.stderr, flush=True)
    for lines in () if given.without_limits else edges():
        if not is_right(given.program, "script %d at the limits" % at_limits, lines, wanted_answer(lines)):
            return 1
        at_limits += 1
    print("%d scripts (seed %d) with %d messages, and %d at the limits: no difference; %d passed over"
          % (compared, given.seed, messages, at_limits, given.count - compared))
    print(", ".join("%d %s" % (count, what) for what, count in sorted(seen.items())))
    return 0


if __name__ == "__main__":
    sys.exit(main())
