#!/usr/bin/python3
"""Sends broken messages to docd in each of its four ways to run, and prints the first reply that isn't the model's.

Needs the built program (./docd run < /dev/null). Right messages of all commands (`tools/check/random_scripts.py`) are broken: bytes
are changed, cut, repeated, swapped and inserted; lengths, flags, operation codes, kinds of sections, types, names and texts are
made wrong; and a piece of one message is put before or after another. In most cases the lengths around a change are corrected, so
that the fault lies deep. The collections are under live views, one of each stage. The messages are sent to

- `docd run`, one session a run;
- `docd run --hex`, several sessions side by side, cut anywhere;
- `docd serve` and `docd listen`, many connections one after the other.

In the end each view is read, and its pipeline is run as an aggregate, in a session of their own except with `docd run`. Both have
to return the model's rows, which are the same.

The replies, the closings, the counts at the end of sessions, the exit status and standard error must be those of the model of
`tools/check/machine.py`. The first input that docd answers differently is cut down and printed with both answers, and the exit
status is 1. The exit status is also 1 if docd doesn't end within 60 seconds for an input.

    python3 tools/check/broken_input.py
    python3 tools/check/broken_input.py --seed 7 --count 100000 --way served --program crates/docd/out/docd
"""
import argparse
import random
import socket
import subprocess
import sys
from collections import Counter, namedtuple

import folders  # noqa: F401
import machine
from compare import count_replies, fewer, readable
from making.breaking import Breaker
from program import parsed, run_within
from random_scripts import Maker, interleaved
from served import free_port
from spelled import script_lines

A_RUN = 60  # seconds that docd may take for one input
MOST_TRIES = 1_500  # runs of docd that cutting an input down may take
LONGEST_CUT = 20_000  # bytes of a piece that is cut down byte by byte

# Bytes that a session sends, or its end if they are None.
Piece = namedtuple("Piece", "session data")

REFUSED_BYTES = b"InvalidBSON: ".hex().encode()


def pieces_of(rng, sessions, last):
    """The pieces of each session's messages, many of them broken; those of the first session begin with messages that make views.
    And the pieces of a last session's messages, which ask for each view's rows."""
    maker, breaker, made = Maker(rng), Breaker(rng), []
    begin = [maker.first(), maker.first(b"d")]
    views = maker.views_of_each_stage()
    begin += map(maker.asked, views)
    for session in sessions:
        maker.session, messages, begin = object(), begin, []
        for _ in range(rng.randint(5, 30)):
            if rng.random() < 0.3:
                messages.append(maker.write())
            data = maker.whole(rng.choice([0, 0, 0, 0, 0, 0, 2, 65_536]))
            messages.append(maker.carried_out(breaker.broken(data) if rng.random() < 0.6 else data))
        made.append([Piece(session, data) for data in messages])
    return made, [Piece(last, data) for view in views for data in maker.asked_twice(view)]


class Way:
    """A way to send sessions to docd. An input is a list of pieces. An outcome is the exit status, standard error, standard output,
    and what each connection is answered."""

    def __init__(self, program):
        self.program, self.tries = program, 0

    def differs(self, pieces):
        self.tries += 1
        return self.tries <= MOST_TRIES and self.said(pieces) != self.wanted(pieces)[0]

    def run(self, words, given):
        status, output, error = run_within(A_RUN, [self.program, *words], given)
        return status, error, output, []


class Run(Way):
    """One session, whose bytes are standard input."""

    def input(self, rng):
        (messages,), shown = pieces_of(rng, [b"0"], b"0")
        return messages + shown

    def said(self, pieces):
        return self.run(["run"], b"".join(piece.data for piece in pieces))

    def wanted(self, pieces):
        lines = machine.Machine().feed(b"0", b"".join(piece.data for piece in pieces))
        replies, fault = told(lines)
        return (0 if fault is None else 1, b"" if fault is None else b"docd: closed %d\n" % fault, replies, []), lines


class Script(Way):
    """Several sessions side by side, their bytes in the lines of a script."""

    def input(self, rng):
        made, shown = pieces_of(rng, rng.sample([b"0", b"7", b"255", b"999"], rng.randint(1, 4)), b"1")
        return interleaved(rng, [recut(rng, messages) + [Piece(messages[0].session, None)] for messages in made]) + shown

    def script(self, pieces):
        lines = [[session + b" end"] if data is None else script_lines(int(session), data) for session, data in pieces]
        return b"".join(line + b"\n" for some in lines for line in some)

    def said(self, pieces):
        return self.run(["run", "--hex"], self.script(pieces))

    def wanted(self, pieces):
        status, output, error = machine.run(self.script(pieces))
        return (status, error, output, []), output.splitlines()


class Serve(Way):
    """Connections, one after the other, over the loopback."""

    word = "serve"

    def input(self, rng):
        made, shown = pieces_of(rng, [b"%d" % number for number in range(rng.randint(1, 20))], b"last")
        return [piece for messages in made for piece in recut(rng, messages)] + shown

    def connections(self, pieces):
        """The pieces of each connection."""
        made = {}
        for piece in pieces:
            made.setdefault(piece.session, []).append(piece.data)
        return made

    def said(self, pieces):
        connections, port = self.connections(pieces), free_port()
        words = [self.program, self.word, "--port", str(port), "--connections", str(len(connections))]
        docd = subprocess.Popen(words, stdout=subprocess.PIPE, stderr=subprocess.PIPE)
        try:
            first = docd.stdout.readline()
            answers = [answered(port, data) for data in connections.values()] if first else []
            output, error = docd.communicate(timeout=A_RUN)
            return docd.returncode, error, first.replace(b":%d" % port, b"") + output, answers
        except (OSError, subprocess.TimeoutExpired) as fault:
            return "no end: %s" % fault, b"", b"", []
        finally:
            docd.kill()
            docd.communicate()

    def wanted(self, pieces):
        model, output, answers, all_lines = machine.Machine(), b"serving 127.0.0.1\n", [], []
        for number, (session, data) in enumerate(self.connections(pieces).items(), 1):
            lines = model.feed(session, b"".join(data))
            model.end(session)
            replies, fault = told(lines)
            answers.append(replies)
            output += b"connection %d %s\n" % (number, b"ended" if fault is None else b"closed %d" % fault)
            all_lines += lines
        return (0, b"", output, answers), all_lines


class Listen(Serve):
    """The same with `docd listen`, which serves many connections at once."""

    word = "listen"


WAYS = {"run": Run, "script": Script, "served": Serve, "listened": Listen}


def told(lines):
    """The bytes of the replies among the model's lines, and the number of the fault that closes the session, if one does."""
    replies, fault = b"", None
    for line in lines:
        rest = line.partition(b" ")[2]
        if rest.startswith(b"closed"):
            fault = int(rest.split()[1])
        else:
            replies += bytes.fromhex(rest.decode())
    return replies, fault


def recut(rng, messages):
    """The same bytes in pieces that are cut elsewhere, or the same pieces."""
    if rng.random() < 0.3:
        return messages
    stream = b"".join(piece.data for piece in messages)
    cuts = rng.sample(range(1, len(stream)), min(len(stream) - 1, rng.randrange(3 * len(messages))))
    ends = sorted([0, *cuts, len(stream)])
    return [Piece(messages[0].session, stream[start:end]) for start, end in zip(ends, ends[1:])]


def answered(port, pieces):
    """What a connection is answered to these bytes. If docd closes the connection before it has read them all, the connection is
    reset, and the answers that were sent before have arrived."""
    got = []
    with socket.create_connection(("127.0.0.1", port), timeout=A_RUN) as connection:
        try:
            for piece in pieces:
                connection.sendall(piece)
            connection.shutdown(socket.SHUT_WR)
        except (BrokenPipeError, ConnectionResetError, OSError):
            pass
        try:
            while piece := connection.recv(1 << 16):
                got.append(piece)
        except ConnectionResetError:
            pass
    return b"".join(got)


def smaller(way, pieces):
    """A smaller input that docd and the model answer differently."""
    pieces = fewer(pieces, way.differs)
    for place, (session, data) in enumerate(pieces):
        if data and len(data) <= LONGEST_CUT:
            pieces[place] = Piece(session, bytes(fewer(
                data, lambda new: way.differs(pieces[:place] + [Piece(session, bytes(new))] + pieces[place + 1:]))))
    return pieces


def tell(way, pieces):
    """Prints an input that docd and the model answer differently, and both answers."""
    for session, data in pieces:
        line = session + (b" end" if data is None else b" " + data.hex().encode())
        print(line.decode()[:6_000])
        if data:
            print(readable(line))
    for who, outcome in ("docd", way.said(pieces)), ("the model", way.wanted(pieces)[0]):
        status, error, output, answers = outcome
        print("%s: status %s %s" % (who, status, error.decode(errors="replace").strip()))
        print("    %r" % output[:3_000])
        for answer in answers:
            print("    -> %s" % answer.hex()[:3_000])


def compare(way, name, seed, wanted):
    """Sends inputs until this many messages are answered. Returns counts of what was seen, or None if an answer differs."""
    seen, place = Counter(), 0
    while seen["messages answered"] < wanted:
        pieces = way.input(random.Random("%d/%s/%d" % (seed, name, place)))
        outcome, lines = way.wanted(pieces)
        if way.said(pieces) != outcome:
            print("broken_input: seed %d, %s, input %d differs:" % (seed, name, place))
            tell(way, smaller(way, pieces))
            return None
        closings = sum(b" closed " in line for line in lines)
        seen["messages answered"] += sum(b" end " not in line for line in lines) - closings
        seen["closings"] += closings
        seen["documents refused for their bytes"] += sum(REFUSED_BYTES in line for line in lines)
        count_replies(b"\n".join(lines), seen)
        place += 1
    return seen


def main():
    options = argparse.ArgumentParser(description=__doc__, formatter_class=argparse.RawDescriptionHelpFormatter)
    options.add_argument("--seed", type=int, default=1)
    options.add_argument("--count", type=int, default=10_000, help="how many messages are answered, in each way")
    options.add_argument("--way", choices=list(WAYS), help="only one of the ways")
    given = parsed(options, "broken_input")
    for name in [given.way] if given.way else WAYS:
        seen = compare(WAYS[name](given.program), name, given.seed, given.count)
        if seen is None:
            return 1
        shown = ", ".join("%d %s" % (count, what) for what, count in sorted(seen.items()))
        print("%s (seed %d): no difference; %s" % (name, given.seed, shown), flush=True)
    return 0


if __name__ == "__main__":
    sys.exit(main())
