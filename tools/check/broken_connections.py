#!/usr/bin/python3
"""Tests `docd listen` with connections that come in crowds, break off, stop reading or hold back: the others must still be served.

Needs the built program (./docd run < /dev/null), Linux, and Python without packages. Each case has a docd of its own, and checks
what each connection is answered, byte for byte, how it ends, and how much memory and processor time docd takes meanwhile. What is
wrong is printed, and then the exit status is 1.

    python3 tools/check/broken_connections.py
    python3 tools/check/broken_connections.py --cases "crowd,resets" --program crates/docd/out/docd
"""
import argparse
import itertools
import resource
import select
import socket
import struct
import subprocess
import sys
import time

import folders  # noqa: F401
from checking import status_of
from connection import Connection, INSERTED, MEGABYTE, PATIENCE, find, insert, large_ping, ping, pong
from listening import Listening, let_open_many
from program import named, parsed

PLACES = 1_000  # connections at a time
A_WHILE = 0.5  # seconds in which nothing may happen
IDLE = 0.05  # seconds of processor time: below this docd counts as idle
ALL_UNFINISHED = 268_435_456  # bytes of unfinished messages of all connections


class Case:
    """A docd, and how the checks of it are reported."""

    def __init__(self, program, name, tell, *words, **how):
        self.docd, self.name, self.told = Listening(program, *words, **how), name, tell

    def tell(self, is_right, text):
        self.told(is_right, "%s: %s" % (self.name, text))

    def connection(self):
        return Connection(self.docd.port)

    def connections(self, count):
        return [self.connection() for _ in range(count)]

    def serves(self, text):
        """Checks that another connection is served, and returns that connection."""
        one = self.connection()
        self.tell(one.is_answered(ping(3), pong(3)), "another connection isn't served " + text)
        return one

    def is_idle(self, text):
        """Checks that docd takes no processor time for a while."""
        taken = self.docd.seconds()
        time.sleep(A_WHILE)
        taken = self.docd.seconds() - taken
        self.tell(taken < IDLE, "%.3f s of processor time %s" % (taken, text))

    def ended(self, *wanted):
        """Checks how the connections ended, in the order in which they arrived."""
        fates = self.docd.fates_of(len(wanted))
        self.tell(fates == list(wanted), "they end by %s, and not by %s" % (counted(fates), counted(wanted)))

    def end(self):
        self.tell(self.docd.process.poll() is None, "the program has ended")
        self.docd.end()


def counted(fates):
    """The fates as text, in order; equal neighbours are counted together."""
    return ", ".join("%d %s" % (len(list(some)), fate) for fate, some in itertools.groupby(fates))


def readable(connections, seconds):
    """How many of the connections have something to read. Waits until all have, but at most this many seconds."""
    poll = select.poll()
    for one in connections:
        poll.register(one.socket, select.POLLIN)
    end = time.monotonic() + seconds
    while (count := len(poll.poll(0))) < len(connections) and time.monotonic() < end:
        time.sleep(0.01)
    return count


def crowd(program, tell):
    """1,300 at once: the first thousand are answered, and the others in order, each when a place is free."""
    case = Case(program, "crowd", tell)
    all_of_them = case.connections(1_300)
    for one in all_of_them:
        one.send(ping())
    served, waiting = all_of_them[:PLACES], all_of_them[PLACES:]
    case.tell(readable(served, PATIENCE) == PLACES, "not each of the first thousand is answered")
    case.tell(readable(waiting, A_WHILE) == 0, "one without a place is answered")
    case.is_idle("while 300 wait")
    for count in 1, 99, 200:
        for _ in range(count):
            one = served.pop()
            case.tell(one.taken(len(pong())) == pong(), "a wrong answer")
            one.close()
        case.tell(readable(waiting[:count], PATIENCE) == count, "those next to %d that went aren't answered" % count)
        case.tell(readable(waiting[count:], A_WHILE) == 0, "one without a place is answered")
        served, waiting = waiting[:count] + served, waiting[count:]
    for one in served:
        case.tell(one.taken(len(pong())) == pong(), "a wrong answer")
        one.close()
    case.ended(*["ended"] * 1_300)
    case.end()


def few_descriptors(program, tell):
    """64 descriptors and 200 connections: connections without a descriptor wait until one is free, docd takes no processor time
    meanwhile, and in the end each connection is served."""
    case = Case(program, "few_descriptors", tell, preexec_fn=lambda: resource.setrlimit(resource.RLIMIT_NOFILE, (64, 64)))
    waiting, rounds = case.connections(200), 0
    for one in waiting:
        one.send(ping())
    time.sleep(A_WHILE)
    case.is_idle("while no descriptor is left")
    while waiting and rounds < 200:
        served = [one for one in waiting if readable([one], 0)]
        case.tell(len(served) < 64, "%d are served at once" % len(served))
        for one in served:
            case.tell(one.taken(len(pong())) == pong(), "a wrong answer")
            one.close()
        waiting, rounds = [one for one in waiting if one not in served], rounds + 1
        readable(waiting[:1], PATIENCE)
    case.tell(not waiting, "%d are never served" % len(waiting))
    case.ended(*["ended"] * 200)
    case.end()


def resets(program, tell):
    """Resets within a message and within a reply: whole messages are carried out, others are not, and no memory stays in use."""
    case = Case(program, "resets", tell)
    one = case.serves("at first")
    case.tell(one.is_answered(insert(-1, 10 * MEGABYTE), INSERTED), "an insert isn't answered")
    before = case.docd.memory()
    for place in range(100):
        within = case.connection()
        data = insert(place, 100_000)
        within.send(data[:(place + 1) * len(data) // 101])
        within.reset()
    for place in range(30):
        within = case.connection()
        within.send(insert(1_000 + place) + find(-1) * 3)
        within.taken(len(INSERTED) + place * 100_000)
        within.reset()
    last = case.serves("after resets")
    case.tell([last.finds(place) for place in range(100)] == [0] * 100, "a message that isn't whole is carried out")
    case.tell([last.finds(1_000 + place) for place in range(30)] == [1] * 30, "a message that is whole isn't carried out")
    more = case.docd.memory() - before
    case.tell(more < 20 * MEGABYTE, "%d bytes more are resident" % more)
    last.close()
    one.close()
    case.ended("ended", *["failed"] * 130, "ended")
    case.end()


def half_closed(program, tell):
    """A client that has finished sending gets all answers. If a client no longer receives, all its commands are carried out."""
    case = Case(program, "half_closed", tell)
    for count in 1, 1_000, 4_000:  # 4,000 are more than docd reads at once
        one = case.connection()
        one.send(b"".join(map(ping, range(count))))
        one.finish_sending()
        wanted = b"".join(map(pong, range(count)))
        case.tell(one.taken(len(wanted)) == wanted, "who has finished sending %d pings isn't answered all" % count)
        case.tell(one.is_at_end(), "who has finished sending %d pings isn't let go" % count)
        one.close()
    one = case.connection()
    one.send(ping() + insert(1)[:-1])
    one.finish_sending()
    case.tell(one.taken(len(pong())) == pong(), "a message in front of one that isn't whole isn't answered")
    case.tell(one.is_at_end(), "a message that isn't whole is answered")
    one.close()
    deaf = case.connection()
    deaf.socket.shutdown(socket.SHUT_RD)
    deaf.send(b"".join(insert(place) for place in range(2, 1_002)))
    deaf.finish_sending()
    fate = case.docd.fates_of(5)[-1]
    deaf.close()
    last = case.serves("after those")
    case.tell(fate in ("ended", "failed"), "who doesn't receive ends by %r" % fate)
    case.tell([last.finds(place) for place in (1, 2, 1_001)] == [0, 1, 1], "the commands of who doesn't receive aren't carried out")
    last.close()
    case.ended(*["ended"] * 4, fate, "ended")
    case.end()


def unread(program, tell):
    """Ten connections ask for 2 GB in all and don't read: docd holds one reply for each, others are served, and the rest of the
    answers is sent once it is read."""
    case = Case(program, "unread", tell)
    first = case.serves("at first")
    first.is_answered(insert(1, MEGABYTE), INSERTED)
    first.send(find(1))
    wanted, before = first.reply(), case.docd.memory()
    slow = case.connections(10)
    for one in slow:
        one.send(find(1) * 200)
    for _ in range(100):
        case.tell(first.is_answered(ping(), pong()), "another connection isn't served")
    time.sleep(A_WHILE)
    case.is_idle("while nobody reads")
    more = case.docd.memory() - before
    case.tell(more < len(slow) * 2 * len(wanted), "%d bytes more are resident" % more)
    for one in slow[5:]:
        one.reset()
    slow[0].send(b"".join(map(ping, range(4_000))))
    slow[0].finish_sending()
    for one in slow[:5]:
        case.tell(all(one.reply() == wanted for _ in range(200)), "a wrong answer to who reads late")
    case.tell(all(slow[0].reply() == pong(place) for place in range(4_000)), "a wrong answer to who has finished sending")
    case.tell(slow[0].is_at_end(), "who has finished sending and reads late isn't let go")
    for one in [*slow[:5], first]:
        one.close()
    case.ended(*["ended"] * 6, *["failed"] * 5)
    case.end()


def bytewise(program, tell):
    """Twenty connections at once send their messages byte by byte, in turn."""
    case = Case(program, "bytewise", tell)
    all_of_them = case.connections(20)
    for place in range(0, len(ping(5) + ping(6))):
        for one in all_of_them:
            one.send((ping(5) + ping(6))[place:place + 1])
    for one in all_of_them:
        case.tell(one.taken(2 * len(pong())) == pong(5) + pong(6), "a wrong answer to single bytes")
        one.close()
    case.ended(*["ended"] * 20)
    case.end()


FAULTS = {
    1: struct.pack("<i", 25),
    2: struct.pack("<iiii", 30, 1, 0, 2004),
    3: struct.pack("<iiiiI", 30, 1, 0, 2013, 4),
    4: struct.pack("<iiiiI", 30, 1, 0, 2013, 1),
    5: struct.pack("<iiiiIB", 30, 1, 0, 2013, 0, 7) + bytes(9),
}


def faults(program, tell):
    """Each closing fault from 1 to 5: what was asked before it is answered, what follows it is not, and others are served."""
    case = Case(program, "faults", tell)
    for fault, data in FAULTS.items():
        one = case.connection()
        one.send(ping() + ping(2) + data)
        case.tell(one.taken(2 * len(pong())) == pong() + pong(2), "what is in front of fault %d isn't answered" % fault)
        case.tell(one.is_at_end(), "fault %d doesn't close" % fault)
        one.close()
    one = case.connection()
    one.send(ping() + FAULTS[2] + insert(1))
    case.tell(one.taken(len(pong())) == pong() and one.is_at_end(), "what follows a fault is answered")
    last = case.serves("after faults")
    case.tell(last.finds(1) == 0, "what follows a fault is carried out")
    last.close()
    case.ended(*["closed %d" % fault for fault in FAULTS], "closed 2", "ended")
    case.end()


def unfinished(program, tell):
    """Seven connections send 48 MB each, except the last byte: those that make the unfinished messages exceed the limit for all are
    closed, and the others' messages are carried out."""
    case = Case(program, "unfinished", tell)
    small = case.connection()
    small.send(ping()[:-1])
    data, closed = large_ping(), []
    large = case.connections(7)
    for one in large:
        try:
            one.send(data[:-1])
        except OSError:
            closed.append(one)
    time.sleep(A_WHILE)
    most = case.docd.memory()
    case.tell(most < ALL_UNFINISHED + 2 * len(data), "%d bytes are resident" % most)
    open_ones = [one for one in large if one not in closed and not readable([one], 0)]
    case.tell(len(open_ones) == ALL_UNFINISHED // len(data), "%d are open" % len(open_ones))
    for one in open_ones:
        case.tell(one.is_answered(data[-1:], pong()), "a message that may be isn't carried out")
        one.close()
    case.tell(small.is_answered(ping()[-1:], pong()), "a small message isn't carried out")
    small.close()
    case.ended("ended", *["closed 6" if one not in open_ones else "ended" for one in large])
    case.end()


def the_port(program, tell):
    """A port in use is refused, and is free when docd has ended. With a number of connections, docd ends after them."""
    case = Case(program, "the_port", tell, "--connections", "3")
    words = [program, "listen", "--port", str(case.docd.port), "--connections", "0"]
    second = subprocess.run(words, capture_output=True, text=True, timeout=PATIENCE)
    case.tell((second.returncode, second.stdout, second.stderr) == (1, "", "docd: cannot serve\n"), "a second docd: %r" % second)
    last = [case.serves("beside a second docd") for _ in range(3)]
    fourth = case.connection()
    for one in last:
        one.close()
    case.ended(*["ended"] * 3)
    case.tell(case.docd.process.wait(PATIENCE) == 0, "it ends with a fault after its last connection")
    case.tell(fourth.is_at_end(), "a fourth of three connections is served")
    third = subprocess.run(words, capture_output=True, text=True, timeout=PATIENCE)
    case.tell((third.returncode, third.stdout) == (0, "serving 127.0.0.1:%d\n" % case.docd.port), "a third docd: %r" % third)
    case.docd.end()


CASES = {one.__name__: one for one in [crowd, few_descriptors, resets, half_closed, unread, bytewise, faults, unfinished, the_port]}


def main():
    options = argparse.ArgumentParser(description=__doc__, formatter_class=argparse.RawDescriptionHelpFormatter)
    options.add_argument("--cases", default="", help="words, joined by commas: run the cases whose name has one of them")
    given = parsed(options, "broken_connections")
    let_open_many()
    cases = named("broken_connections", given.cases, CASES)
    return status_of("broken_connections", *(lambda tell, one=CASES[name]: one(given.program, tell) for name in cases))


if __name__ == "__main__":
    sys.exit(main())
