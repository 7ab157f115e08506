"""What the measurements share: messages, their times, a running program, what it is compared with, and tables.

All need the built program (./docd run < /dev/null) and the BSON library of Debian's package python3-bson with its C extension
(`apt-get install python3-bson python3-bson-ext`; run with /usr/bin/python3). Unless a script says otherwise, times are
processor time, which other programs on the machine change least, and the least of some runs.
"""
import argparse
import json
import os
import pathlib
import queue
import random
import re
import resource
import sqlite3
import struct
import subprocess
import sys
import threading
import time

import bson
from bson.int64 import Int64

TOOLS = os.path.join(os.path.dirname(os.path.dirname(os.path.abspath(__file__))), "tools")
sys.path += [TOOLS, os.path.join(TOOLS, "client"), os.path.join(TOOLS, "check")]

from model.messages import HEADER  # noqa: E402
from program import parsed  # noqa: E402
from spelled import message, script_lines  # noqa: E402

DOCD = None  # the program that is measured, which the arguments may name
RUNS = 5
TUNABLES = "GLIBC_TUNABLES"  # the variable with which ./docd sets how memory is allocated
ALL = 2**31 - 1  # a batch size: as many rows as the bytes of a batch allow
REFUSAL = b"\x02errmsg\0"  # in a reply that refuses a command or a statement


def options_of(description):
    return argparse.ArgumentParser(description=description, formatter_class=argparse.RawDescriptionHelpFormatter)


def count_asked(description):
    """How many documents the arguments ask for, 100,000 by default; they may name the program too."""
    options = options_of(description)
    options.add_argument("--count", type=int, default=100_000, help="how many documents")
    return asked(options).count


def take_words(description):
    """Reads the arguments of a script that has none of its own: they may name the program."""
    asked(options_of(description))


def take_memory_as_docd():
    """Starts this script again with the variable that ./docd sets, so that docd allocates memory as it does for its users. So does
    what is measured in this process to compare docd with. A variable that is set already is kept."""
    if TUNABLES not in os.environ:
        set_by_docd = re.search(r"\{%s-([^}]+)\}" % TUNABLES, pathlib.Path(TOOLS, os.pardir, "docd").read_text())[1]
        os.execve(sys.executable, [sys.executable, *sys.argv], {**os.environ, TUNABLES: set_by_docd})


def asked(options):
    """What the arguments ask for. They may name the program too, which all measurements then use."""
    global DOCD
    take_memory_as_docd()
    given = parsed(options, "bench")
    DOCD = given.program
    if not bson.has_c():
        sys.exit("bench: python3-bson has no C extension; install python3-bson-ext")
    return given


def stream_of(commands):
    """The messages of these commands on the database `t`."""
    return b"".join(message(bson.encode({**command, "$db": "t"})) for command in commands)


def lines(stream, size):
    """A hex script that sends the bytes, `size` in a line."""
    return b"".join(line + b"\n" for line in script_lines(0, stream, size))


def replies_in(stream):
    """The bodies of the replies in a stream."""
    at = 0
    while at < len(stream):
        size, = struct.unpack_from("<i", stream, at)
        yield stream[at + HEADER:at + size]
        at += size


def in_turn(*timed):
    """The least processor time of each action, of some runs in which they take turns. Each action has the clock of the
    process that carries it out: other work on the machine affects this clock less than it affects real time."""
    best = [float("inf")] * len(timed)
    for _ in range(RUNS):
        for place, (action, clock) in enumerate(timed):
            start = clock()
            action()
            best[place] = min(best[place], clock() - start)
    return best


def least(action, clock=time.thread_time):
    """The least processor time of some runs: that of the run that was disturbed least."""
    return in_turn((action, clock))[0]


def ended_time():
    """The seconds of processor time of the processes that this one started and that have ended."""
    usage = resource.getrusage(resource.RUSAGE_CHILDREN)
    return usage.ru_utime + usage.ru_stime


def processor_time(process):
    """The processor seconds that a running process has taken, by the clock that clock_getcpuclockid names."""
    return time.clock_gettime(~process.pid << 3 | 2)


def load():
    """How many processes run or wait, for the line above a table."""
    return "%.1f processes run or wait on %d processors" % (os.getloadavg()[0], os.cpu_count())


def stop_at_refusals(bodies):
    """Ends the script at a reply that refuses something, since a refusal is not the work to be measured."""
    for body in bodies:
        if REFUSAL in body:
            sys.exit("bench: docd refuses: %.1000r" % bson.decode(body))


def seconds(stream, replies):
    """The time of a run of docd. It has to answer the messages of the stream with `replies` replies, and to refuse none."""
    def run():
        done = subprocess.run([DOCD, "run"], input=stream, stdout=subprocess.PIPE, check=True)
        bodies = [*replies_in(done.stdout)]
        if len(bodies) != replies:
            sys.exit("bench: %d replies, not %d" % (len(bodies), replies))
        stop_at_refusals(bodies)

    return least(run, ended_time)


def seconds_of_script(script, replies):
    """The time of a run of docd on a hex script. It has to print `replies` lines, and to refuse nothing."""
    def run():
        done = subprocess.run([DOCD, "run", "--hex"], input=script, stdout=subprocess.PIPE, check=True)
        if (given := done.stdout.count(b"\n")) != replies or REFUSAL.hex().encode() in done.stdout:
            sys.exit("bench: %d lines, not %d, or a refusal among them" % (given, replies))

    return least(run, ended_time)


class Docd:
    """A running program, whose input stays open."""

    def __init__(self):
        self.process = subprocess.Popen([DOCD, "run"], stdin=subprocess.PIPE, stdout=subprocess.PIPE)
        self.bodies = queue.SimpleQueue()
        threading.Thread(target=self.read, daemon=True).start()

    def read(self):
        while header := self.process.stdout.read(HEADER):
            size, = struct.unpack_from("<i", header)
            self.bodies.put(self.process.stdout.read(size - HEADER))
        self.bodies.put(None)

    def send(self, stream, replies):
        """Sends messages, which get `replies` replies. None of these may be a refusal."""
        stop_at_refusals(self.replies_to(stream, replies))

    def replies_to(self, stream, replies):
        """Sends messages, which get `replies` replies, and returns the bodies of these."""
        self.process.stdin.write(stream)
        self.process.stdin.flush()
        bodies = [self.bodies.get() for _ in range(replies)]
        if None in bodies:
            sys.exit("bench: the program has ended")
        return bodies

    def ask(self, *commands):
        """Sends commands on the database `t`, and returns the replies, refusals too."""
        return [bson.decode(body) for body in self.replies_to(stream_of(commands), len(commands))]

    def clock(self):
        """The processor time that it has taken once everything that it was sent is done."""
        self.ask({"ping": 1})
        return processor_time(self.process)

    def close(self):
        self.process.stdin.close()
        self.process.wait()


def inserts(documents, batch=1_000):
    """The commands that insert documents into the collection `c`."""
    return [{"insert": "c", "documents": documents[i:i + batch]} for i in range(0, len(documents), batch)]


def loaded(documents):
    """A running program that holds the documents."""
    docd = Docd()
    for reply in docd.ask(*inserts(documents)):
        if reply["ok"] != 1 or "writeErrors" in reply:
            sys.exit("bench: an insert is refused: %r" % reply)
    return docd


WORDS = "amber birch cedar dune elder fern grove heath iris juniper kelp larch moss nettle oak pine reed sage".split()


def person(rng, identity):
    """The fields that the documents of inserts and of finds share."""
    return {
        "_id": identity,
        "name": " ".join(rng.choices(WORDS, k=2)),
        "city": rng.choice(WORDS),
        "age": rng.randrange(18, 100),
        "balance": Int64(rng.randrange(10**12)),
        "active": rng.random() < 0.5,
        "tags": rng.choices(WORDS, k=2),
    }


def documents_to_find(count):
    """Documents of ten fields and some 250 bytes. `serial` is a different number below `count` in each, `bucket` one of a
    thousand, and each of two items has one of two thousand numbers."""
    rng = random.Random(count)
    serials = rng.sample(range(count), count)
    return [{
        **person(rng, identity),
        "items": [{"item": rng.randrange(2_000), "count": rng.randrange(10)} for _ in range(2)],
        "serial": serials[identity],
        "bucket": rng.randrange(1_000),
    } for identity in range(count)]


def loaded_sqlite(documents):
    """SQLite in process, with the documents as JSON."""
    base = sqlite3.connect(":memory:")
    base.execute("CREATE TABLE c (id INTEGER PRIMARY KEY, body TEXT)")
    base.executemany("INSERT INTO c VALUES (?, ?)", [(one["_id"], json.dumps(one)) for one in documents])
    base.commit()
    return base


def row(*cells):
    print("| %s |" % " | ".join(cells))


def heads(*cells):
    row(*cells)
    row(*["---:"] * len(cells))
