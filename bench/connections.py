#!/usr/bin/python3
"""What `docd listen` takes for many connections at once, compared with Redis and with `docd serve` with one connection.

Needs what bench/measuring.py says. 1, 10, 100 and 900 connections of one process send pings and finds by `_id` of documents of ten
fields. Each has one request outstanding, or sends 32 and then the next 32 when all are answered. Each reply is compared, byte for
byte. The tables show the server's processor time for a request; how many requests were answered for the connection with the fewest
and for the one with the most; what a thousand idle connections take; and one client's time from a ping to its reply, alone and
while a hundred others send 32 finds each. This last is real time, which varies with whatever else the machine does. Redis
(`apt-get install redis-server`) is measured in the same run, and left out if it is missing.

    /usr/bin/python3 bench/connections.py
    /usr/bin/python3 bench/connections.py --count 10000 --program crates/docd/out/docd
"""
import atexit
import itertools
import math
import multiprocessing
import random
import select
import shutil
import struct
import subprocess
import sys
import tempfile
import time
from collections import namedtuple

import bson
from bson.int64 import Int64

import measuring
from listening import let_open_many, memory_of
from measuring import documents_to_find, heads, inserts, load, processor_time, row, stream_of
from model.messages import HEADER
from served import free_port
from serving import connected, docd_message, redis_command

COUNTS = 1, 10, 100, 900
MANY = 32  # outstanding requests of a connection
ASKED = 3_200  # requests of a kind
ROUNDS = 3
SECONDS = 1  # of a measurement
LONGER = 5  # seconds of a measurement that times each request, or sends none
SHARE = 30  # pieces answered for each connection, on average, if they are counted by connection
IDLE = 1_000
LARGE = 100_000  # bytes of a reply that idle connections received before
OTHERS = 100  # connections that send many requests while one is timed

# Requests and their replies: lists of what is sent to a server in one piece, and of what it answers to that.
Work = namedtuple("Work", "name requests replies")


class Started:
    """A server that was started, and holds documents."""

    def __init__(self, words, port, loading, replies):
        self.port, self.process = port, subprocess.Popen(words, stdout=subprocess.DEVNULL)
        atexit.register(self.process.kill)
        self.connection = connected(port)
        for request, size in zip(loading, replies):
            self.asked(request, size)

    def asked(self, request, size):
        """The reply to a request. It has `size` bytes."""
        self.connection.sendall(request)
        taken = b""
        while len(taken) < size:
            taken += piece_of(self.connection)
        return taken

    def memory(self):
        """How many bytes are resident."""
        return memory_of(self.process)

    def end(self):
        self.connection.close()
        self.process.terminate()
        self.process.wait()


def piece_of(connection):
    piece = connection.recv(1 << 20)
    if not piece:
        sys.exit("bench: a server has closed its connection")
    return piece


def docd_reply(body):
    data = bson.encode(body)
    return struct.pack("<iiiiIB", HEADER + len(data), 0, 1, 2013, 0, 0) + data


def redis_reply(data):
    return b"$%d\r\n%s\r\n" % (len(data), data)


class Docd:
    """How docd is started and asked."""

    name = "docd"

    def __init__(self, documents, mode="listen"):
        self.documents, self.mode = documents, mode

    def started(self):
        port, commands = free_port(), inserts(self.documents)
        words = [measuring.DOCD, self.mode, "--port", str(port)] + ["--connections", "2"] * (self.mode == "serve")
        return Started(words, port, [stream_of([one]) for one in commands],
                       [len(docd_reply({"n": len(one["documents"]), "ok": 1})) for one in commands])

    def works(self, asked):
        found = [docd_reply({"cursor": {"firstBatch": [one], "id": Int64(0), "ns": "t.c"}, "ok": 1}) for one in asked]
        return [Work("pings", [docd_message({"ping": 1})] * len(asked), [docd_reply({"ok": 1})] * len(asked)),
                Work("finds by `_id`", [docd_message({"find": "c", "filter": {"_id": one["_id"]}}) for one in asked], found)]

    def large(self):
        one = {"_id": -1, "t": "x" * LARGE}
        return ([docd_message({"insert": "c", "documents": [one]}), docd_message({"find": "c", "filter": {"_id": -1}})],
                [docd_reply({"n": 1, "ok": 1}),
                 docd_reply({"cursor": {"firstBatch": [one], "id": Int64(0), "ns": "t.c"}, "ok": 1})])


class Redis:
    """How Redis is started and asked."""

    name = "Redis"

    def __init__(self, documents):
        self.documents, self.folder = documents, tempfile.TemporaryDirectory()

    def started(self):
        port = free_port()
        words = ["redis-server", "--bind", "127.0.0.1", "--port", str(port), "--save", "", "--appendonly", "no",
                 "--dir", self.folder.name]
        sets = [redis_command(b"SET", b"%d" % one["_id"], bson.encode(one)) for one in self.documents]
        pieces = [sets[at:at + 1_000] for at in range(0, len(sets), 1_000)]
        return Started(words, port, map(b"".join, pieces), [len(b"+OK\r\n") * len(piece) for piece in pieces])

    def works(self, asked):
        return [Work("pings", [redis_command(b"PING")] * len(asked), [b"+PONG\r\n"] * len(asked)),
                Work("finds by `_id`", [redis_command(b"GET", b"%d" % one["_id"]) for one in asked],
                     [redis_reply(bson.encode(one)) for one in asked])]

    def large(self):
        return ([redis_command(b"SET", b"large", b"x" * LARGE), redis_command(b"GET", b"large")],
                [b"+OK\r\n", redis_reply(b"x" * LARGE)])


def at_once(work, count):
    """The same work, with `count` requests in a piece."""
    def joined(some):
        return [b"".join(some[at:at + count]) for at in range(0, len(some), count)]
    return Work(work.name, joined(work.requests), joined(work.replies))


class Crowd:
    """Connections of this process to a server. Each sends its next piece of a work when the piece before is answered."""

    def __init__(self, port, count):
        self.connections = [connected(port) for _ in range(count)]
        self.poll = select.epoll()
        self.places = {}
        for place, one in enumerate(self.connections):
            self.places[one.fileno()] = place
            self.poll.register(one.fileno(), select.EPOLLIN)

    def ask(self, work, seconds=math.inf, most=math.inf):
        """Asks for `seconds`, or until `most` pieces are answered. Returns how many were answered on each connection until then,
        and how many on all of them once none is outstanding."""
        self.work, count = work, len(self.connections)
        self.next, self.taken = [place % len(work.requests) for place in range(count)], {}
        self.counts, answered = [0] * count, 0
        for place in range(count):
            self.send(place)
        end = time.perf_counter() + seconds
        while answered < most and time.perf_counter() < end:
            places = self.answered()
            answered += len(places)
            for place in places:
                self.send(place)
        counts = list(self.counts)
        while count:
            count -= len(self.answered())
        return counts, sum(self.counts)

    def send(self, place):
        self.connections[place].sendall(self.work.requests[self.next[place]])

    def answered(self):
        """The places of connections whose replies are now complete."""
        places = []
        for descriptor, _ in self.poll.poll():
            place = self.places[descriptor]
            taken = self.taken.pop(place, b"") + piece_of(self.connections[place])
            wanted = self.work.replies[self.next[place]]
            if len(taken) < len(wanted):
                self.taken[place] = taken
                continue
            if taken != wanted:
                sys.exit("bench: a server answers %r, and not %r" % (taken[:200], wanted[:200]))
            self.counts[place] += 1
            self.next[place] = (self.next[place] + 1) % len(self.work.requests)
            places.append(place)
        return places

    def close(self):
        for one in self.connections:
            one.close()
        self.poll.close()


def kinds(works):
    """Each work, with one request in a piece and with many; each is paired with that number."""
    return [(at_once(work, count), count) for work in works for count in (1, MANY)]


def times_of_requests(server, counts, asked):
    """The microseconds of processor time of a request, for each kind and each number of connections."""
    started, times = server.started(), {}
    for count in counts:
        crowd = Crowd(started.port, count)
        for work, size in kinds(server.works(asked)):
            crowd.ask(work, SECONDS / 10)
            begun = processor_time(started.process)
            _, pieces = crowd.ask(work, SECONDS)
            times[work.name, size, count] = 1e6 * (processor_time(started.process) - begun) / (pieces * size)
        crowd.close()
    started.end()
    return times


def time_of_one(server, asked):
    """The same for a server that serves one connection after the other, once the first is closed."""
    started, times = server.started(), {}
    started.connection.close()
    crowd = Crowd(started.port, 1)
    for work, size in kinds(server.works(asked)):
        crowd.ask(work, SECONDS / 10)
        begun = processor_time(started.process)
        _, pieces = crowd.ask(work, SECONDS)
        times[work.name, size] = 1e6 * (processor_time(started.process) - begun) / (pieces * size)
    crowd.close()
    started.end()
    return times


def least(rounds):
    return {key: min(one[key] for one in rounds) for key in rounds[0]}


def print_times(documents, servers, asked):
    rounds = [[] for _ in servers]
    alone = []
    for _ in range(ROUNDS):
        alone.append(time_of_one(Docd(documents, "serve"), asked))
        for server, times in zip(servers, rounds):
            times.append(times_of_requests(server, COUNTS, asked))
    alone, rounds = least(alone), [least(times) for times in rounds]
    heads("microseconds of the processor", "on their way", "`serve`, one connection",
          *("%s: %d" % (server.name, count) if count == COUNTS[0] else str(count) for server in servers for count in COUNTS))
    for name, size in alone:
        spent = [alone[name, size], *(times[name, size, count] for times in rounds for count in COUNTS)]
        row(name, str(size), *("%.2f" % one for one in spent))


def print_shares(servers, asked):
    heads("requests of each of %d connections" % COUNTS[-1], "on their way",
          *itertools.chain(*(("%s: least" % server.name, "most", "times") for server in servers)))
    told = []
    for server in servers:
        started = server.started()
        crowd, told_of_one = Crowd(started.port, COUNTS[-1]), []
        for work, size in kinds(server.works(asked)):
            counts, _ = crowd.ask(work, most=COUNTS[-1] * SHARE)
            told_of_one.append((work.name, str(size), min(counts) * size, max(counts) * size))
        crowd.close()
        started.end()
        told.append(told_of_one)
    for same in zip(*told):
        row(*same[0][:2], *itertools.chain(*(("%d" % few, "%d" % most, "%.2f" % (most / max(few, 1))) for *_, few, most in same)))


def print_idle(servers):
    heads("%d idle connections" % IDLE, "seconds of the processor in %d s" % LONGER, "bytes of each",
          "bytes of each behind a reply of %d kB" % (LARGE // 1_000))
    for server in servers:
        server.documents = []
        started = server.started()
        (store, get), (stored, got) = server.large()
        started.asked(store, len(stored))
        started.asked(get, len(got))
        work = server.works([{"_id": 1}])[0]
        before, crowd = started.memory(), Crowd(started.port, IDLE - 1)
        crowd.ask(at_once(work, 1), 0)
        sizes, begun = [started.memory() - before], processor_time(started.process)
        time.sleep(LONGER)
        spent = processor_time(started.process) - begun
        crowd.ask(Work("large", [get], [got]), 0)
        time.sleep(1)
        sizes.append(started.memory() - before)
        crowd.close()
        started.end()
        row(server.name, "%.4f" % spent, *("%.0f" % (size / (IDLE - 1)) for size in sizes))


def answer_times(connection, work, seconds):
    """The microseconds of each request, sent one at a time, in ascending order."""
    request, reply, times = work.requests[0], work.replies[0], []
    end = time.perf_counter() + seconds
    while (begun := time.perf_counter()) < end:
        connection.sendall(request)
        taken = piece_of(connection)
        while len(taken) < len(reply):
            taken += piece_of(connection)
        times.append(1e6 * (time.perf_counter() - begun))
    return sorted(times)


def ask_for_ever(port, work):
    Crowd(port, OTHERS).ask(work)


def print_waits(servers, asked):
    heads("microseconds from a ping to its reply", "alone: half within", "99 of 100 within",
          "beside %d: half within" % OTHERS, "99 of 100 within")
    for server in servers:
        started = server.started()
        pings, finds = server.works(asked)
        alone = answer_times(started.connection, pings, LONGER)
        others = multiprocessing.Process(target=ask_for_ever, args=[started.port, at_once(finds, MANY)], daemon=True)
        others.start()
        time.sleep(1)
        beside = answer_times(started.connection, pings, LONGER)
        others.kill()
        others.join()
        started.end()
        row(server.name, *("%.0f" % times[len(times) * part // 100] for times in (alone, beside) for part in (50, 99)))


def main():
    documents = documents_to_find(measuring.count_asked(__doc__))
    let_open_many()
    asked = random.Random(len(documents)).choices(documents, k=ASKED)
    servers = [Docd(documents)]
    if shutil.which("redis-server"):
        servers.append(Redis(documents))
    else:
        print("redis-server isn't installed, and is left out")
    print("%d documents; %s" % (len(documents), load()))
    print_times(documents, servers, asked)
    print()
    print_shares(servers, asked)
    print()
    print_waits(servers, asked)
    print()
    print_idle(servers)


if __name__ == "__main__":
    main()
