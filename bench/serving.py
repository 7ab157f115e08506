#!/usr/bin/python3
"""What requests to a served docd take over the loopback, compared with Redis, and `docd check`, compared with libbson's visit.

Needs what bench/measuring.py says. One client sends inserts, finds by `_id`, updates of one field and finds of a range of an
index, over documents of ten fields: one request at a time, and then with many outstanding, where one thread writes and another
reads. Redis (`apt-get install redis-server`; left out if it is missing) gets and sets the same documents' BSON bytes. The table
shows real time, which includes this client's work, and the server's processor time. The file for `docd check` has about 200 MB;
libbson's visit is bench/visit.c (`apt-get install libbson-dev`; left out if it doesn't compile).

    /usr/bin/python3 bench/serving.py
    /usr/bin/python3 bench/serving.py --count 10000 --program crates/docd/out/docd
"""
import atexit
import contextlib
import os
import random
import shutil
import socket
import struct
import subprocess
import sys
import tempfile
import threading
import time
from collections import namedtuple

import bson

import measuring
from measuring import documents_to_find, ended_time, heads, in_turn, load, processor_time, row
from model.messages import HEADER
from program import ROOT
from served import free_port
from spelled import message

ALONE = 5_000  # requests that are sent one at a time
ROUNDS = 3
IN_RANGE = 20  # documents
FILE_BYTES = 200_000_000

# What is sent to docd, as messages, and to Redis, as commands, or None if Redis has nothing of the kind.
Work = namedtuple("Work", "name messages commands")


def docd_message(command):
    return message(bson.encode({**command, "$db": "t"}))


def redis_command(*words):
    return b"*%d\r\n" % len(words) + b"".join(b"$%d\r\n%s\r\n" % (len(word), word) for word in words)


def works(documents):
    """Inserts of all documents, and then requests of each other kind, a tenth as many."""
    count, rng = len(documents), random.Random(len(documents))
    some = [rng.randrange(count) for _ in range(count // 10)]
    sets = [redis_command(b"SET", b"%d" % one["_id"], bson.encode(one)) for one in documents]
    return [
        Work("inserts", [docd_message({"insert": "c", "documents": [one]}) for one in documents], sets),
        Work("finds by `_id`", [docd_message({"find": "c", "filter": {"_id": at}}) for at in some],
             [redis_command(b"GET", b"%d" % at) for at in some]),
        Work("updates of a field", [docd_message({"update": "c", "updates": [{"q": {"_id": at}, "u": {"$set": {"age": at}}}]})
                                    for at in some], [sets[at] for at in some]),
        Work("ranges of %d documents" % IN_RANGE,
             [docd_message({"find": "c", "filter": {"serial": {"$gte": count - IN_RANGE}}})] * len(some), None),
    ]


class Server:
    """A server that was started, and a connection to it. `size` returns how many bytes the first reply in a stream has, or None
    if that isn't known yet; `ping` and `pong` are a request and its reply, with which no other reply ends."""

    def __init__(self, words, port, size, ping, pong):
        self.size, self.ping, self.pong = size, ping, pong
        self.process = subprocess.Popen(words, stdout=subprocess.DEVNULL)
        atexit.register(self.process.kill)
        self.connection = connected(port)
        self.connection.setsockopt(socket.IPPROTO_TCP, socket.TCP_NODELAY, 1)

    def ask_alone(self, requests):
        """Sends each request after the reply to the one before has arrived, and returns the replies."""
        return b"".join([self.reply_to(one) for one in requests])

    def reply_to(self, request):
        self.connection.sendall(request)
        taken = self.piece()
        while (size := self.size(taken)) is None or len(taken) < size:
            taken += self.piece()
        return taken

    def piece(self):
        taken = self.connection.recv(1 << 20)
        if not taken:
            sys.exit("bench: a server has closed its connection")
        return taken

    def ask_many(self, requests):
        """Sends all requests while their replies are read, and returns the replies."""
        sender = threading.Thread(target=self.connection.sendall, args=[b"".join(requests) + self.ping])
        sender.start()
        taken, last = [], b""
        while not last.endswith(self.pong):
            taken.append(self.piece())
            last = last[-len(self.pong):] + taken[-1]
        sender.join()
        return b"".join(taken)[:-len(self.pong)]

    def close(self):
        self.connection.close()
        self.process.terminate()
        self.process.wait()


def connected(port):
    """A connection to a server that may not listen yet."""
    for _ in range(200):
        with contextlib.suppress(ConnectionRefusedError):
            return socket.create_connection(("127.0.0.1", port))
        time.sleep(0.05)
    sys.exit("bench: no server listens")


def docd_size(taken):
    return int.from_bytes(taken[:4], "little") if len(taken) >= 4 else None


def redis_size(taken):
    end = taken.find(b"\r\n")
    if end < 0:
        return None
    return end + 4 + int(taken[1:end]) if taken[:1] == b"$" and taken[1:2] != b"-" else end + 2


def served_docd():
    port = free_port()
    ping, pong = docd_message({"ping": 1}), bson.encode({"ok": 1})
    return Server([measuring.DOCD, "serve", "--port", str(port), "--connections", "1"], port, docd_size, ping,
                  struct.pack("<iiiiIB", HEADER + len(pong), 0, 1, 2013, 0, 0) + pong)


def served_redis(folder):
    port = free_port()
    words = ["redis-server", "--bind", "127.0.0.1", "--port", str(port), "--save", "", "--appendonly", "no", "--dir", folder]
    return Server(words, port, redis_size, redis_command(b"PING"), b"+PONG\r\n")


def spent_on(server, asked, requests):
    """The seconds that a request takes, in real time and of the server's processor, and the replies."""
    start, taken = time.perf_counter(), processor_time(server.process)
    replies = asked(requests)
    return (time.perf_counter() - start) / len(requests), (processor_time(server.process) - taken) / len(requests), replies


def measured(server, requests, check):
    """The four times of a work: with one request at a time and with many outstanding, each in real time and of the processor."""
    alone, many = requests[:min(ALONE, len(requests) // 2)], requests[len(requests) // 2:]
    server.ask_many(requests[len(alone):len(requests) // 2])
    times = []
    for asked, part in ((server.ask_alone, alone), (server.ask_many, many)):
        *spent, replies = spent_on(server, asked, part)
        check(replies, len(part))
        times += spent
    return times


def check_docd(replies, count):
    """Ends the script if there are not `count` replies, or if one is a refusal or reports that nothing was written or found."""
    at = told = 0
    while at < len(replies):
        size = docd_size(replies[at:at + 4])
        body = bson.decode(replies[at + HEADER:at + size])
        is_done = body["ok"] == 1 and "writeErrors" not in body and body.get("n", 1) == 1
        if not is_done or "cursor" in body and not body["cursor"]["firstBatch"]:
            sys.exit("bench: docd answers %r" % body)
        at, told = at + size, told + 1
    if told != count:
        sys.exit("bench: docd answers %d of %d requests" % (told, count))


def check_redis(replies, count):
    """Ends the script if there are not `count` replies, or if one is a refusal or finds nothing."""
    at = told = 0
    while at < len(replies):
        if replies[at:at + 1] == b"-" or replies[at:at + 2] == b"$-":
            sys.exit("bench: Redis answers %r" % replies[at:at + 80])
        at, told = at + redis_size(replies[at:at + 80]), told + 1
    if told != count:
        sys.exit("bench: Redis answers %d of %d requests" % (told, count))


def least_of(rounds):
    return [min(times) for times in zip(*rounds)]


def print_served(documents):
    has_redis = shutil.which("redis-server") is not None
    asked = works(documents)
    by_docd, by_redis = {one.name: [] for one in asked}, {one.name: [] for one in asked}
    for _ in range(ROUNDS):
        docd = served_docd()
        docd.reply_to(docd_message({"createIndexes": "c", "indexes": [{"key": {"serial": 1}, "name": "by_serial"}]}))
        for one in asked:
            by_docd[one.name].append(measured(docd, one.messages, check_docd))
        docd.close()
        if has_redis:
            with tempfile.TemporaryDirectory() as folder:
                redis = served_redis(folder)
                for one in asked:
                    if one.commands:
                        by_redis[one.name].append(measured(redis, one.commands, check_redis))
                redis.close()
    heads("microseconds of a request", "one at a time", "of the processor", "many on their way", "of the processor",
          "Redis: one at a time", "of the processor", "many on their way", "of the processor")
    for one in asked:
        times = least_of(by_docd[one.name]) + least_of(by_redis[one.name])
        row(one.name, *("%.1f" % (1e6 * spent) for spent in times), *["-"] * (8 - len(times)))


def visiting_program(folder):
    """The program of bench/visit.c, or None if it can't be compiled."""
    program, source = os.path.join(folder, "visit"), os.path.join(ROOT, "bench", "visit.c")
    with contextlib.suppress(OSError, subprocess.CalledProcessError):
        words = ["pkg-config", "--cflags", "--libs", "libbson-1.0"]
        found = subprocess.run(words, capture_output=True, text=True, check=True)
        subprocess.run(["cc", "-O2", "-o", program, source, *found.stdout.split()], stderr=subprocess.DEVNULL, check=True)
        return program
    print("libbson's visit doesn't compile (apt-get install gcc pkg-config libbson-dev), and is left out\n")
    return None


def print_check(documents):
    spelled = b"".join(map(bson.encode, documents))
    times = max(1, FILE_BYTES * len(documents) // 100_000 // len(spelled))
    said = b"ok %d\n" % (times * len(documents))
    with tempfile.TemporaryDirectory() as folder:
        path = os.path.join(folder, "documents")
        with open(path, "wb") as file:
            file.write(spelled * times)
        programs = {"docd check": [measuring.DOCD, "check"], "libbson's visit": [visiting_program(folder)]}
        programs = {name: words for name, words in programs.items() if None not in words}

        def run(words):
            if subprocess.run([*words, path], stdout=subprocess.PIPE).stdout != said:
                sys.exit("bench: %s doesn't say %r" % (words, said))
        spent = in_turn(*((lambda words=words: run(words), ended_time) for words in programs.values()))
        heads("over %.0f MB" % (times * len(spelled) / 1e6), "seconds", "MB a second")
        for name, one in zip(programs, spent):
            row(name, "%.2f" % one, "%.0f" % (times * len(spelled) / 1e6 / one))


def main():
    documents = documents_to_find(measuring.count_asked(__doc__))
    print("%d documents; %s" % (len(documents), load()))
    print_served(documents)
    print()
    print_check(documents)


if __name__ == "__main__":
    main()
