#!/usr/bin/python3
"""Has a docd serve fifty clients at once, for an hour, and checks that its views stay right and its memory bounded.

Needs the built program (./docd run < /dev/null), and Linux, whose /proc says how much memory a process has. The clients, each on a
thread and a connection of its own, insert, update and delete at random in two collections with indexes, one of them unique,
under views of every stage and views over these, and read in between (`tools/check/making/orders.py`). They are a few lines of
Python, or with `--driver` MongoDB's driver for C (`tools/check/driver.py`), whose own calls write and read cursors. The number of
documents stays between bounds.

While they write, four others compare views: each sends in one piece a viewStats, a find, an aggregate of the view's pipeline and a
viewStats. If both viewStats report the same ticks, no write has reached the view in between. Then the find and the aggregate have
to return the same rows, as many as viewStats reports. After every thousand writes or so all clients rest, and

- each view's rows, by a find and all its batches, have to be those of an aggregate of the same pipeline;
- viewStats has to report `live` and as many rows, before and after the find;
- finds by indexes have to return what a `$match` returns;
- no two documents may share a key of the unique index;
- a view that no other view reads is dropped and made again, at times a collection too, and some clients connect again.

Every reply has to report success, except for an `_id` or a key of the unique index that is there already, and every connection
has to end without a fault. The greatest memory that is resident in the last quarter of the time may be 5 % above that in the
second. The first difference is printed, and the exit status is then 1. It is 1 too if memory grew.

With `--documents` there are as many orders as it says, and the requests are those of a day's traffic (`tools/check/traffic.py`).

    python3 tools/check/soak.py
    python3 tools/check/soak.py --driver --clients 20 --seconds 600 --seed 7 --program crates/docd/out/docd
    python3 tools/check/soak.py --documents 500000 --every 60
"""
import argparse
import itertools
import struct
import sys
import threading
import time
from concurrent.futures import ThreadPoolExecutor

import folders  # noqa: F401
from driver import Driven, Pool
from listening import Listening, let_open_many
from making.orders import INDEXES, Orders, UNIQUE, indexing
from making.requests import Requests
from program import parsed
from soaking import DATABASE, Client, Comparer, Difference, Plain, Soak, find_all, make_all
from traffic import Traffic, table

A_ROUND = 1_000  # writes of all clients from one rest to the next
COMPARERS = 4  # that compare while the clients write
MOST_CURSORS = 15  # of a client
SOME_ROWS = [1, 11, 102, 300]  # read of a cursor; some batches end just before the last of these rows
GROWN = 1.05
FEW = 10  # measurements of its memory in a quarter; fewer say nothing
MOST_SHOWN = 20_000  # characters of a difference
QUARTERS = 4
A_TURN = 0.0005  # seconds that a thread of this program runs while others wait


class Worker(Client):
    """A client, which writes and reads."""

    def connect(self):
        self.cursors = []
        super().connect()

    def work(self, writes):
        for _ in range(writes):
            self.write()
            if self.often(0.2):
                self.read()

    def write(self):
        with self.lock:
            collection, command = self.orders.write()
        reply = self.ask(command)
        with self.lock:
            self.orders.written(collection, command, reply)
        self.seen["writes"] += 1
        self.seen["documents written"] += reply.get("nModified", reply.get("n", 0))
        self.seen["updates refused"] += "update" in command and "writeErrors" in reply

    def read(self):
        """Reads some rows, and keeps the cursor. If there are too many cursors, all are closed."""
        with self.lock:
            command, most = self.orders.read(), self.orders.rng.choice(SOME_ROWS)
        cursor = self.client.opened(command)
        self.seen["reads"] += 1
        self.seen["rows read"] += sum(1 for _ in itertools.islice(cursor, most))
        self.cursors.append(cursor)
        if len(self.cursors) > MOST_CURSORS:
            for one in self.cursors:
                one.close()
            self.cursors.clear()


class Few(Soak):
    """Clients at work on few documents, with rests for comparisons of all."""

    client_type = Worker

    def __init__(self, docd, connecting, clients, orders):
        super().__init__(docd, connecting, clients, orders)
        views = [(name, find_all(name), make_all(*made)) for name, made in orders.views.items()]
        self.comparers = [Comparer(docd.port, itertools.cycle(views[at:] + views[:at])) for at in range(COMPARERS)]

    def work(self, seconds):
        """Writes, reads and compares for this many seconds. Returns the memory at each rest, by quarters of this time."""
        start, memory = time.monotonic(), [[] for _ in range(QUARTERS)]
        with ThreadPoolExecutor(len(self.workers) + COMPARERS) as threads:
            while (passed := time.monotonic() - start) < seconds:
                self.work_together(threads)
                self.compare()
                self.begin_anew()
                memory[int(passed * QUARTERS / seconds)].append(self.docd.memory())
        return memory

    def work_together(self, threads):
        """A round of writes of all clients, while others compare."""
        is_over, writes = threading.Event(), -(-A_ROUND // len(self.workers))
        comparing = [threads.submit(one.work, is_over) for one in self.comparers]
        try:
            for one in [threads.submit(worker.work, writes) for worker in self.workers]:
                one.result()
        finally:
            is_over.set()
        for one in comparing:
            one.result()

    def compare(self):
        """Compares all while nobody writes."""
        for view, (source, pipeline) in self.orders.views.items():
            before = self.told(view)
            rows = self.first.rows({"find": view})
            self.same(view, rows, {"aggregate": source, "pipeline": pipeline, "cursor": {}})
            if {before, self.told(view)} != {len(rows)}:
                raise Difference("viewStats counts other rows of %s than its %d" % (view, len(rows)))
        for _ in range(5):
            query = self.orders.query_by_index()
            rows = self.first.rows({"find": "orders", "filter": query})
            self.same(query, rows, {"aggregate": "orders", "pipeline": [{"$match": query}], "cursor": {}})
        keys = [one[UNIQUE] for one in self.first.rows({"find": "orders"})]
        if len(set(keys)) < len(keys):
            raise Difference("two orders share a %s" % UNIQUE)

    def same(self, name, rows, command):
        """Compares rows with those of a command."""
        others = self.first.rows(command)
        self.seen["comparisons"] += 1
        self.seen["rows compared"] += len(rows)
        if rows != others:
            raise Difference("%s: %r, but %r" % (name, rows, others))

    def begin_anew(self):
        """Makes a view again, and at times a collection. Some clients connect again; their sessions have no cursors yet."""
        self.make_view_anew()
        if self.orders.often(0.3):
            collection = self.orders.rng.choice(list(INDEXES))
            self.first.ask({"drop": collection})
            self.first.ask(indexing(collection))
            self.orders.dropped(collection)
            self.seen["drops"] += 1
        self.connect_anew()


def has_grown(memory):
    """Whether the last quarter took more memory than the second; False if there were few measurements."""
    return min(map(len, memory)) >= FEW and max(memory[1]) * GROWN < max(memory[3])


def soak_few(docd, given):
    """Works on few documents. Returns the memory by quarters of the time, and how much was done."""
    client = Driven if given.driver else Plain
    soak = Few(docd, lambda: client(docd.port, DATABASE), given.clients, Orders(given.seed))
    return soak.work(given.seconds), soak.close()


def soak_many(docd, given):
    """The same on many documents. Prints how long each kind of request took."""
    pool = Pool(docd.port, b"&maxPoolSize=%d" % given.clients) if given.driver else None
    connecting = (lambda: pool.client(DATABASE)) if pool else (lambda: Plain(docd.port, DATABASE))
    traffic = Traffic(docd, connecting, given.clients, Requests(given.seed, given.documents), pool)
    try:
        traffic.load()
        memory = traffic.work(given.seconds, given.every, QUARTERS)
    finally:
        print("\n".join(table(traffic.times())), flush=True)
    return memory, traffic.close()


def main():
    options = argparse.ArgumentParser(description=__doc__, formatter_class=argparse.RawDescriptionHelpFormatter)
    options.add_argument("--seed", type=int, default=1)
    options.add_argument("--seconds", type=float, default=3_600, help="how long the clients work")
    options.add_argument("--clients", type=int, default=50, help="how many clients")
    options.add_argument("--driver", action="store_true", help="the clients are MongoDB's driver for C; with --documents its pool")
    options.add_argument("--documents", type=int, help="how many orders there are; the requests are then a day's traffic")
    options.add_argument("--every", type=float, default=60, help="seconds of traffic from one comparison of all to the next")
    given = parsed(options, "soak")
    let_open_many()
    sys.setswitchinterval(A_TURN)
    docd = Listening(given.program)
    try:
        memory, seen = (soak_many if given.documents else soak_few)(docd, given)
    except (Difference, OSError, struct.error) as difference:
        print("soak: seed %d: %s" % (given.seed, str(difference)[:MOST_SHOWN]))
        if docd.status() is not None:
            print("soak: docd has ended with status %d" % docd.status())
        return 1
    finally:
        docd.end()
    print("seed %d, %d clients: %s" % (
        given.seed, given.clients, ", ".join("%d %s" % (count, what) for what, count in sorted(seen.items()))))
    print("most kB resident in each quarter: %s" % ", ".join(str(max(one, default=0) >> 10) for one in memory))
    if has_grown(memory):
        print("soak: memory grew")
    return 1 if has_grown(memory) else 0


if __name__ == "__main__":
    sys.exit(main())
