"""What `soak.py` and `traffic.py` share: clients at work on one docd under views, checks of replies, and comparisons of views with
their pipelines while clients write."""
import struct
import threading
from collections import Counter
from itertools import zip_longest

from extended_json import json_of
from making.orders import INDEXES, READ, indexing
from model.messages import answer
from model.values import DOCUMENT, int32
from served import Served

DUPLICATE_KEY = 11000
ALL = 2**31 - 1  # as many rows in a batch as its bytes allow
DATABASE = "t"
BATCH = b"Batch\0"  # how the name of a batch ends
CURSOR = b"\x12id\0"  # the type and name of the cursor, which follows the batch
A_PAUSE = 0.02  # seconds from one comparison during writes to the next
AROUND = 500  # bytes of a batch that are shown around a difference
END = {"$numberLong": "0"}  # the cursor if no rows are left


class Difference(Exception):
    """Something that docd answers is wrong."""


class Plain(Served):
    """A simple connection: it asks for each batch of rows itself."""

    def __init__(self, port, database):
        super().__init__(port)
        self.database = database

    def ask(self, command):
        return super().ask({**command, "$db": self.database})

    def ask_together(self, commands):
        """The replies to commands that are sent in one piece."""
        return super().ask_together([{**one, "$db": self.database} for one in commands])

    def opened(self, command):
        return Cursor(self, command)


class Cursor:
    """The rows of a find or an aggregate, batch by batch."""

    def __init__(self, client, command):
        self.client = client
        self.take(command, "firstBatch")

    def take(self, command, batch):
        told = right(command, self.client.ask(command))["cursor"]
        self.rows, self.number, self.name = iter(told[batch]), told["id"], told["ns"].partition(".")[2]

    def __iter__(self):
        while True:
            yield from self.rows
            if self.number == END:
                return
            self.take({"getMore": self.number, "collection": self.name}, "nextBatch")

    def close(self):
        if self.number != END:
            right("killCursors", self.client.ask({"killCursors": self.name, "cursors": [self.number]}))


def right(command, reply):
    """Returns a reply, which has to report success; only duplicate keys may be refused in it."""
    if reply["ok"] != 1 or any(error["code"] != DUPLICATE_KEY for error in reply.get("writeErrors", [])):
        raise Difference("%r is answered %r" % (command, reply))
    return reply


def rows_told(stats):
    """How many rows viewStats reports of a view, which has to be live."""
    if stats["state"] != "live":
        raise Difference("a view is not live: viewStats returns %r" % stats)
    return int(stats["rows"]["$numberLong"])


def read_answer(reply):
    return json_of(DOCUMENT, answer(reply))


def span_of_batch(reply):
    """Where the array of rows in the reply to a find, an aggregate or a getMore begins and ends."""
    start = reply.find(BATCH) + len(BATCH)
    if start < len(BATCH):
        raise Difference("no rows are answered: %r" % read_answer(reply))
    return start, start + int32(reply, start)


def batch_in(reply):
    """The bytes of the array of rows in such a reply."""
    start, end = span_of_batch(reply)
    return reply[start:end]


def rows_in(batch):
    """How many rows an array has."""
    at, count = 4, 0
    while batch[at]:
        start = batch.index(0, at) + 1
        at, count = start + int32(batch, start), count + 1
    return count


def batches(ask, name, command):
    """The bytes of each batch of all rows of a find or an aggregate over what has this name. `ask` returns a reply's bytes."""
    while command:
        reply = ask(command)
        start, end = span_of_batch(reply)
        yield reply[start:end]
        (number,) = struct.unpack_from("<q", reply, end + len(CURSOR))
        command = number and {"getMore": {"$numberLong": str(number)}, "collection": name}


def find_all(view):
    return {"find": view, "batchSize": ALL}


def make_all(source, pipeline):
    """The command that computes all rows of a pipeline again."""
    return {"aggregate": source, "pipeline": pipeline, "cursor": {"batchSize": ALL}}


def same_rows(ask, view, source, pipeline):
    """How many rows a view has. They have to be those of its pipeline. Nobody may write meanwhile."""
    count = 0
    for found, made in zip_longest(batches(ask, view, find_all(view)), batches(ask, source, make_all(source, pipeline)), fillvalue=b""):
        if found != made:
            at = next((at for at, (one, other) in enumerate(zip(found, made)) if one != other), min(len(found), len(made)))
            shown = slice(max(at - AROUND, 0), at + AROUND)
            raise Difference("%s: from row %d on, byte %d of a batch: the find %r, the pipeline %r" % (
                view, count, at, found[shown], made[shown]))
        count += rows_in(found)
    return count


class Client:
    """A client that works while others do. All share `orders`, under a lock."""

    def __init__(self, connecting, orders, lock):
        self.connecting, self.orders, self.lock, self.seen = connecting, orders, lock, Counter()
        self.connect()

    def connect(self):
        """Connects at once: without the ping, a driver would wait for the first command."""
        self.client = self.connecting()
        self.ask({"ping": 1})

    def often(self, share):
        with self.lock:
            return self.orders.often(share)

    def ask(self, command):
        return right(command, self.client.ask(command))

    def rows(self, command):
        """All rows of a find or an aggregate."""
        cursor = self.client.opened(command)
        found = list(cursor)
        cursor.close()
        return found


class Comparer:
    """Compares rows of views with what their pipelines make, while others write. Each element of `pairs` is a view, a find in it,
    and the aggregate that has to return the same rows."""

    def __init__(self, port, pairs):
        self.client, self.pairs, self.seen = Plain(port, DATABASE), pairs, Counter()

    def work(self, is_over):
        while not is_over.wait(A_PAUSE):
            view, find, aggregate = next(self.pairs)
            stats = {"viewStats": view}
            before, found, made, after = self.client.ask_together([stats, find, aggregate, stats])
            before, after = (right(stats, read_answer(one)) for one in (before, after))
            if before["ticks"] != after["ticks"]:
                self.seen["views that changed while they were compared"] += 1
            elif batch_in(found) != batch_in(made) or find == find_all(view) and rows_in(batch_in(found)) != rows_told(before):
                raise Difference("%s: viewStats returns %r, the find %r, the pipeline %r" % (
                    view, before, read_answer(found), read_answer(made)))
            else:
                self.seen["comparisons beside writes"] += 1


class Soak:
    """Clients at work on a docd under views, and how much was done. They are taken from a pool, or connect one by one."""

    client_type = Client

    def __init__(self, docd, connecting, clients, orders, pool=None):
        self.docd, self.orders, self.lock, self.pool = docd, orders, threading.Lock(), pool
        self.seen, self.closed, self.comparers = Counter(), 0, []
        self.workers = [self.client_type(connecting, orders, self.lock) for _ in range(clients)]
        self.first = self.workers[0]
        for command in [*map(indexing, INDEXES), *map(orders.making, orders.views)]:
            self.first.ask(command)

    def told(self, view):
        return rows_told(self.first.ask({"viewStats": view}))

    def make_view_anew(self):
        """Drops a view that no other view reads, and makes it again."""
        view = self.orders.rng.choice([one for one in self.orders.views if one not in READ])
        self.first.ask({"drop": view})
        self.first.ask(self.orders.making(view))

    def connect_anew(self):
        """Has some clients close and connect again."""
        for worker in self.orders.rng.sample(self.workers, -(-len(self.workers) // 10)):
            worker.client.close()
            worker.connect()
            self.closed += not self.pool
        self.look_at_ends()

    def look_at_ends(self):
        """Checks that all connections that were closed ended without a fault."""
        fates = self.docd.fates_of(self.closed)
        if fates != ["ended"] * self.closed:
            raise Difference("connections end so: %s" % Counter(fates))

    def close(self):
        """Ends all connections, and returns how much was done. A pool has one more than clients, to look for the server."""
        for one in [*self.workers, *self.comparers]:
            one.client.close()
            self.closed += 1
        if self.pool:
            self.pool.close()
            self.closed += 1
        self.look_at_ends()
        self.seen["connections"] = self.closed
        return sum((one.seen for one in [*self.workers, *self.comparers]), self.seen)
