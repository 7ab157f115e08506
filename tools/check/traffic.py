"""A day's traffic over many documents, for `soak.py`: fifty clients at once insert, update and delete, read the orders and views
page by page in the order of `_id`, run pipelines over a few documents, and read views by key (`tools/check/making/requests.py`).

First as many orders as `--documents` says are inserted, under indexes and all views of `tools/check/making/orders.py`, and their
number stays about the same. While the clients work, one more compares a few rows of views with what their pipelines make of the
orders with the same `_id`s. Each minute (`--every`) all rest, and

- all rows of each view, by a find and all its batches, have to be those of an aggregate of its pipeline, byte for byte, and as many
  as viewStats reports of the view, which has to be live;
- there have to be as many orders as were inserted and not deleted according to the replies, and no two may share a key of the
  unique index;
- pages have to be what one find of all of them returns;
- a view that no other view reads is dropped and made again, and some clients connect again.

At the end a table says for each kind of request how many there were, and how long a client waited, in milliseconds. That includes
the time in which other clients are served, and the time that Python takes to write the command and read the reply: a ping takes
that and nothing else. Requests of the comparisons are sent one at a time, while nothing else runs.
"""
import itertools
import sys
import threading
import time
from collections import defaultdict
from concurrent.futures import ThreadPoolExecutor

from making.orders import UNIQUE
from making.requests import A_FILLING, A_PAGE, IN_ORDER
from soaking import Client, Comparer, Difference, Soak, batches, find_all, make_all, rows_in, same_rows

# The kinds of requests, and how often each is chosen.
KINDS = {"write": 10, "go_through": 1, "aggregate": 3, "by_key": 5, "ping": 1}
PAGES = 5  # that a client reads one after the other
LOOKS = 10  # measurements of docd's memory while it is filled
PARTS = {"median": 0.5, "99 %": 0.99, "slowest": 1}


class Timer:
    """How many seconds requests took, by their kinds."""

    def __init__(self):
        self.times = defaultdict(list)

    def timed(self, kind, call, *operands):
        start = time.perf_counter()
        result = call(*operands)
        self.times[kind].append(time.perf_counter() - start)
        return result


class Worker(Client):
    """A client, with how long its requests took."""

    def __init__(self, connecting, orders, lock):
        self.timer = Timer()
        super().__init__(connecting, orders, lock)

    def made(self, make, *operands):
        """A command that `orders` makes."""
        with self.lock:
            return make(*operands)

    def work(self, is_over):
        while not is_over.is_set():
            (kind,) = self.made(self.orders.rng.choices, list(KINDS), KINDS.values())
            getattr(self, kind)()

    def write(self):
        collection, command = self.made(self.orders.write)
        reply = self.timer.timed(next(iter(command)), self.ask, command)
        self.made(self.orders.written, collection, command, reply)
        self.seen["documents written"] += reply.get("nModified", reply.get("n", 0))

    def go_through(self):
        """Reads some pages, one after the other."""
        name = self.made(self.orders.rng.choice, IN_ORDER)
        last = self.made(self.orders.identity, "orders")
        for _ in range(PAGES):
            page = self.timer.timed("find of a page", self.rows, self.orders.page(name, last))
            places = [last, *(row["_id"] for row in page)]
            if len(page) > A_PAGE or any(one >= other for one, other in itertools.pairwise(places)):
                raise Difference("a page of %s has the `_id`s %r" % (name, places))
            last = places[-1]

    def aggregate(self):
        self.timer.timed("aggregate", self.rows, self.made(self.orders.aggregate))

    def by_key(self):
        self.timer.timed("find in a view by key", self.rows, self.made(self.orders.by_key))

    def ping(self):
        self.timer.timed("ping", self.ask, {"ping": 1})


class Traffic(Soak):
    """Clients at work on many documents."""

    client_type = Worker

    def __init__(self, docd, connecting, clients, orders, pool):
        super().__init__(docd, connecting, clients, orders, pool)
        self.comparers, self.timer = [Comparer(docd.port, self.orders.pairs())], Timer()
        self.plain = self.comparers[0].client

    def load(self):
        """Inserts the documents, and prints how much memory they take."""
        for command in self.orders.filling("shelves"):
            self.first.ask(command)
        wanted, count = self.orders.wanted["orders"], 0
        for command in self.orders.filling("orders"):
            self.timer.timed("insert of %d" % A_FILLING, self.first.ask, command)
            before, count = count, count + len(command["documents"])
            if before * LOOKS // wanted < count * LOOKS // wanted:
                print("%d orders: %d kB resident" % (count, self.docd.memory() >> 10), flush=True)

    def work(self, seconds, every, quarters):
        """Traffic and comparisons for this many seconds. Returns the memory each second, by quarters of this time."""
        start, memory = time.monotonic(), [[] for _ in range(quarters)]
        with ThreadPoolExecutor(len(self.workers) + len(self.comparers)) as threads:
            while (passed := time.monotonic() - start) < seconds:
                self.work_together(threads, every, memory[int(passed * quarters / seconds)])
                self.compare()
                self.make_view_anew()
                self.connect_anew()
                self.tell(time.monotonic() - start)
        return memory

    def tell(self, seconds):
        """Prints how far the traffic is, on standard error."""
        print("soak: no difference in %d s, after %d requests; %d kB resident" % (
            seconds, sum(map(len, self.times().values())), self.docd.memory() >> 10), file=sys.stderr, flush=True)

    def work_together(self, threads, seconds, memory):
        """Traffic for this many seconds, or until a client ends."""
        is_over, end = threading.Event(), time.monotonic() + seconds
        working = [threads.submit(one.work, is_over) for one in [*self.workers, *self.comparers]]
        try:
            while time.monotonic() < end and not any(one.done() for one in working):
                time.sleep(1)
                memory.append(self.docd.memory())
        finally:
            is_over.set()
        for one in working:
            one.result()

    def asked(self, command):
        """The bytes of a reply, while no other client works."""
        (reply,) = self.timer.timed("%s, alone" % next(iter(command)), self.plain.ask_together, [command])
        return reply

    def compare(self):
        """Compares all while nobody writes."""
        for view, (source, pipeline) in self.orders.views.items():
            counts = {self.told(view), same_rows(self.asked, view, source, pipeline), self.told(view)}
            if len(counts) > 1:
                raise Difference("viewStats counts other rows of %s than a find: %s" % (view, counts))
            self.seen["comparisons"] += 1
            self.seen["rows compared"] += counts.pop()
        if self.count_of(find_all("orders")) != self.orders.counts["orders"]:
            raise Difference("there should be %d orders" % self.orders.counts["orders"])
        if self.count_of(make_all("orders", [{"$group": {"_id": "$" + UNIQUE, "n": {"$sum": 1}}}, {"$match": {"n": {"$gt": 1}}}])):
            raise Difference("two orders share a %s" % UNIQUE)
        for name in IN_ORDER:
            self.compare_pages(name)

    def count_of(self, command):
        """How many rows a find or an aggregate over the orders returns."""
        return sum(map(rows_in, batches(self.asked, "orders", command)))

    def compare_pages(self, name):
        last, pages = self.orders.identity("orders"), []
        whole = self.first.rows({**self.orders.page(name, last), "limit": PAGES * A_PAGE})
        for _ in range(PAGES):
            pages += self.first.rows(self.orders.page(name, pages[-1]["_id"] if pages else last))
        if pages != whole:
            raise Difference("the pages of %s behind %d are %r, and a find of all gives %r" % (name, last, pages, whole))
        self.seen["comparisons of pages"] += 1

    def times(self):
        """How many seconds each request took, by its kind."""
        times = defaultdict(list)
        for timer in [self.timer, *(one.timer for one in self.workers)]:
            for kind, some in timer.times.items():
                times[kind] += some
        return times


def table(times):
    """The lines that say for each kind of request how many there were, and how long they took."""
    yield "%-24s %9s %s" % ("milliseconds of", "requests", " ".join("%10s" % name for name in PARTS))
    for kind, some in sorted(times.items()):
        some.sort()
        parts = (some[min(int(len(some) * part), len(some) - 1)] * 1000 for part in PARTS.values())
        yield "%-24s %9d %s" % (kind, len(some), " ".join("%10.1f" % one for one in parts))
