#!/usr/bin/python3
"""Tries MongoDB's own drivers, unchanged, with a docd that serves many connections.

Needs the built program (./docd run < /dev/null). What each driver finds is compared with what it has written; every connection
has to end without a fault, which shows that docd accepts all of a driver's messages. If a driver isn't installed, it is left out,
and a line says that.

- MongoDB's driver for C (`apt-get install libmongoc-1.0-0`), by `tools/check/driver.py`: a pool of eight clients, with which ten
  threads insert, find, update and delete, read cursors while others write, make views and run pipelines, each in a collection of
  its own. Together they update one document, which a view reads.
- MongoDB's driver for PHP (`apt-get install php-cli php-mongodb`), by `tools/check/drivers.php`: inserts, finds, updates, deletes,
  a view, an aggregate, cursors over several batches, refusals, and a second check of the server.

    python3 tools/check/drivers.py
    python3 tools/check/drivers.py --program crates/docd/out/docd
"""
import argparse
import os
import shutil
import subprocess
import sys
from concurrent.futures import ThreadPoolExecutor

import folders  # noqa: F401
from checking import status_of
from driver import Pool, opened_library
from listening import Listening
from program import ROOT, parsed

DATABASE = "t"
THREADS = 10
CLIENTS = 8  # in the pool, fewer than threads
DOCUMENTS = 300
STEPS = 50  # of the shared document's count, twice by each thread
A_SCRIPT = 120  # seconds that one may take
SCRIPT = os.path.join(ROOT, "tools", "check", "drivers.php")


class Worker:
    """A thread's work in a collection of its own. `held` has the documents that are there, in the order of `_id`."""

    def __init__(self, pool, place, tell):
        self.pool, self.place, self.name = pool, place, "c%d" % place
        self.tell = lambda is_right, text: tell(is_right, "thread %d: %s" % (place, text))
        self.held = [{"_id": at, "n": (at * 37 + place) % 100, "group": at % 7} for at in range(DOCUMENTS)]

    def work(self):
        """Does each step with a client that is taken out of the pool for it."""
        for step in self.insert, self.count, self.find, self.update, self.delete, self.look, self.count:
            client = self.pool.client(DATABASE)
            try:
                step(client)
            finally:
                client.close()

    def same(self, found, wanted, text):
        self.tell(found == wanted, "%s: %r, and not %r" % (text, found, wanted))

    def insert(self, client):
        for start in range(0, DOCUMENTS, 100):
            told = client.ask({"insert": self.name, "documents": self.held[start:start + 100], "ordered": True})
            self.same(told, {"n": 100, "ok": 1}, "an insert")
        told = client.ask({"insert": self.name, "documents": [{"_id": 0}, {"_id": DOCUMENTS}], "ordered": False})
        refused = [(one["index"], one["code"]) for one in told["writeErrors"]]
        self.same((told["n"], refused), (1, [(0, 11000)]), "an insert in part")
        self.held.append({"_id": DOCUMENTS})

    def count(self, client):
        """Writes to the document that all threads share."""
        for _ in range(STEPS):
            told = client.ask({"update": "shared", "updates": [{"q": {"_id": "count"}, "u": {"$inc": {"n": 1}}}]})
            self.same(told, {"n": 1, "nModified": 1, "ok": 1}, "a step")

    def find(self, client):
        """A find with a sort; and one whose rows stay as they were when all documents change after its first batches."""
        wanted = sorted((one for one in self.held if one.get("n", 0) >= 30), key=lambda one: (-one["n"], one["_id"]))
        command = {"find": self.name, "filter": {"n": {"$gte": 30}}, "sort": {"n": -1}, "batchSize": 7}
        self.same(rows(client.opened(command)), wanted, "a find")
        cursor = client.opened({"find": self.name, "batchSize": 10})
        first = [next(cursor) for _ in range(15)]
        self.update_all(client)
        self.same(first + rows(cursor), [{**one, "n": one["n"] - 1} if "n" in one else one for one in self.held],
                  "a cursor over what was there")
        self.same(rows(client.opened({"find": self.name, "batchSize": 50})), self.held, "a find after it")

    def update_all(self, client):
        entry = {"q": {"n": {"$exists": True}}, "u": {"$inc": {"n": 1}}, "multi": True}
        told = client.ask({"update": self.name, "updates": [entry]})
        self.same(told, {"n": DOCUMENTS, "nModified": DOCUMENTS, "ok": 1}, "an update of all")
        for one in self.held[:DOCUMENTS]:
            one["n"] += 1

    def update(self, client):
        one, other = self.held[5], self.held[6]
        told = client.ask({"update": self.name, "updates": [{"q": {"_id": 5}, "u": {"$set": {"a.b": ["x"]}, "$unset": {"n": 1}}}]})
        self.same(told, {"n": 1, "nModified": 1, "ok": 1}, "an update of one")
        del one["n"]
        one["a"] = {"b": ["x"]}
        told = client.ask({"update": self.name, "updates": [{"q": {"_id": 6}, "u": {"n": 7, "group": 6}}]})
        self.same(told, {"n": 1, "nModified": 1, "ok": 1}, "a replacement")
        other.update(n=7, group=6)

    def delete(self, client):
        gone = [one for one in self.held if one.get("group") == 3]
        told = client.ask({"delete": self.name, "deletes": [{"q": {"group": 3}, "limit": 0}]})
        self.same(told, {"n": len(gone), "ok": 1}, "a delete")
        self.held = [one for one in self.held if one not in gone]

    def look(self, client):
        """A view's rows, and those of its pipeline, in batches of few rows."""
        view, group = "v%d" % self.place, {"_id": "$group", "all": {"$push": "$n"}}
        pipeline = [{"$match": {"n": {"$gte": 0}}}, {"$group": group}]
        self.same(client.ask({"create": view, "viewOn": self.name, "pipeline": pipeline}), {"ok": 1}, "a create")
        groups = {}
        for one in self.held:
            if "n" in one:
                groups.setdefault(one["group"], []).append(one["n"])
        wanted = [{"_id": group, "all": numbers} for group, numbers in sorted(groups.items())]
        self.same(rows(client.opened({"find": view, "batchSize": 2})), wanted, "a view")
        self.same(rows(client.opened({"aggregate": self.name, "pipeline": pipeline, "cursor": {"batchSize": 1}})), wanted, "a pipeline")


def rows(cursor):
    """The rows that are left of a cursor."""
    found = list(cursor)
    cursor.close()
    return found


def try_pool(program):
    """Ten threads at work on the driver's pool."""
    with Listening(program) as docd:
        return status_of("drivers", lambda tell: share_pool(docd, tell))


def share_pool(docd, tell):
    pool = Pool(docd.port, b"&maxPoolSize=%d" % CLIENTS)
    client = pool.client(DATABASE)
    client.ask({"insert": "shared", "documents": [{"_id": "count", "n": 0}], "ordered": True})
    client.ask({"create": "all", "viewOn": "shared", "pipeline": [{"$group": {"_id": None, "sum": {"$sum": "$n"}}}]})
    client.close()
    with ThreadPoolExecutor(THREADS) as threads:
        for one in [threads.submit(Worker(pool, place, tell).work) for place in range(THREADS)]:
            tell(not one.exception(), "a thread ends by %r" % one.exception())
    client = pool.client(DATABASE)
    tell(rows(client.opened({"find": "all"})) == [{"_id": None, "sum": 2 * THREADS * STEPS}], "the view of the shared count is wrong")
    client.close()
    pool.close()
    told_fates(docd, CLIENTS + 1, tell)


def told_fates(docd, count, tell):
    """Checks that this many connections arrived, and that each ended without a fault."""
    fates = docd.fates_of(count)
    tell(fates == ["ended"] * count, "the connections end by %r" % fates)


def try_php(program):
    """Runs the script, which prints what it finds."""
    with Listening(program) as docd:
        done = subprocess.run(["php", SCRIPT, str(docd.port)], timeout=A_SCRIPT)
        return done.returncode or status_of("drivers", lambda tell: told_fates(docd, 1, tell))


def version_of_c():
    try:
        return opened_library().mongoc_get_version().decode()
    except OSError:
        return None


def version_of_php():
    return shutil.which("php") and subprocess.run(["php", "-r", "echo phpversion('mongodb');"], stdout=subprocess.PIPE, text=True).stdout


DRIVERS = [
    ("MongoDB's driver for C", "libmongoc-1.0-0", version_of_c, try_pool),
    ("MongoDB's driver for PHP", "php-cli php-mongodb", version_of_php, try_php),
]


def main():
    options = argparse.ArgumentParser(description=__doc__, formatter_class=argparse.RawDescriptionHelpFormatter)
    given, status = parsed(options, "drivers"), 0
    for name, packages, version_of, trying in DRIVERS:
        if version := version_of():
            print("%s %s:" % (name, version), flush=True)
            status |= trying(given.program)
        else:
            print("%s isn't installed (apt-get install %s), and is left out" % (name, packages))
    return status


if __name__ == "__main__":
    sys.exit(main())
