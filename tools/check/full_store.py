#!/usr/bin/python3
"""Fills docd until it has no memory for more documents, and checks that it can then be emptied.

Needs the built program (./docd run < /dev/null). After docd has answered a ping, it may take as many megabytes more than it has
then as `--megabytes` says. Documents are inserted, fewer and fewer at a time, until one alone is refused: with two indexes and two
views, or without. Then in one run a document is deleted by its `_id`, and the others by a delete of all documents. If that is cut
short, it has to have removed some, and is sent again. In another run a cursor, an index and the collection are removed. After both,
documents are inserted again: as many as before, less a twentieth.

If memory runs out, a document is still stored, and a view that gets no memory becomes stale; documents that are inserted later take
the memory of its rows. So under views as many documents are inserted again as there were when all views were last live, less a
twentieth. A stale view has to be live once it is read in the empty store, and to stay live until that many documents are stored.
Then each view has to show the rows of its aggregate.

    python3 tools/check/full_store.py
    python3 tools/check/full_store.py --megabytes 15,500 --program crates/docd/out/docd
"""
import argparse
import sys

import folders  # noqa: F401
from little_memory import Docd
from model.values import spelling
from program import parsed
from prompt.asking import command_of
from spelled import message

WANT_OF_MEMORY = 900
VIEWS = {"v": '[{$group: {_id: "$a", n: {$sum: 1}}}]', "w": "[{$match: {a: {$lt: 5}}}]"}


class Wrong(Exception):
    pass


class Store:
    """A docd with little memory, and how many documents it has."""

    def __init__(self, docd, megabytes, rich):
        self.docd, self.count, self.views = docd, 0, VIEWS if rich else {}
        self.ask("{ping: 1}")
        self.docd.bound(megabytes << 20)
        if rich:
            self.ask('{createIndexes: "c", indexes: [{key: {a: 1}, name: "a"}, {key: {l: 1}, name: "l"}]}')
            for name, pipeline in VIEWS.items():
                self.ask('{create: "%s", viewOn: "c", pipeline: %s}' % (name, pipeline))

    def told(self, line):
        """The reply to a command."""
        reply = self.docd.reply_to(message(spelling(command_of(line, "t")[1])))
        if not reply:
            raise Wrong("no reply to %s" % line[:60])
        return reply

    def ask(self, line):
        """The reply to a command that may not be refused."""
        reply = self.told(line)
        if not reply["ok"]:
            raise Wrong("%s: %s" % (line[:60], reply))
        return reply

    def insert(self, count):
        """Inserts this many more documents. Whether all of them are stored."""
        places = range(self.count, self.count + count)
        documents = ['{_id: %d, a: %d, l: [1, 2, %d], t: "%s"}' % (it, it % 20, it % 50, "x" * 100) for it in places]
        reply = self.told('{insert: "c", documents: [%s]}' % ", ".join(documents))
        self.count += reply.get("n", 0)
        return reply.get("n") == count

    def fill(self):
        """Inserts until a single document was refused five times. Returns how many there were when all views were last live."""
        most = 0
        for count in 1000, 100, 10, 1:
            missed = 0
            while missed < 5:
                missed += not self.insert(count)
                most = most if self.stale() else self.count
        return most

    def stale(self):
        """The names of the views that are stale."""
        return [name for name in self.views if self.ask('{viewStats: "%s"}' % name)["state"] == "stale"]

    def delete_all(self):
        """Deletes all documents, and returns how many commands that took."""
        times = 0
        while True:
            reply, times = self.ask('{delete: "c", deletes: [{q: {}, limit: 0}]}'), times + 1
            self.count -= reply["n"]
            if "writeErrors" not in reply:
                return times
            error = reply["writeErrors"][0]
            if error["code"] != WANT_OF_MEMORY or not error["done"]:
                raise Wrong("a delete of all, of which %d are there: %s" % (self.count, error))
            self.count -= error["done"]

    def read_views(self):
        for name in self.views:
            self.ask('{find: "%s", limit: 1}' % name)

    def compare_views(self):
        if self.stale():
            raise Wrong("with %d documents the views %s are stale again" % (self.count, ", ".join(self.stale())))
        for name, pipeline in self.views.items():
            rows = [self.ask('{aggregate: "%s", pipeline: %s, cursor: {}}' % it) for it in ((name, "[]"), ("c", pipeline))]
            if rows[0]["cursor"]["firstBatch"] != rows[1]["cursor"]["firstBatch"]:
                raise Wrong("the view %s doesn't show its rows" % name)


def delete_each(store):
    if store.ask('{delete: "c", deletes: [{q: {_id: 5}, limit: 1}]}')["n"] != 1:
        raise Wrong("a document isn't deleted by its _id")
    store.count -= 1
    return "%d deletes of all" % store.delete_all()


def drop_all(store, cursor, rich):
    if store.ask('{killCursors: "c", cursors: [%sL]}' % cursor)["cursorsKilled"] == []:
        raise Wrong("a cursor isn't ended")
    if rich:
        store.ask('{dropIndexes: "c", index: "l"}')
    store.ask('{drop: "c"}')
    store.count = 0
    return "a killCursors and drops"


def tried(program, *how):
    """What one run reports. After it docd has to end with status 0."""
    docd = Docd(program)
    try:
        told = fill_and_empty(docd, *how)
        if status := docd.end():
            raise Wrong("docd ends with status %d, after %s" % (status, told))
        return told
    finally:
        docd.process.kill()
        docd.process.wait()


def fill_and_empty(docd, megabytes, rich, drops):
    store = Store(docd, megabytes, rich)
    store.insert(10)
    cursor = store.ask('{find: "c", batchSize: 1}')["cursor"]["id"]["$numberLong"]
    under_views = store.fill()
    filled, stale = store.count, store.stale()
    how = drop_all(store, cursor, rich) if drops else delete_each(store)
    if store.count:
        raise Wrong("%d documents are counted in an empty collection" % store.count)
    store.read_views()
    while store.count < under_views - under_views // 20:
        if not store.insert(100):
            raise Wrong("after %s only %d documents can be stored, of %d before" % (how, store.count, under_views))
    store.compare_views()
    told = ", the last %d beside stale views (%s)" % (filled - under_views, ", ".join(stale)) if stale else ""
    return "%d documents%s; %s, and %d documents" % (filled, told, how, store.count)


def main():
    options = argparse.ArgumentParser(description=__doc__, formatter_class=argparse.RawDescriptionHelpFormatter)
    options.add_argument("--megabytes", default="15,30,60", help="how much more memory docd may take, each in turn")
    given, wrong = parsed(options, "full_store"), 0
    for megabytes in map(int, given.megabytes.split(",")):
        for rich in False, True:
            for drops in False, True:
                try:
                    said = tried(given.program, megabytes, rich, drops)
                except Wrong as fault:
                    said, wrong = "WRONG: %s" % fault, wrong + 1
                print("%d MB%s: %s" % (megabytes, ", two indexes and two views" if rich else "", said), flush=True)
    return 1 if wrong else 0


if __name__ == "__main__":
    sys.exit(main())
