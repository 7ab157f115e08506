#!/usr/bin/python3
"""A client of docd in Python, with nothing but Python's own library and the modules in tools/client.

It keeps the orders of a small shop: it inserts some, finds those of a customer, dearest first, in batches, changes one, and
reads a view of what each customer has spent. It drops `spent` and `orders` first, so it can be run again.

    ./docd listen --port 27017 &
    python3 examples/client.py 27017
"""
import os
import sys

sys.path.insert(0, os.path.join(os.path.dirname(os.path.abspath(__file__)), "..", "tools", "client"))

from served import Served  # noqa: E402

NAMESPACE_NOT_FOUND = 26
ORDERS = [
    {"_id": 1, "customer": "Ada", "pence": 1250, "things": ["tea", "cups"]},
    {"_id": 2, "customer": "Ben", "pence": 480, "things": ["soap"]},
    {"_id": 3, "customer": "Ada", "pence": 399, "things": ["tea"]},
    {"_id": 4, "customer": "Cleo", "pence": 2100, "things": ["lamp"]},
    {"_id": 5, "customer": "Ada", "pence": 60, "things": ["soap"]},
]


class Stall:
    """The database `stall` of a served docd."""

    def __init__(self, port):
        self.served = Served(port)

    def ask(self, *allowed, **command):
        """The reply to a command. A write error, or a refusal with a code that isn't allowed, ends the program."""
        reply = self.served.ask({**command, "$db": "stall"})
        if reply["ok"] != 1 and reply["code"] not in allowed or "writeErrors" in reply:
            sys.exit("client: %r is refused: %r" % (command, reply))
        return reply

    def drop(self, *names):
        for name in names:
            self.ask(NAMESPACE_NOT_FOUND, drop=name)

    def find(self, name, **fields):
        """The documents that a find gives, batch by batch until its cursor has no more."""
        cursor = self.ask(find=name, **fields)["cursor"]
        yield from cursor["firstBatch"]
        while cursor["id"] != {"$numberLong": "0"}:
            cursor = self.ask(getMore=cursor["id"], collection=name, batchSize=fields.get("batchSize", 0))["cursor"]
            yield from cursor["nextBatch"]


def show(head, documents):
    print(head)
    for document in documents:
        print("  %s" % document)


def main():
    if len(sys.argv) != 2 or not sys.argv[1].isdigit():
        sys.exit("usage: python3 examples/client.py PORT")
    try:
        stall = Stall(int(sys.argv[1]))
    except OSError as error:
        sys.exit("client: nothing serves at port %s: %s" % (sys.argv[1], error))
    stall.drop("spent", "orders")
    stall.ask(insert="orders", documents=ORDERS)
    stall.ask(createIndexes="orders", indexes=[{"key": {"customer": 1}, "name": "customer_1"}])
    sums = {"_id": "$customer", "orders": {"$sum": 1}, "pence": {"$sum": "$pence"}}
    stall.ask(create="spent", viewOn="orders", pipeline=[{"$group": sums}])
    show("Ada's orders, the dearest first:", stall.find("orders", filter={"customer": "Ada"}, sort={"pence": -1}, batchSize=2))
    stall.ask(update="orders", updates=[{"q": {"_id": 2}, "u": {"$inc": {"pence": 20}, "$push": {"things": "salt"}}}])
    show("what each has spent, by the view:", stall.find("spent"))


if __name__ == "__main__":
    main()
