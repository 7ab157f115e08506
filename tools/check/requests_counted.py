#!/usr/bin/python3
"""Counts the allocations of one insert under a view of a thousand rows, and of one find on such a view: a stage that recomputes all
its rows makes too many.

Needs the kit and the built program (`./docd run < /dev/null` builds one). A collection has the documents {_id: i, k: i}, i from 1
to 1,000, under one view. docd runs with a last insert of {_id: 1001, k: 1001} and without it, and then also with a find of one row
of the view. The insert may add at most 500 requests for memory to a run, and so may the find. So a stage that recomputes all its
rows for one change is detected, and so is a find that does. At its end each run has to show that the view is live, with as many
rows as it has to have. If not, or if there are too many requests, the exit status is 1.

    python3 tools/check/requests_counted.py
    python3 tools/check/requests_counted.py --program crates/docd/out/docd
"""
import argparse
import sys
from collections import namedtuple

import folders  # noqa: F401
from extended_json import json_of, value_of
from model.messages import answer
from model.values import DOCUMENT, spelling
from program import parsed
from refusing import Refusing
from spelled import message, script_lines

ROWS = 1_000
MOST = 500  # requests that one command may take
JOINED = {"from": "c", "localField": "k", "foreignField": "_id", "as": "o"}

# The stages of a view, how many rows they make of a number of documents, and the fields of a find of one of these rows.
View = namedtuple("View", "stages rows find", defaults=[{"limit": 1}])

VIEWS = {
    "a match, an unwind, a project and the first row": View(
        [{"$match": {"k": {"$gte": 1}}}, {"$unwind": "$k"}, {"$project": {"k": 1}}, {"$limit": 1}], lambda rows: min(rows, 1), {}),
    "a sort": View([{"$sort": {"k": 1}}], lambda rows: rows),
    "a group for each row": View([{"$group": {"_id": "$k", "n": {"$sum": 1}}}], lambda rows: rows),
    "a lookup into the collection itself": View([{"$lookup": JOINED}], lambda rows: rows),
}


def row(number):
    return {"_id": number, "k": number}


def insert(documents):
    return {"insert": "c", "documents": documents}


def lines(commands):
    """The lines of a script that send these commands, and a viewStats at the end."""
    asked = [*commands, {"viewStats": "v"}]
    bodies = [spelling(value_of({**one, "$db": "t"})[1]) for one in asked]
    return b"".join(line + b"\n" for body in bodies for line in script_lines(0, message(body)))


class Under:
    """A collection under a view."""

    def __init__(self, docd, view):
        self.docd, self.view = docd, view
        made = {"create": "v", "viewOn": "c", "pipeline": view.stages}
        self.begin = [insert([row(number + 1) for number in range(ROWS)]), made]
        self.inserted = [*self.begin, insert([row(ROWS + 1)])]

    def least_unmet(self, commands, rows):
        """The least number of a request that a run of the commands doesn't make; None if the view isn't live, with the rows that it
        must have over this many documents."""
        ran = self.docd.run(lines(commands))
        told = json_of(DOCUMENT, answer(bytes.fromhex(ran.said[-1].split()[1].decode()))) if ran.said else {}
        shown = told.get("state"), told.get("rows")
        is_right = not ran.status and shown == ("live", {"$numberLong": str(self.view.rows(rows))})
        return ran.requests + 1 if is_right else None

    def taken(self):
        """How many requests each last command makes, by what it is; None if a run went wrong."""
        steps = [("without", self.begin, ROWS), ("an insert", self.inserted, ROWS + 1),
                 ("a find", [*self.inserted, {"find": "v", **self.view.find}], ROWS + 1)]
        least = [self.least_unmet(commands, rows) for _, commands, rows in steps]
        return {what: None if None in (before, behind) else behind - before
                for (what, _, _), before, behind in zip(steps[1:], least, least[1:])}


def main():
    options = argparse.ArgumentParser(description=__doc__, formatter_class=argparse.RawDescriptionHelpFormatter)
    given, right, wrong = parsed(options, "requests_counted"), 0, 0
    with Refusing(given.program) as docd:
        for name, view in VIEWS.items():
            for what, count in Under(docd, view).taken().items():
                is_right = count is not None and count <= MOST
                told = "the view isn't live with its rows" if count is None else "%d requests" % count
                print("%s %s, %s: %s" % ("  " if is_right else "!!", name, what, told))
                right, wrong = right + is_right, wrong + (not is_right)
    print("%d counted, %d wrong" % (right, wrong))
    return 1 if wrong else 0


if __name__ == "__main__":
    sys.exit(main())
