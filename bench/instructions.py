#!/usr/bin/python3
"""How many instructions a command takes inside docd, counted by valgrind's callgrind: repeatable, whatever else the machine does.

Needs what bench/measuring.py says, and valgrind (`apt-get install valgrind`). A run sends a collection of 2,000 documents and then
300 commands. A second run sends twice as many commands. The difference of the two, divided by 300, is what a command costs. With
`--beside`, another program, for example an earlier one, does the same, and its figures are in a column of their own.

    /usr/bin/python3 bench/instructions.py
    /usr/bin/python3 bench/instructions.py --program docd.fast --beside ../before/docd.fast
"""
import argparse
import os
import re
import subprocess
import sys

import measuring
from measuring import heads, row, stream_of
from program import program_at

COMMANDS = 300  # in the first run
DOCUMENTS = 2_000
OTHERS = 20  # documents of another collection, and groups
VALUES = 1_000


def document(identity):
    return {"_id": identity, "group": identity % OTHERS, "amount": identity * 7919 % VALUES, "tags": [1, 2, 3], "name": "name %d" % identity}


def update(place):
    return {"update": "c", "updates": [{"q": {"_id": place}, "u": {"$set": {"amount": place * 31 % VALUES}}}]}


def update_of_element(place):
    return {"update": "c", "updates": [{"q": {"_id": place}, "u": {"$set": {"tags.1": VALUES + place}}}]}


def insert(place):
    return {"insert": "c", "documents": [document(DOCUMENTS + place)]}


ALONE = {
    "find by `_id`": lambda place: {"find": "c", "filter": {"_id": place}},
    "update of a field by `_id`": update,
    "insert": insert,
    "delete by `_id`": lambda place: {"delete": "c", "deletes": [{"q": {"_id": place}, "limit": 1}]},
}
UNDER_VIEWS = {"update": update, "insert": insert}
UNWIND = "`$unwind` of 3 elements"
VIEWS = {
    "`$match`": [{"$match": {"amount": {"$lt": VALUES // 2}}}],
    "`$project`": [{"$project": {"group": 1, "amount": 1}}],
    UNWIND: [{"$unwind": "$tags"}],
    "`$sort`, `$limit`": [{"$sort": {"amount": 1}}, {"$limit": 10}],
    "`$group`": [{"$group": {"_id": "$group", "n": {"$sum": 1}, "sum": {"$sum": "$amount"}}}],
    "`$lookup`": [{"$lookup": {"from": "o", "localField": "group", "foreignField": "_id", "as": "others"}}],
    "`$match`, `$project`, `$group`": [
        {"$match": {"amount": {"$gte": 0}}}, {"$project": {"group": 1, "amount": 1}}, {"$group": {"_id": "$group", "sum": {"$sum": "$amount"}}}],
}


def commands(stages, made, count):
    """What a run sends: the collections, the view if there is one, and `count` of the measured commands."""
    yield {"insert": "o", "documents": [{"_id": place} for place in range(OTHERS)]}
    if stages is not None:
        yield {"create": "v", "viewOn": "c", "pipeline": stages}
    yield {"insert": "c", "documents": [document(place) for place in range(DOCUMENTS)]}
    yield from map(made, range(count))


def collected(program, stages, made, count):
    """The instructions of a run. Each of its commands has to succeed."""
    words = ["valgrind", "--tool=callgrind", "--callgrind-out-file=" + os.devnull, program, "run"]
    asked = [*commands(stages, made, count)]
    done = subprocess.run(words, input=stream_of(asked), stdout=subprocess.PIPE, stderr=subprocess.PIPE)
    found, bodies = re.search(rb"Collected : (\d+)", done.stderr), [*measuring.replies_in(done.stdout)]
    if not found or done.returncode or len(bodies) != len(asked):
        sys.exit("bench: valgrind or docd failed: %s" % done.stderr.decode(errors="replace")[-300:])
    measuring.stop_at_refusals(bodies)
    return int(found[1])


def cost(program, stages, made):
    """The instructions that one more command takes."""
    few, many = (collected(program, stages, made, COMMANDS * times) for times in (1, 2))
    return "{:,}".format((many - few) // COMMANDS)


def main():
    options = argparse.ArgumentParser(description=__doc__, formatter_class=argparse.RawDescriptionHelpFormatter)
    options.add_argument("--beside", help="another program, to compare with")
    given = measuring.asked(options)
    programs = [given.program] + ([program_at(given.beside, "bench")] if given.beside else [])
    heads("command", *["instructions", "beside"][:len(programs)])
    for name, made in ALONE.items():
        row(name, *(cost(program, None, made) for program in programs))
    for view, stages in VIEWS.items():
        for name, made in UNDER_VIEWS.items():
            row("%s under %s" % (name, view), *(cost(program, stages, made) for program in programs))
    row("update of an element under %s" % UNWIND, *(cost(program, VIEWS[UNWIND], update_of_element) for program in programs))


if __name__ == "__main__":
    main()
