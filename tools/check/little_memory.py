#!/usr/bin/python3
"""Gives docd little memory and commands that name large sizes: none of them may be refused as out of memory.

Needs the built program (./docd run < /dev/null). After docd has answered a ping, it may take as many megabytes more than it has
then as `--megabytes` says. The commands have a text that claims 2,147,483,647 bytes, `$set`s of a place too far beyond an array's
end, and `$in`s of 100,000 members. Each has to be answered by the fault or the rows that the manual says. Another answer is
printed, and then the exit status is 1.

    python3 tools/check/little_memory.py
    python3 tools/check/little_memory.py --megabytes 20 --program crates/docd/out/docd
"""
import argparse
import resource
import struct
import subprocess
import sys

import folders  # noqa: F401
from cases.commands import DATABASE, IDENTITY, ONE, aggregate, find, put, stage, update
from extended_json import json_of
from listening import memory_of
from model.messages import answer
from model.values import DOCUMENT, TEXT
from program import parsed
from spelled import Broken, array, document, message, number, spelled

MEMBERS = 100_000
FAR = b"9999999999"


class Docd:
    """docd with one session over its standard streams."""

    def __init__(self, program):
        self.process = subprocess.Popen([program, "run"], stdin=subprocess.PIPE, stdout=subprocess.PIPE)

    def reply_to(self, data):
        """The reply to a message; empty if docd has ended."""
        try:
            self.process.stdin.write(data)
            self.process.stdin.flush()
        except BrokenPipeError:
            return {}
        length = self.process.stdout.read(4)
        if len(length) < 4:
            return {}
        return json_of(DOCUMENT, answer(length + self.process.stdout.read(struct.unpack("<i", length)[0] - 4)))

    def bound(self, more):
        """Lets it take this many bytes of address space more than it has."""
        most = memory_of(self.process, "VmSize") + more
        resource.prlimit(self.process.pid, resource.RLIMIT_AS, (most, most))

    def end(self):
        """Ends it, and returns its exit status."""
        self.process.communicate()
        return self.process.returncode


def told(reply):
    """What a reply says: the code of a refusal, those of write errors, the `_id`s of rows, or that all went well."""
    if "code" in reply:
        return reply["code"]
    if "writeErrors" in reply:
        return [error["code"] for error in reply["writeErrors"]]
    if "cursor" in reply:
        return [row["_id"] for row in reply["cursor"]["firstBatch"]]
    return "ok" if reply else "no reply"


def cases():
    """What each is, its message, and what it has to be answered."""
    long_text = TEXT, Broken(b"\xff\xff\xff\x7fbees\0")
    among = document([(b"$in", array(map(number, range(MEMBERS))))])
    yield "a text of 2,147,483,647 bytes", [(b"ping", long_text)], 22
    yield "one in an insert", put([IDENTITY, (b"a", long_text)]), 22
    yield "an insert", put([IDENTITY, (b"a", array([ONE])), (b"n", number(MEMBERS - 1))]), "ok"
    yield "a $set far beyond an array's end", update(b"$set", (b"a." + FAR, ONE)), [28]
    yield "one in a document there", update(b"$set", (b"a." + FAR + b".b", ONE)), [28]
    yield "a $push there", update(b"$push", (b"a." + FAR, ONE)), [28]
    yield "an $in of many members", find(filter=document([(b"n", among)])), [1]
    yield "one by the index of _id", find(filter=document([(b"_id", among)])), [1]
    yield "one in a $match", aggregate(stage(b"$match", document([(b"n", document([(b"$not", among)]))]))), []


def main():
    options = argparse.ArgumentParser(description=__doc__, formatter_class=argparse.RawDescriptionHelpFormatter)
    options.add_argument("--megabytes", type=int, default=50, help="how much more memory docd may take")
    given = parsed(options, "little_memory")
    docd, wrong = Docd(given.program), 0
    docd.reply_to(message(spelled([(b"ping", ONE), DATABASE])))
    docd.bound(given.megabytes << 20)
    for name, asked, wanted in cases():
        got = told(docd.reply_to(asked if isinstance(asked, bytes) else message(spelled([*asked, DATABASE]))))
        if got != wanted:
            print("%s: %s, not %s" % (name, got, wanted))
            wrong += 1
    status = docd.end()
    print("%d wrong answers, exit status %d" % (wrong, status))
    return 1 if wrong or status else 0


if __name__ == "__main__":
    sys.exit(main())
