#!/usr/bin/python3
"""How much memory a stored document takes in docd, compared with its BSON bytes, and with Redis if that is installed.

Needs what bench/measuring.py says. Documents of five shapes are inserted, one in a message and a hundred in one, in pieces
as a reader cuts them. Then, while its input is still open, the program's own VmRSS is read, since a child's ru_maxrss begins
with what its parent had. What the program took before the first insert is subtracted. Redis
(`apt-get install redis-server`) stores the same BSON bytes as strings under the documents' numbers.

A picture shows the resident bytes next to the BSON bytes, of documents that are inserted one in a message. bench/memory.svg is
drawn if the usual number of documents is measured, and Redis too, or, with `--figures`, from a file that has the table of an
earlier run. With `--picture`, a picture is drawn of whatever is measured.

    /usr/bin/python3 bench/memory.py
    /usr/bin/python3 bench/memory.py --count 10000 --program crates/docd/out/docd
    /usr/bin/python3 bench/memory.py --figures bench/README.md
"""
import argparse
import atexit
import os
import random
import shutil
import socket
import subprocess
import sys
import tempfile
import time

import bson
from bson.int64 import Int64

import measuring
from bars import Row, drawn
from inserts import document
from listening import memory_of
from measuring import Docd, heads, inserts, row, stream_of

USUAL = 100_000  # documents
PICTURE = os.path.join(os.path.dirname(os.path.abspath(__file__)), "memory.svg")
HEADS = ["shape", "BSON bytes", "alone", "times", "a hundred in a message", "times", "Redis", "times"]
SHOWN = ["BSON bytes", "alone", "Redis"]  # the columns that the picture shows
COLUMNS = ["BSON bytes", "resident in docd", "resident in Redis"]
UNIT = "times the BSON bytes of a document; behind a bar stand its bytes"


def numbers(rng, identity):
    return {"_id": identity, "x": rng.randrange(10**6), "y": Int64(rng.randrange(10**12))}


def wide(rng, identity):
    return dict([("_id", identity)] + [("field%d" % place, rng.randrange(10**6)) for place in range(39)])


def text(rng, identity):
    return {"_id": identity, "text": "".join(rng.choices("abcdefgh ", k=2000))}


def nested(rng, identity):
    return {"_id": identity, "items": [{"item": rng.randrange(1000), "count": rng.randrange(10)} for _ in range(50)]}


# the shape, how a document of it is made, and how many are inserted if the usual number is asked for
SHAPES = [
    ("10 fields", document, 100_000),
    ("3 numbers", numbers, 200_000),
    ("40 fields", wide, 40_000),
    ("a text of 2,000 bytes", text, 40_000),
    ("50 documents in an array", nested, 10_000),
]


def stored_by_docd(documents, batch):
    """The bytes that a document takes."""
    docd = Docd()
    docd.ask({"ping": 1})
    idle, commands = memory_of(docd.process), inserts(documents, batch)
    docd.send(stream_of(commands), len(commands))
    taken = memory_of(docd.process) - idle
    docd.close()
    return taken / len(documents)


def stored_by_redis(documents):
    with tempfile.TemporaryDirectory() as folder:
        path = os.path.join(folder, "socket")
        words = ["redis-server", "--port", "0", "--unixsocket", path, "--save", "", "--dir", folder]
        process = subprocess.Popen(words, stdout=subprocess.DEVNULL)
        atexit.register(process.kill)
        while not os.path.exists(path):
            time.sleep(0.05)
        idle = memory_of(process)
        with socket.socket(socket.AF_UNIX) as connection:
            connection.connect(path)
            answers = connection.makefile("rb")
            for one in documents:
                key, value = b"%d" % one["_id"], bson.encode(one)
                connection.sendall(b"*3\r\n$3\r\nSET\r\n$%d\r\n%s\r\n$%d\r\n%s\r\n" % (len(key), key, len(value), value))
                answers.readline()
            taken = memory_of(process) - idle
        process.terminate()
        process.wait()
        return taken / len(documents)


def measured(asked, has_redis):
    """Prints the table row by row, and yields its rows, each as its cells by column."""
    heads(*HEADS)
    for name, made, count in SHAPES:
        rng = random.Random(count)
        documents = [made(rng, identity) for identity in range(count * asked // USUAL)]
        spelled = sum(len(bson.encode(one)) for one in documents[:1000]) / 1000
        alone, many = stored_by_docd(documents, 1), stored_by_docd(documents, 100)
        redis = stored_by_redis(documents) if has_redis else None
        cells = [name, "%.0f" % spelled, "%.0f" % alone, "%.1f" % (alone / spelled), "%.0f" % many, "%.1f" % (many / spelled),
                 "%.0f" % redis if redis else "-", "%.1f" % (redis / spelled) if redis else "-"]
        row(*cells)
        yield dict(zip(HEADS, cells))


def printed(path):
    """The rows of a table in a file, which may lack columns that the picture does not show."""
    names, columns, found = [name for name, _, _ in SHAPES], [], []
    with open(path, encoding="utf-8") as file:
        for cells in ([cell.strip() for cell in line.strip().strip("|").split("|")] for line in file):
            if cells[0] == HEADS[0]:
                columns = cells
            if cells[0] in names and set(SHOWN) <= set(columns):
                found.append(dict(zip(columns, cells)))
    return found or sys.exit("bench: %s has no table with the columns %s" % (path, ", ".join(SHOWN)))


def picture_of(rows):
    """The picture of the table's rows, each as its cells by column."""
    def bar(row, column):
        return None if row[column] == "-" else (int(row[column]) / int(row["BSON bytes"]), format(int(row[column]), ","))

    return drawn(COLUMNS, [Row(row["shape"], [bar(row, column) for column in SHOWN]) for row in rows], UNIT)


def main():
    options = argparse.ArgumentParser(description=__doc__, formatter_class=argparse.RawDescriptionHelpFormatter)
    options.add_argument("--count", type=int, default=USUAL, help="how many documents")
    options.add_argument("--figures", metavar="FILE", help="measure nothing: draw the table that is in this file")
    options.add_argument("--picture", metavar="FILE", help="write a picture of whatever is measured to this file")
    given, has_redis = options.parse_known_args()[0], shutil.which("redis-server") is not None
    rows = printed(given.figures) if given.figures else list(measured(measuring.asked(options).count, has_redis))
    if given.picture or given.figures or has_redis and given.count == USUAL:
        with open(given.picture or PICTURE, "w", encoding="utf-8") as file:
            file.write(picture_of(rows))


if __name__ == "__main__":
    sys.exit(main())
