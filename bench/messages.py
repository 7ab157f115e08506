#!/usr/bin/python3
"""What messages cost that are long, have many fields or arrive in small pieces, and how that grows, compared with another BSON
library on the same bytes.

Needs what bench/measuring.py says. Inputs are fixed, so that runs can be compared. Small pieces are lines of a hex script, so
their times include reading the lines and their digits; the times of the same bytes in long lines show what that costs.

    /usr/bin/python3 bench/messages.py
    /usr/bin/python3 bench/messages.py --program crates/docd/out/docd
"""
import bson

from measuring import heads, least, lines, row, seconds, seconds_of_script, stream_of, take_words
from spelled import PIECE, message

WAYS = ("lines of 65,000 bytes", PIECE), ("a byte a line", 1)


def decode(bodies):
    for body in bodies:
        bson.decode(body)


def main():
    take_words(__doc__)
    idle = seconds(b"", 0)
    heads("pings", "how they come", "seconds", "microseconds each")
    for count in (1_000, 10_000):
        pings = stream_of([{"ping": 1}] * count)
        for name, length in WAYS:
            spent = seconds_of_script(lines(pings, length), count) - idle
            row("%d" % count, name, "%.3f" % spent, "%.2f" % (1e6 * spent / count))

    print()
    heads("bytes of one ping", "how they come", "seconds", "nanoseconds a byte")
    for size in (10_000, 100_000, 1_000_000):
        long = message(bson.encode({"ping": 1, "text": "x" * size, "$db": "t"}))
        for name, length in WAYS:
            spent = seconds_of_script(lines(long, length), 1) - idle
            row("%d" % len(long), name, "%.4f" % spent, "%.1f" % (1e9 * spent / len(long)))

    print()
    heads("fields in one ping", "bytes", "seconds", "nanoseconds a field", "python3-bson, nanoseconds a field")
    for count in (16, 256, 4_096, 65_536, 524_288):
        body = {"ping": 1, "$db": "t"}
        body.update(("name%d" % i, i) for i in range(count))
        spelled = bson.encode(body)
        times = max(1, 262_144 // count)
        spent = (seconds(message(spelled) * times, times) - idle) / times
        other = least(lambda: decode([spelled] * times)) / times
        row("%d" % count, "%d" % len(spelled), "%.6f" % spent, "%.0f" % (1e9 * spent / count), "%.0f" % (1e9 * other / count))


if __name__ == "__main__":
    main()
