#!/usr/bin/python3
"""What docd takes at the limits: the largest and the deepest input that each command may have, at half of that and at all of it.

Needs the built program (./docd run < /dev/null). Each case in tools/check/cases is a session's messages for a size and for twice
that size, up to what is allowed. They are run with 8 GB of address space and a stack of 8 MB, for a minute of processor time at
most. For both sizes the processor time and the most memory that was resident are printed, with their ratios, and what was
answered. A ratio above 2.5 stands out, since the size only doubles. A run that doesn't end with status 0 stands out too. If
anything stands out, the exit status is 1. For some views the time of one of the writes that follow all else is printed too: it is
the difference of runs with these writes and without, if that is greater than the difference of two runs without.

    python3 tools/check/limits.py
    python3 tools/check/limits.py --cases "unwind,lookup" --part 10 --program crates/docd/out/docd
"""
import argparse
import os
import resource
import struct
import subprocess
import sys
import tempfile
from collections import Counter, namedtuple

# Each of these modules puts its cases into CASES, in the order in which they are run.
import folders  # noqa: F401
import cases.documents
import cases.filters
import cases.updates
import cases.pipelines
import cases.counts
import cases.views
from cases.commands import CASES, DATABASE
from cases.messages import sessions
from model.values import read_document
from program import named, parsed
from spelled import message, spelled

ADDRESSES = 8 << 30
STACK = 8 << 20
MOST_SECONDS = 60
MOST_RUNS = 3  # of a case whose ratio stands out: other programs on the machine disturb some runs
STANDS_OUT = 2.5
SMALL_TIME, SMALL_MEMORY = 0.1, 64 << 20  # below these a ratio says nothing


def write(make, words, path):
    """Writes the bytes of a case to a file, in a process of its own: the memory of this process counts for the program that it
    runs. The words are the case's size, and how many writes it makes if these are timed."""
    child = os.fork()
    if not child:
        with open(path, "wb") as file:
            for one in make(*words):
                file.write(one if isinstance(one, bytes) else message(spelled([*one, DATABASE])))
        os._exit(0)
    if os.waitpid(child, 0)[1]:
        sys.exit("limits: no messages of %s for %s" % (make.__name__, words))


def limited():
    resource.setrlimit(resource.RLIMIT_AS, (ADDRESSES, ADDRESSES))
    resource.setrlimit(resource.RLIMIT_STACK, (STACK, STACK))
    resource.setrlimit(resource.RLIMIT_CPU, (MOST_SECONDS, MOST_SECONDS))


def run(program, is_script, given, answer):
    """What a run took: seconds, bytes, and its exit status, below 0 if a signal ended it."""
    words = [program, "run"] + ["--hex"] * is_script
    with open(given, "rb") as messages, open(answer, "wb") as replies:
        docd = subprocess.Popen(words, stdin=messages, stdout=replies, stderr=replies, preexec_fn=limited)
        _, status, usage = os.wait4(docd.pid, 0)
        docd.returncode = os.waitstatus_to_exitcode(status)
    return Took(usage.ru_utime + usage.ru_stime, usage.ru_maxrss << 10, docd.returncode)


def kind(reply):
    if b"code" in reply:
        return "code %d" % reply[b"code"][1]
    return "with write errors" if b"writeErrors" in reply else "ok"


def answered(path):
    """What the replies in a file say: how many there are, and how many refusals of each code."""
    seen, at = Counter(), 0
    with open(path, "rb") as file:
        while len(header := file.read(4)) == 4 and 26 <= (length := struct.unpack("<i", header)[0]):
            rest = file.read(length - 4)
            seen[kind(dict(read_document(rest[17:])) if length < 1_000 else {})] += 1
            at = file.tell()
        file.seek(at)
        last = file.read(200).decode(errors="replace").strip()
    return ", ".join(["%d %s" % (count, what) for what, count in seen.items()] + [last] * bool(last))


Took = namedtuple("Took", "seconds memory status")


def measured(program, name, part, folder):
    """Prints a case's line. Returns whether all is well. If a ratio stands out, the case is run again; the fastest run counts."""
    make, most, writes = CASES[name]
    sizes, more = (most // part // 2, most // part), [] if writes is None else [writes]
    given, answer, best = os.path.join(folder, "given"), os.path.join(folder, "answer"), []
    for _ in range(MOST_RUNS):
        took = []
        for size in sizes:
            write(make, [size, *more], given)
            took.append(run(program, make is sessions, given, answer))
        best = [min(runs) for runs in zip(best, took)] if best else took
        ratios = best[1].seconds / max(best[0].seconds, 0.001), best[1].memory / best[0].memory
        has_failed = any(one.status for one in took)
        is_right = not has_failed and not stands_out(best[1], ratios)
        if is_right or has_failed:
            break
    told = ["%d: %.2f s, %d MB%s" % (size, one.seconds, one.memory >> 20, ", status %d" % status if status else "")
            for size, one, (_, _, status) in zip(sizes, best, took)]
    told += ["ratios %.1f and %.1f" % ratios, answered(answer), *(of_one_write(program, make, sizes[1], one, folder) for one in more)]
    print("%s %s: %s" % ("  " if is_right else "!!", name, "; ".join(told)), flush=True)
    return is_right


def of_one_write(program, make, size, writes, folder):
    """What one of this many writes of a case takes, by the fastest of some runs with them and without, made in turn. No time is
    given if the runs without them differ by as much among themselves."""
    answer, took = os.path.join(folder, "answer"), {0: [], writes: []}
    for count in took:
        write(make, [size, count], os.path.join(folder, str(count)))
    for count in [*took] * MOST_RUNS:
        took[count].append(run(program, False, os.path.join(folder, str(count)), answer).seconds)
    all_writes = min(took[writes]) - min(took[0])
    if all_writes <= max(took[0]) - min(took[0]):
        return "a write takes too little time to measure"
    return "a write %.3f ms" % (1_000 * all_writes / writes)


def stands_out(took, ratios):
    """Whether a run took a lot, and far more than one of half its size."""
    lots = (took.seconds >= SMALL_TIME, took.memory >= SMALL_MEMORY)
    return any(is_much and ratio > STANDS_OUT for is_much, ratio in zip(lots, ratios))


def main():
    options = argparse.ArgumentParser(description=__doc__, formatter_class=argparse.RawDescriptionHelpFormatter)
    options.add_argument("--cases", default="", help="words, joined by commas: run the cases whose name has one of them")
    options.add_argument("--part", type=int, default=1, help="divide the sizes by this, to be quicker")
    given = parsed(options, "limits")
    names = named("limits", given.cases, CASES)
    with tempfile.TemporaryDirectory() as folder:
        right = [measured(given.program, name, given.part, folder) for name in names]
    print("%d cases, of which %d failed or grew too much" % (len(right), right.count(False)))
    return 0 if all(right) else 1


if __name__ == "__main__":
    sys.exit(main())
