#!/usr/bin/python3
"""Times the proofs: runs `rt ci`, and writes the processor time of each crate's proof and edits to tools/proof_seconds.txt, from
which tools/build.py forecasts, and to the table of docs/GATE.md. The proof of a crate with tests includes theirs. Run it alone on
the machine, or the figures are too high. A gate that fails changes no file.

The gate's output goes to this tool's standard output as it comes. Needs Linux, whose /proc says how much processor time a process
and its children took. It is read each second, so at most the last second of a process is lost.

    tools/check/timed_gate.py > /tmp/gate.txt
    tools/check/timed_gate.py --table             only writes the table again, with the lines that the crates have now
"""
import argparse
import os
import pathlib
import re
import resource
import shutil
import subprocess
import sys
import time
from collections import Counter, namedtuple

ROOT = pathlib.Path(__file__).resolve().parent.parent.parent
A_LOOK = 1  # seconds from one look at the processes to the next
TICKS = os.sysconf("SC_CLK_TCK")
EDITS, TESTS, PROOF = "edits", "tests", "proof"
SECONDS = ROOT / "tools" / "proof_seconds.txt"
PAGE = ROOT / "docs" / "GATE.md"
LINE = "| `%s` | %s | %s | %s | %s | %s | %s |"
HEAD = ["| Crate | Code | Definitions | Proofs | Proof | Edits | Their time |", "|---|---:|---:|---:|---:|---:|---:|"]

# A process: its parent, when it began, the seconds that it took, and those that its ended children took.
Process = namedtuple("Process", "parent began own ended")


def processes():
    """All processes by number."""
    found = {}
    for number in filter(str.isdigit, os.listdir("/proc")):
        try:
            told = pathlib.Path("/proc", number, "stat").read_text().rpartition(")")[2].split()
        except OSError:
            continue  # it has ended meanwhile
        user, system, ended_user, ended_system = (int(it) / TICKS for it in told[11:15])
        found[int(number)] = Process(int(told[1]), int(told[19]), user + system, ended_user + ended_system)
    return found


def words_of(number):
    try:
        return pathlib.Path("/proc", str(number), "cmdline").read_text(errors="replace").split("\0")
    except OSError:
        return []


def task_of(words):
    """The crate and the part of the gate that a check with this command line is for, or None."""
    if "--crate-name" not in words:
        return None
    crate = words[words.index("--crate-name") + 1]
    if "check" in words and "-o" not in words:  # a proof writes what it proved
        return crate, EDITS
    return crate, TESTS if "--test" in words else PROOF


class Looks:
    """What was seen of the processes that a gate started."""

    def __init__(self, gate):
        self.gate, self.tasks, self.seconds = gate, {}, {}

    def look(self):
        """Notes how much each of the gate's children took up to now, with the processes that it started in turn."""
        seen = processes()
        below = {}
        for number, process in seen.items():
            below.setdefault(process.parent, []).append(number)
        for child in below.get(self.gate, []):
            key = child, seen[child].began
            task = task_of(words_of(child))
            if task:
                self.tasks[key] = task
            self.seconds[key] = max(self.seconds.get(key, 0), taken(child, seen, below))

    def by_task(self):
        """The seconds of each crate's proof, tests and edits; what belongs to none is under None."""
        sums = Counter()
        for key, seconds in self.seconds.items():
            sums[self.tasks.get(key)] += seconds
        return sums


def taken(number, seen, below):
    """The processor seconds of a process and of all that it started."""
    return seen[number].own + seen[number].ended + sum(taken(it, seen, below) for it in below.get(number, []))


def lines_in(crate, part):
    """How many lines the files below a folder of a crate have, without empty ones."""
    files = [it for it in (ROOT / "crates" / crate / part).rglob("*") if it.suffix in (".rt", ".antt")]
    return sum(1 for it in files for line in it.read_text().splitlines() if line.strip())


def names():
    """The crates, as crates.txt lists them."""
    return [it.split(":")[0].split()[0] for it in (ROOT / "crates.txt").read_text().splitlines() if it and it[0] != "#"]


def known():
    """The seconds of each crate's proof and of its edits, as tools/proof_seconds.txt has them."""
    lines = SECONDS.read_text().splitlines() if SECONDS.exists() else []
    return {name: (int(proof), int(edits)) for name, proof, edits in map(str.split, lines)}


def note(sums):
    """Writes the seconds of a gate. A crate that the gate took over from an earlier run, and so didn't prove, keeps its figures."""
    figures = known()
    for name in names():
        if sums[name, PROOF]:
            figures[name] = round(sums[name, PROOF] + sums[name, TESTS]), round(sums[name, EDITS])
    SECONDS.write_text("".join("%s %d %d\n" % (name, *figures[name]) for name in names() if name in figures))


def table():
    """The lines of the table."""
    yield from HEAD
    for name in names():
        proof, edits_time = known().get(name, (0, 0))
        edits = len(list((ROOT / "crates" / name / "must-fail").glob("*.edit")))
        counts = [lines_in(name, part) for part in ("src", "specs", "proofs")] + [proof, edits, edits_time if edits else 0]
        yield LINE % (name, *(it or "" for it in counts))


def write_table():
    """Replaces the table in the page."""
    rows = re.compile(re.escape(HEAD[0]) + r"\n(\|.*\n)+")
    PAGE.write_text(rows.sub(lambda _: "\n".join(table()) + "\n", PAGE.read_text()))


def main():
    options = argparse.ArgumentParser(description=__doc__, formatter_class=argparse.RawDescriptionHelpFormatter)
    options.add_argument("--table", action="store_true", help="only write the table again")
    if options.parse_args().table:
        return write_table()
    if not shutil.which("rt"):
        sys.exit("timed_gate: the command `rt` is not found: put the folder bin of the Rattle kit on the PATH")
    start = time.monotonic()
    gate = subprocess.Popen(["rt", "ci"], cwd=ROOT)
    looks = Looks(gate.pid)
    while gate.poll() is None:
        looks.look()
        time.sleep(A_LOOK)
    used = resource.getrusage(resource.RUSAGE_CHILDREN)
    sums = looks.by_task()
    if not gate.returncode:
        note(sums)
        write_table()
    by_part = Counter()
    for task, seconds in sums.items():
        by_part[task[1] if task else "other"] += seconds
    print("processor minutes: " + ", ".join("%s %.1f" % (part, seconds / 60) for part, seconds in sorted(by_part.items())))
    print("the gate took %.1f minutes and %.1f processor minutes" % ((time.monotonic() - start) / 60, (used.ru_utime + used.ru_stime) / 60))
    return gate.returncode


if __name__ == "__main__":
    sys.exit(main())
