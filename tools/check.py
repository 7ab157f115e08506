#!/usr/bin/python3
"""The gate: `rt ci`, and then the checks of the program that it built, which need no proof.

`rt ci` proves each crate from nothing, tries the edits that must be refused, and runs the tests and the program. Then the parts
below run, as many side by side as there are processors. Each has to end with status 0, and to report that it checked no less than
it is known to check: a part that crashes, reports nothing or checks nothing has failed. A part that fails is named with the first
lines that it printed, and its log is kept. The last line counts what passed (the first number of `rt ci`, and the parts) and what
failed. An interruption ends everything that runs.

Needs only the kit and Python.

    tools/check.py                                           the gate
    tools/check.py --program PROGRAM [--parts WORD,WORD]     only the parts, or some of them, on a program: not the gate
"""
import argparse
import contextlib
import os
import re
import shutil
import signal
import subprocess
import sys
import tempfile
import threading
import time
from collections import namedtuple
from concurrent.futures import ThreadPoolExecutor

from program import PROVED, ROOT, named
from unproved import interrupt

COUNTS = re.compile(r"(\d+) passed, (\d+) failed")
A_PART = 3_600  # seconds that a part may take
FIRST_LINES = 20  # of what a part that failed has printed

# A part: its name; the tool and its arguments; what its output says if nothing is wrong; how many it has then checked at least;
# and whether it runs the program.
Part = namedtuple("Part", "name words says least runs", defaults=[True])

RIGHT = r"(\d+) right, 0 wrong"
REFUSED = r"(\d+) requests refused, 0 wrong"
COMPARED = r"(\d+) scripts \(seed \d+\) with \d+ messages, and 0 at the limits: no difference"
AT_LIMITS = r"0 scripts \(seed \d+\) with 0 messages, and (\d+) at the limits: no difference"

# The parts that take longest come first.
PARTS = [
    Part("worked examples cut after each byte, and with each byte replaced", ["each_byte.py"], r"(\d+) runs, 0 wrong", 80_000),
    *[Part("random scripts compared with the model, from number %d" % start,
           ["compare.py", "--start", str(start), "--count", "75", "--without-limits"], COMPARED, 70) for start in range(0, 300, 75)],
    Part("scripts at the limits compared with the model", ["compare.py", "--count", "0"], AT_LIMITS, 38),
    *[Part("each request for memory refused in turn, part %d of 4" % number,
           ["refuse_allocations.py", "--part", "%d/4" % number], REFUSED, 6_000) for number in range(1, 5)],
    *[Part("broken messages compared with the model, %s" % way,
           ["broken_input.py", "--way", way, "--count", "1000"], r"no difference;.* (\d+) messages answered", 1_000)
      for way in ("run", "script", "served", "listened")],
    Part("deep rows, with little stack", ["deep_rows.py", "--views", "3"], RIGHT, 60),
    Part("the model, on examples by hand", ["machine_rows.py"], RIGHT, 5_000, False),
    Part("the prompt, on examples by hand", ["prompt_rows.py"], RIGHT, 700, False),
    Part("the worked examples", ["worked_examples.py"], r"(\d+) examples, 0 wrong", 200),
    Part("the files of the worked examples", ["worked_examples.py", "--look"], r"(\d+) examples, 0 wrong", 200, False),
    Part("the manual's examples, and the replies told in examples", ["manual.py"], RIGHT, 170),
    Part("the notation, on examples by hand", ["notation_rows.py"], RIGHT, 2_000, False),
    Part("requests for memory under a thousand rows", ["requests_counted.py"], r"(\d+) counted, 0 wrong", 8),
    Part("what has to be believed is apart from all other definitions", ["trust.py", "--check"], r"(\d+) files looked at, \d+ outer: 0 faults", 300, False),
    Part("each planted bug can be applied", ["planted.py", "--look"], r"(\d+) edits looked at, 0 wrong", 600, False),
    Part("the files that documents name in tables", ["figures.py", "--tables"], r"(\d+) files in tables, \d+ crates in the map: 0 wrong", 300, False),
    Part("each place that answers that memory ran out is known", ["wants_of_memory.py"], r"(\d+) places in \d+ functions, each of them listed", 50, False),
]


def say(text):
    print(text, flush=True)


def proved():
    """Runs `rt ci`, and passes on what it prints. Returns how many passed and failed by its last line, and that at least one failed
    if it ended badly."""
    last = ""
    if not shutil.which("rt"):
        say("the command `rt` is not found: put the folder bin of the Rattle kit on the PATH")
        return 0, 1
    with subprocess.Popen(["rt", "ci"], cwd=ROOT, stdout=subprocess.PIPE, text=True, errors="replace",
                          env={**os.environ, "PYTHONUNBUFFERED": "1"}) as gate:
        for line in gate.stdout:
            print(line, end="", flush=True)
            last = line.strip() or last
    found = COUNTS.fullmatch(last)
    passed, failed = map(int, found.groups()) if found else (0, 1)
    return passed, max(failed, 1) if gate.returncode else failed


class Tools:
    """The tools that run. Each has a session of its own with all that it starts, so that all of it can be ended."""

    def __init__(self):
        self.running, self.lock, self.is_over = set(), threading.Lock(), False

    def ended(self, words, said):
        """Runs a tool to its end, and ends what it leaves running. Returns its exit status, and the processor seconds that it took
        with what it ran."""
        tool = subprocess.Popen(words, cwd=ROOT, stdin=subprocess.DEVNULL, stdout=said, stderr=subprocess.STDOUT, start_new_session=True)
        self.running.add(tool.pid)
        clock = threading.Timer(A_PART, self.end, [tool.pid])
        clock.start()
        # (No other group gets the number of its group until it is waited for.)
        os.waitid(os.P_PID, tool.pid, os.WEXITED | os.WNOWAIT)
        clock.cancel()
        self.end(tool.pid)
        with self.lock:
            self.running.remove(tool.pid)
            _, status, used = os.wait4(tool.pid, 0)
        tool.returncode = os.waitstatus_to_exitcode(status)
        return tool.returncode, used.ru_utime + used.ru_stime

    def end(self, number):
        """Ends a tool with what it runs, if it is running."""
        with self.lock, contextlib.suppress(ProcessLookupError):
            if number in self.running:
                os.killpg(number, signal.SIGKILL)

    def end_all(self, parts):
        """Ends all tools, until these parts are done."""
        self.is_over = True
        while not all(one.done() for one in parts):
            for number in tuple(self.running):
                self.end(number)
            time.sleep(0.1)


def is_well(part, program, log, tools):
    """Tries a part on the program, and prints how it ended."""
    words = [sys.executable, os.path.join(ROOT, "tools", "check", part.words[0]), *part.words[1:]]
    words += ["--program", program] if part.runs else []
    begun = time.monotonic()
    with open(log, "wb") as said:
        status, seconds = tools.ended(words, said)
    with open(log, errors="replace") as said:
        lines = said.read().splitlines()
    checked = sum(int(found[1]) for found in map(re.compile(part.says).search, lines) if found)
    if tools.is_over:
        return False
    if status == 0 and checked >= part.least:
        say("%s: passed: %d, in %d s, %d of them of a processor" % (part.name, checked, time.monotonic() - begun, seconds))
        return True
    first = "".join("\n    " + line for line in lines[:FIRST_LINES])
    say("%s: FAILED: status %s, %d checked of at least %d; its output is in %s and begins:%s" % (
        part.name, status, checked, part.least, log, first))
    return False


def tried_parts(made, parts):
    """Tries the parts on a copy of the program, as many side by side as there are processors. Returns whether each part passed. The
    logs are kept if one didn't. An interruption ends everything that runs."""
    folder = tempfile.mkdtemp(prefix="lofgrim-check-")
    program = os.path.join(folder, "docd")
    shutil.copyfile(made, program)
    os.chmod(program, 0o755)
    logs = [os.path.join(folder, "%02d-%s.log" % (place, part.words[0])) for place, part in enumerate(parts)]
    tools, pool = Tools(), ThreadPoolExecutor(len(os.sched_getaffinity(0)))
    each = [pool.submit(is_well, part, program, log, tools) for part, log in zip(parts, logs)]
    try:
        pool.shutdown()
    except KeyboardInterrupt:
        pool.shutdown(wait=False, cancel_futures=True)
        tools.end_all(each)
        shutil.rmtree(folder)
        raise
    tried = [one.exception() is None and one.result() for one in each]
    for part, one in zip(parts, each):
        if one.exception():
            say("%s: FAILED: %r" % (part.name, one.exception()))
    if all(tried):
        shutil.rmtree(folder)
    return tried


def counted(program, tools):
    """Runs `rt ci`, if no program is given, and then the parts of these tools. Returns how many passed and failed."""
    passed, failed = (0, 0) if program else proved()
    made = program or PROVED
    if not failed and not os.path.exists(made):
        say("%s does not exist: name a program that does, or build one: ./docd --prove" % made)
        failed = 1
    if not failed:
        tried = tried_parts(made, [part for part in PARTS if part.words[0] in tools])
        passed, failed = passed + tried.count(True), tried.count(False)
    return passed, failed


def main():
    options = argparse.ArgumentParser(description=__doc__, formatter_class=argparse.RawDescriptionHelpFormatter)
    options.add_argument("--program", help="run only the parts, on this program")
    options.add_argument("--parts", default="", help="words, joined by commas: run the parts whose tool's name has one of them")
    given = options.parse_args()
    if given.parts and not given.program:
        options.error("--parts needs --program; without both, the whole gate runs, for hours")
    tools = named("check", given.parts, dict.fromkeys(part.words[0] for part in PARTS))
    for one in signal.SIGTERM, signal.SIGHUP:
        if signal.getsignal(one) is signal.SIG_DFL:
            signal.signal(one, interrupt)
    try:
        passed, failed = counted(given.program, tools)
    except KeyboardInterrupt:
        say("interrupted")
        return 1
    say("%d passed, %d failed" % (passed, failed))
    return 1 if failed or not passed else 0


if __name__ == "__main__":
    sys.exit(main())
