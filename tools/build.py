#!/usr/bin/python3
"""Builds docd: proves each crate that it uses, lowest first, then docd itself, and links the program.

It forecasts from tools/proof_seconds.txt how long that takes. It prints which crate it is proving, how long each took, and what
is left. An interrupted build continues with the crates that it had not proved. The output of the prover is in
crates/docd/out/build.log. A fault is printed in one line, and the exit status is then 1.

Crates of which none uses another are proved side by side, each with as many processors as memory allows, but at most half of
them if another crate is running or the crate needs much memory. The crate with the longest chain of crates that wait for it comes
first, and the others get what it leaves. (With the kit's `rt lib`, each would wait until no other build works on a crate that it
uses, so the parts of `rt lib` are called here.)

    python3 tools/build.py            builds
    python3 tools/build.py --look     builds nothing, and ends with 0 if the program is proved from the present sources
"""
import argparse
import contextlib
import functools
import os
import pathlib
import re
import shutil
import signal
import subprocess
import sys
import time

from kit import Fault, tell, wanted_kit
from unproved import alone, docd_of, end_with_parent, interrupt

HERE = pathlib.Path(__file__).resolve().parent.parent
PROGRAM = "docd"
LOG = HERE / "crates" / PROGRAM / "out" / "build.log"
SECONDS = HERE / "tools" / "proof_seconds.txt"
A_CHECK = 3 << 30  # bytes of memory that one crate's check may take
A_JOB = 7 << 28  # bytes that each processor of a check may take
LARGE = {"dv_scripts": 9 << 29, "dv_serving": 5 << 30}  # the same of crates that take more; each gets half the processors, so that both have room
SIDE_BY_SIDE = 3  # crates that are proved at once, since each leaves processors idle for a while
ALL_WORK = 5 << 30  # bytes that the crates' work takes on disk
# How many times as long the work takes if several processors share a check: each reads the libraries again, and some wait.
SHARED = 1.25
# A crate that is proved next to another one gets the processors divided by this, since each processor reads the libraries again,
# which is a quarter of a small crate's work.
FEWER = 2
LESS_URGENT = 6  # by how much the priority of a crate is lower, in the system's `nice`, for each crate before it
A_LOOK = 0.2  # seconds between two looks at the running checks
# The part of its processor time that a crate takes at least, however many processors share it (as seen in first builds).
ALONE = 0.6


def free_memory():
    """The bytes of memory that are free, or enough of them if the system doesn't report them."""
    try:
        return int(re.search(r"MemAvailable: *(\d+)", pathlib.Path("/proc/meminfo").read_text())[1]) << 10
    except (OSError, TypeError):
        return 64 << 30


def find_room():
    """How many processors there are, and how many bytes of memory."""
    disk = shutil.disk_usage(HERE).free
    if disk < ALL_WORK and not (LOG.parent / PROGRAM).exists():
        raise Fault("the disk has %.1f GB left, but a first build stores %d GB below crates/*/out: free some space" % (disk / 2**30, ALL_WORK >> 30))
    memory = free_memory()
    if memory < A_CHECK:
        raise Fault("%.1f GB of memory are free, but a build needs %d GB: end other programs, or use a larger machine" % (memory / 2**30, A_CHECK >> 30))
    return len(os.sched_getaffinity(0)), memory


def seconds_known():
    """The processor seconds that the proof of each crate took, as tools/check/timed_gate.py wrote them."""
    lines = SECONDS.read_text().splitlines() if SECONDS.exists() else []
    return {words[0]: int(words[1]) for words in map(str.split, lines) if words}


class Crates:
    """The crates that docd uses, and docd: what each uses, and the processor seconds that its proof still needs."""

    def __init__(self, kit):
        self.of_kit = {it.name: it for it in kit.crates_below(str(HERE))}
        program = self.of_kit[PROGRAM]
        self.names = [it.name for it in program.below()] + [PROGRAM]
        seconds = seconds_known()
        usual = sorted(seconds.values())[len(seconds) // 2] if seconds else 300
        self.seconds = {name: 0 if self.is_built(name) else seconds.get(name, usual) for name in self.names}

    def is_built(self, name):
        return name != PROGRAM and self.of_kit[name].is_built()

    def below(self, name):
        return {it.name for it in self.of_kit[name].below()}

    @functools.cache
    def behind(self, name):
        """The processor seconds of the longest chain of crates that begins with this one, each using the crate before it."""
        above = [self.behind(it) for it in self.names if name in {dep.name for dep in self.of_kit[it].deps}]
        return self.seconds[name] + max(above, default=0)

    def forecast(self, left, processors):
        """The seconds that these crates will take."""
        work = sum(self.seconds[it] for it in left) * (SHARED if processors > FEWER else 1) / processors
        chain = max((self.behind(it) for it in left), default=0) * (ALONE if processors > 1 else 1)
        return max(work, chain)


def start(name, jobs, log):
    """Begins to prove a crate."""
    # (in a process group of its own, but not in a session of its own: Linux would share the processors evenly among sessions)
    words = [sys.executable, __file__, "--crate", name, "--jobs", str(jobs)]
    return subprocess.Popen(words, stdin=subprocess.DEVNULL, stdout=log, stderr=log, preexec_fn=os.setpgrp)


def groups_of(number):
    """The groups of a check's processes: its own, and the group into which the kit puts the prover."""
    yield number
    for thread in pathlib.Path("/proc", str(number), "task").glob("*/children"):
        with contextlib.suppress(OSError):  # one has ended meanwhile
            yield from map(os.getpgid, map(int, thread.read_text().split()))


def prove(kit, name, jobs):
    """Proves one crate. The program is linked too, and run on an empty script. The caller holds the locks of all crates."""
    crate = next(it for it in kit.crates_below(str(HERE)) if it.name == name)
    os.chdir(crate.folder)
    os.makedirs("out", exist_ok=True)
    kit.guarded()
    if name != PROGRAM:
        kit.Crate.cuts_libraries = True
        return prove_library(crate, jobs)
    crate.held = []
    return crate.run(["--jobs", str(jobs)], ["run", "--hex"], tests=False)


def prove_library(crate, jobs):
    """Proves a library and keeps what it states, without the proofs, which no crate above it needs. The kit writes no
    stamp for such a library, since the libraries below might be built again; here they are not, unless their sources change."""
    stamp = crate.stamp()
    status = crate.build_rlib(["--jobs", str(jobs)], anew=True)
    if status == 0 and crate.stamp() == stamp:
        pathlib.Path(crate.rlib).with_name("stamp").write_text(stamp)
    return status


def failure(name, status):
    if min(shutil.disk_usage(it).free for it in (HERE, LOG.parent)) < 1 << 20:
        return Fault("the disk is full, so %s is not built: free some space, and run this again; it continues from here" % name)
    if status in (-signal.SIGKILL, 128 + signal.SIGKILL):
        return Fault("building %s was stopped, most likely because memory ran out: end other programs, and run this again" % name)
    return Fault("building %s failed: read the lines with 'error' or 'no proof' in %s" % (name, LOG.relative_to(HERE)))


def minutes(seconds):
    return "a minute" if seconds < 90 else "%d minutes" % round(seconds / 60)


class Build:
    """A build of all that isn't proved yet."""

    def __init__(self, kit, log):
        self.crates, (self.processors, self.room) = Crates(kit), find_room()
        self.log, self.running = log, {}
        self.done = {it for it in self.crates.names if self.crates.is_built(it)}
        self.left = [it for it in self.crates.names if it not in self.done]

    def start_ready(self):
        """Starts the crates that use only proved ones, as far as there is room, the longest chains first."""
        ready = [it for it in self.left if self.crates.below(it) <= self.done and (it != PROGRAM or not self.running)]
        for name in sorted(ready, key=self.crates.behind, reverse=True):
            taken = sum(jobs * LARGE.get(it, A_JOB) for it, (_, _, jobs) in self.running.items())
            most = self.processors if not self.running and name not in LARGE else max(1, self.processors // FEWER)
            jobs = min(most, (self.room - taken) // LARGE.get(name, A_JOB))
            if len(self.running) == SIDE_BY_SIDE or (jobs < 1 and self.running):
                break
            tell("proving %s, crate %d of %d .." % (name, len(self.done) + len(self.running) + 1, len(self.crates.names)))
            self.left.remove(name)
            self.running[name] = start(name, max(1, jobs), self.log), time.monotonic(), max(1, jobs)

    def favour(self):
        """Gives the processors to the running crates in the order of what is left of their longest chains."""
        now = time.monotonic()
        order = sorted(self.running, key=lambda name: self.crates.behind(name) - (now - self.running[name][1]), reverse=True)
        for place, name in enumerate(order):
            with contextlib.suppress(OSError):  # only root can raise a priority again
                for group in groups_of(self.running[name][0].pid):
                    os.setpriority(os.PRIO_PGRP, group, LESS_URGENT * place)

    def take_ended(self):
        """Notes the crates whose proof has ended, and returns whether there are any. Raises a fault if one failed."""
        ended = [it for it, (process, _, _) in self.running.items() if process.poll() is not None]
        for name in ended:
            process, since, _ = self.running.pop(name)
            if process.returncode:
                raise failure(name, process.returncode)
            self.done.add(name)
            rest = self.crates.forecast([*self.left, *self.running], self.processors)
            tell("%s is proved: %d s%s" % (name, time.monotonic() - since, "; some %s are left" % minutes(rest) if rest else ""))
        return bool(ended)

    def stop(self):
        """Ends the checks that still run. The kit ends the prover with its check."""
        for process, _, _ in self.running.values():
            with contextlib.suppress(ProcessLookupError):  # it has ended meanwhile
                os.killpg(process.pid, signal.SIGTERM)  # (what a shell runs in the background ignores SIGINT)
        for process, _, _ in self.running.values():
            process.wait()

    def run(self):
        tell("building: %d crates are to be proved, in some %s if the %d processors have nothing else to do" % (
            len(self.left), minutes(self.crates.forecast(self.left, self.processors)), self.processors))
        try:
            while self.left or self.running:
                self.start_ready()
                self.favour()
                while not self.take_ended():
                    time.sleep(A_LOOK)
        finally:
            self.stop()


def build(kit):
    """Builds the program. The file gets the time at which the build began, so that what is edited meanwhile is newer."""
    since, begun = time.time(), time.monotonic()
    LOG.parent.mkdir(exist_ok=True)
    with alone(LOG.parent / "lock"):
        _held = kit.lock([*docd_of(kit).below(), docd_of(kit)])
        with open(LOG, "w") as log:
            Build(kit, log).run()
        os.utime(LOG.parent / PROGRAM, (since, since))
    tell("built and proved in %d s: ./docd runs this program from now on" % (time.monotonic() - begun))


def is_proved(kit):
    """Whether the program was built from exactly the present sources. If so, its file is made newer than they are."""
    since, crate = time.time(), docd_of(kit)
    program = LOG.parent / PROGRAM
    if not all(it.is_built() for it in crate.below()) or kit.text_of(str(program) + ".stamp") != crate.stamp() + kit.sum_of(str(program)):
        return False
    with contextlib.suppress(OSError):
        os.utime(program, (since, since))
    return True


def main():
    words = argparse.ArgumentParser(description=__doc__, formatter_class=argparse.RawDescriptionHelpFormatter)
    words.add_argument("--look", action="store_true", help="build nothing: only check whether the program is proved")
    words.add_argument("--crate", help=argparse.SUPPRESS)
    words.add_argument("--jobs", type=int, default=1, help=argparse.SUPPRESS)
    given = words.parse_args()
    try:
        if given.crate:
            end_with_parent()
        else:
            signal.signal(signal.SIGTERM, interrupt)
        kit = wanted_kit()
        if given.crate:
            return prove(kit, given.crate, given.jobs)
        if given.look:
            return 0 if is_proved(kit) else 1
        build(kit)
    except Fault as fault:
        tell(str(fault))
        return 1
    except OSError as fault:
        tell("cannot build: %s: %s" % (fault.filename or LOG.parent, fault.strerror))
        return 1
    except KeyboardInterrupt:
        tell("interrupted: the next build continues from here")
        return 1
    return 0


if __name__ == "__main__":
    sys.exit(main())
