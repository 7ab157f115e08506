#!/usr/bin/python3
"""Changes one rule of the model at a time, and checks that a worked example detects it.

Each changed rule in tools/check/turns puts a wrong rule in place of a correct one in a copy of the model of tools/check/machine.py,
which is kept in memory. Then that model answers the examples of tools/check/worked_examples.txt, those that take long last. If it
answers all of them as they say, no example detects the changed rule: the rule is printed, and the exit status is 1. All changed
rules take some 40 minutes.

    python3 tools/check/turned_rules.py
    python3 tools/check/turned_rules.py --only unwind     the changed rules whose names or files have this word
    python3 tools/check/turned_rules.py --list            each changed rule, with the first example that detects it

In a file of changed rules, a line that begins with two equals signs names the model's file. A changed rule is a line that says what
it does, and below it the text that is taken out of the file (-), which is there exactly once, and the text that is put in its place
(+). Further pairs apply to what the earlier ones made.
"""
import argparse
import functools
import glob
import importlib.abc
import importlib.util
import os
import signal
import sys
import time
import types
from collections import Counter, namedtuple

import folders  # noqa: F401
from worked_examples import answers, scripts

HERE = os.path.dirname(os.path.abspath(__file__))
CLIENT = os.path.join(os.path.dirname(HERE), "client")
TURNS = os.path.join(HERE, "turns", "*.txt")
MOST_SECONDS = 600  # that a changed model may take for all examples
LONG = 0.1  # seconds: an example that takes as many or more takes long

# What a changed rule does, the file that it changes, and pairs of a text that is there exactly once and what is put in its
# place.
Turn = namedtuple("Turn", "name file changes")


class Wrong(Exception):
    """Why a changed rule can't be tried."""


def lines_of_turns():
    for path in sorted(glob.glob(TURNS)):
        with open(path, encoding="utf-8") as file:
            yield from file.read().splitlines()


def turns():
    """All changed rules, file by file."""
    found, file, marks = [], None, " "
    for line in lines_of_turns():
        mark, held = line[:1], line[2:]
        if line.startswith("== "):
            file = held.strip(" =")
        elif mark == "-" and marks == "-":
            found[-1].changes[-1][0] += "\n" + held
        elif mark == "-":
            found[-1].changes.append([held, None])
        elif mark == "+":
            old, new = found[-1].changes[-1]
            found[-1].changes[-1][1] = held if new is None else new + "\n" + held
        elif line and mark != "#":
            found.append(Turn(line, file, []))
        marks = mark
    return found


def sources():
    """The model's files as texts, by their names."""
    paths = [os.path.join(HERE, "machine.py"), *glob.glob(os.path.join(CLIENT, "model", "*.py"))]
    texts = {}
    for path in paths:
        with open(path, encoding="utf-8") as file:
            texts[os.path.relpath(path, HERE if path.startswith(HERE) else CLIENT)] = file.read()
    return texts


def turned(texts, turn):
    """The model's files with a rule changed."""
    text = texts[turn.file]
    for old, new in turn.changes:
        if text.count(old) != 1 or new is None:
            raise Wrong("%d times in %s: %s" % (text.count(old), turn.file, old))
        text = text.replace(old, new)
    return {**texts, turn.file: text}


class Held(importlib.abc.MetaPathFinder, importlib.abc.Loader):
    """Has Python import modules from these texts."""

    def __init__(self, texts):
        self.texts = {path[:-3].replace(os.sep, "."): text for path, text in texts.items()}

    def find_spec(self, name, path=None, target=None):
        return importlib.util.spec_from_loader(name, self) if name in self.texts else None

    def exec_module(self, module):
        exec(code_of(self.texts[module.__name__]), module.__dict__)


@functools.lru_cache(maxsize=100)
def code_of(text):
    return compile(text, "turned", "exec")


def machine_of(texts):
    """The module of the machine whose files are these texts. It shares no module with the model that is imported already."""
    held, kept = Held(texts), dict(sys.modules)
    for name in [*held.texts, "model"]:
        sys.modules.pop(name, None)
    sys.modules["model"] = types.ModuleType("model")
    sys.modules["model"].__path__ = []
    sys.meta_path.insert(0, held)
    try:
        return importlib.import_module("machine")
    finally:
        sys.meta_path.remove(held)
        sys.modules.clear()
        sys.modules.update(kept)


def seconds_of(machine, script):
    """The seconds that a machine takes for each example of a script."""
    seconds, begin = Counter(), time.process_time()
    for example, *_ in answers(machine, script):
        end = time.process_time()
        seconds[example.title] += end - begin
        begin = end
    return seconds


def tables(texts):
    """The examples of the gate's script, first without those that take long, then with them; and then all examples."""
    found = scripts()
    in_gate = [example._replace(steps=[one for one in example.steps if one.is_in_gate]) for example in found[0]]
    seconds = seconds_of(machine_of(texts).Machine(), in_gate)
    return [[[example for example in in_gate if seconds[example.title] < LONG]], [in_gate], found]


def seen_by(texts, table):
    """The first example that is answered differently than it says, and its line; None if there is none. A model that stops with
    an error, since the change makes no rule at all, raises Wrong."""
    at = "the import"
    try:
        module = machine_of(texts)
        for script in table:
            for example, step, said in answers(module.Machine(), script):
                at = "%s | %s" % (example.title, step.text or step.lines[0])
                if said != step.prints:
                    return at
    except Wrong:
        raise
    except Exception as fault:
        raise Wrong("%r after %s" % (fault, at)) from None
    return None


def stop(*_):
    raise Wrong("it takes over %d seconds" % MOST_SECONDS)


def told_of(texts, turn, examples):
    """The example that detects a changed rule, whether it is in the gate's script, and what is wrong with the changed rule."""
    signal.alarm(MOST_SECONDS)
    try:
        texts = turned(texts, turn)
        for place, table in enumerate(examples):
            seen = seen_by(texts, table)
            if seen:
                return seen, place < len(examples) - 1, None
        return None, False, "nothing sees it"
    except Wrong as fault:
        return None, False, fault
    finally:
        signal.alarm(0)


def main():
    options = argparse.ArgumentParser(description=__doc__, formatter_class=argparse.RawDescriptionHelpFormatter)
    options.add_argument("--only", default="")
    options.add_argument("--list", action="store_true")
    given, texts, counts = options.parse_args(), sources(), Counter()
    chosen = [one for one in turns() if given.only in one.name + " " + one.file]
    if not chosen:
        sys.exit("turned_rules: no turn's name or file has %s in it" % given.only)
    examples = tables(texts)
    signal.signal(signal.SIGALRM, stop)
    if any(seen_by(texts, table) for table in examples):
        sys.exit("turned_rules: the model is wrong before a rule is changed: run tools/check/machine_rows.py")
    for turn in chosen:
        seen, is_in_gate, fault = told_of(texts, turn, examples)
        counts.update(["turned"] + ["seen"] * bool(seen) + ["in the gate"] * is_in_gate)
        if fault is not None:
            print("turned_rules: %s: %s: %s" % (turn.file, turn.name, fault))
        elif given.list:
            print("%s: %s\n    %s%s" % (turn.file, turn.name, "" if is_in_gate else "left out of the gate: ", seen))
    told = "%d turned, %d seen, %d of them by the gate's script"
    print(told % (counts["turned"], counts["seen"], counts["in the gate"]))
    return 1 if counts["seen"] < counts["turned"] else 0


if __name__ == "__main__":
    sys.exit(main())
