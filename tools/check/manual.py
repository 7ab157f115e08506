#!/usr/bin/python3
"""Runs the examples of docs/MANUAL.md through docd and through the model of `tools/check/machine.py`, and compares the replies;
also the scripts examples/*.hex, whose comments say some replies (tools/check/told_replies.py).

Needs the built program (./docd run < /dev/null). In a fenced block a line `> COMMAND` is sent in session 0, a line `1> COMMAND` in
session 1, and the line after it is its reply; each heading begins with an empty store. These lines are read as
`tools/client/lines.py` reads them, and the replies are what it prints. A line `$ WORDS` is typed in a shell, and the lines after it
are what is printed; each heading begins with a folder that has `docd`, `tools` and `examples` and nothing else.

    python3 tools/check/manual.py
"""
import argparse
import os
import re
import subprocess
import sys
import tempfile

import folders  # noqa: F401
import machine
from lines import lines_of_command, read
from program import ROOT, parsed, run_within
from prompt.guide import MANUAL, sections
from told_replies import replies_told

COMMAND = re.compile(r"\d*> .*")
A_RUN = 60  # seconds that docd, or a shell, may take


def examples_of(blocks):
    """The commands and replies of some blocks, as texts."""
    examples = []
    for block in blocks:
        lines = block.splitlines()
        for command, reply in zip(lines[::2], lines[1::2], strict=True):
            if not COMMAND.fullmatch(command):
                sys.exit("manual: a command must begin with >: " + command)
            examples.append((command, reply))
    return examples


def typed_of(blocks):
    """What is typed in some blocks, and what is printed, as texts."""
    return [tuple(one.partition("\n")[::2]) for block in blocks for one in re.split(r"(?m)^\$ ", block)[1:]]


def replies(output):
    """The replies of printed lines, without their sessions."""
    return [read(line).partition(" ")[2] for line in output.decode().splitlines()]


def sent(program, examples):
    """For each example: what was sent, the reply that is written, and the replies of docd and of the model. The same of the exit
    status, if docd ends with another one than the model, or doesn't end."""
    lines = [line for number, (asked, _) in enumerate(examples, 1) for line in lines_of_command(number, asked, "t")]
    script = "".join(line + "\n" for line in lines).encode()
    status, output, _ = run_within(A_RUN, [program, "run", "--hex"], script)
    wanted, printed, _ = machine.run(script)
    if status != wanted:
        yield "exit status", str(wanted), str(status), str(wanted)
    said, modelled = replies(output), replies(printed)
    said += ["nothing"] * (len(examples) - len(said))
    for (asked, reply), by_docd, by_model in zip(examples, said, modelled, strict=True):
        yield asked, reply, by_docd, by_model


def typed(program, examples):
    """For each line that is typed: the line, the output that is written, and what is printed."""
    with tempfile.TemporaryDirectory() as folder:
        os.symlink(os.path.abspath(program), os.path.join(folder, "docd"))
        for name in "tools", "examples":
            os.symlink(os.path.join(ROOT, name), os.path.join(folder, name))
        for words, written in examples:
            done = subprocess.run(["sh", "-c", words], cwd=folder, stdin=subprocess.DEVNULL, stdout=subprocess.PIPE,
                                  stderr=subprocess.STDOUT, timeout=A_RUN)
            yield words, written, done.stdout.decode()


def examples_in_manual(program):
    """For each example: its heading, what is asked, the answer that is written, and the answers that are given."""
    with open(MANUAL, encoding="utf-8") as file:
        text = file.read()
    for heading, blocks in sections(text):
        in_shell = [block for block in blocks if block.startswith("$ ")]
        for one in [*sent(program, examples_of(block for block in blocks if block not in in_shell)), *typed(program, typed_of(in_shell))]:
            yield heading, *one


def main():
    options = argparse.ArgumentParser(description=__doc__, formatter_class=argparse.RawDescriptionHelpFormatter)
    given = parsed(options, "manual")
    right, wrong = 0, 0
    for place, asked, written, *said in [*examples_in_manual(given.program), *replies_told(given.program)]:
        if all(one == written for one in said):
            right += 1
            continue
        wrong += 1
        print("manual: %s\n    %s\n    written: %s" % (place, asked, written))
        for who, one in zip(("docd", "the model"), said):
            print("    %s: %s" % (who, one))
    print("%d right, %d wrong" % (right, wrong))
    return 1 if wrong else 0


if __name__ == "__main__":
    sys.exit(main())
