#!/usr/bin/python3
"""Cuts messages after each of their bytes, and changes each of their bytes: docd must still reply as the model does.

Needs the built program (./docd run < /dev/null).

- All worked examples (tools/check/worked_examples.txt) except the largest are sent byte by byte: the answers must be those that
  are written.
- Of some examples each line is cut in two after each of its bytes, in a run for each: the answers must be those of the model of
  `tools/check/machine.py` to the whole lines.
- In three messages each byte is replaced by 00, 7f and ff in turn. Each of these messages is sent whole, and cut in two after each
  byte, and then a find reads what is stored: the answers must be the model's to the whole message.

Each wrong answer is printed, and then the exit status is 1. The exit status is also 1 if a run of docd doesn't end in time.

    python3 tools/check/each_byte.py
    python3 tools/check/each_byte.py --examples "t:,cursors:" --program crates/docd/out/docd
"""
import argparse
import sys

import folders  # noqa: F401
import machine
from program import parsed, run_within
from spelled import document, lines_of, text
from worked_examples import answered_otherwise, examples, scripts

A_RUN = 20  # seconds
MOST_BYTES = 2_000_000  # of a script that is sent byte by byte
MOST_CUTS = 2_000  # of an example
BYTES = ["00", "7f", "ff"]

# Messages of which each byte is changed, in pieces that are easy to read.
MESSAGES = {
    "a ping": "2f000000 07000000 00000000 dd070000 00000000 00 1a000000 1070696e670001000000 0224646200020000007400 00",
    "an insert of a double": """5f000000 08000000 00000000 dd070000 00000000 00 4a000000 02 696e7365727400 02000000 6300
        04 646f63756d656e747300 21000000 03 3000 19000000 10 5f696400 01000000 01 7800 000000000000f03f 00 00
        02 24646200 02000000 7400 00""",
    "a document beside the body": """5a000000 0b000000 00000000 dd070000 00000000 00 28000000 02 696e7365727400 02000000 6300
        08 6f72646572656400 01 02 24646200 02000000 7400 00 01 1c000000 646f63756d656e747300
        0e000000 10 5f696400 01000000 00""",
}
SHOWN = [line.decode() for line in lines_of(1, [(b"find", text(b"c")), (b"filter", document([]))])]


def cut_in_two(lines):
    """The lines with one of them cut in two, in each way."""
    for place, (session, digits) in enumerate(map(parts_of, lines)):
        for at in range(2, len(digits) if digits != "end" else 0, 2):
            yield [*lines[:place], session + " " + digits[:at], session + " " + digits[at:], *lines[place + 1:]]


def byte_by_byte(lines):
    return [session + " " + piece for session, digits in map(parts_of, lines)
            for piece in (["end"] if digits == "end" else [digits[at:at + 2] for at in range(0, len(digits), 2)])]


def parts_of(line):
    session, _, rest = line.partition(" ")
    return session, rest.replace(" ", "")


def changed(digits):
    """The digits with each byte changed in turn."""
    for at in range(0, len(digits), 2):
        for byte in BYTES:
            if digits[at:at + 2] != byte:
                yield digits[:at] + byte + digits[at + 2:]


class Look:
    """A program, and how often it was run and was wrong."""

    def __init__(self, program):
        self.program, self.runs, self.wrong = program, 0, 0

    def every_cut(self, name, lines):
        """Runs the lines whole and cut in each way. Returns the number of runs."""
        wanted, before = machine.run(script_of(lines)), self.runs
        for one in [lines, *cut_in_two(lines)]:
            self.runs += 1
            if (said := self.answered(one)) != wanted:
                self.wrong += 1
                print("%s: %s\n    written: %s\n    printed: %s" % (name, one, wanted, said))
        return self.runs - before

    def answered(self, lines):
        """The exit status, or a text if docd doesn't end in time, and both outputs."""
        return run_within(A_RUN, [self.program, "run", "--hex"], script_of(lines))

    def examples_byte_by_byte(self):
        """Runs the examples byte by byte. Returns how many there were."""
        count = 0
        for script in scripts():
            if sum(len(line) for example in script for step in example.steps for line in step.lines) > MOST_BYTES:
                continue
            count += len(script)
            in_bytes = [one._replace(steps=[step._replace(lines=byte_by_byte(step.lines)) for step in one.steps]) for one in script]
            for fault in answered_otherwise(self.program, in_bytes):
                self.wrong += 1
                print("byte by byte: " + fault)
        return count


def script_of(lines):
    return "".join(line + "\n" for line in lines).encode()


def main():
    options = argparse.ArgumentParser(description=__doc__, formatter_class=argparse.RawDescriptionHelpFormatter)
    options.add_argument("--examples", default="t:,cursors:,killed:,turns:,by_turns:",
                         help="how the titles of the examples that are cut in two begin, joined by commas")
    given = parsed(options, "each_byte")
    look = Look(given.program)
    print("%d examples byte by byte" % look.examples_byte_by_byte(), flush=True)
    for one in examples():
        if one.title.startswith(tuple(given.examples.split(","))):
            lines = [line for step in one.steps for line in step.lines]
            if sum(map(len, lines)) <= 2 * MOST_CUTS:
                print("%s: %d runs" % (one.title, look.every_cut(one.title, lines)), flush=True)
    for name, digits in MESSAGES.items():
        runs = sum(look.every_cut(name, ["0 " + other, "0 end", *SHOWN]) for other in changed(digits.replace(" ", "").replace("\n", "")))
        print("%s, each byte changed: %d runs" % (name, runs), flush=True)
    print("%d runs, %d wrong" % (look.runs, look.wrong))
    return 1 if look.wrong else 0


if __name__ == "__main__":
    sys.exit(main())
