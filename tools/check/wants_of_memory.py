#!/usr/bin/python3
"""Finds each place in the code that answers out of memory, or makes a view stale, and prints those that nobody has reviewed.

A body that answers out of memory although there is memory is proved, since no contract can say that there is memory. So
tools/check/wants_of_memory.txt lists each place in crates/*/src that writes such an answer, or such a mark of a view, as a value:
for each function how many places it has, and why: nearly always because a place follows a failed allocation, or passes on such an
answer. Types, patterns, `use` and ghost lines, comments and tests are no values.

    python3 tools/check/wants_of_memory.py            prints each place that has no line, and each line that has no place
    python3 tools/check/wants_of_memory.py --list     prints every place, below its function and the reason

The exit status is 1 if anything is missing or stale.
"""
import argparse
import collections
import pathlib
import re
import sys

HERE = pathlib.Path(__file__).resolve().parent.parent.parent
KNOWN = HERE / "tools" / "check" / "wants_of_memory.txt"
NAMES = {"AllocError", "AllocFailed", "Memory", "NoMemory", "NoReply", "OutOfMemory", "WantOfMemory"}
STALE = "Stale"  # of the enum Mark of dv_views
TOKEN = re.compile(r"""//[^\n]* | b?r?"(?:\\.|[^"\\])*" | b?'(?:\\.[^']*|[^'\\])' | '?[A-Za-z_]\w*
                       | => | -> | :: | [0-9][\w.]* | \s+ | .""", re.X | re.S)
OPENS, CLOSES = {"(": ")", "[": "]", "{": "}"}, {")", "]", "}"}


class Code:
    """The tokens of a file, and for each bracket the place of its partner."""

    def __init__(self, text):
        self.words, self.lines, line = [], [], 1
        for match in TOKEN.finditer(text):
            word = match[0]
            if not word.isspace() and not word.startswith("//"):
                self.words.append(word)
                self.lines.append(line)
            line += word.count("\n")
        self.partner, stack = {}, []
        for at, word in enumerate(self.words):
            if word in OPENS:
                stack.append(at)
            elif word in CLOSES and stack:
                start = stack.pop()
                self.partner[start], self.partner[at] = at, start

    def word(self, at):
        return self.words[at] if 0 <= at < len(self.words) else ""

    def until(self, at, ends):
        """The place of the first of these words, at or after a place and outside brackets that open there or later."""
        while at < len(self.words) and self.words[at] not in ends:
            at = self.partner.get(at, at) + 1 if self.words[at] in OPENS else at + 1
        return at

    def text(self, start, end):
        return re.sub(r"\s*([<:,&])\s*|\s+(?=>)|(?<=>)\s+(?=>)", r"\1", " ".join(self.words[start:end]))


def places(code, start, end, path):
    """The function and the place of each value between two places, outside items that have none."""
    at = start
    while at < end:
        word = code.word(at)
        if word == "#" and code.word(at + 1) in ("[", "!"):
            opened = code.until(at, {"["})
            is_test = "test" in code.words[opened:code.partner[opened]]
            at = code.partner[opened] + 1
            if is_test:
                at = after_item(code, at)
        elif word in ("use", "type", "ghost", "const", "static") and code.word(at - 1) != "*" and code.word(at + 1) != "fn":
            at = code.until(at, {";"}) + 1
        elif word in ("enum", "struct"):
            at = after_item(code, at)
        elif word in ("impl", "trait", "mod"):
            body = code.until(at, {"{", ";"})
            if code.word(body) == "{":
                yield from places(code, body + 1, code.partner[body], path + [head(code, at, body)])
                at = code.partner[body] + 1
            else:
                at = body + 1
        elif word == "fn":
            body = body_of(code, at)
            if code.word(body) == "{":
                name = "::".join(path + [code.word(at + 1)])
                yield from ((name, place) for place in values(code, body + 1, code.partner[body]))
                at = code.partner[body] + 1
            else:
                at = body + 1
        else:
            at += 1


def after_item(code, at):
    """The place after an item, which ends with a block or a semicolon."""
    end = code.until(at, {"{", ";"})
    return code.partner.get(end, end) + 1


def head(code, at, body):
    """The name of an item: of an `impl` its type, with the trait if it has one."""
    if code.word(at) != "impl":
        return code.word(at + 1)
    text = re.sub(r"^<[^>]*>", "", code.text(at + 1, body)).strip()
    trait, _, held = text.rpartition(" for ")
    return "<%s as %s>" % (held, trait) if trait else held


def body_of(code, at):
    """The place of a function's body, after its clauses; or of the semicolon, if it has no body."""
    at = code.until(at, {"{", ";", "requires", "ensures"})
    while code.word(at) in ("requires", "ensures"):
        clause = code.until(at, {"{"})
        at = code.until(code.partner[clause] + 1, {"{", ";", "requires", "ensures"})
    return at


def values(code, start, end):
    """The places between two places of a body at which such names are values."""
    for at in range(start, end):
        if is_want(code, at) and not is_type(code, at) and not is_pattern(code, at, start, end):
            yield at


def is_want(code, at):
    """Whether the name at a place is one of those that are looked for."""
    return code.word(at) in NAMES or [code.word(at - 2), code.word(at - 1), code.word(at)] == ["Mark", "::", STALE]


def path_start(code, at):
    while code.word(at - 1) == "::":
        at -= 2
    return at


def is_type(code, at):
    """Whether a name is in a type: after a colon or an arrow, or between angle brackets."""
    at, open_angles = path_start(code, at) - 1, 0
    if code.word(at) in (":", "->"):
        return True
    while code.word(at) not in ("(", "{", ";", "=", "=>", "|", ""):
        open_angles += {"<": 1, ">": -1}.get(code.word(at), 0)
        at = code.partner[at] - 1 if code.word(at) in CLOSES else at - 1
    return open_angles > 0


def is_pattern(code, at, start, end):
    """Whether a name is before an arm's arrow, after a `let`, or in the pattern of `matches!`."""
    first = last = at
    for opened in sorted((o for o, c in code.partner.items() if start <= o < at < c <= end), reverse=True):
        if code.word(opened) == "{":
            break
        if [code.word(opened - 2), code.word(opened - 1)] == ["matches", "!"]:
            return code.until(opened + 1, {","}) < at
        first, last = opened, code.partner[opened]
    ahead = code.until(last + 1, {"=>", ",", ";", "{", "}", "="})
    if code.word(ahead) == "=>":
        return True
    behind = first
    while code.word(behind) not in (";", "{", "}", "=>", "=", ""):
        if code.word(behind) == "let":
            return True
        behind -= 1
    return False


def found():
    """Each function's places, as file:line."""
    all_places = collections.defaultdict(list)
    for file in sorted((HERE / "crates").glob("*/src/**/*.rt")):
        inner = file.relative_to(HERE / "crates")
        if "tests" in inner.with_suffix("").parts:
            continue
        module = [part for part in inner.with_suffix("").parts if part not in ("src", "lib", "main", "mod")]
        code = Code(file.read_text())
        for name, at in places(code, 0, len(code.words), module):
            all_places[name].append("%s:%d" % (file.relative_to(HERE), code.lines[at]))
    return all_places


def known():
    """The functions of the list, each with how many places it has and why."""
    listed = {}
    for number, line in enumerate(KNOWN.read_text().splitlines(), 1):
        if line and not line.startswith("#"):
            match = re.fullmatch(r"(\S.*) (\d+): (\S.*)", line)
            if not match or match[1] in listed:
                sys.exit("%s:%d: write 'FUNCTION COUNT: REASON', once for each function" % (KNOWN, number))
            listed[match[1]] = int(match[2]), match[3]
    return listed


def main():
    options = argparse.ArgumentParser(description=__doc__, formatter_class=argparse.RawDescriptionHelpFormatter)
    options.add_argument("--list", action="store_true", help="print every place")
    given = options.parse_args()
    all_places, listed = found(), known()
    if given.list:
        for name, where in all_places.items():
            print("%s %d: %s" % (name, len(where), listed.get(name, (0, "?"))[1]))
            print("".join("    %s\n" % place for place in where), end="")
    is_well = True
    for name, where in all_places.items():
        count = listed.get(name, (0, ""))[0]
        if count != len(where):
            is_well = False
            print("missing: %s %d (listed: %d): %s" % (name, len(where), count, " ".join(where)))
    for name in listed.keys() - all_places.keys():
        is_well = False
        print("stale: %s %d" % (name, listed[name][0]))
    if is_well:
        print("%d places in %d functions, each of them listed" % (sum(map(len, all_places.values())), len(all_places)))
    return 0 if is_well else 1


if __name__ == "__main__":
    sys.exit(main())
