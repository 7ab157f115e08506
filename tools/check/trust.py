#!/usr/bin/python3
"""Checks that crates/*/specs has what has to be believed, and crates/*/specs/Inner all other definitions and lemmas.

A definition has to be believed if another definition that has to be believed names it, or a contract or law that users rely on:
a clause of a public function, a ghost member of a public trait, or what the values of a public type are. Lemmas are proved, and
invariants and codings of types only serve proofs. tools/check/trust.txt says on which crates users rely.

    tools/check/trust.py                   how many files and lines are outer and inner, by crate
    tools/check/trust.py --check           fails if an outer file imports an inner one, a file is in the wrong folder, or
                                           docs/DEFINITIONS.md is not what --definitions writes
    tools/check/trust.py --definitions     writes docs/DEFINITIONS.md from the comments of the outer files
    tools/check/trust.py --why NAME        prints the contract or law because of which this definition has to be believed
"""
import argparse
import pathlib
import re
import sys
from collections import defaultdict

import contracts
from definitions import Everything, ROOT, below, use_lines, words_of

GIVEN = pathlib.Path(__file__).resolve().with_name("trust.txt")


class Given:
    """The lines of trust.txt."""

    def __init__(self):
        lines = [line.split() for line in GIVEN.read_text().split("\n") if line and not line.startswith("#")]
        self.program = [words[1] for words in lines if words[0] == "program"]
        self.doors = self.program + [words[1] for words in lines if words[0] == "door"]
        self.examples = {words[1] for words in lines if words[0] == "examples"}


class Trust:
    """Which items of all definitions have to be believed."""

    def __init__(self, root=ROOT):
        self.given, self.all = Given(), Everything(root)
        self.causes = {}
        self.believed = self._believed(self.given.doors)
        self.lines = self._lines()

    def _lines(self):
        return sum(count(self.parts(file)[0]) for file in self.all.files.values())

    def of_program(self):
        """How many lines a user of only the program has to believe."""
        causes, believed = self.causes, self.believed
        self.causes = {}
        self.believed = self._believed(self.given.program)
        lines = self._lines()
        self.causes, self.believed = causes, believed
        return lines

    def _believed(self, doors):
        left = []
        for clause in self._clauses(doors):
            left += [(pair, clause) for pair in self.all.named(words_of(clause.text), clause.imports)]
        while left:
            pair, cause = left.pop(0)
            is_example = pair[0].name.split(".")[-1] in self.given.examples
            if pair not in self.causes and not self.all.owner[pair].is_lemma and not is_example:
                self.causes[pair] = cause
                left += [(other, pair) for other in self.all.needs(pair)]
        return {id(self.all.owner[pair]) for pair in self.causes}

    def _clauses(self, doors):
        """The clauses of these crates, and of what they re-export from others."""
        left = [(name, None) for name in self.all.crates if name in doors]
        while left:
            crate = contracts.Crate(self.all.root, *left.pop(0))
            yield from crate.clauses()
            left += crate.passed_on().items()

    def why(self, name):
        """For each definition of a name that has to be believed, what names it, what names that, and so on up to a contract."""
        for pair in [pair for pair in self.causes if pair[1] == name]:
            while isinstance(pair, tuple) and pair in self.causes:
                yield "%s in %s" % (pair[1], shown(pair[0]))
                pair = self.causes[pair]
            yield "    %s in %s" % (pair.what, pair.file.relative_to(self.all.root))

    def is_believed(self, item):
        return id(item) in self.believed

    def parts(self, file):
        """The items of a file: those that have to be believed, and the others."""
        return [item for item in file.items if self.is_believed(item)], [item for item in file.items if not self.is_believed(item)]


def count(items):
    """How many lines some items have, without comments and empty lines."""
    return sum(1 for item in items for line in item.lines if line.strip() and not line.lstrip().startswith("--"))


# ---- checking and counting

def faults(trust):
    """What is in the wrong folder, each outer file that imports an inner one, and whether docs/DEFINITIONS.md is out of date."""
    everything = trust.all
    for module, file in everything.files.items():
        has_inner = any(it.crate == module.crate and other.is_inner for it, other in everything.files.items())
        outer, _ = trust.parts(file)
        if has_inner and file.is_inner and outer:
            yield "%s has what must be believed: %s" % (shown(module), outer[0].names[0])
        if has_inner and not file.is_inner and not outer:
            yield "%s has nothing that must be believed" % shown(module)
        if not file.is_inner:
            for target in sorted(imported(everything, file)):
                yield "%s imports %s" % (shown(module), shown(target))
    if page(trust).read_text() != definitions(trust):
        yield "docs/DEFINITIONS.md is not what --definitions writes: run tools/check/trust.py --definitions"


def shown(module):
    return "%s/specs/%s.antt" % (module.crate, module.name.replace(".", "/"))


def imported(everything, file):
    """The inner files that a file imports."""
    found = {everything.module(crate, names[0]) for crate, names in filter(None, (below(path) for path, _, _ in use_lines(file.text)))}
    return {module for module in found if module in everything.files and everything.files[module].is_inner}


# ---- docs/DEFINITIONS.md

def page(trust):
    return trust.all.root / "docs" / "DEFINITIONS.md"


WRITTEN = "<!-- tools/check/trust.py --definitions writes this page -->"
BEGINNING = """# Definitions

This page lists what a user of the program has to believe, and a user of the libraries %s: the definitions that their contracts and
laws, and those of what they pass on from other libraries, are written in, by crate and file, in reading order, each with the comment
above it. Each file names the part of the public
standard that it restates. Lemmas, which are proved, and definitions that serve only proofs are not listed. Most of them are in
folders `Inner`.

The contracts of the other libraries also name definitions that are not listed here, such as `AreRight` of `dv_views`, which says that
live views have their rows. So if you use such a library by itself, or rely on its contract, read the definitions that this contract
names too.

The definitions use lists of bytes, trees of values and lists of documents, but no buffers and no allocators. Some definitions take
a change or an outcome of an update as the code represents it (`with_field_changed`, `outcome_seen`, `document_seen`, `stays`,
`is_field`, `stays_so`); no theorem about commands or bytes uses them. Positions and changes define which changes an operator returns
and which ticks it counts. So they appear in the definitions of marks. A definition that parses or reads something returns the result,
or the first fault in written order.

A file `View` says what types in memory represent. `Gives` says that a call returned the defined result, or ran out of memory.
"""


def libraries(trust):
    """The libraries, besides the program, whose users the page is for."""
    names = ["`%s`" % name for name in trust.given.doors if name not in trust.given.program]
    return "%s and %s" % (", ".join(names[:-1]), names[-1])


def definitions(trust):
    """The text of docs/DEFINITIONS.md."""
    lines = [re.sub(r"(?<=\S)\n(?=\S)", " ", BEGINNING % libraries(trust))]
    for crate, modules in trust.all.listed.items():
        parts = [part for part in (definitions_of(trust, module) for module in modules if not trust.all.files[module].is_inner) if part]
        if parts:
            head = (trust.all.root / "crates" / crate / "src" / "lib.rt").read_text().split("\n")[0]
            title = re.split(r"[.:]( |$)", head.removeprefix("//! "))[0]
            lines += ["## `%s`: %s\n" % (crate, title if title[1:2].isupper() else title[0].lower() + title[1:]), *parts]
    return WRITTEN + "\n" + "\n".join(lines)


def definitions_of(trust, module):
    """What the page says of a file, if anything in it has to be believed."""
    file = trust.all.files[module]
    items = [one for item in trust.parts(file)[0] for one in (item.inside or [item]) if not one.is_lemma]
    if not items:
        return ""
    lines = ["**[%s](../%s)** %s\n" % (module.name, file.path.relative_to(trust.all.root), " ".join(file.heading))]
    silent = []
    for item in items:
        if item.comment:
            lines.append("- %s: %s." % (", ".join("`%s`" % name for name in item.heads), small(item.comment.rstrip("."))))
        else:
            silent += item.heads
    if silent:
        lines.append("- %s" % ", ".join("`%s`" % name for name in silent))
    return "\n".join(lines) + "\n"


def small(text):
    """A sentence as it is written after a colon."""
    return text if text[1:2].isupper() else text[:1].lower() + text[1:]


def shown_row(name, row):
    return "%-16s %6d %6d %6d %6d" % (name, row["files", False], row["lines", False], row["files", True], row["lines", True])


def show(trust):
    everything, total = trust.all, defaultdict(int)
    print("%-16s %6s %6s %6s %6s" % ("crate", "outer", "lines", "inner", "lines"))
    for crate, modules in everything.listed.items():
        row = defaultdict(int)
        for file in (everything.files[module] for module in modules):
            row["files", file.is_inner] += 1
            row["lines", file.is_inner] += len(file.lines)
        print(shown_row(crate, row))
        for key, number in row.items():
            total[key] += number
    print(shown_row("all", total))
    print("to believe: %d lines of definitions, without comments and imports; %d for the program alone" % (trust.lines, trust.of_program()))


def main():
    options = argparse.ArgumentParser(description=__doc__.split("\n")[0])
    options.add_argument("--check", action="store_true", help="only check that everything is in the right place")
    options.add_argument("--definitions", action="store_true", help="write docs/DEFINITIONS.md")
    options.add_argument("--why", metavar="NAME", help="print why a definition has to be believed")
    options.add_argument("--root", default=ROOT, help="the repository")
    given = options.parse_args()
    trust = Trust(given.root)
    if given.why:
        print("\n".join(trust.why(given.why)) or "it need not be believed")
    elif given.definitions:
        page(trust).write_text(definitions(trust))
    elif given.check:
        found = list(faults(trust))
        for fault in found:
            print("trust: " + fault)
        outer = sum(not file.is_inner for file in trust.all.files.values())
        print("%d files looked at, %d outer: %d faults" % (len(trust.all.files), outer, len(found)))
        return 1 if found else 0
    else:
        show(trust)
    return 0


if __name__ == "__main__":
    sys.exit(main())
