#!/usr/bin/python3
"""Counts what makes the sources harder to read: long clauses, laws in disguise, names with several meanings, what exists twice,
and how many files a new stage or command touches by the tables of CONTRIBUTING.md.

Prints a line for each count, to be compared with that of an earlier commit. The crates of tests are left out. Names are looked for
as words, so a name that nothing uses is missed if the same word is used for something else.

In the end it checks the tables of CONTRIBUTING.md and docs/ARCHITECTURE.md: each file that they name has to exist, and the map has
to show what each crate uses. What is wrong is printed, and then the exit status is 1.

    tools/check/figures.py             the counts
    tools/check/figures.py --lines     also where each thing that is counted is, below crates/
    tools/check/figures.py --tables    only the check of the tables
"""
import argparse
import re
import sys
from collections import defaultdict

import contracts
from definitions import Definitions, Module, ROOT

CRATES = ROOT / "crates"
CASES, MAP = ROOT / "CONTRIBUTING.md", ROOT / "docs" / "ARCHITECTURE.md"
LONG, TOO_LONG = 160, 220  # characters of a clause
SHARED = 120  # characters that equal lemmas must have to be counted
CLAUSE = re.compile(r"\b(?:requires|ensures)(?: \w+)? *\{")
TYPE = re.compile(r"^(?:pub(?:\([^)]*\))? )?(?:struct|enum|trait) (\w+)", re.M)
LAW = re.compile(r"^ *(?:pub(?:\([^)]*\))? )?fn (\w+)(?:<[^>]*>)?\((?:(?!mut )[^()])*\)\s*(?:requires|ensures)", re.M)
DROPPED = re.compile(r"^ *let _ = [\w.]+\.len\(\);", re.M)
BY_PLACE = re.compile(r"for place in [\w.]+\.\.\w+\.len\(\) \{\s*(?:let|if let|match)[^;{]*\.(?:entry|field)\(place\)")
LISTED = re.compile(r"`([^`]+)`(:?)")
# Types that two crates have for one thing, what a group holds: evaluated in one, kept live in the other (CASES lists these names).
ONE_MEANING = {"AccumulatorState", "GroupState", "SumState"}
# Rows of the tables in CASES whose files are neither code nor definitions nor proofs of the product.
OUTSIDE = {"tests", "the model", "the model and notation", "the prompt", "what makes and tries scripts", "bench", "documents"}


class Sources:
    """The sources of all crates, without comments and texts; `own` has those of the crates that are no tests."""

    def __init__(self):
        self.texts = {path: contracts.plain(path.read_text()) for path in sorted(CRATES.glob("*/src/**/*.rt"))}
        self.own = {path: text for path, text in self.texts.items() if not crate_of(path).startswith("dv_test")}

    def found(self, pattern):
        """Where a pattern is found."""
        return [at(path, text, match.start()) for path, text in self.own.items() for match in pattern.finditer(text)]

    def clauses(self, least):
        """Clauses with more than this many characters."""
        return [at(path, text, match.start()) for path, text in self.own.items() for match in CLAUSE.finditer(text)
                if len(" ".join(text[match.end():contracts.partner(text, match.end() - 1)].split())) > least]

    def laws_outside(self):
        """Functions that return and change nothing, are not in `laws`, and have a name that does not begin with `law_`."""
        return [at(path, text, match.start()) + " " + match[1] for path, text in self.own.items() if path.stem != "laws"
                for match in LAW.finditer(text) if not match[1].startswith("law_")]

    def shared_types(self):
        """Names of types that several files declare, for different things."""
        places = defaultdict(list)
        for path, text in self.own.items():
            for match in TYPE.finditer(text):
                places[match[1]].append(at(path, text, match.start()))
        return ["%s: %s" % (name, ", ".join(where)) for name, where in sorted(places.items()) if len(where) > 1 and name not in ONE_MEANING]

    def passed_on(self):
        """Names of lower crates that a crate passes on, and that no crate imports from it."""
        found = []
        for path, text in self.own.items():
            if path.name == "lib.rt":
                others = "\n".join(other for file, other in self.texts.items() if crate_of(file) != crate_of(path))
                taken = set(re.findall(r"\w+", " ".join(re.findall(r"\b%s::(\{[^}]*\}|\w+)" % crate_of(path), others))))
                for match in contracts.PASSED_ON.finditer(text):
                    names = re.findall(r"\w+", match[2] or match[3])
                    found += ["%s %s" % (at(path, text, match.start()), name) for name in names if name not in taken]
        return found


def crate_of(path):
    return path.relative_to(CRATES).parts[0]


def at(path, text, place):
    """A place as file and line. White space at the place is skipped, so that the end of a line counts as the next line."""
    place += len(text[place:]) - len(text[place:].lstrip())
    return "%s:%d" % (path.relative_to(CRATES), text.count("\n", 0, place) + 1)


def shared_lemmas():
    """Lemmas that are stated and proved in the same words in several files."""
    places = defaultdict(list)
    for path in sorted(CRATES.glob("dv_*/proofs/**/*.antt")):
        if path.name not in ("Answers.antt", "Invariants.antt") and not crate_of(path).startswith("dv_test"):
            for item in Definitions(path, Module(crate_of(path), path.stem)).items:
                text = " ".join(" ".join(line for line in item.lines if not line.lstrip().startswith("--")).split())
                if len(text) >= SHARED and item.heads:
                    places[text].append("%s %s" % (path.relative_to(CRATES), item.heads[0]))
    return [", ".join(where) for where in places.values() if len(where) > 1]


def lists_of_commands():
    """Proofs with a case for each command."""
    body = re.search(r"pub enum Asked.*?\{(.*?)\n\}", (CRATES / "dv_command/src/asking.rt").read_text(), re.S)[1]
    names = [re.sub(r"(?<!^)(?=[A-Z])", "_", name).lower() for name in re.findall(r"^    (\w+)\(", body, re.M)]
    found = []
    for path in sorted(CRATES.glob("*/proofs/**/*.antt")):
        text = re.sub(r"(?m)^(?:pub )?use .*|--.*", "", path.read_text())
        if all(re.search(r"\b%s\b|\b%s\b" % (name, name.title().replace("_", "")), text) for name in names):
            found.append(str(path.relative_to(CRATES)))
    return found


def named_files(cell):
    """The files that a cell of a table names: (the folder named before it, if any, its name). What is in brackets is no file."""
    folder = ""
    for name, is_folder in LISTED.findall(re.sub(r"\([^)]*\)", "", cell)):
        if is_folder:
            folder = name
        elif folder or "/" in name or name.endswith((".rt", ".md")):
            yield folder, name


def files_of_tables():
    """The files that the tables of CASES and MAP name: where, and whether they exist. A file still to be made has no folder."""
    for page in (CASES, MAP):
        is_table = False
        for number, line in enumerate(page.read_text().split("\n"), 1):
            is_table = line.startswith("|") and (is_table or line.startswith(("| Where", "| Rules")))
            for cell in line.strip("|").split("|")[1:] if is_table else []:
                for folder, name in named_files(cell):
                    paths = [base / (before + name + ending) for base in (ROOT, CRATES) for before in {folder, ""} for ending in ("", ".antt", ".rt")]
                    if "/" in folder + name:
                        yield "%s:%d %s" % (page.name, number, folder + name), any(path.exists() for path in paths)


def reached(uses, crate):
    """The crates that a crate uses, also through others; `uses` has the crates that each crate names."""
    found, left = set(), list(uses[crate])
    while left:
        name = left.pop()
        if name not in found:
            found.add(name)
            left += uses[name]
    return found


def uses_of_map():
    """Each crate, and whether MAP shows that it uses what crates.txt says."""
    listed, shown = defaultdict(set), defaultdict(set)
    for line in (ROOT / "crates.txt").read_text().split("\n"):
        crate, _, names = line.partition(":")
        listed[crate].update(name for name in names.split() if name.startswith("dv_"))
    for line in re.findall(r"^    (.* ─ .*)$", MAP.read_text(), re.M):
        parts = [[crate for crate in listed if crate.startswith(part[5:])] if part.startswith("each ") else part.split(", ")
                 for part in line.strip().split(" ─ ")]
        for users, used in zip(parts, parts[1:]):
            for user in users:
                shown[user].update(used)
    return [(crate, reached(listed, crate) == reached(shown, crate)) for crate in list(listed) if crate]


def cases():
    """What a new case touches: the title of each table of CONTRIBUTING.md, and the files and folders of each row."""
    found, title, table = [], "", None
    for line in CASES.read_text().split("## How to add something")[-1].split("\n"):
        if re.match("####? ", line):
            title = line.strip("# ")
        if line.startswith("| Where"):
            table = {}
            found.append((title, table))
        elif line.startswith("| ") and table is not None and not line.startswith("|---"):
            where, files = (cell.strip() for cell in line.strip("|").split("|")[:2])
            table[where] = list(named_files(files))
    return found


def main():
    options = argparse.ArgumentParser(description=__doc__, formatter_class=argparse.RawDescriptionHelpFormatter)
    options.add_argument("--lines", action="store_true")
    options.add_argument("--tables", action="store_true")
    given = options.parse_args()
    if not given.tables:
        show(given.lines)
    files, uses = list(files_of_tables()), uses_of_map()
    wrong = [where + ": not there" for where, is_there in files if not is_there]
    wrong += [crate + ": docs/ARCHITECTURE.md shows other uses than crates.txt" for crate, is_right in uses if not is_right]
    print("\n".join([*wrong, "%d files in tables, %d crates in the map: %d wrong" % (len(files), len(uses), len(wrong))]))
    return 1 if wrong else 0


def show(is_long):
    """Prints the counts, and if asked where each thing that is counted is."""
    sources = Sources()
    for what, found in [
        ("clauses over %d characters" % TOO_LONG, sources.clauses(TOO_LONG)),
        ("clauses over %d characters" % LONG, sources.clauses(LONG)),
        ("lengths asked for only to know an invariant", sources.found(DROPPED)),
        ("laws that are neither in `laws` nor called `law_`", sources.laws_outside()),
        ("loops over the places of a document", sources.found(BY_PLACE)),
        ("names of types with several meanings", sources.shared_types()),
        ("names passed on that no crate imports there", sources.passed_on()),
        ("lemmas that stand in several files", shared_lemmas()),
        ("proofs that list every command", lists_of_commands()),
    ]:
        print("%5d  %s" % (len(found), what))
        for one in found if is_long else []:
            print("           " + one)
    for title, table in cases():
        inside = sum(len(files) for where, files in table.items() if where not in OUTSIDE)
        print("%5d  files and folders for %s: %d of src, specs and proofs" % (sum(map(len, table.values())), title.lower(), inside))


if __name__ == "__main__":
    sys.exit(main())
