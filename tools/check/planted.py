#!/usr/bin/python3
"""Tries the wrong bodies in planted/CRATE/NAME.edit: the prover has to refuse each of them.

They have the form of the edits in crates/*/must-fail, which each gate tries, and are tried by the same engine, that of the
kit's `rt must-fail`, with the work that the crate's last proof kept. Whoever changes a crate runs this for that crate.

Edits of different functions are planted together, and each has to leave a goal of its own function open. An edit whose function
has no open goal is tried once more, alone. The tool prints what refused each edit. The exit status is 1 if one wasn't refused, or
can't be applied any more.

    tools/check/planted.py                        all crates, lowest first
    tools/check/planted.py dv_coll dv_index       these
    tools/check/planted.py --alone dv_coll        each edit alone
    tools/check/planted.py --after-ci 30          those that docs/TESTING.md lists as bodies that must be refused, with the
                                                  libraries that `rt ci` built; starts no crate after 30 minutes
    tools/check/planted.py --look                 only checks whether each edit, also those that `rt ci` tries, can be applied
    tools/check/planted.py --list                 only lists the edits that `rt ci` tries
"""
import argparse
import os
import pathlib
import re
import shutil
import sys
import tempfile
import time
from collections import namedtuple

import folders  # noqa: F401
from kit import part

ROOT = pathlib.Path(__file__).resolve().parent.parent.parent
FUNCTION = re.compile(r"\s*(?:pub(?:\(\w+\))? )?(?:const )?(?:unsafe )?fn (\w+)")
PAGE, SECTION = ROOT / "docs" / "TESTING.md", "### Wrong bodies that must be refused"
OF_CRATE = re.compile(r"- `(\w+)`: ")  # a line of that section that names edits of one crate
STARRED = re.compile(r"`(?:(\w+)/)?(\w+)`\*")  # an edit in planted/, with its crate if the line names none
OPEN_GOAL = re.compile(r"note: (src/\S+\.rt):(\d+):\d+: it is not proved (.*)")

# An edit: its file, what it replaces (as `pairs_of` returns it), and the functions that it changes, each as a file and the line
# at which the function begins.
Edit = namedtuple("Edit", "path pairs functions")


def pairs_of(path):
    """The (file, old text, new text) of an edit, in order."""
    found, file, old = [], None, None
    for line in path.read_text().split("\n"):
        if line.startswith("file: "):
            file = line[len("file: "):].strip()
        elif line.startswith("old: "):
            old = line[len("old: "):]
        elif line.startswith("new:"):
            found.append((file, old, line[len("new:"):].removeprefix(" ")))
    return found


def function_at(text, line):
    """The line, from 1, at which the function around a line of a file's text begins; 0 if there is none."""
    lines = text.split("\n")[:line]
    return next((at + 1 for at in reversed(range(len(lines))) if FUNCTION.match(lines[at])), 0)


def read_edit(path, crate):
    """The edit, or None if a text that it replaces isn't in its file exactly once."""
    texts, functions = {}, set()
    for file, old, new in pairs_of(path):
        source = pathlib.Path(crate.folder, file)
        if file not in texts and not source.is_file():
            return None
        text = texts.setdefault(file, source.read_text())
        if text.count(old) != 1:
            return None
        functions.add((file, function_at(text, text[:text.index(old)].count("\n") + 1)))
        texts[file] = text.replace(old, new)
    return Edit(path, pairs_of(path), functions)


def planted_together(edits):
    """The edits in parts, so that no two edits of a part change the same function."""
    parts = []
    for edit in edits:
        part = next((it for it in parts if not any(edit.functions & other.functions for other in it)), None)
        if part is None:
            parts.append(part := [])
        part.append(edit)
    return parts


def texts_with(edits, crate):
    """The texts of the crate's files with all these edits, or None if two of them conflict."""
    texts = {}
    for edit in edits:
        for file, old, new in edit.pairs:
            text = texts.setdefault(file, pathlib.Path(crate.folder, file).read_text())
            if text.count(old) != 1:
                return None
            texts[file] = text.replace(old, new)
    return texts


def refusals(engine, crate, edits, kept, jobs):
    """For each of these edits, planted together, why it is refused. An edit that the result lacks has to be tried alone."""
    texts = texts_with(edits, crate)
    if texts is None or len(edits) < 2:
        return {}
    ran = engine.checked(crate, texts, ["--jobs", str(jobs)], kept)
    if any(engine.unread(line, texts) for line in ran.stdout.split("\n")):
        return {}
    goals = {}
    for file, line, said in OPEN_GOAL.findall(ran.stdout):
        text = texts.get(file) or pathlib.Path(crate.folder, file).read_text()
        goals.setdefault((file, function_at(text, int(line))), said)
    found = {edit.path: next((goals[it] for it in sorted(edit.functions) if it in goals), None) for edit in edits}
    return {path: said for path, said in found.items() if said}


def refused_by(engine):
    """What the engine returns for an edit that is refused: values of its own, or True if its kit has none."""
    return [getattr(engine, it) for it in ("REFUSED", "AT_LIMIT") if hasattr(engine, it)] or [True]


def try_crate(engine, crate, edits, alone, jobs):
    """Tries a crate's edits, and returns how many weren't refused."""
    failed, refused = 0, refused_by(engine)
    with tempfile.TemporaryDirectory(prefix="planted-") as room:
        kept = os.path.join(room, "kept")
        if crate.has_kept():
            shutil.copytree(f"{crate.folder}/out/incremental", kept)
        else:
            os.mkdir(kept)
        said = {}
        for part in [] if alone else planted_together(edits):
            said.update(refusals(engine, crate, part, kept, jobs))
        for edit in edits:
            if edit.path in said:
                print(f"{crate.name}/{edit.path.stem}: refused, together with others: it is not proved {said[edit.path]}", flush=True)
                continue
            outcome, told = engine.must_fail(crate, str(edit.path), ["--jobs", str(jobs)], kept)
            failed += outcome not in refused
            print(told.removeprefix("must-fail ").replace(".edit:", ":", 1), flush=True)
    return failed


def planted(crate):
    return sorted((ROOT / "planted" / crate.name).glob("*.edit"))


def of_rt_ci(crate):
    return sorted(pathlib.Path(crate.folder, "must-fail").glob("*.edit"))


def must_be_refused():
    """The files in planted/ of the edits that the page lists as bodies that must be refused."""
    for line in PAGE.read_text().split(SECTION)[1].split("\n## ")[0].split("\n"):
        crate = OF_CRATE.match(line)
        for found in STARRED.finditer(line):
            yield ROOT / "planted" / (found[1] or crate[1]) / f"{found[2]}.edit"


def listed(crates):
    """The edits that `rt ci` tries, by name, as lines of a list."""
    for crate in crates:
        names = [it.stem.replace("_", " ") for it in of_rt_ci(crate)]
        if names:
            yield f"- `{crate.name}`: " + "; ".join(names)


def read_edits(crate, paths):
    """Returns the edits of a crate that can be applied, and how many can't. Prints the name of each that can't."""
    edits = {path: read_edit(path, crate) for path in paths}
    bad = [path for path, edit in edits.items() if edit is None]
    for path in bad:
        print(f"{crate.name}/{path.stem}: BAD EDIT: a text that it replaces is not in its file exactly once", flush=True)
    return [it for it in edits.values() if it], len(bad)


def look(crates):
    """Checks whether each edit can be applied, and whether those that the page lists are there. Returns how many were checked, and
    how many are wrong."""
    paths = {crate: [*planted(crate), *of_rt_ci(crate)] for crate in crates}
    gone = [it for it in must_be_refused() if not it.is_file()]
    for path in gone:
        print(f"{path.relative_to(ROOT)}: docs/TESTING.md lists it, but it is not there", flush=True)
    failed = sum(read_edits(crate, of_crate)[1] for crate, of_crate in paths.items())
    return sum(map(len, paths.values())), failed + len(gone)


def try_all(engine, crates, alone, jobs):
    """Tries all edits in planted/ of these crates, with libraries that it builds if they aren't there. Returns how many were tried,
    and how many weren't refused."""
    tried = failed = 0
    for crate in crates:
        edits, bad = read_edits(crate, planted(crate))
        failed += bad
        if not edits:
            continue
        held = engine.rtlib.lock([*crate.below(), crate])
        if any(it.build_rlib(["--jobs", str(jobs)], anew=False) for it in crate.below()):
            sys.exit(f"planted: a crate that {crate.name} uses is not proved: prove it first (rt check in its folder)")
        failed += try_crate(engine, crate, edits, alone, jobs)
        tried += len(edits)
        for it in held:
            os.close(it)
    return tried, failed


def is_ready(crate):
    """Whether the libraries that a crate uses are there, all from one run: a run of `rt ci`, which writes no stamp, or one that
    proved the present sources."""
    below = crate.below()
    if any(os.path.exists(f"{it.folder}/out/rlib/stamp") for it in below):
        return all(it.is_built() for it in below)
    return all(os.path.isdir(it.rlib) for it in below)


def try_after_ci(engine, crates, minutes, jobs):
    """Tries the edits that the page lists, lowest crates first, as long as there is time. Prints why the others aren't tried.
    Returns how many were tried, as a text, and how many weren't refused."""
    tried = failed = 0
    begun, wanted = time.monotonic(), set(must_be_refused())
    for crate in crates:
        edits, bad = read_edits(crate, sorted(wanted.intersection(planted(crate))))
        failed += bad
        is_late = time.monotonic() - begun >= 60 * minutes
        if edits and (is_late or not is_ready(crate)):
            why = "no time is left" if is_late else "libraries of another state are in the way"
            print(f"{crate.name}: {len(edits)} edits not tried: {why}", flush=True)
        elif edits:
            failed += try_crate(engine, crate, edits, False, jobs)
            tried += len(edits)
    return f"{tried} of {len(wanted)}", failed


def main():
    words = argparse.ArgumentParser(description=__doc__, formatter_class=argparse.RawDescriptionHelpFormatter)
    words.add_argument("crates", nargs="*", metavar="CRATE")
    words.add_argument("--alone", action="store_true", help="try each edit by itself, which takes longer")
    words.add_argument("--after-ci", type=float, metavar="MINUTES",
                       help="try the bodies that must be refused; start no crate after this time")
    words.add_argument("--look", action="store_true", help="only check whether each edit can be applied")
    words.add_argument("--list", action="store_true", help="only list the edits that rt ci tries")
    words.add_argument("--jobs", type=int, default=2, help="processors for a check")
    given = words.parse_args()
    engine = part("rt") or sys.exit("planted: the command `rt` is not found: put the folder bin of the Rattle kit on the PATH")
    crates = engine.rtlib.crates_below(str(ROOT))
    unknown = set(given.crates) - {it.name for it in crates}
    if unknown:
        sys.exit(f"planted: there is no crate {', '.join(sorted(unknown))}: crates.txt lists them")
    crates = [it for it in crates if not given.crates or it.name in given.crates]
    if given.list:
        print("\n".join(listed(crates)))
        return 0
    os.chdir(ROOT)
    if given.look:
        looked, failed = look(crates)
        print(f"{looked} edits looked at, {failed} wrong")
        return 1 if failed else 0
    if given.after_ci is None:
        tried, failed = try_all(engine, crates, given.alone, given.jobs)
    else:
        tried, failed = try_after_ci(engine, crates, given.after_ci, given.jobs)
    print(f"{tried} edits tried, {failed} not refused")
    return 1 if failed else 0


if __name__ == "__main__":
    sys.exit(main())
