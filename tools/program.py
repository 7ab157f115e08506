"""Where the repository is, the built program, which the tools run, how it is run, and what the tools' arguments name."""
import glob
import os
import subprocess
import sys

ROOT = os.path.dirname(os.path.dirname(os.path.abspath(__file__)))
OUT = os.path.join(ROOT, "crates", "docd", "out")
PROVED, UNPROVED = os.path.join(OUT, "docd"), os.path.join(OUT, "unproved", "docd")
SOURCES = [os.path.join(ROOT, one) for one in ("KIT", "crates.txt", "crates/*/src", "crates/*/specs", "crates/*/proofs")]
COMPILER = os.path.join(ROOT, "tools", "unproved.py")  # of the program without a proof
TESTS = "tests", "tests.rt"  # which the program is not built from


def sources():
    """The files and folders that the program is built from. (A folder is newer if a file was added or removed.)"""
    for top in sum(map(glob.glob, SOURCES), []):
        yield top
        for folder, folders, files in os.walk(top):
            folders[:] = [one for one in folders if one not in TESTS]
            yield from (os.path.join(folder, one) for one in [*folders, *files] if one not in TESTS)


def is_newer(path, nanoseconds):
    try:
        return os.lstat(path).st_mtime_ns > nanoseconds
    except OSError:  # it was removed meanwhile
        return False


def is_current(program, *others):
    """Whether a program is built, and no source is newer, as ./docd checks it. Other files may count as sources too."""
    if not os.access(program, os.X_OK):
        return False
    since = os.stat(program).st_mtime_ns
    return not any(is_newer(one, since) for one in [*sources(), *others])


def built():
    """The program that ./docd runs: the proved one, or the one without a proof if a source is newer than the proved one; None if a
    source is newer than both."""
    if is_current(PROVED):
        return PROVED
    return UNPROVED if is_current(UNPROVED, COMPILER) else None


def program_at(path, who):
    """The absolute path of a program that the arguments name. Ends the tool if there is none."""
    if not (os.path.isfile(path) and os.access(path, os.X_OK)):
        sys.exit("%s: there is no program %s" % (who, path))
    return os.path.abspath(path)


def parsed(options, who):
    """The arguments of a tool, with the absolute path of the program among them. Ends the tool if there is none."""
    options.add_argument("--program", metavar="FILE", help="the program; without this, the one that ./docd runs")
    given = options.parse_args()
    given.program = program_at(given.program, who) if given.program is not None else built()
    if not given.program:
        sys.exit("%s: no program is built from the present sources: build one (./docd run < /dev/null), or name one (--program FILE)" % who)
    return given


def run_within(seconds, words, given, folder=None):
    """Runs a program with an input. Returns its exit status and both its outputs. A program that doesn't end in time is ended: the
    status is then a text that says so, and there are no outputs."""
    try:
        done = subprocess.run(words, input=given, capture_output=True, cwd=folder, timeout=seconds)
    except subprocess.TimeoutExpired:
        return "no end within %d seconds" % seconds, b"", b""
    return done.returncode, done.stdout, done.stderr


def named(who, words, names):
    """The names that contain one of the words, which are joined by commas. Ends the tool at a word that no name contains."""
    words = words.split(",")
    for word in words:
        if not any(word in name for name in names):
            sys.exit("%s: nothing is named %s; there are: %s" % (who, word, "; ".join(names)))
    return [name for name in names if any(word in name for word in words)]
