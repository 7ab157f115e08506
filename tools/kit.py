"""The Rattle kit: whether the kit that the file KIT names is installed, and its parts, which this repository's tools call.

The kit's command `rt` is a Python program, which these tools load as a module. Nothing in it is changed. Of its module `rtlib`,
they call `crates_below`, `kit_sources`, `lock`, `guarded`, `text_of` and `sum_of`, and of a crate `below`, `is_built`, `has_kept`,
`stamp`, `sources_below`, `build_rlib` and `run`. They read `KIT` and a crate's `name`, `folder`, `rlib`, `deps` and `of_kit`, set
its `held` and the class's `cuts_libraries`, and write the file `stamp` next to a library. tools/check/planted.py also calls the
engine of `rt must-fail`: `checked`, `unread` and `must_fail`.
"""
import importlib.machinery
import importlib.util
import os
import pathlib
import shutil
import subprocess
import sys

WANTED = pathlib.Path(__file__).resolve().parent.parent / "KIT"

if sys.version_info < (3, 10):
    sys.exit("docd: python3 is Python %d.%d, but these tools need 3.10 or newer: put a newer python3 first on the PATH" % sys.version_info[:2])


class Fault(Exception):
    """Why nothing is built, and what to do about it."""


def tell(text):
    """Writes a line to standard error, which begins with `docd: `."""
    print("docd: " + text, file=sys.stderr, flush=True)


def part(name):
    """A part of the kit as a module: `rt` itself, whose `rtlib` has the crates; None if there is no command `rt`."""
    found = shutil.which("rt")
    if not found:
        return None
    sys.dont_write_bytecode = True
    path = pathlib.Path(os.path.realpath(found)).parent / name
    loader = importlib.machinery.SourceFileLoader(path.stem, str(path))
    made = importlib.util.module_from_spec(importlib.util.spec_from_loader(path.stem, loader))
    sys.modules[path.stem] = made
    loader.exec_module(made)
    return made


def wanted_kit():
    """The kit's part `rtlib`, if the installed kit has the logic that KIT names: kits of one logic prove the same."""
    wanted = WANTED.read_text().strip()
    if not shutil.which("rt"):
        raise Fault("the command `rt` is not found: put the folder bin of the Rattle kit (%s) on the PATH" % wanted)
    ran = subprocess.run(["rt", "version"], capture_output=True, text=True)
    said = ran.stdout.strip()
    if ran.returncode:
        raise Fault("`rt version` failed: " + (ran.stderr.strip() or "it printed nothing").splitlines()[-1])
    if not said.endswith(wanted):
        raise Fault("another Rattle kit is installed: `rt version` prints %s, but must end in %s: install that kit" % (said, wanted))
    return part("rt").rtlib
