#!/usr/bin/python3
"""Checks the model of `tools/check/machine.py` against worked examples, whose answers were written by hand: those of
tools/check/worked_examples.txt, and a few documents as bytes. After each answer it also checks the live views' rows at positions,
from which work is counted: without the positions they must be the rows of the pipeline.

    python3 tools/check/machine_rows.py
"""
import sys

import folders  # noqa: F401
import machine
from checking import status_of
from model.values import BsonFault, read_document, spelling
from model.work import documents_of
from notation import fields_of
from worked_examples import answers, scripts


def check_examples(tell):
    """Each line of the table is answered as it says."""
    for script in scripts():
        held = machine.Machine()
        for example, step, said in answers(held, script):
            told = said if are_placed(held.store, example.title) else [*said, "and a view's rows have wrong positions"]
            shown = "%s\n    %s\n    %s" % (example.title, step.text or step.lines[0], "\n    ".join(told))
            tell(told == step.prints, shown)


def are_placed(store, title):
    """Whether the rows of an example's live views, without their positions, are those of the pipelines."""
    database = title.partition(":")[0].partition(",")[0].encode()
    views = [(place, view) for place, view in store.views.items() if view.is_live and place.startswith(database + b".")]
    return all(documents_of(store.placer()(place)) == store.reader()(place) for place, view in views)


def check_bytes(tell):
    tell(read_document(bytes.fromhex("0500000000")) == [], "the empty document")
    tell(read_document(bytes.fromhex("080000000a610000")) == fields_of("{a: null}"), "null")
    tell(spelling(fields_of('{hello: "world"}')).hex() == "160000000268656c6c6f0006000000776f726c640000", "hello world")
    try:
        tell(read_document(bytes.fromhex("090000000861000200")) is None, "a boolean of 2")
    except BsonFault as fault:
        tell(fault.args[0] == b"BadBool", "a boolean of 2: %r" % fault)


if __name__ == "__main__":
    sys.exit(status_of("machine_rows", check_examples, check_bytes))
