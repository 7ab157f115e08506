"""The replies that comments in examples/*.hex state, next to those of docd and of the model.

The comment above a message says `the reply is {..}.`, or `the reply, {..}, ..`, or `the reply's documents are:` followed by the
documents. What else it says of a reply is not checked.
"""
import glob
import os
import re

import folders  # noqa: F401
import machine
from model.messages import answer
from model.values import ARRAY, DOCUMENT
from notation import fields_of, shown, values
from program import ROOT, run_within

SCRIPTS = os.path.join(ROOT, "examples", "*.hex")
A_RUN = 60  # seconds that docd may take for a script
WHOLE = re.compile(r"reply(?: is (\{.*?\})\.|, (\{.*?\}),)(?: |$)")
DOCUMENTS = re.compile(r"reply's documents are: (.*)")


def whole(fields):
    return shown((DOCUMENT, fields))


def documents_in(fields):
    """The documents of a find's reply."""
    cursor = dict(fields).get(b"cursor", (DOCUMENT, []))[1]
    return " ".join(map(shown, dict(cursor).get(b"firstBatch", (ARRAY, []))[1]))


def told_of(comment):
    """The reply or documents that a comment states, and what takes these from a reply; None if it states neither."""
    if found := WHOLE.search(comment):
        return whole(fields_of(found[1] or found[2])), whole
    if found := DOCUMENTS.search(comment):
        return " ".join(map(shown, values(found[1]))), documents_in
    return None


def comments_in(script):
    """For each line that is neither empty nor a comment, the comment above it."""
    comment = []
    for line in script.splitlines():
        if line.startswith("#"):
            comment.append(line[1:].strip())
            continue
        if line:
            yield " ".join(comment)
        comment = []


def read(line, part):
    """A part of a reply that was printed, or the line itself if it is no reply."""
    digits = line.partition(" ")[2]
    return part(answer(bytes.fromhex(digits))) if re.fullmatch("[0-9a-f]{52,}", digits) else line


def replies_told(program):
    """For each reply that is stated: its script, its number there, what is stated, and what docd and the model return. For a script
    that docd ends with another status than the model, or doesn't end, the same of its exit status."""
    for path in sorted(glob.glob(SCRIPTS)):
        with open(path, "rb") as file:
            script = file.read()
        status, output, _ = run_within(A_RUN, [program, "run", "--hex"], script)
        wanted, printed, _ = machine.run(script)
        if status != wanted:
            yield os.path.relpath(path, ROOT), "exit status", str(wanted), str(status), str(wanted)
        said, modelled = (lines.decode().splitlines() for lines in (output, printed))
        said += ["nothing"] * (len(modelled) - len(said))
        for number, (comment, *lines) in enumerate(zip(comments_in(script.decode()), said, modelled), 1):
            if told := told_of(comment):
                text, part = told
                yield os.path.relpath(path, ROOT), "reply %d" % number, text, *(read(line, part) for line in lines)
