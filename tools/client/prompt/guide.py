"""What the documents say of commands: README.md's table of them, and docs/MANUAL.md's forms, examples, operators and codes.

The prompt reads the documents themselves, so that it says what they say and nothing else.
"""
import functools
import os
import pathlib
import re
from collections import namedtuple

ROOT = pathlib.Path(__file__).resolve().parents[3]
MANUAL = os.path.join(ROOT, "docs", "MANUAL.md")
README = os.path.join(ROOT, "README.md")
HEADING = re.compile(r"(?m)^(#+) (.*)$")
BLOCK = re.compile(r"(?ms)^```\n(.*?)^```\n")
LISTED = re.compile(r"(?m)^\| (\[.*?\)) \| (.*) \|$")
CODE = re.compile(r"(?m)^- (\d+) `(\w+)`(?: \((.*?)\))?: (.*)$")
QUOTED = re.compile(r"`([^`]*)`")
LINK = re.compile(r"\[([^\]]*)\]\([^)]*\)")

# The commands in one row of README.md's table: their names, what they do, and the manual's section about them.
Listed = namedtuple("Listed", "names does place")
# A code: its number and name, the commands that may be refused with it (none if all may), and what it means.
Code = namedtuple("Code", "number name commands meaning")


@functools.lru_cache(maxsize=None)
def text_of(path):
    """The text of a document, empty if it isn't there."""
    try:
        with open(path, encoding="utf-8") as file:
            return file.read()
    except OSError:
        return ""


def sections(text):
    """For each heading its blocks, as texts."""
    for section in re.split(r"(?m)^## ", text)[1:]:
        yield section.splitlines()[0], BLOCK.findall(section)


def plain(text):
    """A text without marks of links and of code."""
    return LINK.sub(r"\1", text).replace("`", "")


def anchor(heading):
    return re.sub(r"[^\w -]", "", heading.lower()).replace(" ", "-")


def section_at(place):
    """The heading at a place of the manual, and the text under it."""
    text = text_of(MANUAL)
    for found in HEADING.finditer(text):
        if anchor(found[2]) == place:
            end = re.compile(r"(?m)^#{1,%d} " % len(found[1])).search(text, found.end())
            return found[2], text[found.end():end.start() if end else len(text)]
    return "", ""


def headings_with(word):
    """The manual's headings with a word that begins like this one without its plural ending."""
    form = re.compile(r"(?i)\b" + re.escape(re.sub(r"e?s$", "", word)))
    return [plain(heading) for _, heading in HEADING.findall(text_of(MANUAL)) if len(word) > 2 and form.search(heading)]


def listed():
    """The rows of README.md's table of commands."""
    for linked, does in LISTED.findall(text_of(README)):
        place = re.search(r"#([\w-]+)\)", linked)
        yield Listed(QUOTED.findall(linked), plain(does), place[1] if place else "")


def row_of(command):
    """The row of a command, None if there is none."""
    return next((row for row in listed() if command in row.names), None)


def forms_of(command):
    """How the manual writes a command, with words in place of values."""
    found = [form for form in QUOTED.findall(text_of(MANUAL)) if re.match(r"\{%s: " % re.escape(command), form)]
    return list(dict.fromkeys(found))


def example_with(text, wanted):
    """The first example in a text whose command has what is wanted: the command and its reply, None if there is none."""
    for block in BLOCK.findall(text):
        lines = block.splitlines()
        for command, reply in zip(lines, lines[1:]):
            if command.startswith("> ") and wanted in command:
                return command[2:], reply
    return None


def example_of(command):
    """An example of a command, from its section or else from anywhere in the manual."""
    row = row_of(command)
    own = section_at(row.place)[1] if row else ""
    return example_with(own, "{%s: " % command) or example_with(text_of(MANUAL), "{%s: " % command)


def codes():
    """The codes of refusals by their numbers."""
    return {int(number): Code(int(number), name, QUOTED.findall(commands), plain(meaning))
            for number, name, commands, meaning in CODE.findall(text_of(MANUAL))}


def codes_of(command):
    """The codes that a command may be refused with."""
    return [code for code in codes().values() if not code.commands or command in code.commands]


def told_of(operator):
    """The paragraph and the example of the manual about an operator, None for each that isn't there."""
    text = text_of(MANUAL)
    paragraphs = [one for one in re.split(r"\n\n+", BLOCK.sub("\n\n", text)) if one[:1] not in "#|->"]
    told = [one for one in paragraphs if "`%s`" % operator in one or "`{%s: " % operator in one]
    # a paragraph that begins with operators says what they do, and is about the first of them
    told.sort(key=lambda one: (not one.startswith("`$"), one.find("`%s`" % operator)))
    return plain(told[0]) if told else None, example_with(text, "%s: " % operator)
