"""What the prompt says in words: its help, and what a refusal means."""
import textwrap

from model.commands import COMMANDS, needed_by
from model.fields import DELETE_ENTRY, FIELDS, IGNORED, UPDATE_ENTRY
from model.values import ARRAY
from prompt import guide
from prompt.suspects import KINDS, suspect

MORE = 101  # rows that the prompt's word `more` asks for
WORDS = [
    ("help", "shows this; help find, help $set and help 11000 explain a command, an operator and a code"),
    ("use NAME", "from now on, commands that name no database are for this one"),
    ("more", "shows the next rows of the last reply, at most %d" % MORE),
    ("whole", "shows the last reply in full"),
    ("watch VIEW", "shows a view's rows after each command that changes them; watch without a name ends this"),
    ("exit", "ends the connection, as Control-D does"),
]
MOST = 5  # refused statements of a reply that are explained
ENTRIES = {b"update": ("updates", UPDATE_ENTRY), b"delete": ("deletes", DELETE_ENTRY)}


def table(rows, width):
    """Rows of two columns, of which the second is wrapped."""
    left = max((len(name) for name, _ in rows), default=0) + 4
    for name, text in rows:
        yield from wrapped(text, width, "  %s" % name.ljust(left - 2), " " * left)


def wrapped(text, width, first="", others=""):
    return textwrap.wrap(text, max(width, len(others) + 20), initial_indent=first, subsequent_indent=others,
                         break_long_words=False, break_on_hyphens=False) or [first]


def help_of(topic, width):
    """The lines about a topic, or about everything if there is none."""
    name = topic.strip("{}:\"'` ")
    if not name:
        return [*overview(width)]
    if name.encode() in COMMANDS:
        return [*of_command(name, width)]
    if name.startswith("$"):
        return [*of_operator(name, width)]
    code = next((one for one in guide.codes().values() if name in (str(one.number), one.name)), None)
    if code:
        return wrapped(meaning(code), width)
    if words := [row for row in WORDS if row[0].split()[0] == name]:
        return [*table(words, width)]
    if guide.told_of("$" + name)[0]:
        return [*of_operator("$" + name, width)]
    told = "there is no command, operator or code %s: type help for the commands" % name
    if headings := guide.headings_with(name):
        told += "; docs/MANUAL.md describes it under %s" % ", ".join('"%s"' % one for one in headings)
    return wrapped(told, width)


def overview(width):
    rows = [(", ".join(row.names), row.does) for row in guide.listed()] or [(name.decode(), "") for name in COMMANDS]
    yield "commands"
    yield from table(rows, width)
    yield "words of the prompt"
    yield from table(WORDS, width)
    yield 'A command is a document: {find: "orders"}. Tab completes names, fields and operators.'


def of_command(name, width):
    row, wanted = guide.row_of(name), {one.decode() for one in needed_by(name.encode(), {})} | {name}
    yield from wrapped("%s: %s" % (", ".join(row.names), row.does) if row else name, width)
    for form in guide.forms_of(name):
        yield "  " + form
    yield "fields"
    fields = FIELDS.get(name.encode(), {})
    yield from table([field_row(one, kind, wanted) for one, kind in fields.items()] or [("any", "anything")], width)
    if name.encode() in ENTRIES:
        yield "fields of each of its %s" % ENTRIES[name.encode()][0]
        yield from table([field_row(one, kind, {"q", "u", "limit"}) for one, kind in ENTRIES[name.encode()][1].items()], width)
    yield from wrapped("Every command ignores these fields: %s." % ", ".join(sorted(one.decode() for one in IGNORED)), width)
    if example := guide.example_of(name):
        yield "for example"
        yield from ("  " + line for line in example)
    yield "may be refused with"
    yield from table([("%d %s" % (code.number, code.name), code.meaning) for code in guide.codes_of(name)], width)
    if row:
        yield "docs/MANUAL.md has more, under \"%s\"." % guide.section_at(row.place)[0]


def field_row(name, kind, wanted):
    text = name.decode()
    return text, KINDS.get(kind, "") + (", required" if text in wanted else "")


def of_operator(name, width):
    told, example = guide.told_of(name)
    if not told:
        yield "there is no operator %s: Tab lists those that a place may have" % name
        return
    yield from wrapped(told, width)
    if example:
        yield "for example"
        yield from ("  " + line for line in example)


def meaning(code):
    return "%d %s: %s" % (code.number, code.name, code.meaning)


def refusal_lines(fields, reply, width):
    """What is printed below a reply that refuses the command, or statements of it: lines that are comments in a script."""
    told = set()
    for code, index in refusals_in(reply)[:MOST]:
        if code not in told and code in guide.codes():
            yield from wrapped(meaning(guide.codes()[code]), width, "# ", "#   ")
        told.add(code)
        if place := suspect(fields, code, index):
            yield from wrapped("perhaps: " + place, width, "# ", "#   ")


def refusals_in(reply):
    """The codes in a reply, each with the index of the statement that is refused, None if the command is."""
    told = dict(reply)
    if b"code" in told:
        return [(told[b"code"][1], None)]
    errors = [dict(error) for _, error in told.get(b"writeErrors", (ARRAY, []))[1]]
    return [(error[b"code"][1], error[b"index"][1]) for error in errors]


def hint_at(line):
    """The hint for a line that is no document."""
    word = line.split()[0].rstrip(":;,.") if line.split() else ""
    forms = guide.forms_of(word) if word.encode() in COMMANDS else []
    if forms:
        return "a command is a document: write %s" % forms[0]
    return 'a command is a document, as {find: "orders"}: type help for the commands'
