"""Where in a refused command the fault may be.

Parts of the command are checked one by one by the rules of tools/client/model, which is compared with docd. The first part that
these rules refuse with the reply's code is reported.
"""
import difflib

from model import fields as kinds
from model.commands import COMMANDS, LISTS, needed_by
from model.fields import DELETE_ENTRY, FIELDS, IGNORED, UPDATE_ENTRY, check_fields
from model.filters import LOGIC, OPERATORS as CONDITIONS, filter_of
from model.indexes import entry_of
from model.namespaces import database_name, namespace
from model.paths import field_of, sort_of
from model.pipelines import ACCUMULATORS, STAGES, pipeline_of
from model.refusals import (BAD_VALUE, COMMAND_NOT_FOUND, CONFLICT, DUPLICATE_KEY, FAILED_TO_PARSE, IMMUTABLE_FIELD,
                            INVALID_BSON, NAMESPACE_EXISTS, NAMESPACE_NOT_FOUND, ON_VIEW, READ_BY_VIEW, Refusal, WANT_OF_MEMORY)
from model.updates import OPERATORS as UPDATES, update_of
from model.values import ARRAY, DOCUMENT, TEXT, is_storable
from notation import shown, shown_name

MOST = 60  # characters of a value that are shown
ALIKE = 0.7  # how alike, from 0 to 1, a name has to be to one that may be meant
# What is said of a command's name for these codes.
OF_NAMES = {
    NAMESPACE_NOT_FOUND: "the name %s, or the database, which `use` changes",
    NAMESPACE_EXISTS: "the name %s; drop what has it, or take another one",
    ON_VIEW: "%s is a view; write to the collection that it reads",
    READ_BY_VIEW: "a view reads the name %s; drop that view first, or take another name",
}
# What to use instead of commands that docd doesn't have.
INSTEAD = {
    b"count": "there is no command count; an aggregate counts: pipeline: [{$group: {_id: null, n: {$sum: 1}}}]",
    b"distinct": "there is no command distinct; an aggregate finds the values: pipeline: [{$group: {_id: \"$path\"}}]",
}
# What is said of a createIndexes for these codes.
OF_INDEXES = {
    CONFLICT: "another index has the name or the path; explain of a find by the path names it, and dropIndexes removes it",
    DUPLICATE_KEY: "two documents have the same key, or both have none; a $group by the path finds them",
}
ENTRIES = {b"updates": UPDATE_ENTRY, b"deletes": DELETE_ENTRY}
LITERAL = b"$literal"
IN_STAGES = {b"$match": {*LOGIC, *CONDITIONS}, b"$group": {*ACCUMULATORS, LITERAL}}  # and only LITERAL in others
NEEDED = {b"$group": [b"_id"], b"$lookup": [b"from", b"localField", b"foreignField", b"as"]}
INDEX_ENTRY = {b"key": kinds.document, b"name": kinds.text, b"unique": kinds.boolean, b"v": kinds.anything}
KINDS = {
    kinds.text: "a string", kinds.documents: "an array of documents", kinds.boolean: "true or false", kinds.document: "a document",
    kinds.array: "an array of stages", kinds.natural: "a number from 0", kinds.any_number: "a number",
    kinds.numbers: "an array of numbers", kinds.batch_document: "{batchSize: a number from 0}", kinds.find_document: "a find",
    kinds.nothing_but_empty: "only {}", kinds.anything: "anything", kinds.zero_or_one: "0 (all) or 1",
    kinds.update_document: "operators, or a document that replaces the old one", kinds.false_alone: "only false",
}


def suspect(fields, code, index=None):
    """What may be wrong in a command that was refused with a code, or in its statement at an index; None if nothing is found."""
    name, value = fields[0]
    if code == COMMAND_NOT_FOUND and name == b"$db":
        return "no command: its name has to be the first field"
    if code == COMMAND_NOT_FOUND:
        return "explain takes only a find" if name in COMMANDS else INSTEAD.get(name) or misnamed("command", name, COMMANDS)
    if code in OF_NAMES and value[0] == TEXT:
        return OF_NAMES[code] % shown(value)
    if code == WANT_OF_MEMORY:
        return "ask for fewer rows, or delete documents or drop what holds them; send a delete again until it returns no 900"
    if name == b"createIndexes" and code in (CONFLICT, DUPLICATE_KEY):
        return OF_INDEXES[code]
    if index is None:
        return first_refused(of_command(fields), code)
    list_name = LISTS[name]
    entry = dict(fields)[list_name][1][index]
    place = "%s.%d" % (list_name.decode(), index)
    return first_refused(of_statement(list_name, place, entry[1]), code) or "%s: %s" % (place, short(entry))


def first_refused(parts, code):
    return next((told for told, check in parts if refuses(check, code)), None)


def refuses(check, code):
    """Whether a part is refused with a code."""
    try:
        check()
    except Refusal as refusal:
        return refusal.code == code
    except (ValueError, TypeError, KeyError, IndexError, AttributeError):
        pass  # another part is wrong, so that this one makes no sense
    return False


def refuse(code):
    raise Refusal(code)


def misnamed(what, name, known):
    """Says that a name isn't known, and which known name may be meant."""
    near = difflib.get_close_matches(name.decode(), [one.decode() for one in known], 1, ALIKE)
    return "there is no %s %s%s" % (what, shown_name(name), "; %s may be meant" % near[0] if near else "")


def short(value):
    text = shown(value)
    return text if len(text) <= MOST else text[:MOST - 2] + ".."


def unknown_in(value, known):
    """The first name in a value that begins with a dollar sign and isn't among those that are known."""
    kind, held = value
    for name, inner in held if kind == DOCUMENT else [(b"", one) for one in held] if kind == ARRAY else []:
        found = name if name.startswith(b"$") and name not in known else unknown_in(inner, known)
        if found:
            return found
    return None


def of_command(fields):
    """The parts of a command: what is said of each if it is wrong, and the function that checks it."""
    command = fields[0][0]
    yield "the database, %s" % short(dict(fields).get(b"$db", (TEXT, b""))), lambda: database_name(fields)
    if command not in FIELDS:
        return
    if command == b"explain" and fields[0][1][0] == DOCUMENT:
        yield from of_fields("in explain ", fields[0][1][1], FIELDS[b"find"], IGNORED)
    yield from of_fields("", fields, FIELDS[command], IGNORED | {b"$db"})
    for name in needed_by(command, dict(fields)):
        yield "the field %s is missing" % shown_name(name), lambda name=name: name in dict(fields) or refuse(FAILED_TO_PARSE)
    if fields[0][1][0] == TEXT:
        yield "the name %s" % shown(fields[0][1]), lambda: namespace(field_of(fields, b"$db")[1], fields[0][1][1])
    yield from held_in(fields)


def of_fields(place, fields, known, ignored=frozenset()):
    """Each field of a document at a place; `known` are the fields that it may have."""
    for name, value in fields:
        if name in known:
            told = "%sthe field %s: %s; it may be %s" % (place, shown_name(name), short(value), KINDS[known[name]])
            yield told, lambda name=name, value=value: known[name](*value)
        else:
            one = [(name, value)]
            yield place + misnamed("field", name, known), lambda one=one: check_fields(one, known, ignored)
    twice = next((name for place, (name, _) in enumerate(fields) if name in dict(fields[:place])), None)
    if twice:
        yield "%sthe field %s is given twice" % (place, shown_name(twice)), lambda: refuse(INVALID_BSON)


def held_in(fields):
    """What a command's filter, sort, stages and entries of indexes hold."""
    given = dict(fields)
    for name in (b"filter", b"q"):
        yield from of_filter(given.get(name), shown_name(name))
    if given.get(b"sort", (None, None))[1]:
        yield "the sort %s; write 1 (ascending) or -1 after each path" % short(given[b"sort"]), lambda: sort_of(given[b"sort"][1])
    for place, stage in enumerate(given.get(b"pipeline", (ARRAY, []))[1], 1):
        yield from of_stage("stage %d of the pipeline" % place, stage)
    for place, (_, entry) in enumerate(given.get(b"indexes", (ARRAY, []))[1]):
        yield from of_index("indexes.%d" % place, entry)
    if given.get(b"explain", (None, None))[0] == DOCUMENT:
        yield from held_in(given[b"explain"][1])


def of_stage(place, stage):
    """A stage, and what may be wrong with it: its name, an operator, or a field that is missing."""
    name, (kind, operand) = stage[1][0] if stage[0] == DOCUMENT and stage[1] else (b"", (None, None))
    told = "%s: %s" % (place, short(stage))
    if name not in STAGES:
        told = misnamed("stage", name, STAGES) if name else told
    elif operator := unknown_in((kind, operand), IN_STAGES.get(name, {LITERAL})):
        told += "; " + misnamed("operator", operator, IN_STAGES.get(name, {LITERAL}))
    elif kind == DOCUMENT and (lacking := [one for one in NEEDED.get(name, []) if one not in dict(operand)]):
        told += "; the field %s is missing" % shown_name(lacking[0])
    yield told, lambda: pipeline_of([stage])


def of_index(place, entry):
    """The fields of an index that is to be made, one by one, and then all of it."""
    yield from of_fields("in %s " % place, entry, INDEX_ENTRY)
    for name in (b"key", b"name"):
        if name not in dict(entry):
            yield "in %s the field %s is missing" % (place, shown_name(name)), lambda: refuse(FAILED_TO_PARSE)
    key = dict(entry).get(b"key", (DOCUMENT, []))
    if key[0] == DOCUMENT and len(key[1]) > 1:
        yield "in %s the field key: %s; it may have only one path" % (place, short(key)), lambda: refuse(FAILED_TO_PARSE)
    yield "the index %s" % short((DOCUMENT, entry)), lambda: entry_of(entry)


def of_filter(value, name):
    if value and value[0] == DOCUMENT:
        for member in value[1]:
            one, known = (DOCUMENT, [member]), {**LOGIC, **CONDITIONS}
            operator = unknown_in(one, known)
            told = misnamed("operator", operator, known) if operator else "in the %s, %s" % (name, short(one))
            yield told, lambda one=one: filter_of(one[1])


def of_statement(list_name, place, entry):
    """The parts of a write's statement."""
    if list_name == b"documents":
        yield from of_document(place, entry)
        return
    yield from of_fields("in %s " % place, entry, ENTRIES[list_name])
    for name in (b"q", b"u", b"limit"):
        if name in ENTRIES[list_name] and name not in dict(entry):
            yield "in %s the field %s is missing" % (place, shown_name(name)), lambda: refuse(FAILED_TO_PARSE)
    yield from of_filter(dict(entry).get(b"q"), "q of %s" % place)
    if list_name == b"updates":
        yield from of_update(place, dict(entry).get(b"u", (DOCUMENT, []))[1])


def of_update(place, update):
    """The operators of an update one by one, then all of it."""
    for operator, paths in update:
        if operator.startswith(b"$") and operator not in UPDATES:
            yield misnamed("operator", operator, UPDATES), lambda: refuse(FAILED_TO_PARSE)
        for path in paths[1] if paths[0] == DOCUMENT and operator.startswith(b"$") else []:
            one = [(operator, (DOCUMENT, [path]))]
            yield "in u of %s, %s" % (place, short((DOCUMENT, one))), lambda one=one: update_of(one)
    yield "u of %s: %s" % (place, short((DOCUMENT, update))), lambda: update_of(update)
    yield "the _id in u of %s" % place, lambda: b"_id" in dict(update) and refuse(IMMUTABLE_FIELD)


def of_document(place, document):
    """A document that is inserted: its `_id` and its names."""
    identity = field_of(document, b"_id")
    if identity is None:
        yield "%s has no _id" % place, lambda: refuse(BAD_VALUE)
    elif identity[0] == ARRAY:
        yield "the _id of %s is an array" % place, lambda: refuse(BAD_VALUE)
    else:
        yield "the _id of %s, %s, or a key of a unique index" % (place, short(identity)), lambda: refuse(DUPLICATE_KEY)
    yield "a name in %s has a dot, or begins with $ at its top" % place, lambda: is_storable(document) or refuse(BAD_VALUE)
