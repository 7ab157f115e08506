"""Indexes: the entries that create them, which of them a filter uses, and how many documents that index covers.

An index is its name, its path and whether it is unique; its keys are never kept.
"""
from collections import namedtuple

from model.filters import LOGIC, OPERATORS
from model.paths import components_of, leaves, whole
from model.refusals import BAD_VALUE, CONFLICT, FAILED_TO_PARSE, LIMIT_REACHED, Refusal, TYPE_MISMATCH
from model.values import BOOLEAN, DOCUMENT, NUMBERS, TEXT, begins_with_operator

MOST_INDEXES = 64
LONGEST_NAME = 120
Index = namedtuple("Index", "name path is_unique")
ON_ID = Index(b"_id_", [b"_id"], False)
POINTS, RANGES = (b"$eq", b"$in"), (b"$gt", b"$gte", b"$lt", b"$lte")


def entry_of(fields):
    """The index that an entry asks for."""
    for name, (kind, held) in fields:
        wanted = {b"key": DOCUMENT, b"name": TEXT, b"unique": BOOLEAN}.get(name, kind)
        if name not in (b"key", b"name", b"v", b"unique") or kind == wanted and has_several_paths(name, held):
            raise Refusal(FAILED_TO_PARSE)
        if kind != wanted:
            raise Refusal(TYPE_MISMATCH)
    given = dict(fields)
    if b"key" not in given or b"name" not in given:
        raise Refusal(FAILED_TO_PARSE)
    parts, name = given[b"key"][1], given[b"name"][1]
    paths = [components_of(path) for path, (kind, held) in parts if kind in NUMBERS and held in (1, -1)]
    if len(paths) != 1 or paths[0] is None or len(name) > LONGEST_NAME:
        raise Refusal(BAD_VALUE)
    return Index(name, paths[0], given.get(b"unique", (BOOLEAN, False))[1])


def has_several_paths(name, held):
    """Whether a field asks for an index over several paths, which docd doesn't have."""
    return name == b"key" and len(held) > 1


def with_indexes(indexes, wanted):
    """The indexes, followed by those that are wanted, in order. An index that is there already is not added."""
    indexes = list(indexes)
    for new in wanted:
        if new.path == ON_ID.path or new in indexes:
            continue
        if any(new.name == other.name or new.path == other.path for other in indexes):
            raise Refusal(CONFLICT)
        indexes.append(new)
    if len(indexes) > MOST_INDEXES:
        raise Refusal(LIMIT_REACHED)
    return indexes


def conditions_of(fields):
    """The conditions of a filter's top conjunction in written order: a path, an operator and its operand."""
    for name, (kind, held) in fields:
        if name == b"$and":
            for _, inner in held:
                yield from conditions_of(inner)
        elif name not in LOGIC:
            is_list = kind == DOCUMENT and begins_with_operator(held)
            for operator, operand in held if is_list else [(b"$eq", (kind, held))]:
                yield components_of(name), operator, operand


def plan_of(fields, indexes):
    """The name and path of the index that a filter uses, and the condition that bounds its keys; None if all documents are
    scanned."""
    conditions = list(conditions_of(fields))
    for wanted in (POINTS, RANGES):
        for name, path, _ in indexes:
            for at, operator, operand in conditions:
                if at == path and operator in wanted:
                    return name, path, OPERATORS[operator](operand)
    return None


def covered(plan, documents):
    """How many documents have a leaf in the bounds of a plan."""
    _, path, condition = plan
    candidates = [whole((DOCUMENT, document), path) for document in documents]
    return sum(condition(one, leaves(one)) for one in candidates)
