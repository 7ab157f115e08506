"""Updates: an update's document becomes a change of documents, or is refused.

If a document's update is refused for several reasons, the first of these is returned: the refusals of its operators in the order
of their paths, then that `_id` is another one, then that the result is too large, then that it is too deep.
"""
import sys

from model.filters import element_test_of
from model.paths import MISSING, changed_at, components_of, field_of, is_whole_number, put, removed, slot
from model.refusals import (BAD_VALUE, CONFLICT, FAILED_TO_PARSE, IMMUTABLE_FIELD, Refusal, TOO_LARGE, TYPE_MISMATCH)
from model.values import (ARRAY, DOCUMENT, INT32, INT64, MOST_BYTES, MOST_LEVELS, NUMBERS, begins_with_operator, is_storable,
                          key, levels, size)

sys.setrecursionlimit(100_000)  # a path of thousands of components makes as many levels, before these are refused as too many


def is_replacement(fields):
    return not begins_with_operator(fields)


def update_of(fields):
    """A function from a document's fields to those of the result."""
    change = replacement_of(fields) if is_replacement(fields) else operators_of(fields)

    def update(document):
        result = change(document)
        check_result(field_of(document, b"_id"), result)
        return result
    return update


def check_result(identity, result):
    if field_of(result, b"_id") != identity:
        raise Refusal(IMMUTABLE_FIELD)
    if size(result) > MOST_BYTES:
        raise Refusal(TOO_LARGE)
    if levels(DOCUMENT, result) > MOST_LEVELS:
        raise Refusal(BAD_VALUE)


def replacement_of(fields):
    if not is_storable(fields):
        raise Refusal(BAD_VALUE)
    others = [field for field in fields if field[0] != b"_id"]
    own = field_of(fields, b"_id")
    return lambda document: [(b"_id", field_of(document, b"_id") if own is MISSING else own)] + others


def operators_of(fields):
    operations = []
    for name, (kind, paths) in fields:
        if name not in OPERATORS or kind != DOCUMENT:
            raise Refusal(FAILED_TO_PARSE)
        for text, operand in paths:
            operations.append((path_of(text), OPERATORS[name](operand)))
    operations.sort(key=lambda operation: order_of(operation[0]))
    check_conflicts([path for path, _ in operations])

    def change(document):
        value = DOCUMENT, document
        for path, operation in operations:
            value = operation(value, path)
        return value[1]
    return change


def path_of(text):
    path = components_of(text)
    if path is None or any(component.startswith(b"$") for component in path):
        raise Refusal(BAD_VALUE)
    return path


def order_of(path):
    """Component by component, whole numbers first and by number, then names by bytes."""
    return [(0, int(one)) if is_whole_number(one) else (1, one) for one in path]


def check_conflicts(paths):
    """Refuses paths, which are in order, if one equals or begins another: it then equals or begins the one after it."""
    for path, behind in zip(paths, paths[1:]):
        if behind[:len(path)] == path:
            raise Refusal(CONFLICT)


def set_to(operand):
    return lambda value, path: put(value, path, operand)


def unset(_):
    return removed


def increased_by(operand):
    if operand[0] not in NUMBERS:
        raise Refusal(TYPE_MISMATCH)
    return lambda value, path: changed_at(value, path, lambda old: sum_of(old, operand))


def sum_of(old, operand):
    if old is MISSING:
        return operand
    if old[0] not in NUMBERS:
        raise Refusal(TYPE_MISMATCH)
    total = old[1] + operand[1]
    if old[0] == operand[0] == INT32 and -2**31 <= total < 2**31:
        return INT32, total
    if not -2**63 <= total < 2**63:
        raise Refusal(BAD_VALUE)
    return INT64, total


def pushed(operand):
    kind, held = operand
    values = each_of(held) if kind == DOCUMENT and begins_with_operator(held) else [operand]
    return lambda value, path: changed_at(value, path, lambda old: (ARRAY, array_of(old) + values))


def each_of(fields):
    """The values of {$each: [..]}."""
    (name, (kind, held)), *others = fields
    if name != b"$each" or others or kind != ARRAY:
        raise Refusal(FAILED_TO_PARSE)
    return held


def array_of(value):
    if value is not MISSING and value[0] != ARRAY:
        raise Refusal(BAD_VALUE)
    return [] if value is MISSING else value[1]


def pulled(operand):
    goes = condition_of(operand)

    def operation(value, path):
        old = slot(value, path)
        if old is MISSING:
            return value
        return put(value, path, (ARRAY, [element for element in array_of(old) if not goes(element)]))
    return operation


def condition_of(operand):
    if operand[0] != DOCUMENT:
        return lambda element: key(element) == key(operand)
    try:
        return element_test_of(operand[1])
    except Refusal:
        raise Refusal(FAILED_TO_PARSE) from None


OPERATORS = {b"$set": set_to, b"$unset": unset, b"$inc": increased_by, b"$push": pushed, b"$pull": pulled}
