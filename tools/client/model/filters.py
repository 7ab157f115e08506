"""Filters: a filter's document becomes a test of documents, or is refused with BadValue.

A condition is a test of the candidates of a path (see `paths.whole`). A condition on an element of an array gets only the
element, as the one candidate and the one leaf.
"""
from model.paths import MISSING, as_null, components_of, leaves, whole
from model.refusals import BAD_VALUE, Refusal
from model.values import ARRAY, BOOLEAN, DOCUMENT, NUMBERS, RANKS, begins_with_operator, key

LOGIC = {b"$and": all, b"$or": any, b"$nor": lambda answers: not any(answers)}


def wanted(is_right):
    if not is_right:
        raise Refusal(BAD_VALUE)


def filter_of(fields):
    """A test of a document's fields: all members have to match."""
    members = [member_of(name, operand) for name, operand in fields]
    return lambda document: all(member(document) for member in members)


def member_of(name, operand):
    if name in LOGIC:
        return logic_of(LOGIC[name], operand)
    wanted(not name.startswith(b"$"))
    path = components_of(name)
    wanted(path is not None)
    condition = condition_of(operand)

    def test(document):
        candidates = whole((DOCUMENT, document), path)
        return condition(candidates, leaves(candidates))
    return test


def logic_of(joined, operand):
    filters = [filter_of(one) for one in documents_of(operand)]
    wanted(filters)
    return lambda document: joined(one(document) for one in filters)


def documents_of(operand):
    kind, held = operand
    wanted(kind == ARRAY and all(inner == DOCUMENT for inner, _ in held))
    return [one for _, one in held]


def condition_of(operand):
    """A document that begins with an operator is a list of operators; any other operand is what a leaf has to equal."""
    kind, held = operand
    return operators_of(held) if kind == DOCUMENT and begins_with_operator(held) else equal_to(operand)


def operators_of(fields):
    conditions = []
    for name, operand in fields:
        wanted(name in OPERATORS)
        conditions.append(OPERATORS[name](operand))
    return lambda candidates, leaves: all(condition(candidates, leaves) for condition in conditions)


def equal_to(operand):
    return member_of_list([operand])


def member_of_list(members):
    """Some leaf is one of the members; a missing one is null."""
    keys = {key(member) for member in members}
    return lambda candidates, leaves: any(key(as_null(leaf)) in keys for leaf in leaves)


def in_list(operand):
    return member_of_list(list_of(operand))


def list_of(operand):
    wanted(operand[0] == ARRAY)
    return operand[1]


def denied(made):
    """A condition that holds if the one that is made of the operand doesn't."""
    def make(operand):
        condition = made(operand)
        return lambda candidates, leaves: not condition(candidates, leaves)
    return make


def ranged(compares):
    """A condition that some leaf is of the operand's class, and that `compares` is true of the two."""
    def make(operand):
        bound, rank = key(operand), RANKS[operand[0]]
        return lambda candidates, leaves: any(
            RANKS[kind] == rank and compares(key((kind, held)), bound) for kind, held in map(as_null, leaves))
    return make


def all_of(operand):
    members = list_of(operand)
    wanted(not any(kind == DOCUMENT and begins_with_operator(held) for kind, held in members))
    conditions = [equal_to(member) for member in members]
    return lambda candidates, leaves: bool(conditions) and all(one(candidates, leaves) for one in conditions)


def operator_list(operand):
    kind, held = operand
    wanted(kind == DOCUMENT and begins_with_operator(held))
    return operators_of(held)


def exists(operand):
    kind, held = operand
    wanted(kind == BOOLEAN or kind in NUMBERS)
    return lambda candidates, leaves: any(one is not MISSING for one in candidates) == bool(held)


def arrays_among(candidates):
    return [one[1] for one in candidates if one is not MISSING and one[0] == ARRAY]


def sized(operand):
    kind, held = operand
    wanted(kind in NUMBERS and held >= 0)
    return lambda candidates, leaves: any(len(array) == held for array in arrays_among(candidates))


def some_element(operand):
    wanted(operand[0] == DOCUMENT)
    test = element_test_of(operand[1])
    return lambda candidates, leaves: any(test(element) for array in arrays_among(candidates) for element in array)


def element_test_of(fields):
    """A test of one element: operators on itself, or a filter of elements that are documents."""
    if begins_with_operator(fields) and fields[0][0] not in LOGIC:
        condition = operators_of(fields)
        return lambda element: condition([element], [element])
    test = filter_of(fields)
    return lambda element: element[0] == DOCUMENT and test(element[1])


OPERATORS = {
    b"$eq": equal_to,
    b"$ne": denied(equal_to),
    b"$gt": ranged(lambda leaf, bound: leaf > bound),
    b"$gte": ranged(lambda leaf, bound: leaf >= bound),
    b"$lt": ranged(lambda leaf, bound: leaf < bound),
    b"$lte": ranged(lambda leaf, bound: leaf <= bound),
    b"$in": in_list,
    b"$nin": denied(in_list),
    b"$not": denied(operator_list),
    b"$all": all_of,
    b"$exists": exists,
    b"$size": sized,
    b"$elemMatch": some_element,
}
