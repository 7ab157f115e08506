"""Aggregation pipelines: a list of stages becomes a function from rows to rows, or is refused.

A stage is a function of the rows and of `look`, which returns the rows under a name in the database.
"""
from model.filters import filter_of
from model.paths import (MISSING, as_null, components_of, expression_value, field_of, leaf_keys, put, removed, slot, sort_of,
                         sorted_rows, whole, with_field)
from model.remembered import remembered
from model.refusals import CONFLICT, FAILED_TO_PARSE, LIMIT_REACHED, Refusal
from model.values import ARRAY, BOOLEAN, DOCUMENT, INT32, INT64, NULL, NUMBERS, TEXT, key

MOST_STAGES = 16


def wanted(is_right):
    if not is_right:
        raise Refusal(FAILED_TO_PARSE)


def pipeline_of(stages):
    """The stages' functions, and the names that lookups read."""
    functions, names = [], []
    for place, (kind, held) in enumerate(stages):
        if place == MOST_STAGES:
            raise Refusal(LIMIT_REACHED)
        wanted(kind == DOCUMENT and len(held) == 1)
        name, operand = held[0]
        wanted(name in STAGES)
        functions.append(STAGES[name](operand))
        if name == b"$lookup":
            names.append(field_of(operand[1], b"from")[1])
    return functions, names


def rows_of(functions, rows, look):
    for function in functions:
        rows = function(rows, look)
    return rows


def document_of(operand):
    kind, held = operand
    wanted(kind == DOCUMENT)
    return held


def match(operand):
    test = filter_of(document_of(operand))
    return lambda rows, look: [row for row in rows if test(row)]


def sort(operand):
    fields = document_of(operand)
    try:
        parts = sort_of(fields)
    except Refusal:
        raise Refusal(FAILED_TO_PARSE) from None
    return lambda rows, look: sorted_rows(parts, rows)


def limit(operand):
    kind, count = operand
    wanted(kind in NUMBERS and count >= 1)
    return lambda rows, look: rows[:count]


# Expressions: a function of a row's fields that returns a value or MISSING.


def expression_of(operand, has_numbers=True):
    """An expression; in `$project` its documents may hold numbers and booleans only under `$literal`."""
    kind, held = operand
    wanted(kind != ARRAY and (has_numbers or kind not in (*NUMBERS, BOOLEAN)))
    if kind == TEXT and held.startswith(b"$"):
        path = field_path_of(held)
        return lambda row: expression_value((DOCUMENT, row), path)
    if kind != DOCUMENT:
        return lambda row: operand
    if len(held) == 1 and held[0][0] == b"$literal":
        return lambda row: held[0][1]
    wanted(not any(name.startswith(b"$") or b"." in name for name, _ in held))
    members = [(name, expression_of(inner, has_numbers)) for name, inner in held]
    return lambda row: (DOCUMENT, fields_of(members, row))


def field_path_of(text):
    """The path of a text `$path`."""
    wanted(text.startswith(b"$") and not text.startswith(b"$$"))
    path = components_of(text[1:])
    wanted(path is not None)
    return path


def fields_of(members, row):
    """The fields that expressions give, without those that are missing."""
    given = [(name, expression(row)) for name, expression in members]
    return [(name, value) for name, value in given if value is not MISSING]


# A projection is a tree of names: under each is another tree, or None where a path ends.


def project(operand):
    members = members_of(document_of(operand))
    if all(how is False for _, _, how in members):
        tree = tree_of([path for _, path, _ in members])
        return lambda rows, look: [without(row, tree) for row in rows]
    identity = next((how for name, _, how in members if name == b"_id"), True)
    tree = tree_of([path for _, path, how in members if how is True] + [[b"_id"]] * (identity is True))
    computed = [(name, how) for name, _, how in members if callable(how)]
    return lambda rows, look: [only(row, tree) + fields_of(computed, row) for row in rows]


def members_of(fields):
    """The members of a projection, each valid and allowed with those before it: the name, its path, and how it is projected."""
    wanted(fields)
    members, excludes = [], set()
    for name, value in fields:
        path, how = projected_path(name), projected(name, value)
        if (name, how) != (b"_id", False):
            excludes.add(how is False)
        wanted(len(excludes) < 2)
        if any(path[:len(other)] == other or other[:len(path)] == path for _, other, _ in members):
            raise Refusal(CONFLICT)
        members.append((name, path, how))
    return members


def projected_path(name):
    path = components_of(name)
    wanted(path is not None and not name.startswith(b"_id."))
    return path


def projected(name, value):
    """True where the name is included, False where it is excluded, else the expression that computes it."""
    kind, held = value
    if kind == BOOLEAN or kind in NUMBERS:
        return bool(held)
    wanted(b"." not in name)
    return expression_of(value, has_numbers=False)


def tree_of(paths):
    tree = {}
    for *front, last in paths:
        inner = tree
        for name in front:
            inner = inner.setdefault(name, {})
        inner[last] = None
    return tree


def only(fields, tree):
    """The fields under the tree's names, in their order."""
    kept = [(name, only_of(value, tree[name])) for name, value in fields if name in tree]
    return [(name, value) for name, value in kept if value is not MISSING]


def only_of(value, tree):
    """What an included path leaves of a value, MISSING if the path goes on and the value isn't a document or an array."""
    kind, held = value
    if tree is None:
        return value
    if kind == DOCUMENT:
        return DOCUMENT, only(held, tree)
    if kind != ARRAY:
        return MISSING
    kept = [only_of(element, tree) for element in held]
    return ARRAY, [element for element in kept if element is not MISSING]


def without(fields, tree):
    """The fields without what the tree's paths end at."""
    return [(name, without_of(value, tree.get(name, {}))) for name, value in fields if tree.get(name, {}) is not None]


def without_of(value, tree):
    kind, held = value
    if kind == DOCUMENT:
        return DOCUMENT, without(held, tree)
    return (ARRAY, [without_of(element, tree) for element in held]) if kind == ARRAY else value


def unwind(operand):
    options = unwind_options(operand)
    path, is_preserving = field_path_of(options[b"path"][1]), options[b"preserveNullAndEmptyArrays"][1]
    return lambda rows, look: [new for row in rows for new in unwound(row, path, is_preserving)]


def unwind_options(operand):
    options = {b"path": operand, b"preserveNullAndEmptyArrays": (BOOLEAN, False)}
    if operand[0] == DOCUMENT:
        del options[b"path"]
        wanted(all(name in (b"path", b"preserveNullAndEmptyArrays") for name, _ in operand[1]))
        options.update(operand[1])
    wanted(b"path" in options and options[b"path"][0] == TEXT and options[b"preserveNullAndEmptyArrays"][0] == BOOLEAN)
    return options


def through_documents(row, path):
    value = DOCUMENT, row
    for name in path:
        if value is MISSING or value[0] != DOCUMENT:
            return MISSING
        value = field_of(value[1], name)
    return value


def unwound(row, path, is_preserving):
    """The rows that are made of one row: one for each element, which takes the array's place."""
    value = through_documents(row, path)
    if value is MISSING or value[0] == NULL:
        return [row] if is_preserving else []
    if value[0] != ARRAY:
        return [row]
    if not value[1]:
        return [removed((DOCUMENT, row), path)[1]] if is_preserving else []
    return [put((DOCUMENT, row), path, element)[1] for element in value[1]]


def lookup(operand):
    fields = dict(document_of(operand))
    wanted(fields.keys() == {b"from", b"localField", b"foreignField", b"as"})
    wanted(all(kind == TEXT for kind, _ in fields.values()))
    name, target = fields[b"from"][1], fields[b"as"][1]
    local, foreign = components_of(fields[b"localField"][1]), components_of(fields[b"foreignField"][1])
    wanted(is_collection_name(name) and local is not None and foreign is not None)
    wanted(b"." not in target and b"\0" not in target and not target.startswith(b"$"))

    keys_of, others_keys = (remembered(lambda row: {key(value) for value in local_values(row, local)}),
                            remembered(lambda other: leaf_keys(other, foreign)))

    def joined(row, others):
        keys = keys_of(row)
        matches = [(DOCUMENT, other) for other in others if keys & others_keys(other)]
        return with_field(row, target, (ARRAY, matches))

    def looked_up(rows, look):
        others = look(name)
        return [joined(row, others) for row in rows]
    return looked_up


def is_collection_name(name):
    return bool(name) and b"\0" not in name and not name.startswith(b"$")


def local_values(row, path):
    """The values of a path, with an array's elements in place of the array."""
    values = []
    for value in map(as_null, whole((DOCUMENT, row), path)):
        values += value[1] if value[0] == ARRAY else [value]
    return values


def group(operand):
    fields = document_of(operand)
    identity = field_of(fields, b"_id")
    wanted(identity is not MISSING)
    accumulators = [(name, accumulator_of(value)) for name, value in fields if name != b"_id"]
    expression = expression_of(identity)

    def grouped(rows, look):
        groups = {}
        for row in rows:
            spelled = as_null(expression(row))
            groups.setdefault(key(spelled), (spelled, []))[1].append(row)
        return [[(b"_id", spelled)] + [(name, accumulated(inner)) for name, accumulated in accumulators]
                for _, (spelled, inner) in sorted(groups.items())]
    return grouped


def accumulator_of(value):
    fields = document_of(value)
    wanted(len(fields) == 1 and fields[0][0] in ACCUMULATORS)
    fold, expression = ACCUMULATORS[fields[0][0]], expression_of(fields[0][1])
    return lambda rows: fold([value for value in map(expression, rows) if value is not MISSING])


def total(values):
    numbers = [(kind, held) for kind, held in values if kind in NUMBERS]
    whole_sum = sum(held for _, held in numbers)
    if all(kind == INT32 for kind, _ in numbers) and -2**31 <= whole_sum < 2**31:
        return INT32, whole_sum
    if -2**63 <= whole_sum < 2**63:
        return INT64, whole_sum
    return DOCUMENT, [(b"$sum128", (TEXT, b"%d" % whole_sum))]


def extreme(choose):
    """The first of the least, or greatest, values that aren't null."""
    def fold(values):
        return choose((value for value in values if value[0] != NULL), key=key, default=(NULL, None))
    return fold


ACCUMULATORS = {
    b"$sum": total, b"$min": extreme(min), b"$max": extreme(max), b"$push": lambda values: (ARRAY, values),
}
STAGES = {
    b"$match": match, b"$project": project, b"$unwind": unwind, b"$sort": sort, b"$limit": limit,
    b"$group": group, b"$lookup": lookup,
}
