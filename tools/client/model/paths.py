"""Dotted paths: the values that a path leads to, placing and removing values, and the keys of a sort."""
import re

from model.refusals import BAD_VALUE, PATH_NOT_VIABLE, Refusal
from model.values import ARRAY, DOCUMENT, NO_ELEMENT, NULL, NUMBERS, key

WHOLE_NUMBER = re.compile(rb"0|[1-9][0-9]{0,9}")
FARTHEST_SLOT = 100_000  # the last one beyond an array's end that can be filled
MISSING = None  # in place of a value if a path leads to none


def components_of(text):
    """A path's components, none of them empty or with a zero byte; None if the text is no path."""
    components = text.split(b".")
    return None if any(not one or b"\0" in one for one in components) else components


def is_whole_number(component):
    return WHOLE_NUMBER.fullmatch(component) is not None


def field_of(fields, name):
    return next((value for other, value in fields if other == name), MISSING)


def whole(value, components):
    """The candidates of a path: values, and MISSING where a name finds no field, in a document or in a plain value."""
    if not components:
        return [value]
    if value is MISSING:
        return [MISSING]
    kind, held = value
    if kind == DOCUMENT:
        return whole(field_of(held, components[0]), components[1:])
    if kind != ARRAY:
        return [MISSING]
    found = []
    if is_whole_number(components[0]) and int(components[0]) < len(held):
        found += whole(held[int(components[0])], components[1:])
    for element in held:
        if element[0] == DOCUMENT:
            found += whole(element, components)
    return found


def leaves(candidates):
    """The candidates, each array followed by its elements."""
    found = []
    for candidate in candidates:
        found.append(candidate)
        if candidate is not MISSING and candidate[0] == ARRAY:
            found += candidate[1]
    return found


def leaf_keys(fields, components):
    """The keys of a document's leaves under a path."""
    return {key(as_null(leaf)) for leaf in leaves(whole((DOCUMENT, fields), components))}


def as_null(candidate):
    return (NULL, None) if candidate is MISSING else candidate


def expression_value(value, components):
    """What a path gives in an expression: an array gives the array of what its documents give."""
    if not components or value is MISSING:
        return value
    kind, held = value
    if kind == DOCUMENT:
        return expression_value(field_of(held, components[0]), components[1:])
    if kind != ARRAY:
        return MISSING
    given = [expression_value(element, components) for element in held if element[0] == DOCUMENT]
    return ARRAY, [one for one in given if one is not MISSING]


def changed_at(value, components, change):
    """The value in which `change` has replaced the one that a path leads to, MISSING if there is none. Documents that
    are missing on the way are added, and an array is filled up with nulls."""
    if not components:
        return change(value)
    name, rest = components[0], components[1:]
    kind, held = (DOCUMENT, []) if value is MISSING else value
    if kind == DOCUMENT:
        inner = changed_at(field_of(held, name), rest, change)
        return DOCUMENT, with_field(held, name, inner)
    if kind != ARRAY or not is_whole_number(name):
        raise Refusal(PATH_NOT_VIABLE)
    place = int(name)
    if place < len(held):
        return ARRAY, held[:place] + [changed_at(held[place], rest, change)] + held[place + 1:]
    if place > FARTHEST_SLOT:
        raise Refusal(PATH_NOT_VIABLE)
    return ARRAY, held + [(NULL, None)] * (place - len(held)) + [changed_at(MISSING, rest, change)]


def with_field(fields, name, value):
    """The fields with this one, in its place or after the others."""
    if any(other == name for other, _ in fields):
        return [(other, value if other == name else old) for other, old in fields]
    return [*fields, (name, value)]


def put(value, components, new):
    return changed_at(value, components, lambda _: new)


def slot(value, components):
    """The value that placing at this path would replace, or MISSING."""
    for name in components:
        if value is MISSING:
            return MISSING
        kind, held = value
        if kind == DOCUMENT:
            value = field_of(held, name)
        elif kind == ARRAY and is_whole_number(name) and int(name) < len(held):
            value = held[int(name)]
        else:
            return MISSING
    return value


def removed(value, components):
    """The value without what the path leads to: a field is removed, an array's element becomes null."""
    if slot(value, components) is MISSING:
        return value
    kind, held = value
    name, rest = components[0], components[1:]
    if kind == ARRAY:
        place = int(name)
        inner = removed(held[place], rest) if rest else (NULL, None)
        return ARRAY, held[:place] + [inner] + held[place + 1:]
    if rest:
        return DOCUMENT, with_field(held, name, removed(field_of(held, name), rest))
    return DOCUMENT, [field for field in held if field[0] != name]


def sort_of(fields):
    """A sort's paths, each with whether it is descending: 1 to 32 of them, each 1 or -1."""
    parts = [(components_of(name), held == -1) for name, (kind, held) in fields if kind in NUMBERS and held in (1, -1)]
    if not 1 <= len(fields) <= 32 or len(parts) < len(fields) or any(path is None for path, _ in parts):
        raise Refusal(BAD_VALUE)
    return parts


def sort_key(document, path, is_falling):
    """The least key that the path leads to, the greatest if the sort is descending."""
    keys = []
    for candidate in whole((DOCUMENT, document), path):
        kind, held = as_null(candidate)
        if kind == ARRAY:
            keys += [key(element) for element in held] or [NO_ELEMENT]
        else:
            keys.append(key((kind, held)))
    keys = keys or [key((NULL, None))]
    return max(keys) if is_falling else min(keys)


def sorted_rows(parts, rows):
    """The rows in the order of a sort; rows with equal keys keep their order."""
    # Sorting is stable, in reverse too, so the rows are sorted by the last path first.
    for path, is_falling in reversed(parts):
        rows = sorted(rows, key=lambda row: sort_key(row, path, is_falling), reverse=is_falling)
    return rows
