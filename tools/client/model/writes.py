"""Writes: what their statements do, one after the other."""
from collections import namedtuple

from model import refusals
from model.fields import DELETE_ENTRY, UPDATE_ENTRY, check_fields
from model.filters import filter_of
from model.paths import field_of
from model.refusals import (BAD_VALUE, DUPLICATE_KEY, FAILED_TO_PARSE, LIMIT_REACHED, OK, ON_VIEW, Refusal, TOO_LARGE,
                            WANT_OF_MEMORY)
from model.unique import check_changes
from model.updates import is_replacement, update_of
from model.values import ARRAY, BOOLEAN, DOCUMENT, INT32, INT64, TEXT, fits, is_storable, key

MOST_STATEMENTS = 100_000

# What a statement does: how many documents it counts for, and its changes. Each is a key and the document that is stored
# under it, or None if the one there is removed.
Effect = namedtuple("Effect", "matched changes")


class NoSuchCut(Exception):
    """A write can't run out of memory at the place where it was asked to."""


def count(number):
    return (INT32 if number < 2**31 else INT64), number


def write(store, place, name, fields, cut):
    """Carries out the statements of a write: the first error ends it if it is ordered."""
    (list_name, effect_of), is_ordered = WRITES[name], fields.get(b"ordered", (BOOLEAN, True))[1]
    statements = [held for _, held in fields[list_name][1]]
    if len(statements) > MOST_STATEMENTS:
        raise Refusal(LIMIT_REACHED)
    if place in store.views:
        raise Refusal(ON_VIEW)
    matched, modified, errors, is_cut = 0, 0, [], False
    for index, statement in enumerate(statements):
        try:
            effect = done_to(store.collection(place), effect_of, statement)
        except Refusal as fault:
            effect = fault
        if cut is not None and cut[0] == index:
            errors.append(cut_off(store, place, effect, *cut))
            is_cut = True
            break
        if isinstance(effect, Refusal):
            errors.append(write_error(index, effect.code))
            if is_ordered:
                break
            continue
        store.change(place, effect.changes)
        matched, modified = matched + effect.matched, modified + len(effect.changes)
    if cut is not None and not is_cut:
        raise NoSuchCut
    told = [(b"nModified", count(modified))] if name == b"update" else []
    told += [(b"writeErrors", (ARRAY, errors))] if errors else []
    return [(b"n", count(matched)), *told, OK]


def done_to(collection, effect_of, statement):
    """What a statement does to a collection. It is refused for faults of its documents first, and then by a unique index."""
    effect = effect_of(collection, statement)
    check_changes(collection, effect.changes)
    return effect


def write_error(index, code):
    return DOCUMENT, [(b"index", (INT32, index)), (b"code", (INT32, code)), (b"errmsg", (TEXT, refusals.NAMES[code]))]


def cut_off(store, place, effect, index, done):
    """Makes the first changes of a statement, and returns the error of one that runs out of memory after them."""
    changes = [] if isinstance(effect, Refusal) else effect.changes
    if done >= max(1, len(changes)):
        raise NoSuchCut
    store.change(place, changes[:done])
    kind, error = write_error(index, WANT_OF_MEMORY)
    return kind, [*error, (b"done", (INT32, done))]


def insert_one(collection, document):
    """The document, with `_id` first, is stored in its place."""
    identity = field_of(document, b"_id")
    if identity is None or identity[0] == ARRAY or not is_storable(document):
        raise Refusal(BAD_VALUE)
    if not fits(document):
        raise Refusal(TOO_LARGE)
    wanted = key(identity)
    if collection.has(wanted):
        raise Refusal(DUPLICATE_KEY)
    return Effect(1, [(wanted, [(b"_id", identity)] + [field for field in document if field[0] != b"_id"])])


def delete_one(collection, entry):
    """All documents that match, or the first, are removed."""
    check_fields(entry, DELETE_ENTRY)
    fields = dict(entry)
    if len(fields) < len(DELETE_ENTRY):
        raise Refusal(FAILED_TO_PARSE)
    found = matching(collection, filter_of(fields[b"q"][1]), fields[b"limit"][1] == 1)
    return Effect(len(found), [(wanted, None) for wanted, _ in found])


def update_one(collection, entry):
    """All documents that match, or the first, are replaced by their results, if these differ from them."""
    check_fields(entry, UPDATE_ENTRY)
    fields = dict(entry)
    is_multi = fields.get(b"multi", (BOOLEAN, False))[1]
    if b"q" not in fields or b"u" not in fields or is_multi and is_replacement(fields[b"u"][1]):
        raise Refusal(FAILED_TO_PARSE)
    test, update = filter_of(fields[b"q"][1]), update_of(fields[b"u"][1])
    found = matching(collection, test, not is_multi)
    results = [(wanted, document, update(document)) for wanted, document in found]
    return Effect(len(found), [(wanted, result) for wanted, document, result in results if result != document])


def matching(collection, test, is_single):
    found = [(wanted, document) for wanted, document in zip(collection.keys, collection.documents) if test(document)]
    return found[:1] if is_single else found


# The name of a write's list of statements, and the function for one of them.
WRITES = {b"insert": (b"documents", insert_one), b"update": (b"updates", update_one), b"delete": (b"deletes", delete_one)}
