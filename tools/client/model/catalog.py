"""Commands that create and drop collections, views and indexes, and viewStats."""
from model.indexes import ON_ID, entry_of, with_indexes
from model.namespaces import joined, namespace
from model.pipelines import pipeline_of
from model.refusals import (BAD_VALUE, INDEX_NOT_FOUND, LIMIT_REACHED, NAMESPACE_EXISTS, NAMESPACE_NOT_FOUND, OK, ON_VIEW,
                            READ_BY_VIEW, Refusal)
from model.store import Collection
from model.unique import check_indexes
from model.values import INT32, INT64, TEXT
from model.views import View

MOST_VIEWS = 1_000
MOST_HEIGHT = 8


def create(store, database, fields):
    place = namespace(database, fields[b"create"][1])
    is_view, reads, functions = b"viewOn" in fields, [], []
    if is_view:
        reads = [namespace(database, fields[b"viewOn"][1])]
        functions, names = pipeline_of(fields[b"pipeline"][1])
        reads += [joined(database, name) for name in names]
    if place in store.collections or place in store.views:
        raise Refusal(NAMESPACE_EXISTS)
    if not is_view:
        store.collections[place] = Collection()
        return [OK]
    if place in reads or store.is_read(place):
        raise Refusal(READ_BY_VIEW)
    height = 1 + max(map(store.height, reads))
    if len(store.views) == MOST_VIEWS or height > MOST_HEIGHT:
        raise Refusal(LIMIT_REACHED)
    store.views[place] = View(reads, functions, fields[b"pipeline"][1], height)
    store.refresh(place)
    return [OK]


def drop(store, database, fields):
    place = namespace(database, fields[b"drop"][1])
    if place not in store.collections and place not in store.views:
        raise Refusal(NAMESPACE_NOT_FOUND)
    if place in store.views and store.is_read(place):
        raise Refusal(READ_BY_VIEW)
    store.empty(place)
    (store.views if place in store.views else store.collections).pop(place)
    return [(b"ns", (TEXT, place)), OK]


def view_stats(store, database, fields):
    place = namespace(database, fields[b"viewStats"][1])
    if place not in store.views:
        raise Refusal(NAMESPACE_NOT_FOUND)
    view = store.views[place]
    state, rows = (b"live", len(store.rows(place))) if view.is_live else (b"stale", 0)
    return [(b"state", (TEXT, state)), (b"rows", (INT64, rows)), (b"ticks", (INT64, view.ticks)), OK]


def create_indexes(store, database, fields):
    place = namespace(database, fields[b"createIndexes"][1])
    wanted = [entry_of(entry) for _, entry in fields[b"indexes"][1]]
    if place in store.views:
        raise Refusal(ON_VIEW)
    old = store.collections[place].indexes if place in store.collections else [ON_ID]
    new = with_indexes(old, wanted)
    check_indexes(new[len(old):], store.rows(place))
    store.collections.setdefault(place, Collection()).indexes = new
    return [(b"numIndexesBefore", (INT32, len(old))), (b"numIndexesAfter", (INT32, len(new))), OK]


def drop_indexes(store, database, fields):
    place, name = namespace(database, fields[b"dropIndexes"][1]), fields[b"index"][1]
    if place in store.views:
        raise Refusal(ON_VIEW)
    if place not in store.collections:
        raise Refusal(NAMESPACE_NOT_FOUND)
    collection = store.collections[place]
    old = collection.indexes
    if name == ON_ID.name:
        raise Refusal(BAD_VALUE)
    if name != b"*" and all(name != other.name for other in old):
        raise Refusal(INDEX_NOT_FOUND)
    collection.indexes = [index for index in old if index == ON_ID or name not in (b"*", index.name)]
    return [(b"nIndexesWas", (INT32, len(old))), OK]
