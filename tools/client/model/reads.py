"""Commands that read: finds, aggregates and explains, and the batches in which rows are returned."""
from model.cursors import Cursor, FIRST_BATCH, split
from model.filters import filter_of
from model.indexes import covered, plan_of
from model.namespaces import joined, namespace
from model.paths import sort_of, sorted_rows
from model.pipelines import pipeline_of, rows_of
from model.refusals import OK, Refusal, TOO_LARGE
from model.values import ARRAY, BOOLEAN, DOCUMENT, INT32, INT64, TEXT, fits


def find(store, session, database, fields):
    place, test, parts = query(database, fields)
    rows = sorted_rows(parts, [row for row in store.rows(place) if test(row)])
    skip, limit = (fields.get(name, (INT32, 0))[1] for name in (b"skip", b"limit"))
    rows = rows[skip:skip + limit if limit else None]
    return first_answer(store, Cursor(session, place, rows), fields, fields.get(b"singleBatch", (BOOLEAN, False))[1])


def query(database, fields):
    """The namespace of a find, its filter as a test, and the parts of its sort."""
    place = namespace(database, fields[b"find"][1])
    test = filter_of(fields.get(b"filter", (DOCUMENT, []))[1])
    order = fields.get(b"sort", (DOCUMENT, []))[1]
    return place, test, sort_of(order) if order else []


def first_answer(store, cursor, fields, is_single):
    """The reply with the first batch of a cursor's rows and its id, which is 0 if no rows are left or none are to be kept."""
    batch, rest = split(cursor.rows, fields.get(b"batchSize", (INT32, FIRST_BATCH))[1])
    rest = [] if is_single else rest
    if rest:
        store.cursors.check_room()
    if not all(map(fits, cursor.rows)):
        raise Refusal(TOO_LARGE)
    return answer(cursor.place, b"firstBatch", batch, store.cursors.keep(cursor._replace(rows=rest)))


def answer(place, name, batch, identity):
    batch = ARRAY, [(DOCUMENT, row) for row in batch]
    return [(b"cursor", (DOCUMENT, [(name, batch), (b"id", (INT64, identity)), (b"ns", (TEXT, place))])), OK]


def get_more(store, session, database, fields):
    place = namespace(database, fields[b"collection"][1])
    most = fields.get(b"batchSize", (INT32, 0))[1]
    batch, identity = store.cursors.more(fields[b"getMore"][1], session, place, most or None)
    return answer(place, b"nextBatch", batch, identity)


def kill_cursors(store, session, database, fields):
    place = namespace(database, fields[b"killCursors"][1])
    told = store.cursors.kill([held for _, held in fields[b"cursors"][1]], session, place)
    return [(name, (ARRAY, [(INT64, one) for one in ones]))
            for name, ones in zip((b"cursorsKilled", b"cursorsNotFound"), told)] + [OK]


def aggregate(store, session, database, fields):
    place = namespace(database, fields[b"aggregate"][1])
    functions, names = pipeline_of(fields[b"pipeline"][1])
    for one in [place, *(joined(database, name) for name in names)]:
        store.refresh(one)
    look = store.reader()
    rows = rows_of(functions, look(place), lambda name: look(joined(database, name)))
    return first_answer(store, Cursor(session, place, rows), dict(fields.get(b"cursor", (DOCUMENT, []))[1]), False)


def explain(store, database, fields):
    inner = dict(fields[b"explain"][1])
    place, _, _ = query(database, inner)
    rows, stage, plan = store.rows(place), b"VIEW" if place in store.views else b"COLLSCAN", None
    if place in store.collections:
        plan = plan_of(inner.get(b"filter", (DOCUMENT, []))[1], store.collections[place].indexes)
    if plan is None:
        return [(b"stage", (TEXT, stage)), (b"docs", (INT64, len(rows))), OK]
    return [(b"stage", (TEXT, b"IXSCAN")), (b"index", (TEXT, plan[0])), (b"docs", (INT64, covered(plan, rows))), OK]
