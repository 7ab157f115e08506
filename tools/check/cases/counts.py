"""The most cursors, views and indexes that there may be."""
from cases.commands import IDENTITY, ONE, case, command, find, named, plain, put, stage, update, with_id
from spelled import array, boolean, document, number, text


@case(1_000)
def cursors(count):
    yield from plain(10_000)
    for _ in range(count):
        yield find(batchSize=number(0))


@case(20_000)
def batches_of_one_row(count):
    yield from plain(count)
    yield find(batchSize=number(0))
    for _ in range(count):
        yield [(b"getMore", ONE), (b"collection", text(b"c")), (b"batchSize", ONE)]


@case(1_000_000)
def cursors_to_kill(count):
    yield command(b"killCursors", (b"cursors", array(map(number, range(count)))))


def view(name, *stages, of=b"c"):
    return [(b"create", text(name)), (b"viewOn", text(of)), (b"pipeline", array(stages))]


@case(1_000)
def views(count):
    yield from plain(1_000)
    for place in range(count):
        yield view(b"v%d" % place, stage(b"$match", document([(b"a", number(place))])))
    yield put([(b"_id", number(-1))])
    for place in range(count):
        yield command(b"find", of=b"v%d" % place)


@case(200)
def writes_under_a_view(count):
    yield from plain(2_000)
    yield view(b"v", stage(b"$sort", document([(b"a", number(-1))])))
    for place in range(count):
        yield put([(b"_id", number(-1 - place))])


def indexing(*paths, unique=False):
    others = [(b"unique", boolean(True))] * unique
    entries = (document([(b"key", document([(path, ONE)])), (b"name", text(path)), *others]) for path in paths)
    return command(b"createIndexes", (b"indexes", array(entries)))


@case(63)
def indexes(count):
    yield indexing(*(b"n%d" % place for place in range(count)))
    for start in range(0, 5_000, 100):
        yield put(*([(b"_id", number(at)), *named(63, number(at))] for at in range(start, start + 100)))


@case(100_000)
def entries_of_indexes(count):
    yield indexing(*[b"a"] * count)


@case(500_000)
def elements_under_an_index(count):
    yield indexing(b"a")
    yield put([IDENTITY, (b"a", array(map(number, range(count))))])
    yield update(b"$push", (b"a", number(-1)))
    yield find(filter=document([(b"a", document([(b"$gte", number(0))]))]))


@case(500_000)
def elements_under_a_unique_index(count):
    yield indexing(b"a", unique=True)
    yield put([IDENTITY, (b"a", array(map(number, range(count))))])
    yield update(b"$push", (b"a", number(-1)))
    yield put([(b"_id", number(2)), (b"a", array(map(number, range(1 - count, 1))))])


@case(500_000)
def equal_elements_under_a_unique_index(count):
    yield indexing(b"a", unique=True)
    yield put([IDENTITY, (b"a", array([ONE] * count))])
    yield update(b"$push", (b"a", ONE))
    yield put([(b"_id", number(2)), (b"a", ONE)])


@case(100_000)
def updates_of_all_under_a_unique_index(count):
    """The second update would give the last document but one a key that the last one has."""
    yield indexing(b"a", unique=True)
    yield from plain(count)
    yield update(b"$inc", (b"a", number(-1)), multi=boolean(True))
    yield put([(b"_id", number(count)), (b"a", number(2 * count - 2))])
    yield update(b"$inc", (b"a", number(count)), multi=boolean(True))


@case(100_000)
def a_unique_index_over_documents(count):
    """The first createIndexes is refused because of the last document."""
    yield from plain(count)
    yield put([(b"_id", number(count)), (b"a", number(count - 1))])
    yield indexing(b"a", unique=True)
    yield command(b"delete", (b"deletes", array([document([(b"q", with_id(count)), (b"limit", ONE)])])))
    yield indexing(b"a", unique=True)
