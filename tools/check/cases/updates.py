"""The largest updates."""
from cases.commands import IDENTITY, ONE, case, command, named, nested, put, update, updating
from spelled import NOTHING, array, boolean, document, number


@case(100_000)
def paths_of_set(count):
    yield put([IDENTITY])
    yield update(b"$set", *named(count))


@case(100_000)
def paths_of_set_in_a_chain(count):
    yield put([IDENTITY])
    yield update(b"$set", *named(count, prefix=b"a.b.c.d.e.f.n"))


@case(100_000)
def paths_of_set_in_an_array(count):
    yield put([IDENTITY, (b"n", array([NOTHING] * count))])
    yield update(b"$set", *named(count, prefix=b"n."))


@case(100_000)
def paths_of_inc(count):
    yield put([IDENTITY, *named(count)])
    yield update(b"$inc", *named(count))


@case(100_000)
def paths_of_unset(count):
    yield put([IDENTITY, *named(count)])
    yield update(b"$unset", *named(count))


@case(100_000)
def paths_of_unset_between_those_of_set(count):
    """Every other field is removed: in the order of the paths, removals and other edits mostly alternate."""
    fields = named(count)
    yield put([IDENTITY, *fields])
    edits = [(b"$unset", document(fields[::2])), (b"$set", document(named(count, NOTHING)[1::2]))]
    yield command(b"update", (b"updates", array([document([(b"q", document([])), (b"u", document(edits))])])))


@case(100_000)
def paths_of_unset_in_a_document(count):
    """Every other path leads one level deeper."""
    fields = [field for at in range(0, count, 2) for field in [(b"n%d" % at, ONE), (b"n%d" % (at + 1), nested(1))]]
    paths = [path for at in range(0, count, 2) for path in [(b"a.n%d" % at, ONE), (b"a.n%d.d" % (at + 1), ONE)]]
    yield put([IDENTITY, (b"a", document(fields))])
    yield update(b"$unset", *paths)


@case(100_000)
def paths_of_push(count):
    yield put([IDENTITY, *named(count, array([]))])
    yield update(b"$push", *named(count))


@case(100_000)
def paths_of_pull(count):
    yield put([IDENTITY, *named(count, array([ONE]))])
    yield update(b"$pull", *named(count))


@case(1_000_000)
def values_of_each(count):
    yield put([IDENTITY])
    yield update(b"$push", (b"a", document([(b"$each", array([ONE] * count))])))


@case(1_000_000)
def elements_of_pull(count):
    yield put([IDENTITY, (b"a", array(map(number, range(count))))])
    yield update(b"$pull", (b"a", document([(b"$gt", number(count // 2))])))


@case(200)
def documents_whose_arrays_are_filled_with_nulls(count):
    yield put(*([(b"_id", number(at)), (b"a", array([]))] for at in range(count)))
    yield update(b"$set", (b"a.100000", ONE), multi=boolean(True))


@case(2_000)
def statements_that_push_to_one_array(count):
    yield put([IDENTITY, (b"a", array([ONE] * 1_000))])
    yield command(b"update", (b"updates", array([updating(document([]), b"$push", (b"a", ONE))] * count)))
