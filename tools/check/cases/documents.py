"""The largest documents, and the most statements of a write."""
from cases.commands import FULL, IDENTITY, ONE, case, command, find, named, nested, plain, put, updating, with_id
from spelled import NOTHING, array, document, number, text


@case(FULL)
def a_document_of_a_text(size):
    yield put([IDENTITY, (b"x", text(b"x" * (size - 22)))])
    yield find()


@case(1_300_000)
def a_document_of_names(count):
    yield put([IDENTITY, *named(count, NOTHING, b"name")])
    yield find()


@case(1_800_000)
def an_array_of_nulls(count):
    yield put([IDENTITY, (b"a", array([NOTHING] * count))])
    yield find(filter=document([(b"a", ONE)]))


@case(20_000)
def a_document_of_chains_of_98_levels(count):
    yield put([IDENTITY, (b"a", array([nested(97)] * count))])
    yield find(filter=document([(b"a.d.d.d", ONE)]))


@case(100_000)
def statements_of_an_insert(count):
    yield put(*([(b"_id", number(at))] for at in range(count)))


@case(100_000)
def statements_of_a_delete(count):
    yield from plain(count)
    yield command(b"delete", (b"deletes", array(document([(b"q", with_id(at)), (b"limit", ONE)]) for at in range(count))))


@case(100_000)
def statements_of_an_update(count):
    yield from plain(count)
    yield command(b"update", (b"updates", array(updating(with_id(at), b"$inc", (b"a", ONE)) for at in range(count))))


@case(400_000)
def fields_of_a_ping(count):
    yield [(b"ping", ONE), *named(count)]
