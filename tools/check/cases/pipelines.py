"""The largest pipelines, and pipelines whose stages have the most to do."""
from cases.commands import IDENTITY, ONE, aggregate, case, named, plain, put, put_bytes, stage
from spelled import NOTHING, array, document, number, spelled, text


@case(100_000)
def paths_of_an_inclusion(count):
    yield put([IDENTITY, *named(count)])
    yield aggregate(stage(b"$project", document(named(count))))


@case(100_000)
def paths_of_an_exclusion(count):
    yield put([IDENTITY, *named(count)])
    yield aggregate(stage(b"$project", document(named(count, number(0)))))


@case(100_000)
def paths_of_an_inclusion_in_one_document(count):
    yield put([IDENTITY, (b"a", document(named(count)))])
    yield aggregate(stage(b"$project", document(named(count, prefix=b"a.n"))))


@case(100_000)
def expressions_of_a_project(count):
    yield put([IDENTITY, *named(count)])
    yield aggregate(stage(b"$project", document([(b"m%d" % at, text(b"$n%d" % at)) for at in range(count)])))


@case(100_000)
def groups(count):
    yield from plain(count)
    yield aggregate(stage(b"$group", document([(b"_id", text(b"$a")), (b"n", document([(b"$sum", ONE)]))])))


@case(500_000)
def values_of_a_group(count):
    yield put([IDENTITY, (b"a", array(map(number, range(count))))])
    accumulators = [(name, document([(b"$" + name, text(b"$a"))])) for name in (b"sum", b"min", b"max", b"push")]
    yield aggregate(stage(b"$unwind", text(b"$a")), stage(b"$group", document([(b"_id", NOTHING), *accumulators])))


@case(100_000)
def accumulators_of_a_group(count):
    yield from plain(10)
    yield aggregate(stage(b"$group", document([(b"_id", NOTHING), *named(count, document([(b"$sum", ONE)]))])))


@case(1_000_000)
def elements_of_an_unwind(count):
    yield put([IDENTITY, (b"a", array(map(number, range(count))))])
    yield aggregate(stage(b"$unwind", text(b"$a")), stage(b"$limit", ONE))


@case(100_000)
def elements_of_an_unwind_in_a_wide_document(count):
    yield put([IDENTITY, (b"a", array(map(number, range(count)))), *named(100)])
    yield aggregate(stage(b"$unwind", text(b"$a")), stage(b"$limit", ONE))


def lookup(local, foreign, of=b"c"):
    fields = [(b"from", of), (b"localField", local), (b"foreignField", foreign), (b"as", b"o")]
    return stage(b"$lookup", document([(name, text(value)) for name, value in fields]))


@case(100_000)
def rows_of_a_lookup(count):
    yield from plain(count)
    yield aggregate(lookup(b"a", b"_id"))


@case(100_000)
def elements_of_a_lookup(count):
    yield from plain(count)
    yield put([(b"_id", number(-1)), (b"a", array(map(number, range(count))))])
    yield aggregate(stage(b"$match", document([(b"_id", number(-1))])), lookup(b"a", b"_id"))


@case(20_000)
def rows_of_a_lookup_that_each_find_the_same(count):
    yield from plain(count)
    yield put_bytes((spelled([(b"_id", number(at))]) for at in range(100)), of=b"d")
    yield aggregate(lookup(b"none", b"none", of=b"d"))


@case(16)
def stages(count):
    yield from plain(50_000)
    yield aggregate(*[stage(b"$project", document([(b"a", ONE)]))] * count)
