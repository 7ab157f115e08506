"""The largest views, and views that have the most to do for one change of what they read."""
from cases.commands import IDENTITY, ONE, case, command, find, named, plain, put, put_bytes, stage, update
from cases.counts import view
from cases.pipelines import lookup
from model.values import BOOLEAN
from spelled import NOTHING, array, document, number, spelled, text

WRITES = 20


def writes():
    """Inserts and deletes of a document."""
    for place in range(WRITES):
        yield put([(b"_id", number(-1 - place)), (b"a", number(place))])
    for place in range(WRITES):
        query = document([(b"_id", number(-1 - place))])
        yield command(b"delete", (b"deletes", array([document([(b"q", query), (b"limit", ONE)])])))


def grouped(key):
    accumulators = [(name, document([(b"$" + name, text(b"$a"))])) for name in (b"sum", b"min", b"max", b"push")]
    return stage(b"$group", document([(b"_id", key), *accumulators]))


@case(100_000)
def rows_under_a_view(count):
    falling = document([(b"a", number(-1))])
    yield view(b"v", stage(b"$match", document([(b"a", document([(b"$gte", ONE)]))])), stage(b"$sort", falling),
               stage(b"$limit", number(10)))
    yield from plain(count)
    yield find()


@case(100_000)
def groups_under_a_view(count):
    yield from plain(count)
    yield view(b"v", grouped(text(b"$a")))
    yield from writes()


@case(20_000)
def rows_of_one_group_under_a_view(count):
    yield from plain(count)
    yield view(b"v", grouped(NOTHING))
    yield from writes()


@case(100_000)
def elements_of_an_unwind_under_a_view(count):
    yield put([IDENTITY, (b"a", array(map(number, range(count))))])
    yield view(b"v", stage(b"$unwind", text(b"$a")), stage(b"$limit", number(10)))
    for place in range(WRITES):
        yield update(b"$push", (b"a", number(place)))


@case(100_000)
def rows_of_a_lookup_under_a_view(count):
    yield view(b"v", lookup(b"a", b"_id"))
    yield from plain(count)
    yield from writes()


@case(10_000)
def rows_that_share_a_key_under_a_view(count):
    yield from plain(count)
    yield put_bytes((spelled([(b"_id", number(at))]) for at in range(100)), of=b"d")
    yield view(b"v", lookup(b"none", b"none", of=b"d"))
    yield put_bytes((spelled([(b"_id", number(at))]) for at in range(100, 100 + WRITES)), of=b"d")


@case(100_000)
def a_drop_under_views(count):
    yield from plain(count)
    yield view(b"v", stage(b"$sort", document([(b"a", number(-1))])))
    yield view(b"w", grouped(text(b"$a")))
    yield command(b"drop")


# What one write costs under the worst views, and under views that can be used instead of them.


def coming_and_going(writes, of=b"c", *fields):
    """As many writes as `writes` says, which insert a document and delete it in turn."""
    identity = b"_id", number(-1)
    gone = document([(b"q", document([identity])), (b"limit", ONE)])
    for place in range(writes):
        if place % 2:
            yield command(b"delete", (b"deletes", array([gone])), of=of)
        else:
            yield put_bytes([spelled([identity, *fields])], of)


@case(100_000, writes=10)
def a_large_push_read_behind_each_write(count, writes):
    yield from plain(count)
    yield view(b"v", stage(b"$group", document([(b"_id", NOTHING), (b"a", document([(b"$push", text(b"$a"))]))])))
    for one in coming_and_going(writes, b"c", (b"a", ONE)):
        yield one
        yield command(b"find", (b"filter", document([IDENTITY])), of=b"v")


@case(100_000, writes=100_000)
def a_large_group_without_a_push(count, writes):
    yield from plain(count)
    accumulators = [(name, document([(b"$" + name, text(b"$a"))])) for name in (b"sum", b"min", b"max")]
    yield view(b"v", stage(b"$group", document([(b"_id", NOTHING), *accumulators])))
    for one in coming_and_going(writes, b"c", (b"a", ONE)):
        yield one
        yield command(b"find", (b"filter", document([IDENTITY])), of=b"v")


@case(10_000, writes=20)
def rows_without_a_key_and_one_match(count, writes):
    yield from plain(count)
    yield view(b"v", lookup(b"none", b"none", of=b"d"))
    yield from coming_and_going(writes, b"d")


@case(10_000, writes=100_000)
def rows_without_a_key_that_a_match_leaves_out(count, writes):
    yield from plain(count)
    there = stage(b"$match", document([(b"none", document([(b"$exists", (BOOLEAN, True))]))]))
    yield view(b"v", there, lookup(b"none", b"none", of=b"d"))
    yield from coming_and_going(writes, b"d")


@case(100_000, writes=10)
def one_element_of_an_unwind_changed(count, writes):
    yield put([IDENTITY, (b"a", array(map(number, range(count))))])
    yield view(b"v", stage(b"$unwind", text(b"$a")))
    for place in range(writes):
        yield update(b"$set", (b"a.%d" % (count // 2), number(-1 - place)))


@case(100_000, writes=100_000)
def one_element_that_is_a_document_changed(count, writes):
    yield from plain(count)
    yield view(b"v", stage(b"$project", document([(b"a", ONE)])))
    change = [(b"q", document([(b"_id", number(count // 2))]))]
    for place in range(writes):
        changed = stage(b"$set", document([(b"a", number(-1 - place))]))
        yield command(b"update", (b"updates", array([document([*change, (b"u", changed)])])))


@case(20_000, writes=50_000)
def a_sort_by_32_paths(count, writes):
    """All paths except the last have equal values."""
    fields = named(31)
    for start in range(0, count, 500):
        yield put(*([(b"_id", number(at)), *fields, (b"n31", number(at))] for at in range(start, start + 500)))
    yield view(b"v", stage(b"$sort", document(named(32))))
    yield from coming_and_going(writes, b"c", *fields, (b"n31", number(count // 2)))


@case(20_000, writes=50_000)
def sixteen_stages_in_a_row(count, writes):
    yield from plain(count)
    there = stage(b"$match", document([(b"a", document([(b"$gte", number(0))]))]))
    turn = [there, stage(b"$project", document([(b"a", ONE)])), stage(b"$sort", document([(b"a", number(-1))]))]
    yield view(b"v", *turn * 5, stage(b"$limit", number(10)))
    yield from coming_and_going(writes, b"c", (b"a", number(count)))


@case(100_000, writes=50_000)
def eight_views_on_one_another(count, writes):
    yield from plain(count)
    there = stage(b"$match", document([(b"a", document([(b"$gte", number(0))]))]))
    falling = stage(b"$sort", document([(b"a", number(-1))]))
    chain = [there, grouped_alone(), there, falling, lookup(b"a", b"_id"), stage(b"$project", document([(b"a", ONE)])), falling,
             stage(b"$limit", number(10))]
    for place, one in enumerate(chain):
        yield view(b"v%d" % place, one, of=b"v%d" % (place - 1) if place else b"c")
    yield from coming_and_going(writes, b"c", (b"a", number(count)))


def grouped_alone():
    """Each row is a group of its own."""
    return stage(b"$group", document([(b"_id", text(b"$_id")), (b"a", document([(b"$max", text(b"$a"))]))]))
