"""The largest and the deepest filters and sorts."""
from cases.commands import IDENTITY, ONE, case, find, plain, put
from model.values import DOCUMENT
from spelled import array, document, number


@case(600_000)
def or_of_filters(count):
    yield put([IDENTITY, (b"a", ONE)])
    yield find(filter=document([(b"$or", array([document([(b"a", number(2))])] * count))]))


@case(1_000_000)
def in_of_members(count):
    yield from plain(100)
    yield find(filter=document([(b"a", document([(b"$in", array(map(number, range(count))))]))]))


@case(1_000_000)
def in_of_members_by_an_index(count):
    yield from plain(100)
    yield find(filter=document([(b"_id", document([(b"$in", array(map(number, range(count))))]))]))


@case(4_000)
def all_of_members_over_as_many_elements(count):
    yield put([IDENTITY, (b"a", array(map(number, range(count))))])
    yield find(filter=document([(b"a", document([(b"$all", array(map(number, range(count))))]))]))


@case(96)
def levels_of_and(levels):
    value = document([(b"a", ONE)])
    for _ in range(levels // 2):
        value = document([(b"$and", array([value]))])
    yield from plain(10_000)
    yield find(filter=value)


@case(96)
def levels_of_not(levels):
    value = document([(b"$gt", ONE)])
    for _ in range(levels):
        value = document([(b"$not", value)])
    yield from plain(10_000)
    yield find(filter=document([(b"a", value)]))


@case(90)
def levels_of_elements_that_match(levels):
    value, match = ONE, document([(b"$gt", number(5))])
    for _ in range(levels):
        value, match = array([value, value] if value[0] == DOCUMENT else [value]), document([(b"$elemMatch", match)])
    yield put(*([(b"_id", number(at)), (b"a", value)] for at in range(1_000)))
    yield find(filter=document([(b"a", match)]))


@case(90)
def numbers_in_a_path_through_arrays(components):
    value = document([(b"0", ONE)])
    for _ in range(90):
        value = array([document([(b"0", value)])]) if value[0] == DOCUMENT else array([value])
    yield put(*([(b"_id", number(at)), (b"a", value)] for at in range(200)))
    yield find(filter=document([(b".".join([b"a"] + [b"0"] * components), ONE)]))


@case(8_000_000)
def components_of_a_path(count):
    yield from plain(10)
    yield find(filter=document([(b".".join([b"a"] * count), ONE)]))


@case(1_000_000)
def elements_of_a_sort_by_32_paths(count):
    yield put([IDENTITY, (b"a", array(map(number, range(count))))])
    yield find(sort=document([(b"a" + b".b" * place, ONE) for place in range(32)]))


@case(100_000)
def rows_of_a_sort(count):
    yield from plain(count)
    yield find(sort=document([(b"a", number(-1))]))
