"""The commands that cases are made of, and the table of the cases."""
from collections import namedtuple

from spelled import array, document, joined, number, section, spelled, text

FULL = 16_777_216  # bytes of a document
DATABASE = b"$db", text(b"t")
IDENTITY = b"_id", number(1)
ONE = number(1)
# The function that makes the commands for a size, the largest size, and how many writes follow all else, if these are timed.
Case = namedtuple("Case", "make most writes")
CASES = {}


def case(most, writes=None):
    """Marks a function that makes the commands for a size; `most` is the largest size. If a number of writes is given, the
    function gets that number, or 0, after the size."""
    def kept(make):
        CASES[make.__name__.replace("_", " ")] = Case(make, most, writes)
        return make
    return kept


def command(name, *fields, of=b"c"):
    return [(name, text(of)), *fields]


def put(*documents):
    """An insert whose documents are in a section next to the message's body, so that each may be as large as is allowed."""
    return put_bytes(map(spelled, documents))


def put_bytes(documents, of=b"c"):
    return joined([section(None, [spelled([(b"insert", text(of)), DATABASE])]), section(b"documents", documents)], 1, 0)


def find(**fields):
    return command(b"find", *((name.encode(), value) for name, value in fields.items()))


def aggregate(*stages):
    return command(b"aggregate", (b"pipeline", array(stages)), (b"cursor", document([])))


def stage(name, operand):
    return document([(name, operand)])


def with_id(identity):
    return document([(b"_id", number(identity))])


def updating(query, operator, *operands, **others):
    """An entry of an update."""
    entry = [(b"q", query), (b"u", stage(operator, document(operands)))]
    return document([*entry, *((name.encode(), value) for name, value in others.items())])


def update(operator, *operands, **others):
    return command(b"update", (b"updates", array([updating(document([]), operator, *operands, **others)])))


def plain(count, field=b"a"):
    """Inserts of `count` documents, each with the same number in a field and in `_id`."""
    for start in range(0, count, 1_000):
        yield put(*([(b"_id", number(at)), (field, number(at))] for at in range(start, min(count, start + 1_000))))


def named(count, value=number(1), prefix=b"n"):
    """`count` fields."""
    return [(b"%s%d" % (prefix, at), value) for at in range(count)]


def nested(levels, value=number(1), name=b"d"):
    for _ in range(levels):
        value = document([(name, value)])
    return value
