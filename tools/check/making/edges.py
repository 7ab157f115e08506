"""Scripts at the limits of sizes and counts."""
import random

from spelled import NOTHING, array, boolean, document, lines_of, number, text

FIND = [(b"find", text(b"c"))]
ALL = b"q", document([])


def insert(documents, *others):
    return [(b"insert", text(b"c")), (b"documents", array(documents)), *others]


def sized(identity, size):
    """A document of `size` bytes."""
    return document([(b"_id", number(identity)), (b"x", text(b"x" * (size - 22)))])


def edges():
    """Scripts at the limits: of a document, of the documents of a reply, of statements, of a line."""
    def ping(size):
        return [(b"ping", text(b"x" * (size - 27)))]

    half = 8_388_608
    yield lines_of(0, insert([sized(1, half)]), insert([sized(2, half)]), FIND, insert([sized(3, 23)]), FIND)
    yield lines_of(0, ping(16_777_216), ping(16_777_217), FIND)
    yield lines_of(0, insert([document([])] * 100_000, (b"ordered", boolean(False))))
    yield lines_of(0, insert([document([])] * 100_001), FIND)
    yield lines_of(0, insert([document([(b"_id", number(7 * i % 3_001))]) for i in range(3_000)]), FIND)
    yield [b"#" * 131_200, b"0 2f", b"#" * 131_201]
    yield from delete_edges()
    yield from update_edges()
    yield from view_edges()
    yield from tower_edges()
    yield from tie_edges()


def delete_edges():
    many = insert([document([(b"_id", number(i))]) for i in range(1_000)])
    for entry in ([], [ALL, (b"limit", number(1))]):
        for count in (100_000, 100_001):
            few = 3_000 if entry and count == 100_000 else count
            yield lines_of(0, many, [(b"delete", text(b"c")), (b"deletes", array([document(entry)] * few)),
                                     (b"ordered", boolean(bool(entry)))], FIND)


def update_edges():
    """Updates at the limits of a document's size and levels, of an array's last place, and of 100,000 statements."""
    def update(operator, path, operand):
        return [(b"update", text(b"c")), (b"updates", array([document([ALL, (b"u", document([
            (operator, document([(path, operand)]))]))])]))]

    def find(path, operand):
        return FIND + [(b"filter", document([(path, operand)]))]

    full = 16_777_216
    for size in (100, 101):
        yield lines_of(0, insert([sized(1, full - 200)]), update(b"$set", b"y", text(b"x" * (size + 200 - 108))),
                       find(b"y", document([(b"$exists", boolean(False))])))
    for place in (100_000, 100_001):
        path = b"a.%d" % place
        yield lines_of(0, insert([document([(b"_id", number(1)), (b"a", array([number(1)]))])]), update(b"$set", path, number(2)),
                       update(b"$inc", path + b"0.b", number(2)), update(b"$unset", b"a", number(2)),
                       find(b"a", document([(b"$exists", boolean(True))])))
    for levels in (98, 99, 100):
        yield lines_of(0, insert([document([(b"_id", number(1))])]),
                       update(b"$set", b".".join([b"d"] * levels), document([])), FIND)
    for count in (3_000, 100_001):
        change = document([(b"$inc", document([(b"n", number(1))]))])
        entry = document([(b"q", document([(b"_id", number(1))])), (b"u", change)])
        yield lines_of(0, insert([document([(b"_id", number(1))])]),
                       [(b"update", text(b"c")), (b"updates", array([entry] * count))], FIND)


def view_edges():
    """Views with a `$push` over groups of a few hundred rows."""
    fields = document([(b"_id", text(b"$k")), (b"all", document([(b"$push", text(b"$_id"))]))])
    view = [(b"create", text(b"v")), (b"viewOn", text(b"c")), (b"pipeline", array([document([(b"$group", fields)])]))]
    read, told = [(b"find", text(b"v"))], [(b"viewStats", text(b"v"))]

    def rows(start, end):
        return insert([document([(b"_id", number(i)), (b"k", number(i % 2))]) for i in range(start, end)])

    gone = [(b"delete", text(b"c")), (b"deletes", array([document([(b"q", document([(b"_id", number(7))])), (b"limit", number(1))])]))]
    yield lines_of(0, view, rows(0, 512), told, read, rows(512, 514), told, read, told, gone, told, read, rows(514, 520), gone,
                   read, told)
    yield lines_of(0, rows(0, 1_000), view, told, read, gone, told, rows(1_000, 1_002), read, told)


def tower_edges():
    """Views over a view with a `$push` over a group of a few hundred rows. Commands write what they read, read them or describe
    them."""
    for seed in range(12):
        rng = random.Random(seed)
        there = insert([document([(b"_id", number(i)), (b"k", number(i % 2))]) for i in range(rng.choice([255, 256, 257]))])
        views = [made_view(*one) for one in [
            (b"v", b"c", [(b"$group", document([(b"_id", NOTHING), (b"all", document([(b"$push", text(b"$k"))]))]))]),
            (b"w", b"v", rng.choice([[], [(b"$project", document([(b"_id", number(1))]))]])),
            (b"x", b"d", [looking_into(rng.choice([b"v", b"w"]))]), (b"y", rng.choice([b"w", b"x"]), [looking_into(b"d")]),
            (b"z", b"c", [(b"$match", document([(b"k", number(1))]))]), (b"a", b"z", [looking_into(b"w"), (b"$limit", number(2))])]]
        yield lines_of(0, there, *views, *(one_of_tower(rng) for _ in range(60)))


def tie_edges():
    """Finds of the first documents in a sort by an index in which many have one key. Some have an array, null or nothing there."""
    for path, seed in [(b"k", 1), (b"k", 2), (b"k", 3), (b"k.n", 4), (b"k.n", 5)]:
        rng = random.Random(seed)
        keys, several = rng.choice([1, 3, 8]), rng.choice([0, 0.1, 0.6])
        there = insert([document([(b"_id", number(i)), *tied(rng, path, keys, several), (b"x", number(rng.randrange(3)))])
                        for i in rng.sample(range(2_000), 320)])
        entry = document([(b"key", document([(path, number(1))])), (b"name", text(b"i"))])
        yield lines_of(0, there, [(b"createIndexes", text(b"c")), (b"indexes", array([entry]))],
                       *(first_of_tied(rng, path, keys) for _ in range(40)))


def tied(rng, path, keys, several):
    """The fields that give a document one of a few keys under the path, several of them, null or none."""
    def one():
        return NOTHING if rng.random() < 0.1 else number(rng.randrange(keys))

    held = array(one() for _ in range(rng.randrange(4))) if rng.random() < several else one()
    if path == b"k.n":
        held = array(document([(b"n", one())]) for _ in range(rng.randrange(3))) if rng.random() < several else document([(b"n", held)])
    return [(b"k", held)] * (rng.random() < 0.9)


def first_of_tied(rng, path, keys):
    """A find of the first documents in a sort by this path: of all, of those in a range of it, or of those whose `x` is 1."""
    ends = [(operator, number(rng.randrange(keys))) for operator in rng.choice([[b"$gte"], [b"$lt"], [b"$gt", b"$lte"]])]
    filters = rng.choice([[], [], [(path, document(ends))], [(b"x", number(1))]])
    parts = [(path, number(rng.choice([1, -1]))), *rng.choice([[], [], [], [(b"x", number(-1))]])]
    return FIND + [(b"filter", document(filters)), (b"sort", document(parts)), (b"skip", number(rng.choice([0, 0, 1, 7]))),
                   (b"limit", number(rng.choice([1, 2, 3, 7, 15, 16, 17, 18])))]


def made_view(name, source, stages):
    return [(b"create", text(name)), (b"viewOn", text(source)), (b"pipeline", array(document([stage]) for stage in stages))]


def looking_into(name):
    fields = {b"from": name, b"localField": b"k", b"foreignField": b"_id", b"as": b"o"}
    return b"$lookup", document([(field, text(held)) for field, held in fields.items()])


def one_of_tower(rng):
    """A write to a collection that such views read, or a command that reads a view or describes it."""
    name, on = text(rng.choice([b"v", b"w", b"x", b"y", b"z", b"a"])), text(rng.choice([b"c", b"c", b"d"]))
    identity, some = document([(b"_id", number(rng.choice([-3, -2, -1, 0, 1, 2])))]), [(b"k", number(rng.randrange(3)))]
    return rng.choice([
        [(b"insert", on), (b"documents", array([document([*identity[1], *some])]))],
        [(b"delete", on), (b"deletes", array([document([(b"q", identity), (b"limit", number(1))])]))],
        [(b"update", on), (b"updates", array([document([(b"q", identity), (b"u", document([(b"$set", document(some))]))])]))],
        [(b"viewStats", name)], [(b"viewStats", name)], [(b"find", name), (b"limit", number(2))],
        [(b"explain", document([(b"find", name)]))],
        [(b"aggregate", on), (b"pipeline", array([document([looking_into(name[1])]), document([(b"$limit", number(1))])]))]])
