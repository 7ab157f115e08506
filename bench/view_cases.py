"""The views that bench/views.py measures: their documents, their stages, the changes, and the same in SQL.

The collection `c` has as many documents as are asked for (in a lookup of ten, a tenth of them), and `d` has those that a lookup
reads. In SQL the fields are columns; an array is a text of JSON in SQLite and an array in PostgreSQL.
"""
import json
import random
from collections import namedtuple

PART = 10  # elements of an array, documents of a small group, matches of a row
FEW = 100  # documents of a large group
SHOWN = 101  # rows of a read, as many as a first batch has
MOST = 1_000_000  # of an amount

COLUMNS = {"c": "id few tens code amount name items".split(), "d": "id code name".split()}

# A view: its name; the documents of `c` and of `d`, by their number; its stages; what a change sets in a document; that
# document's collection; whether it is the one with the least amount; the query, for SQLite and for PostgreSQL; and how SQLite
# keeps the view: the statements that set this up, and the query that reads it.
Case = namedtuple("Case", "name documents foreign stages change changed least query kept read")


def plain(count):
    rng = random.Random(count)
    return [{"_id": place, "few": place // FEW, "tens": place // PART, "code": place, "amount": rng.randrange(MOST),
             "name": "name %d" % place} for place in range(count)]


def with_items(count):
    rng = random.Random(count)
    return [{**one, "items": [rng.randrange(MOST) for _ in range(PART)]} for one in plain(count)]


def a_part(count):
    return plain(count // PART)


def nothing(count):
    return []


def one_each(count):
    return [{"_id": place, "code": place, "name": "other %d" % place} for place in range(count)]


def ten_each(count):
    return [{"_id": place, "code": place % (count // PART), "name": "other %d" % place} for place in range(count)]


# Changes: the field that is set, with a random value each time, in a case over so many documents.


def amount(rng, count):
    return {"amount": rng.randrange(MOST)}


def greater_amount(rng, count):
    return {"amount": MOST + rng.randrange(MOST)}


def item(rng, count):
    return {"items.%d" % rng.randrange(PART): rng.randrange(MOST)}


def code(rng, count):
    return {"code": rng.randrange(count)}


def name(rng, count):
    return {"name": "new %d" % rng.randrange(10**9)}


def grouped(key):
    return [{"$group": {"_id": key, "n": {"$sum": 1}, "total": {"$sum": "$amount"}, "least": {"$min": "$amount"}}}]


LOOKUP = [{"$lookup": {"from": "d", "localField": "code", "foreignField": "code", "as": "o"}},
          {"$project": {"code": 1, "names": "$o.name"}}]

# The queries that are the same in both dialects.
RICH = "SELECT id, amount, name FROM c WHERE amount >= %d" % (MOST // 2)
TOP = "SELECT id, amount, name FROM c ORDER BY amount DESC, id LIMIT 10"
ALL_GROUPED = "SELECT %s AS id, count(*) AS n, sum(amount) AS total, min(amount) AS least FROM c"
GROUPED = ALL_GROUPED + " GROUP BY %s"
# Pairs of a query for SQLite and one for PostgreSQL.
ELEMENTS = ("SELECT c.id, e.key AS place, e.value AS item FROM c, json_each(c.items) AS e",
            "SELECT c.id, e.place, e.item FROM c, unnest(c.items) WITH ORDINALITY AS e (item, place)")
PUSHED = ("SELECT tens AS id, json_group_array(amount) AS amounts FROM c GROUP BY tens",
          "SELECT tens AS id, array_agg(amount ORDER BY id) AS amounts FROM c GROUP BY tens")
MATCHES = ("SELECT id, code, (SELECT json_group_array(name) FROM d WHERE d.code = c.code) AS names FROM c",
           "SELECT id, code, ARRAY(SELECT d.name FROM d WHERE d.code = c.code) AS names FROM c")


def both(query):
    return query, query


def trigger(on, actions):
    return "CREATE TRIGGER keep_%s AFTER UPDATE ON %s BEGIN %s; END" % (on, on, "; ".join(actions))


# How SQLite keeps a view, and how that is read. Triggers written by hand keep a table `v`; an index keeps the first rows of a sort.


def kept_rows(query, insert):
    """Rows that are deleted and inserted again when their document changes."""
    make = "CREATE TABLE v AS " + query
    return [make, "CREATE INDEX by_id ON v (id)",
            trigger("c", ["DELETE FROM v WHERE id = old.id", "INSERT INTO v " + insert])], "SELECT * FROM v"


def kept_sums(query, indexed, of_group, group):
    # The least amount of a group is looked up in an index, since it may have changed.
    update = ("UPDATE v SET total = total - old.amount + new.amount, least = (SELECT min(amount) FROM c%s) WHERE id = %s"
              % (of_group, group))
    return ["CREATE TABLE v (id INTEGER PRIMARY KEY, n INTEGER, total INTEGER, least INTEGER)",
            "INSERT INTO v " + query, "CREATE INDEX by_field ON c (%s)" % indexed, trigger("c", [update])], "SELECT * FROM v"


def kept_groups(field):
    return kept_sums(GROUPED % (field, field), field + ", amount", " WHERE %s = new.%s" % (field, field), "new." + field)


def kept_pushed():
    amounts = "SELECT json_group_array(amount) FROM (SELECT amount FROM c WHERE tens = new.tens ORDER BY id)"
    return ["CREATE TABLE v (id INTEGER PRIMARY KEY, amounts TEXT)", "INSERT INTO v " + PUSHED[0],
            "CREATE INDEX by_tens ON c (tens)",
            trigger("c", ["UPDATE v SET amounts = (%s) WHERE id = new.tens" % amounts])], "SELECT * FROM v"


def kept_matches():
    names = "(SELECT json_group_array(name) FROM d WHERE d.code = %s)"
    left = "UPDATE v SET code = new.code, names = %s WHERE id = new.id" % (names % "new.code")
    foreign = "UPDATE v SET names = %s WHERE id IN (SELECT id FROM c WHERE code IN (old.code, new.code))" % (names % "v.code")
    # Neither column `code` has a type, since the index isn't used otherwise.
    return ["CREATE TABLE v (id INTEGER PRIMARY KEY, code, names TEXT)", "INSERT INTO v " + MATCHES[0],
            "CREATE INDEX c_by_code ON c (code)", trigger("c", [left]), trigger("d", [foreign])], "SELECT * FROM v"


def case(title, stages, query, kept, change=amount, documents=plain, foreign=nothing, changed="c", least=False):
    return Case(title, documents, foreign, stages, change, changed, least, query, *kept)


def lookups(title, documents, foreign):
    yield case("%s, its row changed" % title, LOOKUP, MATCHES, kept_matches(), code, documents, foreign)
    yield case("%s, a match changed" % title, LOOKUP, MATCHES, kept_matches(), name, documents, foreign, "d")


CASES = [
    case("a filtered projection", [{"$match": {"amount": {"$gte": MOST // 2}}}, {"$project": {"amount": 1, "name": 1}}],
         both(RICH), kept_rows(RICH, "SELECT new.id, new.amount, new.name WHERE new.amount >= %d" % (MOST // 2))),
    case("an unwind of ten", [{"$unwind": "$items"}, {"$project": {"items": 1}}], ELEMENTS,
         kept_rows(ELEMENTS[0], "SELECT new.id, key, value FROM json_each(new.items)"), item, with_items),
    case("a sort with limit 10", [{"$sort": {"amount": -1}}, {"$limit": 10}, {"$project": {"amount": 1, "name": 1}}], both(TOP),
         (["CREATE INDEX by_amount ON c (amount DESC, id)"], TOP)),
    case("groups of 100 documents", grouped("$few"), both(GROUPED % ("few", "few")), kept_groups("few")),
    case("groups of one document", grouped("$code"), both(GROUPED % ("code", "code")), kept_groups("code")),
    case("one group, its least value changed", grouped(None), both(ALL_GROUPED % "0"),
         kept_sums(ALL_GROUPED % "0", "amount", "", "0"), greater_amount, least=True),
    case("a `$push` of ten", [{"$group": {"_id": "$tens", "amounts": {"$push": "$amount"}}}], PUSHED, kept_pushed()),
    *lookups("a lookup of one", plain, one_each),
    *lookups("a lookup of ten", a_part, ten_each),
]


def rows_of(documents, collection, spelled):
    """The documents as rows of their columns. `spelled` converts each value, or None if the value is missing."""
    columns = COLUMNS[collection]
    return [[spelled(one.get("_id" if column == "id" else column)) for column in columns] for one in documents]


def as_json(value):
    return json.dumps(value) if isinstance(value, list) else value


def as_copied(value):
    """A value as PostgreSQL's COPY reads it."""
    if value is None:
        return "\\N"
    return "{%s}" % ",".join(map(str, value)) if isinstance(value, list) else str(value)
