"""The chain that bench/views.py measures: eight views, the first over the collection `c`, and each other over the view before it.

A change of one of the first documents changes a row of each view: its group stays among the first groups, with another sum.
"""
from collections import namedtuple

from view_cases import MOST, PART, both, case, greater_amount, plain, trigger

FIRST = 100  # groups that the sort and the limit leave
CHANGED = FIRST * PART  # the documents of these groups

# A view of the chain: its stages, which field of a row of its source a change sets, and its query in SQLite and in PostgreSQL.
Level = namedtuple("Level", "stages field query")


def documents(count):
    return [{**one, "amount": one["amount"] + MOST * (one["_id"] < CHANGED)} for one in plain(count)]


def kinds(count):
    """One of ten kinds for each group."""
    return [{"_id": place, "code": place, "name": "kind %d" % (place % PART)} for place in range(count // PART)]


LEVELS = [
    Level([{"$match": {"code": {"$gte": 0}}}], "amount", both("SELECT id, tens, amount FROM c WHERE code >= 0")),
    Level([{"$group": {"_id": "$tens", "total": {"$sum": "$amount"}}}], "amount",
          both("SELECT tens AS id, sum(amount) AS total FROM v1 GROUP BY tens")),
    Level([{"$match": {"total": {"$gte": MOST}}}], "total", both("SELECT id, total FROM v2 WHERE total >= %d" % MOST)),
    Level([{"$sort": {"total": -1}}, {"$limit": FIRST}], "total",
          both("SELECT id, total FROM v3 ORDER BY total DESC, id LIMIT %d" % FIRST)),
    Level([{"$lookup": {"from": "d", "localField": "_id", "foreignField": "code", "as": "o"}}], "total",
          ("SELECT v4.id, total, name FROM v4 LEFT JOIN d ON code = v4.id",
           "SELECT id, total, ARRAY(SELECT name FROM d WHERE code = v4.id) AS names FROM v4")),
    Level([{"$unwind": "$o"}], "total",
          ("SELECT * FROM v5 WHERE name IS NOT NULL", "SELECT id, total, name FROM v5, unnest(names) AS name")),
    Level([{"$project": {"total": 1, "kind": "$o.name"}}], "total", both("SELECT id, total, name AS kind FROM v6")),
    Level([{"$group": {"_id": "$kind", "n": {"$sum": 1}, "total": {"$sum": "$total"}}}], "total",
          both("SELECT kind AS id, count(*) AS n, sum(total) AS total FROM v7 GROUP BY kind")),
]
NAMES = ["v%d" % place for place in range(1, len(LEVELS) + 1)]


def anew(views):
    """A query that computes the last of some views. Each view is a name and a query."""
    return "WITH %s SELECT * FROM %s" % (", ".join("%s AS (%s)" % one for one in views), views[-1][0])


SQLITE = list(zip(NAMES, [one.query[0] for one in LEVELS]))
POSTGRES = list(zip(NAMES, [one.query[1] for one in LEVELS]))
# What SQLite keeps: triggers written by hand, each of which sets off the next, keep the first three views as tables, and an index
# keeps the fourth. The others are computed from the rows of the fourth when they are read.
KEPT = [
    *("CREATE TABLE %s AS %s" % one for one in SQLITE[:3]),
    *("CREATE UNIQUE INDEX %s_by_id ON %s (id)" % (name, name) for name in NAMES[:3]),
    "CREATE INDEX v3_by_total ON v3 (total DESC, id)",
    trigger("c", ["UPDATE v1 SET amount = new.amount WHERE id = new.id"]),
    trigger("v1", ["UPDATE v2 SET total = total - old.amount + new.amount WHERE id = new.tens"]),
    trigger("v2", ["DELETE FROM v3 WHERE id = old.id", "INSERT INTO v3 SELECT new.id, new.total WHERE new.total >= %d" % MOST]),
]
CHAIN = case("a chain of eight views", [stage for one in LEVELS for stage in one.stages], (anew(SQLITE), None),
             (KEPT, anew(SQLITE[3:])), greater_amount, documents, kinds)
