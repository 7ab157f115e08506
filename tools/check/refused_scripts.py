"""The scripts in which tools/check/refuse_allocations.py refuses docd's requests for memory: their steps, by their names."""
from collections import namedtuple

from extended_json import value_of
from model.values import spelling
from spelled import message, script_lines

# A message of a session, with the fields of its body, sent in pieces of `piece` bytes unless that is 0; and the end of a session.
Message = namedtuple("Message", "session fields flags piece", defaults=(0, 0))
End = namedtuple("End", "session")


def body(step):
    _, fields = value_of(step.fields)
    return spelling(fields)


def lines(step):
    """A step's lines in the script."""
    if isinstance(step, End):
        return b"%d end\n" % step.session
    data = message(body(step), 7, step.flags)
    return b"".join(line + b"\n" for line in script_lines(step.session, data, step.piece or len(data)))


def ping(**others):
    return {"ping": 1, **others, "$db": "t"}


def insert(name, documents, ordered=True):
    return {"insert": name, "documents": documents, "ordered": ordered, "$db": "t"}


def then(*commands):
    """Commands on two collections, of which one is there already, and what both hold afterwards."""
    there = Message(0, insert("c", [{"_id": 2}, {"_id": 4, "x": "four"}]))
    finds = [Message(1, {"find": name, "$db": "t"}) for name in ("c", "d")]
    return [there, *commands, End(0), *finds, End(1)]


def three(*commands):
    """Commands on a collection of five documents, and what it holds afterwards."""
    there = [{"_id": place, "n": 7 - place, "tags": ["t%d" % place, "all"], "in": {"a": place}} for place in range(1, 6)]
    return [Message(0, insert("c", there)), *commands, End(0), Message(1, {"find": "c", "$db": "t"}), End(1)]


def aggregate(stages):
    return {"aggregate": "c", "pipeline": stages, "cursor": {}, "$db": "t"}


def find(name, session=0, **others):
    return Message(session, {"find": name, **others, "$db": "t"})


THREE = [{"_id": place, "n": 7 - place, "tags": ["t%d" % place, "all"]} for place in range(1, 4)]


def under(views, *commands, sources=(), there=THREE):
    """Commands on a collection under these views, each over the collection or over the view that `sources` names for it; and
    afterwards the viewStats and rows of the views, the collection's documents, and the views' pipelines as aggregates."""
    over = {**dict.fromkeys(views, "c"), **dict(sources)}
    made = [Message(0, {"create": name, "viewOn": over[name], "pipeline": stages, "$db": "t"}) for name, stages in views.items()]
    told = [Message(1, {"viewStats": name, "$db": "t"}) for name in views]
    finds = [find(name, 1) for name in (*views, "c", list(views)[0])]
    anew = [Message(1, {**aggregate(stages), "aggregate": over[name]}) for name, stages in views.items()]
    return [Message(0, insert("c", there)), *made, *commands, End(0), *told, *finds, *told, *anew, End(1)]


def viewed(*commands):
    return under({"v": [{"$match": {"n": {"$gte": 4}}}, {"$unwind": "$tags"}, {"$project": {"tag": "$tags"}}],
                  "w": [{"$sort": {"n": 1}}, {"$limit": 2}]}, *commands)


def gathered(*commands):
    """Commands under two views, one that groups and one that joins another collection."""
    fields = {"_id": "$tags", "n": {"$sum": "$n"}, "all": {"$push": "$_id"}, "least": {"$min": "$n"}}
    looked = {"from": "d", "localField": "n", "foreignField": "_id", "as": "d"}
    return under({"v": [{"$unwind": "$tags"}, {"$group": fields}], "w": [{"$lookup": looked}, {"$match": {"d.x": {"$exists": True}}}]},
                 Message(0, insert("d", [{"_id": 5, "x": "five"}, {"_id": 4, "x": ["four"]}])), *commands)


def summed(*commands):
    """Commands under two views that add up, one of them over all rows together."""
    return under({"v": [{"$group": {"_id": None, "t": {"$sum": "$n"}}}],
                  "w": [{"$unwind": "$tags"}, {"$group": {"_id": "$tags", "n": {"$sum": 1}, "most": {"$max": "$n"}}}]}, *commands)


def narrowed(*commands):
    """Commands under a view that adds up an int32 and an int64."""
    return under({"v": [{"$group": {"_id": None, "t": {"$sum": "$v"}}}]}, *commands,
                 there=[{"_id": 1, "v": 1}, {"_id": 2, "v": {"$numberLong": "2"}}])


def parents(*commands):
    """Commands under a view that joins each document with those of the same collection that it names."""
    looked = {"from": "c", "localField": "p", "foreignField": "_id", "as": "o"}
    return under({"v": [{"$lookup": looked}]}, *commands, there=[{"_id": 1, "p": 3}, {"_id": 2, "p": 1}])


def first_two(*commands):
    """Commands under a view of the first two documents in order."""
    there = [{"_id": place, "a": number} for place, number in enumerate([1, 2, 2, 3], 1)]
    return under({"v": [{"$sort": {"a": 1}}, {"$limit": 2}]}, *commands, there=there)


def itself(*commands):
    """Commands under two views, one that joins its collection with itself, and one of the first elements in order."""
    looked = {"from": "c", "localField": "n", "foreignField": "_id", "as": "o"}
    return under({"v": [{"$lookup": looked}],
                  "w": [{"$unwind": "$tags"}, {"$sort": {"tags": 1, "n": -1}}, {"$limit": 2}]}, *commands)


def stacked(*commands):
    """Commands under three views: the second is over the first, and the third joins its collection with the first."""
    looked = {"from": "v", "localField": "tags", "foreignField": "_id", "as": "o"}
    return under({"v": [{"$unwind": "$tags"}, {"$group": {"_id": "$tags", "n": {"$sum": "$n"}}}],
                  "w": [{"$match": {"n": {"$gte": 5}}}, {"$sort": {"n": -1}}], "x": [{"$lookup": looked}]},
                 *commands, sources={"w": "v"})


BY_INDEX = {"n": {"$gte": 0}}, {"tags": "all"}, {"tags": {"$gte": ""}}


def indexed(*commands):
    """Commands on a collection with two indexes, and what a scan and finds by each index show afterwards. An explain of each
    find by an index reports how many documents the index has there."""
    there = [{"_id": place, "n": 7 - place, "tags": ["t%d" % place, "all"]} for place in range(1, 4)]
    entries = [{"key": {name: 1}, "name": name + "_1"} for name in ("n", "tags")]
    made = {"createIndexes": "c", "indexes": entries, "$db": "t"}
    finds = [{"find": "c"}, *({"find": "c", "filter": one} for one in BY_INDEX),
             *({"explain": {"find": "c", "filter": one}} for one in BY_INDEX)]
    shown = [Message(1, {**one, "$db": "t"}) for one in finds]
    return [Message(0, insert("c", there)), Message(0, made), *commands, End(0), *shown, End(1)]


def unique(*commands):
    """Commands on a collection with a unique index and a view, and what a scan, a find by the index and the view show."""
    there = [{"_id": place, "n": [place, place + 3]} for place in range(1, 4)]
    made = {"createIndexes": "c", "indexes": [{"key": {"n": 1}, "name": "n_1", "unique": True}], "$db": "t"}
    view = {"create": "v", "viewOn": "c", "pipeline": [{"$unwind": "$n"}], "$db": "t"}
    finds = [find("c", 1), find("c", 1, filter={"n": {"$gte": 0}}), Message(1, {"viewStats": "v", "$db": "t"}), find("v", 1)]
    return [Message(0, insert("c", there)), Message(0, made), Message(0, view), *commands, End(0), *finds, End(1)]


def delete(*entries):
    return Message(0, {"delete": "c", "deletes": list(entries), "$db": "t"})


def update(*entries):
    return Message(0, {"update": "c", "updates": list(entries), "$db": "t"})


def more(identity, session, **others):
    return Message(session, {"getMore": identity, "collection": "c", **others, "$db": "t"})


AGAIN = [Message(0, {"createIndexes": "c", "indexes": [{"key": {"tags": 1}, "name": "tags_1"}], "$db": "t"}),
         Message(0, insert("c", [{"_id": 9, "tags": ["all", "new"]}]))]
PING = Message(0, ping())
NESTED = {"text": "t" * 40, "list": [1, "two", {"three": [True]}], "inner": {"a": {"b": {}}}, "_id": {"a": 1, "b": "x"}}
MIXED = [{"_id": 1}, {"_id": 2}, {"_id": 3, "a.b": 1}, {"_id": 5, "x": ["five"]}, {"x": 6}, NESTED, {"_id": 4}]
SOME = {"n": {"$lt": 6}, "tags": "all"}
SORTED = {"find": "c", "filter": {"$or": [{"tags": {"$in": ["t2", "t4", "t9"]}}, {"in.a": {"$gte": 4}}]},
          "sort": {"tags": -1, "n": 1}, "skip": 1, "limit": 2, "$db": "t"}
EACH = {"q": SOME, "u": {"$set": {"x.y": "new"}, "$push": {"tags": "more"}, "$inc": {"n": 1}}, "multi": True}
STAGES = [{"$match": {"n": {"$lt": 6}}}, {"$unwind": "$tags"}, {"$project": {"both": {"a": "$tags", "b": "$in.a"}}},
          {"$sort": {"both": -1}}, {"$limit": 3}]
SCRIPTS = {
    "pings": [PING] * 3 + [End(0), PING],
    "refusals": [Message(0, {"ping": 1}), Message(0, {"pong": 1, "$db": "t"}), Message(0, {"ping": 1, "$db": "a.b"})],
    "no reply": [Message(0, ping(), flags=2), PING],
    "forty names": [Message(0, ping(**{"name %d" % i: {"text": "t%d" % i} for i in range(40)}))],
    "a message in pieces": [Message(0, ping(), piece=1)],
    "an insert": then(Message(0, insert("c", [NESTED]))),
    "a new collection": then(Message(0, insert("d", [{"_id": 1}, {"_id": 0}]))),
    "an insert in order": then(Message(0, insert("c", MIXED)), Message(0, insert("c", MIXED[3:]))),
    "an insert out of order": then(Message(0, insert("c", MIXED, ordered=False))),
    "an insert without a reply": then(Message(0, insert("c", MIXED, ordered=False), flags=2)),
    "an insert in pieces": then(Message(0, insert("c", MIXED[3:4]), piece=7)),
    "forty inserts": then(Message(0, insert("d", [{"_id": 37 * i % 40, "n": i} for i in range(40)]))),
    "refused inserts": then(Message(0, insert("$c", [{"_id": 1}])), Message(0, {"insert": "c", "$db": "t"})),
    "a find with a sort": three(Message(0, SORTED)),
    "a refused find": three(Message(0, {"find": "c", "filter": {"a": {"$in": 1}}, "$db": "t"})),
    "a hello": [Message(0, {"hello": 1, "$db": "t"})],
    "a delete of many": three(delete({"q": SOME, "limit": 0})),
    "deletes": three(delete({"q": {"_id": 2}, "limit": 1}, {"q": {"n": {"$exists": True}}, "limit": 1},
                            {"q": {"$x": 1}, "limit": 0}, {"q": {}, "limit": 0})),
    "an update of many": three(update({**EACH, "q": {"n": {"$lt": 5}}})),
    "updates": three(update({"q": {"_id": 2}, "u": {"a": [1, {"b": 2}]}}, EACH,
                            {"q": {}, "u": {"$pull": {"tags": "all"}}},
                            {"q": {"_id": 1}, "u": {"$unset": {"in": 1}}},
                            {"q": {}, "u": {"$inc": {"in": 1}}, "multi": True})),
    "an aggregate": three(Message(0, aggregate(STAGES))),
    "two views and an insert": viewed(Message(0, insert("c", [{"_id": 0, "n": 5, "tags": ["new"]}]))),
    "two views and an update": viewed(update({"q": {}, "u": {"$inc": {"n": -2}}, "multi": True})),
    "two views and a delete": viewed(delete({"q": {}, "limit": 0})),
    "two views and an insert without a reply": viewed(Message(0, insert("c", [{"_id": 0, "n": 5, "tags": []}]), flags=2)),
    "two sums and what leaves them": summed(
        delete({"q": {"_id": 2}, "limit": 1}), find("v"), delete({"q": {}, "limit": 0})),
    "a sum of which the int64 leaves, and then all": narrowed(
        delete({"q": {"_id": 2}, "limit": 1}), find("v"), delete({"q": {"_id": 1}, "limit": 1})),
    "documents joined with those that they name, and an insert": parents(Message(0, insert("c", [{"_id": 3, "p": 1}]))),
    "the first two, and a delete of the first": first_two(delete({"q": {"_id": 1}, "limit": 1})),
    "a collection and a view that is refused": viewed(Message(0, {"create": "d", "$db": "t"}),
                                                      Message(0, {"create": "v", "$db": "t"})),
    "two views and a drop": viewed(Message(0, {"drop": "c", "$db": "t"}), Message(0, {"drop": "w", "$db": "t"})),
    "a view of a collection joined with itself, and an insert": itself(Message(0, insert("c", [{"_id": 5, "n": 1, "tags": ["t2"]}]))),
    "a view of a collection joined with itself, and writes": itself(
        update({"q": {"_id": {"$gt": 1}}, "u": {"$inc": {"n": -2}, "$push": {"tags": "all"}}, "multi": True}), find("v"),
        delete({"q": {"_id": 3}, "limit": 1}), find("w")),
    "a drop of what a view looks into": gathered(Message(0, {"drop": "d", "$db": "t"}), find("w")),
    "views on a view, and an insert": stacked(Message(0, insert("c", [{"_id": 9, "n": 5, "tags": ["new", "all"]}])), find("w")),
    "views on a view, and an update": stacked(update({"q": {"_id": {"$gt": 1}}, "u": {"$inc": {"n": 2}}, "multi": True}), find("x")),
    "views on a view, and drops": stacked(Message(0, {"drop": "v", "$db": "t"}), Message(0, {"drop": "c", "$db": "t"})),
    "a view on views, and a delete": stacked(
        Message(0, {"create": "y", "viewOn": "w", "pipeline": [{"$limit": 1}], "$db": "t"}), delete({"q": {"_id": 1}, "limit": 1}),
        find("y"), Message(0, aggregate([{"$lookup": {"from": "w", "localField": "tags", "foreignField": "_id", "as": "o"}}]))),
    "an insert under indexes": indexed(Message(0, insert("c", [{"_id": 9, "n": 5, "tags": ["new", "all"]}]))),
    "an update under indexes": indexed(update({"q": {"n": {"$gt": 3}}, "u": {"$set": {"tags": [1, "all"]}}, "multi": True})),
    "a delete under indexes": indexed(delete({"q": {"tags": "all"}, "limit": 0})),
    "an insert, updates and a new index under a unique index": unique(
        Message(0, insert("c", [{"_id": 9, "n": [7, None]}, {"_id": 8, "n": 4}, {"_id": 7}], ordered=False)),
        update({"q": {"_id": {"$lt": 4}}, "u": {"$inc": {"n.0": 10, "n.1": 20}}, "multi": True}),
        update({"q": {}, "u": {"$set": {"n": 5}}, "multi": True}),
        Message(0, {"createIndexes": "c", "indexes": [{"key": {"m": 1}, "name": "m_1", "unique": True}], "$db": "t"})),
    "indexes that are dropped": indexed(Message(0, {"dropIndexes": "c", "index": "*", "$db": "t"})),
    "arrays in arrays under indexes": indexed(
        Message(0, insert("c", [{"_id": 9, "n": [[1, 2], {"a": [3]}, 1, 1], "tags": []}])),
        update({"q": {"n": 1}, "u": {"$push": {"n": {"$each": [7, [1, 2]]}}}}), delete({"q": {"n": [1, 2]}, "limit": 1})),
    "an index that is dropped and made again": indexed(
        Message(0, {"dropIndexes": "c", "index": "tags_1", "$db": "t"}), *AGAIN),
    "a drop of an indexed collection": indexed(Message(0, {"drop": "c", "$db": "t"}), *AGAIN),
    "batches": three(Message(0, {"find": "c", "batchSize": 1, "$db": "t"}),
                     Message(0, {"getMore": 1, "collection": "c", "batchSize": 2, "$db": "t"}),
                     Message(0, {"getMore": 1, "collection": "c", "$db": "t"})),
    "a cursor that is killed": three(Message(0, {"find": "c", "batchSize": 0, "$db": "t"}),
                                     Message(0, {"killCursors": "c", "cursors": [1, 9], "$db": "t"})),
    "cursors of two sessions": three(
        find("c", batchSize=1), find("c", 2, batchSize=2), more(1, 2), more(2, 2), more(1, 0, batchSize=1),
        Message(2, {"killCursors": "c", "cursors": [1, 2], "$db": "t"}), End(2), more(1, 0)),
    "cursors that are left": three(
        find("c", 2, batchSize=1), Message(0, insert("c", [{"_id": 0}])), more(1, 2, batchSize=1), End(2),
        find("c", batchSize=4), more(2, 0)),
    "a group and a lookup under writes": gathered(
        Message(0, insert("c", [{"_id": 9, "n": 5, "tags": ["new", "all"]}])), find("v"),
        update({"q": {}, "u": {"$inc": {"n": -1}}, "multi": True}), find("w"),
        Message(0, insert("d", [{"_id": 3, "x": 3}])), Message(0, {"delete": "d", "deletes": [{"q": {"_id": 5}, "limit": 1}], "$db": "t"}),
        find("w"), delete({"q": {"tags": "t1"}, "limit": 0})),
    "groups": three(Message(0, aggregate([{"$unwind": "$tags"}, {"$group": {
        "_id": "$tags", "n": {"$sum": "$n"}, "least": {"$min": "$in"}, "all": {"$push": "$n"}}}]))),
    "a lookup": three(Message(0, aggregate([{"$lookup": {
        "from": "c", "localField": "n", "foreignField": "_id", "as": "others"}}]))),
}
