"""Random commands, good ones and ones with faults."""
from making.values import distinct
from making.views import TOWER, Views
from model.paths import whole
from model.unique import are_apart, unique_paths
from model.values import DOCUMENT
from spelled import NOTHING, array, boolean, document, number, text

IGNORED = [b"lsid", b"comment", b"$readPreference", b"maxTimeMS"]


class Commands(Views):
    """Makes commands for the database `t`. Those that ask for a cursor mostly ask for one of `session`."""

    def __init__(self, rng):
        super().__init__(rng)
        self.session = object()
        shares = {self.insert: 5, self.find: 10, self.ping: 1, self.hello: 1, self.delete: 3, self.update_command: 7,
                  self.aggregate: 7, self.create: 2, self.drop: 1, self.create_indexes: 3, self.drop_indexes: 1,
                  self.explain: 4, self.get_more: 6, self.kill_cursors: 1, self.view_stats: 3, self.rows_by_id: 5}
        self.makers = [maker for maker, share in shares.items() for _ in range(share)]

    def readable(self):
        """The name of a collection, or of a view that exists."""
        return text(self.rng.choice(self.standing)) if self.standing and self.often(0.2) else self.collection()

    def collection(self):
        if self.often(0.96):
            names = [b"c"] * 20 + [b"d", b"d", b"c.d"] + [b"v", b"v", b"v", b"w"]
            return text(self.rng.choice(names))
        return self.rng.choice([text(b""), text(b"$c"), text(b"c$"), text(b"c\0"), text(b"."), text(b"x" * 118),
                                text(b"x" * 119), number(1)])

    def command(self):
        """A command's fields. In some cases one of them is changed, added or left out, or they are in another order."""
        fields = self.rng.choice(self.makers)()
        fields.append((b"$db", text(b"t" if self.often(0.97) else self.rng.choice([b"u", b"", b"t.u", b"t\0"]))))
        return self.changed(fields) if self.often(0.12) else fields

    def ping(self):
        return [(b"ping", self.value())]

    def hello(self):
        return [(b"hello", self.value())]

    def insert(self):
        count = self.rng.randrange(60) if self.often(0.1) else self.rng.randrange(6)
        fields = [(b"insert", self.collection()), (b"documents", array(self.document() for _ in range(count)))]
        return fields + self.ordered()

    def ordered(self):
        return [(b"ordered", boolean(self.often(0.4)))] * self.often(0.5)

    def find(self):
        fields = [(b"find", self.readable())]
        others = [(b"filter", self.filter_by_index())] * self.often(0.85) + [(b"sort", self.sort())] * self.often(0.4)
        others += [(b"skip", self.natural())] * self.often(0.15) + [(b"limit", self.natural())] * self.often(0.3)
        others = self.first_by_index() if self.often(0.25) else others
        others += [(b"projection", document([]))] * self.often(0.03) + self.batch(0.4)
        return fields + (others if self.often(0.7) else self.rng.sample(others, len(others)))

    def filter_by_index(self):
        """A filter. If there are indexes besides that on `_id`, it mostly begins with the path of an index."""
        made, indexes = self.filter(), self.indexes()
        if len(indexes) < 2 or self.often(0.4):
            return made
        path = b".".join(self.rng.choice(indexes).path)
        candidates = [one for fields in self.documents[:20] for one in whole((DOCUMENT, fields), path.split(b".")) if one]
        condition = path, self.condition(self.rng.choice(candidates or [NOTHING]), 1)
        if self.often(0.2):
            condition = b"$and", array([document([condition]), *([made] * self.often(0.5))])
        return document(distinct([condition, *made[1][1:]]))

    def first_by_index(self):
        """The fields of a find of the first documents in a sort. If there are indexes, the sort begins with the path of one."""
        paths, (_, parts) = [b".".join(index.path) for index in self.indexes()], self.sort()
        filters = [self.filter(), document([(b"zz", NOTHING)])]
        if paths:
            path = self.rng.choice(paths)
            parts = distinct([(path, number(self.rng.choice([1, -1]))), *parts[:self.rng.randrange(3)]])
            filters += [document([self.bounds(path)])] * 3
        filters = [(b"filter", self.rng.choice(filters))]
        limits = [(b"limit", number(self.rng.choice([1, 1, 1, 2, 2, 3, 4, 6])))]
        return (filters * self.often(0.6) + [(b"sort", document(parts))] + limits
                + [(b"skip", number(self.rng.randrange(3)))] * self.often(0.2))

    def rows_by_id(self):
        """A find of a view, or an aggregate over it, that asks for rows by their `_id`s: for one, for some, for those in a range,
        or for the first or all in the order of `_id`."""
        if not self.standing:
            return self.find()
        name = self.rng.choice(self.standing)
        self.along = self.rows_under(name) or None
        held = [value for fields in self.documents for field, value in fields[:1] if field == b"_id"] or [self.identity()]
        one, some = (self.near(self.rng.choice(held)), array(self.near(self.rng.choice(held)) for _ in range(self.rng.randrange(5))))
        members = [self.rng.choice([(b"_id", one), (b"_id", document([(b"$in", some)])), self.bounds(b"_id"), self.bounds(b"_id")])]
        members += self.filter()[1] * self.often(0.3)
        parts = [(b"_id", number(self.rng.choice([1, -1]))), *self.sort()[1] * self.often(0.2)]
        self.along = None
        asked = [(b"filter", document(distinct(members)))] * self.often(0.8) + [(b"sort", document(distinct(parts)))] * self.often(0.5)
        asked += [(b"limit", number(self.rng.choice([1, 1, 2, 3])))] * self.often(0.4)
        if self.often(0.6):
            return [(b"find", text(name)), *asked, *[(b"skip", number(self.rng.randrange(3)))] * self.often(0.2), *self.batch(0.2)]
        stages = {b"filter": b"$match", b"sort": b"$sort", b"limit": b"$limit"}
        pipeline = [document([(stages[field], operand)]) for field, operand in asked]
        return [(b"aggregate", text(name)), (b"pipeline", array(pipeline + list(self.pipeline()[1]) * self.often(0.3)))]

    def indexes(self):
        """The indexes of the collection `c`."""
        return self.store.collections[b"t.c"].indexes if b"t.c" in self.store.collections else []

    def batch(self, share):
        """How many documents a batch has, and whether it is the only one."""
        single = [(b"singleBatch", boolean(self.often(0.5)))] * self.often(0.1)
        return [(b"batchSize", self.natural())] * self.often(share) + single

    def natural(self):
        if self.often(0.05):
            return self.rng.choice([number(-1), number(-2**63), boolean(True), NOTHING])
        return number(self.rng.choice([0, 1, 1, 1, 2, 2, 3, 5, 10, 2**31, 2**63 - 1]), self.often(0.2))

    def entry(self, fields):
        """A statement's entry, in some cases with a fault."""
        if self.often(0.06):
            place = self.rng.randrange(len(fields))
            fault = self.rng.randrange(4)
            if fault == 0:
                del fields[place]
            elif fault == 1:
                fields[place] = fields[place][0], self.value(2)
            else:
                name = self.rng.choice([b"x", b"collation", b"limit", b"multi", b"upsert", *IGNORED])
                fields.insert(self.rng.randint(0, len(fields)), (name, self.value(2)))
        return document(distinct(fields if self.often(0.9) else self.rng.sample(fields, len(fields))))

    def deletion(self):
        limit = self.rng.choice([2, -1, 2**31, -2**63]) if self.often(0.03) else self.rng.choice([0, 1, 1])
        return self.entry([(b"q", self.filter()), (b"limit", number(limit, self.often(0.2)))])

    def delete(self):
        count = self.rng.choice([0, 1, 1, 1, 2, 3])
        fields = [(b"delete", self.collection()), (b"deletes", array(self.deletion() for _ in range(count)))]
        return fields + self.ordered()

    def updating(self):
        paths = unique_paths(self.indexes())
        if paths and self.often(0.6):
            return self.entry(self.updating_keys(b".".join(self.rng.choice(paths))))
        fields = self.rng.choice(self.documents) if self.documents else []
        others = [field for field in fields if field[0] != b"_id"]
        update = self.same_identity(fields) if self.often(0.05) else self.update([others])
        members = [(b"q", self.filter_along(fields, update)), (b"u", update)]
        is_replacement = update[0] == DOCUMENT and not (update[1] and update[1][0][0].startswith(b"$"))
        members += [(b"multi", boolean(self.often(0.1 if is_replacement else 0.8)))] * self.often(0.6)
        return self.entry(members + [(b"upsert", boolean(self.often(0.2)))] * self.often(0.05))

    def updating_keys(self, path):
        """The fields of a statement that changes keys of a unique index, mostly in several documents. Some new keys are free."""
        numbers = [(path, document([(b"$gte", number(self.rng.randrange(2 * self.reach)))])),
                   (path + b".0", document([(b"$exists", boolean(False))]))]
        name, operand = self.rng.choice([
            *[(b"$inc", number(self.rng.choice([-2, -1, 1, 2, self.reach]), self.often(0.2)))] * 3, (b"$set", self.near(self.path()[1])),
            (b"$set", self.own_key()), (b"$push", self.own_key()), (b"$unset", NOTHING)])
        query = document(numbers) if name == b"$inc" and self.often(0.8) else self.one_of(self.filter, lambda: document([]))
        changes = document([(name, document([(path, operand)]))])
        return [(b"q", query), (b"u", changes), (b"multi", boolean(self.often(0.9)))]

    def same_identity(self, fields):
        """An update that gives a document its own `_id`, or an equal one."""
        own = [(name, self.respelled(value)) for name, value in fields if name == b"_id"]
        return document(self.rng.choice([own, [(b"$set", document(own))], [(b"a", number(1)), *own]]))

    def filter_along(self, fields, update):
        """A filter that matches all documents, this one, or those that have the first path of the update; or any filter."""
        how, (kind, held) = self.rng.randrange(6), update
        if how == 0:
            return document([])
        if how < 3:
            return document([field for field in fields if field[0] == b"_id"])
        if how < 5 and kind == DOCUMENT and held and held[0][1][0] == DOCUMENT and held[0][1][1]:
            return document([(held[0][1][1][0][0], document([(b"$exists", boolean(True))]))])
        return self.filter([fields])

    def update_command(self):
        count = self.rng.choice([0, 1, 1, 1, 2, 3, 5])
        fields = [(b"update", self.collection()), (b"updates", array(self.updating() for _ in range(count)))]
        return fields + self.ordered()

    def aggregate(self):
        fields = [(b"aggregate", self.readable()), (b"pipeline", self.pipeline())]
        fields += [(b"cursor", document([field for field in self.batch(0.6) if field[0] == b"batchSize"]))] * self.often(0.5)
        fields += [(b"allowDiskUse", self.value(3))] * self.often(0.05)
        return fields + [(b"cursor", document([(b"x", number(1))]))] * self.often(0.01)

    def create(self):
        if self.often(0.3):
            return self.view(self.rng.choice([b"v", b"w", *TOWER]))
        name = text(self.rng.choice([b"v", b"v", b"w", b"c", b"d"])) if self.often(0.9) else self.collection()
        others = [(b"viewOn", self.readable()), (b"pipeline", self.pipeline())] * self.often(0.9)
        return [(b"create", name)] + (others if self.often(0.95) else others[:1])

    def drop(self):
        name = self.rng.choice([b"c", b"d", b"d", b"v", b"v", b"w", b"w", *self.standing])
        return [(b"drop", text(name) if self.often(0.9) else self.collection())]

    def create_indexes(self):
        entries = [self.index_entry() for _ in range(self.rng.choice([0, 1, 1, 1, 2, 3]))]
        return [(b"createIndexes", self.collection()), (b"indexes", array(entries))]

    def index_entry(self):
        path = self.rng.choice([b"a", b"a", b"b", b"a.b", b"a.0", b"_id"]) if self.often(0.7) else self.path()[0]
        is_unique = self.often(0.4)
        path = self.path_apart() if is_unique and self.often(0.7) else path
        name = path.replace(b"\0", b"") + b"_1" if self.often(0.9) else self.rng.choice([b"a_1", b"_id_", b"", b"x" * 120, b"x" * 121])
        key = [(path, number(self.rng.choice([1, -1]), self.often(0.2)))]
        if self.often(0.03):
            key = self.rng.choice([[], key + [(b"z", number(1))], [(path, number(2))], [(path, text(b"1"))]])
        fields = [(b"key", document(key)), (b"name", text(name))] + [(b"v", self.value(3))] * self.often(0.1)
        unique = boolean(is_unique) if self.often(0.97) else self.rng.choice([number(is_unique), NOTHING])
        fields += [(b"unique", unique)] * (is_unique or self.often(0.1))
        return self.entry(fields)

    def path_apart(self):
        """A path under which no two documents share a key, if one is found soon."""
        for _ in range(8):
            path = self.rng.choice([b"a", b"b", b"a.b", b"a.0", self.path()[0]] + [b"k"] * (5 * self.has_keys))
            if are_apart(path.split(b"."), self.documents):
                break
        return path

    def drop_indexes(self):
        name = self.rng.choice([b"a_1", b"b_1", b"a.b_1", b"_id_", b"*", b"x"])
        return [(b"dropIndexes", self.collection()), (b"index", text(name) if self.often(0.95) else self.value(3))]

    def explain(self):
        find = self.find()
        if self.often(0.05):
            find = self.rng.choice([find[::-1], [], find + [(b"$db", text(b"t"))], find + [(b"lsid", NOTHING)], find + [(b"x", NOTHING)]])
        held = document(distinct(find)) if self.often(0.97) else self.value(2)
        return [(b"explain", held)] + [(b"verbosity", self.value(3))] * self.often(0.2)

    def view_stats(self):
        """A viewStats, mostly of a view that exists."""
        is_there = self.standing and self.often(0.7)
        return [(b"viewStats", text(self.rng.choice(self.standing)) if is_there else self.collection())]

    def cursor(self):
        """The id of a cursor that exists, existed once or never did, and the collection of that cursor if it exists, else any."""
        kept, latest = self.store.cursors.open, self.store.cursors.last
        own = [one for one in kept if kept[one].session is self.session] or list(kept)
        if own and self.often(0.8):
            one = self.rng.choice(own)
            return number(one, self.often(0.9)), text(kept[one].place.partition(b".")[2])
        return number(self.rng.choice([-1, 0, latest, latest - 1, latest + 1, 2**40]), self.often(0.9)), self.collection()

    def get_more(self):
        if self.often(0.5) and not self.store.cursors.open:
            return self.find()
        identity, collection = self.cursor()
        fields = [(b"getMore", identity if self.often(0.97) else self.value(2)),
                  (b"collection", collection if self.often(0.95) else self.collection())]
        return fields + [(b"batchSize", self.natural())] * self.often(0.5)

    def kill_cursors(self):
        cursors = [self.cursor() for _ in range(self.rng.choice([0, 1, 2, 3]))] + [(self.value(3), NOTHING)] * self.often(0.03)
        collection = cursors[0][1] if cursors and self.often(0.8) else self.collection()
        return [(b"killCursors", collection), (b"cursors", array(identity for identity, _ in cursors))]

    def changed(self, fields):
        place = self.rng.randrange(len(fields))
        name = self.rng.choice([b"sort", b"limit", b"upsert", b"ordered", b"documents", b"filter", b"$db", b"PING", b"count",
                                b"skip", b"deletes", b"updates", b"hint", b"\xff", *IGNORED])
        how = self.rng.randrange(5)
        if how == 0:
            fields.insert(place + 1, (name, self.value()))
        elif how == 1:
            fields[place] = (fields[place][0], self.broken() if self.often(0.3) else self.value())
        elif how == 2:
            del fields[place]
        elif how == 3:
            fields[place] = (name, fields[place][1])
        else:
            self.rng.shuffle(fields)
        return fields
