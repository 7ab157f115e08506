"""Random writes and reads of two collections, orders and shelves, and the views over them.

A size multiplies the numbers of documents in BOUNDS, and with them those of shelves, tags, numbers and slips. So a group, what a
`$lookup` finds and what a range of an index finds have a few hundred rows at most, however many documents there are: a write to a
group under `$push` takes time for all its rows, and the row of all documents could be larger than a document may be. The few orders
without a shelf are one group, and their number stays the same too.
"""
import random

SHELVES = 40
LARGEST = 1_000  # number in an order
TAGS = 12
# How many documents each collection has at least and at most, except for a moment after a drop.
BOUNDS = {"orders": (400, 700), "shelves": (15, 35)}
INDEXES = {"orders": ["n", "tags", "slip"], "shelves": ["floor"]}
UNIQUE = "slip"  # the index that is unique
SLIPS = 2_000


def joined(source, local, foreign, name):
    return {"$lookup": {"from": source, "localField": local, "foreignField": foreign, "as": name}}


def views_of(size):
    """For each view the collection or the view that it is over, and its pipeline."""
    return {
        "dear": ("orders", [{"$match": {"n": {"$gte": size * LARGEST // 2}}}, {"$project": {"n": 1, "place": "$shelf"}}]),
        "tagged": ("orders", [{"$unwind": "$tags"}]),
        "first": ("orders", [{"$sort": {"n": -1}}, {"$limit": 20}]),
        "by_shelf": ("orders", [{"$group": {"_id": "$shelf", "orders": {"$sum": 1}, "sum": {"$sum": "$n"}, "least": {"$min": "$n"},
                                            "most": {"$max": "$n"}, "all": {"$push": "$_id"}}}]),
        "together": ("orders", [{"$match": {"n": {"$lt": LARGEST}}}, {"$group": {"_id": None, "all": {"$push": "$n"}}}]),
        "with_shelf": ("orders", [joined("shelves", "shelf", "_id", "at")]),
        "with_orders": ("shelves", [joined("orders", "_id", "shelf", "orders"), {"$project": {"orders": "$orders._id"}}]),
        "pairs": ("orders", [joined("orders", "next", "_id", "next")]),
        "chain": ("orders", [{"$unwind": "$tags"}, {"$group": {"_id": "$tags", "n": {"$sum": "$n"}}}, {"$sort": {"n": -1}},
                             {"$limit": 5}, joined("orders", "_id", "tags", "orders"), {"$project": {"orders": "$orders._id"}}]),
        "crowded": ("by_shelf", [{"$match": {"orders": {"$gte": 10}}}, {"$sort": {"sum": -1}}]),
        "shelf_sums": ("shelves", [joined("crowded", "_id", "_id", "row"), {"$project": {"sum": "$row.sum", "floor": 1}}]),
        "floor_sums": ("shelf_sums", [{"$unwind": "$sum"}, {"$group": {"_id": "$floor", "sum": {"$sum": "$sum"}}}]),
        "all_together": ("together", [{"$unwind": "$all"}, {"$limit": 5}]),
    }


# The views that others read.
READ = views_of(1).keys() & {name for source, stages in views_of(1).values()
                             for name in [source, *(stage["$lookup"]["from"] for stage in stages if "$lookup" in stage)]}


class Orders:
    """Makes commands, and keeps how many documents each collection has."""

    def __init__(self, seed, size=1):
        self.rng, self.size, self.counts = random.Random(seed), size, dict.fromkeys(BOUNDS, 0)
        self.bounds = {name: (size * least, size * most) for name, (least, most) in BOUNDS.items()}
        self.views = views_of(size)

    def often(self, share):
        return self.rng.random() < share

    def identity(self, collection):
        """An `_id` that some document may have: there are twice as many of these as documents."""
        return self.rng.randrange(2 * self.bounds[collection][1])

    def document(self, collection):
        fields = {"_id": self.identity(collection), "note": "x" * self.rng.randrange(200)}
        return {**fields, "floor": self.rng.randrange(5)} if collection == "shelves" else {**fields, **self.order()}

    def order(self):
        fields = {"n": self.number(), "next": self.identity("orders"), UNIQUE: self.slip(),
                  "tags": [self.tag() for _ in range(self.rng.randrange(5))]}
        return fields if self.often(0.03 / self.size) else {**fields, "shelf": self.shelf()}

    def number(self):
        return self.rng.randrange(self.size * LARGEST)

    def slip(self):
        return self.rng.randrange(self.size * SLIPS)

    def tag(self):
        return "tag%d" % self.rng.randrange(self.size * TAGS)

    def shelf(self):
        if self.often(0.025 / self.size):
            return None
        places = [self.rng.randrange(self.size * SHELVES) for _ in range(3)]
        return places if self.often(0.025) else places[0]

    def query(self, collection):
        """A query for one document by its `_id`, mostly, or for a few by an index."""
        if collection == "shelves" or self.often(0.9):
            return {"_id": self.identity(collection)}
        return self.query_by_index()

    def query_by_index(self):
        least = self.number()
        return self.rng.choice([{"n": {"$gte": least, "$lt": least + 10}}, {"n": least},
                                {UNIQUE: {"$gte": 2 * least, "$lt": 2 * least + 20}},
                                {"tags": self.tag(), "n": {"$gt": self.size * (LARGEST - 200)}}])

    def change(self, collection):
        """An update's `u`; in some cases a replacement."""
        if self.often(0.1):
            return {name: one for name, one in self.document(collection).items() if name != "_id"}
        if collection == "shelves":
            return {"$set": {"floor": self.rng.randrange(5)}}
        tag = self.tag()
        return self.rng.choice([
            {"$set": {"n": self.number()}}, {"$set": {"shelf": self.shelf()}}, {"$set": {"tags": [tag]}},
            {"$inc": {"n": self.rng.choice([-1, 1])}}, {"$push": {"tags": tag}}, {"$pull": {"tags": tag}},
            {"$set": {"next": self.identity("orders"), "note": "y" * self.rng.randrange(200)}},
            {"$set": {UNIQUE: self.slip()}}, {"$inc": {UNIQUE: self.rng.choice([-1, 1])}},
        ] + [{"$unset": {"shelf": 1}}] * self.often(0.2 / self.size))

    def write(self):
        """The collection of a write, and its command."""
        collection = "orders" if self.often(0.85) else "shelves"
        least, most = self.bounds[collection]
        if self.counts[collection] < least:
            return collection, self.insert(collection, (least + most) // 2 - self.counts[collection])
        if self.counts[collection] > most:
            return collection, self.delete(collection)
        made = self.rng.choice([self.insert, self.delete, self.delete, self.update, self.update, self.update])
        return collection, made(collection)

    def insert(self, collection, count=0):
        """The documents count as stored at once, so that no other client inserts documents because these are missing."""
        documents = [self.document(collection) for _ in range(count or self.rng.choice([1, 1, 1, 2, 5]))]
        self.counts[collection] += len(documents)
        return {"insert": collection, "documents": documents, "ordered": False}

    def delete(self, collection):
        return {"delete": collection, "deletes": [{"q": self.query(collection), "limit": self.rng.randrange(2)}]}

    def update(self, collection):
        entry = {"q": self.query(collection), "u": self.change(collection)}
        is_replacement = not any(name.startswith("$") for name in entry["u"])
        return {"update": collection, "updates": [entry if is_replacement else {**entry, "multi": True}]}

    def written(self, collection, command, reply):
        """Counts what a write has done to its collection."""
        if "insert" in command:
            self.counts[collection] -= len(command["documents"]) - reply["n"]
        elif "delete" in command:
            self.counts[collection] -= reply["n"]

    def dropped(self, collection):
        self.counts[collection] = 0

    def read(self):
        """A find or an aggregate, whose result may be longer than its first batch."""
        batch = {"batchSize": self.rng.choice([0, 1, 10, 101])}
        if self.often(0.5):
            return {"find": self.rng.choice(list(self.views)), **batch}
        if self.often(0.5):
            return {"find": "orders", "filter": self.query_by_index(), "sort": {"next": -1}, **batch}
        source, pipeline = self.rng.choice(list(self.views.values()))
        return {"aggregate": source, "pipeline": pipeline, "cursor": batch}

    def making(self, view):
        """The command that makes a view."""
        source, pipeline = self.views[view]
        return {"create": view, "viewOn": source, "pipeline": pipeline}


def indexing(collection):
    """The command that makes a collection's indexes."""
    entries = [{"key": {path: 1}, "name": path, "unique": path == UNIQUE} for path in INDEXES[collection]]
    return {"createIndexes": collection, "indexes": entries}

