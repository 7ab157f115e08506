"""Random requests of a day's traffic over many orders and shelves, and the views over them."""
from making.orders import BOUNDS, INDEXES, Orders, SLIPS, UNIQUE, joined

A_FILLING = 500  # documents in an insert before the traffic
A_PAGE = 30  # documents
A_SPAN = 20  # `_id`s, of which about a third have a document
MIDDLES = {name: (least + most) // 2 for name, (least, most) in BOUNDS.items()}
IN_ORDER = ["orders", "dear", "with_shelf", "pairs"]  # whose rows have an order's `_id`, and are read page by page
KEYED = {name: "orders" for name in IN_ORDER[1:]} | {name: "shelves" for name in ("with_orders", "shelf_sums")}


class Requests(Orders):
    """Makes commands over `documents` orders, and shelves for them. Their numbers stay about the same."""

    def __init__(self, seed, documents):
        super().__init__(seed, max(documents // MIDDLES["orders"], 1))
        self.wanted = {name: documents * middle // MIDDLES["orders"] for name, middle in MIDDLES.items()}

    def filling(self, collection):
        """The inserts before the traffic. None of their documents is refused: no `_id` is there twice, and no slip."""
        count = self.wanted[collection]
        own = {"_id": iter(self.rng.sample(range(2 * self.bounds[collection][1]), count))}
        if UNIQUE in INDEXES[collection]:
            own[UNIQUE] = iter(self.rng.sample(range(self.size * SLIPS), count))
        for start in range(0, count, A_FILLING):
            documents = [{**self.document(collection), **{name: next(one) for name, one in own.items()}}
                         for _ in range(min(A_FILLING, count - start))]
            self.counts[collection] += len(documents)
            yield {"insert": collection, "documents": documents, "ordered": False}

    def write(self):
        collection = "orders" if self.often(0.85) else "shelves"
        moving = self.insert if self.counts[collection] < self.wanted[collection] else self.delete
        return collection, self.rng.choice([moving, self.update])(collection)

    def page(self, name, last):
        """A find of the next page of orders or of a view's rows, after an `_id`."""
        return {"find": name, "filter": {"_id": {"$gt": last}}, "limit": A_PAGE}

    def by_key(self):
        """A find of a view's row."""
        if self.often(0.2):
            return {"find": "by_shelf", "filter": {"_id": self.shelf()}}
        if self.often(0.1):
            return {"find": self.rng.choice(["floor_sums", "together"])}
        view, collection = self.rng.choice(list(KEYED.items()))
        return {"find": view, "filter": {"_id": self.identity(collection)}}

    def pairs(self):
        """Finds of a few rows by `_id`, each with its view and the aggregate that gives the same rows."""
        while True:
            view, least = self.rng.choice(IN_ORDER[1:]), self.identity("orders")
            source, pipeline = self.views[view]
            query = {"_id": {"$gte": least, "$lt": least + A_SPAN}}
            yield view, {"find": view, "filter": query}, {
                "aggregate": source, "pipeline": [{"$match": query}, *pipeline], "cursor": {}}

    def aggregate(self):
        """A pipeline over a few orders, by an index, or over some rows of a view."""
        least = self.identity("orders")
        near = [{"$match": {"_id": {"$gte": least}}}, {"$limit": A_SPAN}]
        source, pipeline = self.rng.choice([
            ("orders", [{"$match": self.query_by_index()}, {"$sort": {"next": -1}}]),
            ("orders", [{"$match": self.query_by_index()}, {"$group": {"_id": "$shelf", "sum": {"$sum": "$n"}}}]),
            ("orders", [*near, {"$unwind": "$tags"}, {"$group": {"_id": "$tags", "all": {"$push": "$_id"}}}]),
            ("orders", [*near, joined("shelves", "shelf", "_id", "at")]),
            ("with_shelf", [*near, {"$project": {"floor": "$at.floor"}}]),
        ])
        return {"aggregate": source, "pipeline": pipeline, "cursor": {}}
