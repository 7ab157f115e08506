"""What a machine holds: collections, views and cursors."""
import bisect
from functools import cache

from model.cursors import Cursors
from model.indexes import ON_ID
from model.namespaces import joined
from model.pipelines import rows_of
from model.work import through


class Collection:
    """Documents in the ascending order of the keys of their `_id`s, and its indexes in the order in which they were
    made."""

    def __init__(self):
        self.keys, self.documents, self.indexes = [], [], [ON_ID]

    def has(self, wanted):
        at = bisect.bisect_left(self.keys, wanted)
        return at < len(self.keys) and self.keys[at] == wanted

    def change(self, wanted, document):
        """Stores the document under its key, or removes the one there if it is None."""
        at = bisect.bisect_left(self.keys, wanted)
        end = at + self.has(wanted)
        self.keys[at:end] = [] if document is None else [wanted]
        self.documents[at:end] = [] if document is None else [document]

    def placed(self):
        """The documents at their positions."""
        return [((wanted,), document) for wanted, document in zip(self.keys, self.documents)]


class Store:
    """The collections and views by namespace, and the cursors. Of views, a view reads only older ones."""

    def __init__(self):
        self.collections, self.views, self.cursors = {}, {}, Cursors()

    def collection(self, place):
        """The collection under a namespace; if it isn't there, an empty one."""
        return self.collections.get(place, Collection())

    def rows(self, place):
        """The documents of a collection or the rows of a view; none under any other name."""
        self.refresh(place)
        return self.reader()(place)

    def reader(self):
        """A function that returns the rows under a namespace if no view that it needs is stale. A view's rows are computed once."""
        @cache
        def rows(place):
            if place not in self.views:
                return list(self.collection(place).documents)
            view = self.views[place]
            return rows_of(view.functions, rows(view.reads[0]), lambda name: rows(joined(place.split(b".")[0], name)))
        return rows

    def placer(self):
        """A function that returns the same rows at positions if each view that it needs is live."""
        @cache
        def placed(place):
            if place not in self.views:
                return self.collection(place).placed()
            view = self.views[place]
            return through(view.stages, map(placed, view.reads))
        return placed

    def refresh(self, place):
        """Recomputes the view under a namespace if it is stale, after the views that it reads."""
        view = self.views.get(place)
        if view and not view.is_live:
            for name in view.reads:
                self.refresh(name)
            view.refresh()

    def is_read(self, place):
        """Whether a view reads the collection or view under a namespace."""
        return any(place in view.reads for view in self.views.values())

    def height(self, place):
        """The height of the view under a namespace; 0 if there is no view."""
        return self.views[place].height if place in self.views else 0

    def empty(self, place):
        """Removes the documents of a collection, if one is there, in their order."""
        self.change(place, [(*position, None) for position, _ in self.collection(place).placed()])

    def change(self, place, changes):
        """Makes the changes of a collection. Each goes through all views before the next one."""
        for wanted, document in changes:
            self.tell(place, ((wanted,), document))
            self.collections.setdefault(place, Collection()).change(wanted, document)

    def tell(self, place, change):
        """Passes a change to the views over a namespace, in the order in which they were created. What a view passes on of it
        arrives at those that read the view."""
        told, look = {place: [change]}, self.placer()
        for name, view in self.views.items():
            if any(other in told for other in view.reads):
                told[name] = view.take([told.get(other, []) for other in view.reads], look)
