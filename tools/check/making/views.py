"""Random views whose stages have something to do in most writes, and views over views."""
from making.pipelines import Pipelines
from making.values import distinct
from model.pipelines import pipeline_of, rows_of
from model.refusals import Refusal
from model.values import ARRAY
from spelled import array, boolean, document, text

# The stages of views: each kind before and after others.
CHAINS = [line.split() for line in """
    $group
    $lookup
    $unwind
    $match
    $match $limit
    $project $match
    $match $sort $limit
    $sort $limit $group
    $unwind $group
    $unwind $sort $limit
    $unwind $unwind
    $group $sort $limit
    $group $match $project
    $group $group
    $group $lookup
    $unwind $group $lookup
    $lookup $unwind
    $lookup $group
    $lookup $lookup
    $lookup $project $sort
    $lookup $sort $limit
    $limit $lookup
    $sort $unwind $group $project
    $match $lookup $unwind $group $sort $limit
""".strip().splitlines()]
# The stages of views in towers, which have to leave rows for the next views. From the fourth view on, hardly any row is left out.
FEW = [line.split() for line in """
    $match
    $sort
    $sort $limit
    $project
    $unwind
    $group
    $lookup
    $unwind $group
""".strip().splitlines()] + [[], []]
HARDLY = [[], [], ["$sort"], ["$sort"], ["$project"], ["$match"], ["$lookup"]]
MOST_ROWS = 20  # that a stage is made to fit
TOWER = [b"v%d" % place for place in range(1, 10)]


class Views(Pipelines):
    """Makes views."""

    def view(self, name, chains=CHAINS, source=None, others=()):
        """A command that creates a view with one of these chains of stages, after lookups into some others. If no source is named,
        it is mostly the collection `c`."""
        source = source or self.rng.choice([b"c"] * 9 + [b"d"] + self.standing[-3:])
        return [(b"create", text(name)), (b"viewOn", text(source)), (b"pipeline", array(self.chain(chains, source, others)))]

    def chain(self, chains, source, others):
        """Stages, each of which is made to fit the rows that those before it return."""
        stages, rows = [], self.rows_under(source)
        for name in [*others, *self.rng.choice(chains)]:
            self.along = rows or None
            stages.append(self.kept_stage(name, source))
            rows = self.rows_behind(stages[-1], rows)
        self.along = None
        return stages

    def rows_under(self, name):
        """The rows of a view, or documents if the name is not a view's."""
        return (self.store.reader()(b"t." + name) if name in self.standing else self.documents)[:MOST_ROWS]

    def kept_stage(self, name, source):
        """A stage for a view over a source: of the kind `name`, or, if `name` is bytes, a lookup into what has this name."""
        if isinstance(name, bytes):
            return document([(b"$lookup", self.lookup_of_equals(name))])
        if name == "$lookup":
            others = [b"c", b"c", b"d", *self.standing[-3:], source]
            return document([(b"$lookup", self.lookup_of_equals(self.rng.choice(others)))])
        return document([(b"$unwind", self.unwinding_arrays())]) if name == "$unwind" else self.stage(name.encode())

    def unwinding_arrays(self):
        path = text(b"$" + self.path_to([ARRAY], self.documents)[0])
        preserving = b"preserveNullAndEmptyArrays", boolean(self.often(0.5))
        return document([(b"path", path), preserving]) if self.often(0.4) else path

    def lookup_of_equals(self, name):
        """A lookup by a path that both sides have, mostly."""
        local, foreign = self.path()[0], self.path(self.rows_under(name))[0]
        fields = [(b"from", text(name)), (b"localField", text(local)),
                  (b"foreignField", text(self.rng.choice([local, local, b"_id", foreign]))),
                  (b"as", text(self.rng.choice([b"o", b"o", b"p", b"a"])))]
        return document(distinct(fields))

    def rows_behind(self, stage, rows):
        """The rows that a stage makes of rows; none if the stage is refused."""
        try:
            functions, _ = pipeline_of([stage])
        except Refusal:
            return []
        look = self.store.reader()
        return rows_of(functions, rows, lambda name: look(b"t." + name))[:MOST_ROWS]

    # Views over views: for each view, the place of the view that it is over, and the places of those that it looks into first. None
    # is the collection.

    def tower(self):
        """One of these: a chain of views, up to the greatest height and past it; views that are over any of the three before them,
        and may look into one too; two views of one collection, one that joins them, and one on top; views that each read the one
        before twice."""
        count = self.rng.choice([2, 3, 4, 7, 8, 9, 9])
        chain = [(place - 1 if place else None, []) for place in range(count)]
        mixed = [(self.below(place), [self.below(place) for _ in range(self.rng.choice([0, 0, 1]))]) for place in range(count)]
        joined = [(None, []), (None, []), (0, [1]), (2, [])]
        return self.rng.choice([chain, chain, mixed, joined, [(None, []), (0, [0]), (1, [1])]])

    def below(self, place):
        return self.rng.choice([None, *range(place)[-3:]])

    def of_tower(self, place, below):
        """A command that creates the view at a place of a tower."""
        over, looked_into = below
        source, *others = [b"c" if one is None else TOWER[one] for one in [over, *looked_into]]
        return self.view(TOWER[place], FEW if place < 3 else HARDLY, source, others)
