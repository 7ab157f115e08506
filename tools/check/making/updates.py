"""Random updates."""
from making.filters import Paths
from making.values import distinct
from model.values import ARRAY, NUMBERS
from spelled import array, document, number


class Updates(Paths):
    """Makes updates that fit one of the documents without its `_id`."""

    def update(self, among):
        if self.often(0.03):
            return self.one_of(self.value, lambda: array([self.operators_along(among)]), lambda: document([]))
        return self.replacement() if self.often(0.15) else self.operators_along(among)

    def replacement(self):
        fields = self.fields(self.rng.randrange(4), 1)
        if self.often(0.3):
            fields.insert(self.rng.randint(0, len(fields)), (b"_id", self.identity()))
        return document(fields)

    def operators_along(self, among):
        names = self.rng.sample([b"$set", b"$set", b"$unset", b"$inc", b"$push", b"$pull"], self.rng.choice([1, 1, 1, 1, 2, 3]))
        members = [(name, self.operations(name, among)) for name in names]
        if self.often(0.02):
            members.append((self.rng.choice([b"$rename", b"a", b"$set", b"$pull"]), self.value(2)))
        return document(distinct(members))

    def operations(self, name, among):
        if self.often(0.06):
            # Several new fields or elements, which are added in the order of the paths.
            front, names = self.path(among)[0], [b"2", b"10", b"b", b"a", b"01", b"1", b"3"]
            return document([(front + b"." + one, self.number()) for one in self.rng.sample(names, 4)])
        count = self.rng.choice([0, 1, 1, 1, 1, 1, 1, 2, 3])
        return document(distinct([self.operation(name, among) for _ in range(count)]))

    def operation(self, name, among):
        path, value = self.path_to({b"$inc": NUMBERS, b"$push": [ARRAY], b"$pull": [ARRAY]}.get(name), among)
        if self.often(0.05):
            path = self.rng.choice([path + b".9", path + b".a", b"_id", b"_id.a", b"a.$", b"a.$b.c", b"$x"])
        if self.often(0.03):
            # Beyond the ends of arrays, at the limits.
            path += b"." + self.rng.choice([b"12", b"100001", b"9999999999", b"10000000000"])
        if self.often(0.01):
            # Deep, as deep as a document may be, or deeper.
            return b".".join([b"d"] * self.rng.randint(96, 101)), self.number()
        return path, self.operand(name, value)

    def path_to(self, kinds, among):
        """A path that leads to a value of one of these types, if one is found soon."""
        found = self.path(among)
        for _ in range(5):
            if not kinds or found[1][0] in kinds:
                break
            found = self.path(among)
        return found

    def operand(self, name, value):
        if name == b"$inc":
            return self.number() if self.often(0.97) else self.value(2)
        if name == b"$push":
            return self.pushed(value)
        if name == b"$pull":
            element = self.rng.choice(value[1]) if value[0] == ARRAY and value[1] else value
            return self.near(element) if self.often(0.5) else self.element_test(value, 1)
        return self.near(value) if self.often(0.97) else self.nested()

    def pushed(self, value):
        new = self.near(value)
        if self.often(0.6):
            return new
        each = [(b"$each", array(self.near(value) for _ in range(self.rng.randrange(4))))]
        if self.often(0.9):
            return document(each)
        return document(self.rng.choice([[(b"$each", new)], each + [(b"$slice", number(1))], [(b"$sort", number(1))],
                                         [(b"a", number(1))] + each]))
