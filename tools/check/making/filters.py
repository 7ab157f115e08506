"""Random paths, filters and sorts."""
from making.values import Values, distinct
from model.paths import whole
from model.values import ARRAY, DOCUMENT, NUMBERS
from spelled import array, boolean, document, number, text


class Paths(Values):
    """Makes paths, filters and sorts that fit the documents."""

    def walked(self, among):
        """A path that leads through one of the documents, and the value at its end."""
        components, value = [], document(self.rng.choice(among) if among else [])
        while not components or self.often(0.4 if value[0] == ARRAY else 0.6):
            kind, held = value
            if kind not in (DOCUMENT, ARRAY) or not held:
                break
            if kind == DOCUMENT:
                name, value = self.rng.choice(held)
                components.append(name)
                continue
            place = self.rng.randrange(len(held))
            value = held[place]
            if self.often(0.4 if value[0] == DOCUMENT and value[1] else 0.85):
                components.append(b"%d" % place)
        return components, value

    def path(self, among=None):
        """A path, as a text, and the value at its end in some document."""
        components, value = self.walked(self.documents if among is None else among)
        if not components or self.often(0.04):
            components = [self.name() for _ in range(self.rng.randint(1, 3))]
        if self.often(0.08):
            place = self.rng.randrange(len(components) + 1)
            components[place:place + self.rng.randrange(2)] = [self.component()]
        if self.often(0.005):
            return self.rng.choice([b"", b".", b"a.", b".a", b"a..b"]), value
        return b".".join(components), value

    def component(self):
        usual = [b"0", b"1", b"2", b"3", b"a", b"b"]
        return self.rng.choice(usual * 3 + [b"00", b"01", b"-1", b"9999999999", b"10000000000", b"4294967296", b"_id"])

    def filter(self, among=None, depth=0):
        among = self.documents if among is None else among
        among, members = among and [self.rng.choice(among)], []
        for _ in range(self.rng.choice([0, 1, 1, 1, 1, 1, 1, 1, 1, 2, 2, 3])):
            if depth < 3 and self.often(0.12):
                members.append(self.logic(among, depth))
            elif self.often(0.08):
                members.append(self.bounds(b"_id"))
            else:
                path, value = self.path(among)
                members.append((path, self.condition(value, depth)))
        if self.often(0.006):
            members.append((self.rng.choice([b"$where", b"$or", b"", b"$eq"]), self.value(2)))
        return document(distinct(members))

    def logic(self, among, depth):
        filters = [self.filter(among, depth + 1) for _ in range(self.rng.randint(1, 3))]
        if self.often(0.03):
            filters = self.rng.choice([[], filters + [self.number()]])
        return self.rng.choice([b"$and", b"$or", b"$nor"]), array(filters)

    def condition(self, value, depth):
        return self.near(value) if self.often(0.3) else self.operators(value, depth)

    def bounds(self, path):
        """One bound or two on the values of a path: near a value that a document has there, or of any class."""
        held = [one for fields in self.documents[:20] for one in whole((DOCUMENT, fields), path.split(b".")) if one]
        low, high = ((self.rng.choice(names), self.near(self.rng.choice(held)) if held and self.often(0.6) else self.identity())
                     for names in [(b"$gt", b"$gte"), (b"$lt", b"$lte")])
        return path, document(self.rng.choice([[low], [high], [low, high], [high, low]]))

    def operators(self, value, depth):
        members = [self.operator(value, depth) for _ in range(self.rng.choice([1, 1, 1, 1, 1, 1, 2, 2, 3]))]
        if self.often(0.006):
            members.append((self.rng.choice([b"$type", b"a", b"$", b"$and"]), self.value(2)))
        return document(distinct(members))

    def operator(self, value, depth):
        names = [b"$eq", b"$ne", b"$gt", b"$gte", b"$lt", b"$lte", b"$in", b"$in", b"$nin", b"$not", b"$all", b"$exists"]
        name = self.rng.choice(names + [b"$size", b"$elemMatch"] * (5 if value[0] == ARRAY else 1))
        if self.often(0.008):
            return name, self.value(2)
        if name in (b"$in", b"$nin", b"$all"):
            return name, self.list_near(value, name != b"$all")
        if name == b"$exists":
            return name, boolean(self.often(0.7)) if self.often(0.7) else number(self.rng.randrange(3), self.often(0.3))
        if name == b"$size":
            inner = [value, *(value[1] if value[0] == ARRAY else [])]
            count = self.rng.choice([len(held) for kind, held in inner if kind == ARRAY] or [1])
            return name, number(count + self.rng.choice([0, 0, 0, 0, 0, 1, -1]), self.often(0.3))
        if name == b"$not":
            return name, self.operators(value, depth + 1) if depth < 4 else document([(b"$eq", value)])
        if name == b"$elemMatch":
            return name, self.element_test(value, depth)
        if value[0] in NUMBERS and self.often(0.5):
            step = {b"$gt": -1, b"$lt": 1}.get(name, 0) * self.rng.randrange(3)
            return name, number(max(-2**63, min(2**63 - 1, value[1] + step)), self.often(0.5))
        return name, self.near(value)

    def list_near(self, value, may_be_long):
        if may_be_long and self.often(0.04):
            members = [number(self.rng.randint(-10**4, 10**4), self.often(0.3)) for _ in range(self.rng.randint(50, 1_000))]
            members.insert(self.rng.randint(0, len(members)), self.near(value))
            return array(members)
        if not may_be_long and self.often(0.02):
            return array([document([(self.rng.choice([b"$eq", b"$elemMatch", b"$x"]), value)])])
        members = value[1] if value[0] == ARRAY and value[1] and self.often(0.7) else [value]
        counts = [1, 1, 2, 2, 3, 5, 0] if may_be_long else [1, 1, 1, 1, 2, 2, 0]
        return array(self.near(self.rng.choice(members)) for _ in range(self.rng.choice(counts)))

    def element_test(self, value, depth):
        elements = value[1] if value[0] == ARRAY and value[1] else [value]
        element = self.rng.choice(elements)
        if depth > 4:
            return document([])
        if element[0] == DOCUMENT and self.often(0.7):
            return self.filter([element[1]], depth + 1)
        return self.operators(element, depth + 1)

    def sort(self):
        paths = [b"_id"] * self.often(0.1) + [self.path()[0] for _ in range(self.rng.choice([1, 1, 2, 3]))]
        if self.often(0.02):
            paths = [b"n%d" % place for place in range(self.rng.choice([0, 32, 33]))]
        fields = [(path, number(self.rng.choice([1, -1]), self.often(0.2))) for path in paths]
        if self.often(0.04):
            fields.append((b"z", self.rng.choice([number(0), number(2), boolean(True), text(b"1"), number(-1, True)])))
        return document(distinct(fields))
