"""Random pipelines."""
from making.updates import Updates
from making.values import distinct
from spelled import NOTHING, array, boolean, document, number, text


class Pipelines(Updates):
    """Makes pipelines."""

    def pipeline(self):
        names = [b"$match", b"$project", b"$project", b"$unwind", b"$sort", b"$limit"] + [b"$group", b"$lookup"] * 2
        stages = [self.stage(self.rng.choice(names)) for _ in range(self.rng.choice([0, 1, 1, 2, 2, 3, 4]))]
        if self.often(0.03):
            stages.insert(self.rng.randint(0, len(stages)), self.rng.choice([
                self.number(), document([]), document([(b"$skip", number(1))]), document([(b"$group", document([]))]),
                document([(b"$limit", number(1)), (b"$sort", number(1))])]))
        if self.often(0.01):
            stages += [document([(b"$limit", number(7))])] * 16
        return array(stages)

    def stage(self, name):
        makers = {b"$match": self.filter, b"$project": self.projection, b"$unwind": self.unwinding, b"$sort": self.sort,
                  b"$group": self.grouping, b"$lookup": self.lookup}
        if name == b"$limit":
            operand = number(self.rng.choice([1, 2, 3, 5, 10**10, 0, -1] if self.often(0.1) else [1, 2, 3, 5]))
        else:
            operand = makers[name]()
        return document([(name, self.value(2) if self.often(0.02) else operand)])

    def field_path(self):
        if self.often(0.02):
            return text(self.rng.choice([b"$", b"$$a", b"$a.", b"a", b"$a..b"]))
        return text(b"$" + self.path()[0])

    def expression(self, depth=0):
        how = self.rng.randrange(10)
        if how < 6 or depth > 3:
            return self.field_path()
        if how == 6:
            return document([(b"$literal", self.value(2))])
        if how < 9:
            return document(distinct([(self.name(), self.expression(depth + 1)) for _ in range(self.rng.randrange(3))]))
        return self.value(2)

    def projection(self):
        """A projection, mostly a valid one, of inclusions and expressions or of exclusions."""
        excludes, fields = self.often(0.3), []
        for _ in range(self.rng.randint(1, 4)):
            if not excludes and self.often(0.35):
                fields.append((self.name(), self.expression()))
            else:
                flag = boolean(not excludes) if self.often(0.5) else number(0 if excludes else self.rng.choice([1, -3]))
                fields.append((self.path()[0], flag))
        if self.often(0.3):
            identity = self.rng.choice([number(0), number(0), boolean(False), number(1), self.expression()])
            fields.insert(self.rng.randint(0, len(fields)), (b"_id", identity))
        if self.often(0.02):
            fields.append((self.path()[0], self.rng.choice([number(0), number(1), document([(b"a", number(1))])])))
        return document(distinct(fields))

    def unwinding(self):
        path = self.field_path()
        if self.often(0.5):
            return path
        options = [(b"path", path), (b"preserveNullAndEmptyArrays", boolean(self.often(0.7)))]
        if self.often(0.05):
            options = self.rng.choice([options[1:], options[:1], [*options, (b"x", number(1))], [options[0], (options[1][0], NOTHING)]])
        return document(options)

    def grouping(self):
        fields = [(b"_id", self.expression() if self.often(0.6) else NOTHING)]
        for _ in range(self.rng.randrange(4)):
            accumulator = self.rng.choice([b"$sum", b"$min", b"$max", b"$push"])
            operand = self.one_of(self.number, self.field_path, self.field_path, self.field_path, self.expression,
                                  lambda: number(self.rng.choice([1, 2**31 - 1, 2**63 - 1, -2**63])))
            fields.append((self.name(), document([(accumulator, operand)])))
        if self.often(0.03):
            fields = fields[1:] + [(b"z", self.rng.choice([document([]), document([(b"$avg", number(1))]), number(1)]))]
        return document(distinct(fields))

    def lookup(self):
        names = [b"c", b"c", b"d", b"c.d", b"none", b"v", b"x" * 130, *self.standing[-3:]]
        fields = [(b"from", text(self.rng.choice(names))),
                  (b"localField", text(self.path()[0])), (b"foreignField", text(self.path()[0])),
                  (b"as", text(self.rng.choice([b"o", b"o", b"a", b"", b"_id"])))]
        if self.often(0.04):
            place = self.rng.randrange(len(fields))
            fields[place] = self.rng.choice([(fields[place][0], self.value(3)), (b"let", document([])),
                                             (fields[place][0], text(self.rng.choice([b"$x", b"", b"a.b", b"a\0"])))])
        return document(distinct(fields))
