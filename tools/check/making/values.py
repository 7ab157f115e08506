"""Random values and documents."""
from model.store import Store
from model.values import (ARRAY, BINARY, BOOLEAN, DATETIME, DOCUMENT, MAX_KEY, MIN_KEY, NULL, NUMBERS, OBJECT_ID, TEXT,
                          TIMESTAMP)
from spelled import Broken, NOTHING, array, boolean, document, number, spelled, text


def distinct(fields):
    """The fields, each name once: the first value of a name stays, in the place of the last."""
    return list({name: (name, value) for name, value in reversed(fields)}.values())[::-1]


class Values:
    """Makes values and documents."""

    def __init__(self, rng):
        self.rng, self.store, self.made, self.along = rng, Store(), [], None
        self.reach = rng.choice([10, 40, 500])  # the greatest of the usual numbers
        self.has_keys = self.often(0.3)  # whether documents have a field `k` that differs in most of them

    @property
    def documents(self):
        """The documents that paths lead through: rows if these are given, else the stored documents, else those that were made."""
        collection = self.store.collections.get(b"t.c")
        return self.along or collection and collection.documents or self.made

    @property
    def standing(self):
        """The names of the views that exist, in the order in which they were created."""
        return [place.partition(b".")[2] for place in self.store.views if place.startswith(b"t.")]

    def often(self, share):
        return self.rng.random() < share

    def one_of(self, *makers):
        return self.rng.choice(makers)()

    def number(self):
        edges = (-2**31, 2**31 - 1) if self.often(0.5) else (-2**63, -2**31 - 1, 2**31, 2**63 - 1)
        value = self.rng.choice(edges) if self.often(0.1) else self.rng.randint(-3, self.reach)
        return number(value, self.often(0.4))

    def text(self):
        return text(self.rng.choice([b"", b"a", b"b", b"ab", b"a\0b", "é".encode(), "😀".encode(), b"x" * 300]))

    def name(self):
        if self.often(0.008):
            return self.rng.choice([b"a.b", b".", b"$x", b"$", b""])
        return self.rng.choice([b"a", b"a", b"a", b"b", b"b", b"c", b"x$", b"0", b"1", "é".encode(), b"_ID", b"name" * 20])

    def other(self):
        """A value of a rarer type. There are few of each, so that many are equal or next to each other."""
        small = self.rng.choice([-2**63, -1, 0, 1, 2**63 - 1])
        data = self.rng.choice([b"", b"a", b"b", b"aa", b"ab", b"\0"])
        return self.rng.choice([
            NOTHING, NOTHING, (MIN_KEY, None), (MAX_KEY, None), (DATETIME, small), (TIMESTAMP, small % 2**64),
            (OBJECT_ID, bytes([self.rng.randrange(3)]) * 12), (BINARY, (self.rng.choice([0, 1, 2, 128, 255]), data)),
        ])

    def value(self, level=0):
        if self.often(0.25):
            return self.other()
        kind = self.rng.randrange(9 if level < 4 else 4)
        if kind < 2:
            return self.number()
        if kind < 4:
            return self.text() if kind == 2 else boolean(self.often(0.5))
        count = self.rng.randrange(4)
        if kind < 6:
            return document(self.fields(count, level + 1))
        if kind < 8 or level > 2:
            return array(self.value(level + 1) for _ in range(count))
        return array(document(self.fields(1 + self.rng.randrange(2), level + 2)) for _ in range(count))

    def fields(self, count, level):
        return distinct([(self.name(), self.value(level)) for _ in range(count)])

    def nested(self):
        """A value nested nearly as deep as is allowed, or deeper."""
        value = self.number()
        for _ in range(self.rng.randint(88, 100)):
            value = document([(b"d", value)]) if self.often(0.5) else array([value])
        return value

    def broken(self):
        """A value that no document may have."""
        if self.often(0.3):
            return self.nested()
        kind, data = self.rng.choice([
            (BINARY, b"\xff\xff\xff\xff\0"), (BINARY, b"\2\0\0\0\0a"), (BINARY, b"\0\0\0\0"), (BINARY, b"\xff\xff\xff\x7f\0a"),
            (OBJECT_ID, b"x" * self.rng.choice([0, 11])), (DATETIME, b"\0" * 7), (TIMESTAMP, b""), (NULL, b"\0"),
            (MIN_KEY, b"a"), (self.rng.randrange(256), self.rng.randbytes(8)), (BOOLEAN, b"\2"), (TEXT, b"\0\0\0\0"),
            (TEXT, b"\2\0\0\0ab"), (TEXT, b"\3\0\0\0\xed\xa0\0"), (TEXT, b"\xff\xff\xff\x7fa\0"), (DOCUMENT, b"\5\0\0\0\1"),
            (ARRAY, b"\4\0\0\0\0"), (ARRAY, spelled([(b"1", self.number())])), (ARRAY, spelled([(b"00", self.number())])),
            (DOCUMENT, spelled([(b"a", self.number())] * 2)), (DOCUMENT, spelled([(b"\xff", self.number())])),
        ])
        return kind, Broken(data)

    def identity(self):
        kind = self.rng.randrange(20)
        if self.often(0.2):
            return self.other()
        if kind < 14:
            return self.number()
        if kind < 17:
            return self.text() if kind < 16 else boolean(self.often(0.5))
        return self.value(3) if self.often(0.5) else document([(b"a", self.number())])

    def document(self):
        """A document with fields of its own, or with fields like those of another document."""
        if self.documents and self.often(0.6):
            fields = self.like(self.rng.choice(self.documents))
        else:
            fields = self.fields(self.rng.randrange(5), 0)
        if self.has_keys and self.often(0.95):
            fields = distinct([(b"k", self.own_key()), *fields])
        self.made.append(fields)
        if self.often(0.97):
            fields.insert(self.rng.randint(0, len(fields)), (b"_id", self.identity()))
        if self.often(0.004):
            return document(fields + [(b"broken", self.broken())])
        return document(fields)

    def own_key(self):
        """A value that is equal to few others."""
        if self.often(0.1):
            return self.one_of(lambda: array(self.own_key() for _ in range(self.rng.randrange(3))), lambda: self.value(3))
        return number(self.rng.randrange(4 * self.reach), self.often(0.4))

    # Values near a value.

    def respelled(self, value):
        """The same value, in which some numbers may have another width."""
        kind, held = value
        if kind in NUMBERS:
            return number(held, self.often(0.5))
        if kind == DOCUMENT:
            return document([(name, self.respelled(one)) for name, one in held])
        return array(map(self.respelled, held)) if kind == ARRAY else value

    def like(self, fields):
        """Fields like these, except `_id`: most of them, with the same values or values near them."""
        return [(name, value if self.often(0.5) else self.near(value)) for name, value in fields
                if name != b"_id" and self.often(0.9)]

    def near(self, value):
        """A value that equals this one, is next to it, or is a part of it; sometimes any other."""
        kind, held = value
        how = self.rng.randrange(12)
        if how < 5 or how > 9:
            return self.respelled(value)
        if kind in NUMBERS and how < 8:
            return number(max(-2**63, min(2**63 - 1, held + self.rng.choice([-1, 1]))), self.often(0.5))
        if kind in (DOCUMENT, ARRAY) and held and how < 8:
            return self.part_of(kind, held)
        return self.other() if how == 8 else self.value(2)

    def part_of(self, kind, held):
        """The value with one member less or one more, or with its members in another order; or one of its members."""
        one, how = self.rng.choice(held), self.rng.randrange(4)
        if how == 0:
            return one[1] if kind == DOCUMENT else one
        if how == 1:
            new = (self.name(), self.value(3)) if kind == DOCUMENT else self.near(one)
            return kind, distinct([*held, new]) if kind == DOCUMENT else [*held, new]
        return kind, self.rng.sample(held, self.rng.randint(max(0, len(held) - 1), len(held)))
