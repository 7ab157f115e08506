"""Makes random scripts, for `compare.py`, `broken_input.py` and `prompt_rows.py` in tools/check.

Values, filters, updates, pipelines and commands are made by the classes in tools/check/making. Filters, sorts and updates are made
from the documents that are stored at the moment, which the model of the machine knows, so that they find something: a path leads
through one of these documents, and an operand is the value there, or near it.
"""
import struct

from making.breaking import Breaker
from making.commands import Commands
from model import messages
from model.commands import answer_to
from model.pipelines import STAGES
from model.values import ARRAY, DOCUMENT
from spelled import Broken, PIECE, array, boolean, data_of, document, joined, message, number, section, spelled, text


def interleaved(rng, runs):
    """The lines (or other items) of some runs, mixed at random. The items of each run stay in their order."""
    order = [place for place, one in enumerate(runs) for _ in one]
    rng.shuffle(order)
    left = [iter(one) for one in runs]
    return [next(left[place]) for place in order]


ALL = number(2**31 - 1)  # a batchSize: as many rows in a first batch as its bytes allow


def nested(levels, value):
    """A value inside this many nested documents."""
    for _ in range(levels):
        value = document([(b"a", value)])
    return value


class Maker(Commands):
    """Makes scripts, and counts their messages. If it breaks messages at all, it breaks half of them."""

    def __init__(self, rng, breaks=False):
        super().__init__(rng)
        self.messages, self.breaker = 0, Breaker(rng) if breaks else None
        self.is_crowded = False  # whether there are many documents
        self.is_large = False  # whether there are several hundred

    def first(self, name=b"c", count=None):
        """An insert of some documents into a collection, so that something is there."""
        documents = array(self.document() for _ in range(count or self.rng.randint(3, 15)))
        return self.asked([(b"insert", text(name)), (b"documents", documents), (b"ordered", boolean(False))])

    def carried_out(self, data):
        """Has the model's store carry out a message, and returns the same message."""
        try:
            taken = messages.take_message(data)
            if taken:
                answer_to(self.store, self.session, taken[3])
        except messages.Closing:
            pass
        return data

    def views(self):
        """In some scripts, views of what is there, and another collection that they may join; and towers of views, but only over
        few documents, since their `$lookup`s may give each row all others."""
        names = [] if self.is_large else [b"v", b"w", b"x"][:self.rng.choice([0, 1, 2, 3])]
        made = ([self.first(b"d")] if names else []) + [self.asked(self.view(name)) for name in names]
        return made + ([self.asked(self.of_tower(*one)) for one in enumerate(self.tower())]
                       if self.often(0.25) and not self.is_crowded else [])

    def views_of_each_stage(self):
        """The commands that make a view of each stage, named after it. No random command has such a name."""
        return [self.view(stage[1:], [[stage.decode()]]) for stage in STAGES]

    def asked_twice(self, view):
        """For the command that makes a view: its viewStats, a find of all its rows, and an aggregate that computes them again."""
        (_, name), (_, source), pipeline = view
        return [self.asked(command) for command in (
            [(b"viewStats", name)], [(b"find", name), (b"batchSize", ALL)],
            [(b"aggregate", source), pipeline, (b"cursor", document([(b"batchSize", ALL)]))])]

    def shown(self):
        """For each view that is there, in any order, its viewStats and a find without a filter."""
        names = self.rng.sample(self.standing, len(self.standing))
        return [self.asked([(command, text(name))]) for name in names for command in (b"viewStats", b"find")]

    def taken_down(self):
        """Drops of views at random, whether others read them or not, about as many as there are views, and of the collection."""
        names = [self.rng.choice(self.standing) for _ in self.standing] + [b"c"]
        return [self.asked([(b"drop", text(name))]) for name in names if self.often(0.9)]

    def written(self):
        """A write, with what the views show before and after it."""
        return [*self.shown(), self.write(), *self.shown()]

    def write(self):
        """The message of an insert, an update or a delete."""
        return self.asked(self.rng.choice([self.insert, self.update_command, self.delete])())

    def asked(self, fields):
        """The message of a command, after the model's store has carried it out."""
        return self.carried_out(message(spelled([*fields, (b"$db", text(b"t"))])))

    def message(self):
        self.messages += 1
        flags = self.rng.choice([2, 65536, 65538, 2**31]) if self.often(0.1) else 0
        if self.often(0.003):
            flags = self.rng.choice([1, 4, 5, 2**15])
        data = self.whole(flags)
        if self.breaker and self.often(0.5):
            data = self.breaker.broken(data)
        elif self.often(0.03):
            # Mostly a byte of the fields, since a wrong byte before them closes the session.
            place = self.rng.randrange(25 if self.often(0.9) else 0, len(data) - 1)
            byte = self.rng.choice([0, 1, 3, 4, 0x7f, 0xff, self.rng.randrange(256)])
            data = data[:place] + bytes([byte]) + data[place + 1:]
        if self.often(0.004):
            data += self.rng.choice([b"", b"\0", spelled([]), b"\1" + struct.pack("<i", 6) + b"x\0"])
            data = struct.pack("<i", self.rng.choice([len(data), 25, -1, 48_000_001])) + data[4:]
        return self.carried_out(data)

    def whole(self, flags):
        """A message of a command, before any of its bytes is broken."""
        return joined(self.sections(self.command()), self.rng.randint(-2**31, 2**31 - 1), flags)

    def sections(self, fields):
        """The sections of a message of these fields: a list of documents may be next to the body."""
        lists = []
        if self.often(0.4):
            at = next((at for at, (_, (kind, held)) in enumerate(fields)
                       if kind == ARRAY and not isinstance(held, Broken) and all(one[0] == DOCUMENT for one in held)), None)
            if at is not None:
                name, (_, held) = fields[at]
                lists.append(section(name, [data_of(*one) for one in held]))
                if self.often(0.97):
                    fields = fields[:at] + fields[at + 1:]
            if self.often(0.04):
                name = self.rng.choice([b"documents", b"deletes", b"x", b"", b"\xff"])
                lists.append(section(name, [spelled([])] * self.rng.randrange(3)))
        made = [section(None, [spelled(fields)]), *lists]
        made += [section(None, [spelled([])])] * self.often(0.003)
        if self.often(0.4):
            self.rng.shuffle(made)
        return made

    def pieces(self, messages):
        """The same bytes, cut in another way."""
        stream, how = b"".join(messages), self.rng.randrange(4)
        if how == 0:
            return messages
        cuts = self.rng.sample(range(1, len(stream)), min(len(stream) - 1, self.rng.randrange(3 * len(messages))))
        if how == 1 and len(stream) < 2_000:
            cuts = range(1, len(stream))
        ends = sorted([0, *cuts, len(stream)])
        return [stream[start:end] for start, end in zip(ends, ends[1:])]

    def script(self):
        """The lines of a script, and lines that send the same messages, each in a line of its own."""
        interleaves = self.often(0.7)
        numbers = self.rng.sample([0, 7, 255, 999], 4) if interleaves else [self.rng.choice([0, 0, 7, 999]) for _ in range(4)]
        runs = [self.run(number) for number in numbers[:self.rng.randint(1, 4)]]
        cut, plain = [lines for lines, _ in runs], [lines for _, lines in runs]
        if interleaves:
            cut, plain = interleaved(self.rng, cut), interleaved(self.rng, plain)
        else:
            cut, plain = sum(cut, []), sum(plain, [])
        if self.often(0.05):
            last = self.rng.choice([b"0", b"1000 end", b"0 0", b"00 end", b" ", b"1 end ", b"5 end", b"# end", b""])
            cut.append(last)
            plain.append(last)
        return cut, plain

    def unique(self):
        """A unique index, in some scripts."""
        if self.often(0.6 if self.has_keys else 0.95):
            return []
        path = self.path_apart()
        entry = [(b"key", document([(path, number(1))])), (b"name", text(path)), (b"unique", boolean(True))]
        return [self.asked([(b"createIndexes", text(b"c")), (b"indexes", array([document(entry)]))])]

    def many(self):
        """Many documents, and an index on a field that some of them have, in a few scripts."""
        if self.often(0.92):
            return []
        self.is_crowded = True
        entry = [(b"key", document([(self.rng.choice([b"a", b"a", b"b", b"b", b"a.b"]), number(1))])), (b"name", text(b"i"))]
        return [self.first(count=self.rng.randint(80, 100)),
                self.asked([(b"createIndexes", text(b"c")), (b"indexes", array([document(entry)]))])]

    def large(self):
        """Several hundred small documents, and a view with a `$push` over one or two groups of them, in a few scripts."""
        if self.often(0.96):
            return []
        self.is_crowded = self.is_large = True
        groups, count = self.rng.choice([1, 2]), self.rng.randint(257, 320)
        rows = [document([(b"_id", number(1_000 + place)), (b"a", number(place % groups)), (b"b", number(place))])
                for place in range(count * groups)]
        fields = [(b"_id", text(b"$a")), (b"all", document([(b"$push", text(self.rng.choice([b"$b", b"$_id", b"$a"])))]))]
        fields += [(b"n", document([(b"$sum", number(1))]))] * self.often(0.5)
        stages = [document([(b"$group", document(fields))])]
        stages += [document([(b"$unwind", text(b"$all"))])] * self.often(0.2)
        view = [(b"create", text(b"y")), (b"viewOn", text(b"c")), (b"pipeline", array(stages))]
        made = [self.asked([(b"insert", text(b"c")), (b"documents", array(rows))]), self.asked(view)]
        return made[::-1] if self.often(0.3) else made

    def deep(self):
        """Some documents of nearly the most levels, and a view that nests them deeper still, in a few scripts: the model takes a
        second for one."""
        if self.often(0.98):
            return []
        rows = [document([(b"_id", number(2_000 + place)), (b"a", nested(self.rng.randint(90, 98), number(place // 2)))])
                for place in range(4)]
        deeper = document([(b"$project", document([(b"a", nested(self.rng.randint(1, 60), text(b"$a")))]))])
        push = [(b"_id", text(b"$a")), (b"all", document([(b"$push", text(b"$a"))]))]
        lookup = [(b"from", text(b"c")), (b"localField", text(b"a")), (b"foreignField", text(b"a")), (b"as", text(b"o"))]
        others = [(b"$group", document(push)), (b"$sort", document([(b"a", number(-1))])), (b"$unwind", text(b"$a")),
                  (b"$lookup", document(lookup))]
        stages = [document([one]) for one in self.rng.sample(others, 2)]
        stages.insert(self.rng.randrange(3), deeper)
        view = [(b"create", text(b"z")), (b"viewOn", text(b"c")), (b"pipeline", array(stages))]
        return [self.asked(view), self.asked([(b"insert", text(b"c")), (b"documents", array(rows))])]

    def run(self, number):
        """The lines of one session: first with messages cut anywhere, then with a message in each line."""
        self.session = object()
        made = [] if self.made else [*self.unique(), self.first(), *self.unique(), *self.many(), *self.large(), *self.deep(),
                                     *self.views()]
        for _ in range(self.rng.randint(1, 25)):
            made.append(self.message())
            made += self.written() if self.often(0.1) else []
        made += self.taken_down() if self.often(0.2) else []
        made += [self.asked([(b"find", text(b"c"))]), *self.shown()]  # the state at the end
        if self.often(0.5):
            made.append(self.asked([(b"createIndexes", text(b"c")), (b"indexes", array([]))]))  # how many indexes there are
        ends = [b"%d end" % number] * self.often(0.97)
        return tuple([self.line(number, piece[at:at + PIECE]) for piece in pieces for at in range(0, len(piece), PIECE)] + ends
                     for pieces in (self.pieces(made), made))

    def line(self, session, piece):
        digits = piece.hex(" ") if self.often(0.2) and len(piece) < 40_000 else piece.hex()
        return b"%d %s" % (session, (digits.upper() if self.often(0.2) else digits).encode())
