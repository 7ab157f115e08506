"""The work in a view's stages for changes of what the view reads.

A row has a position, a tuple: that of a document of a collection is the key of its `_id`, and a stage gives positions to the rows
that it makes. A list of rows is one of pairs of a position and a row, in the order of positions. A change is such a pair too: the
row is put at the position, or, if it is None, the one there is removed. Nothing is kept from one change to the next: what a stage
makes of all its rows is computed before each change and after it, and the stage passes on the differences, which are counted.
"""
import bisect
from collections import namedtuple
from operator import itemgetter

from model.paths import field_of, sort_key, sort_of
from model.remembered import remembered
from model.values import key

# What a stage makes of rows, and of the documents that it looks into; and whether it looks into any.
Placed = namedtuple("Placed", "makes looks", defaults=[False])


class Falling:
    """A key in a position in which the higher key comes first."""

    def __init__(self, held):
        self.held = held

    def __eq__(self, other):
        return self.held == other.held

    def __lt__(self, other):
        return other.held < self.held

    def __hash__(self):
        return hash(self.held)


# Rows at positions.


def with_change(rows, change):
    position, row = change
    at = bisect.bisect_left(rows, position, key=itemgetter(0))
    end = at + (at < len(rows) and rows[at][0] == position)
    return rows[:at] + [change] * (row is not None) + rows[end:]


def difference(old, new):
    """The changes from rows to other ones: those that are removed, and then those that are inserted or replaced."""
    before, behind = dict(old), dict(new)
    gone = [(position, None) for position, _ in old if position not in behind]
    return gone + [(position, row) for position, row in new if before.get(position) != row]


def documents_of(rows):
    return [row for _, row in rows]


# Stages over rows at positions, each from its operand and from its function of rows without positions.


def matched_or_shown(operand, plain):
    """$match and $project: a row keeps its position."""
    made = remembered(lambda row: plain([row], None))
    return Placed(lambda rows, others: [(position, new) for position, row in rows for new in made(row)])


def unwound(operand, plain):
    """$unwind: the position of each row that is made of a row is that row's position and the new row's number."""
    made = remembered(lambda row: plain([row], None))
    return Placed(lambda rows, others: [((*position, at), new) for position, row in rows for at, new in enumerate(made(row))])


def ordered(operand, plain):
    """$sort: a row's position is its keys, and then its old position."""
    parts = sort_of(operand[1])
    keys = remembered(lambda row: tuple(part_of(sort_key(row, *part), *part) for part in parts))
    return Placed(lambda rows, others: sorted((((*keys(row), *position), row) for position, row in rows), key=itemgetter(0)))


def part_of(wanted, path, is_falling):
    return Falling(wanted) if is_falling else wanted


def limited(operand, plain):
    """$limit: the first rows keep their positions."""
    _, count = operand
    return Placed(lambda rows, others: rows[:count])


def grouped(operand, plain):
    """$group: the position of a group's row is the group's key."""
    def makes(rows, others):
        documents = documents_of(rows)
        return [((key(field_of(row, b"_id")),), row) for row in plain(documents, None)]
    return Placed(makes)


def looked_up(operand, plain):
    """$lookup: a row keeps its position."""
    def makes(rows, others):
        made = plain(documents_of(rows), lambda name: others)
        return [(position, new) for (position, _), new in zip(rows, made)]
    return Placed(makes, looks=True)


PLACED = {b"$match": matched_or_shown, b"$project": matched_or_shown, b"$unwind": unwound, b"$sort": ordered,
          b"$limit": limited, b"$group": grouped, b"$lookup": looked_up}


def placed(stages, functions):
    """The stages of a pipeline over rows at positions; `functions` are the stages over rows without positions."""
    return [PLACED[held[0][0]](held[0][1], plain) for (_, held), plain in zip(stages, functions)]


# The changes that arrive at each stage, one after the other, and those that the last one passes on: a list of lists of changes.


def handed(makes, rows, changes):
    """What a stage passes on for changes of its rows, one after the other."""
    told, made = [], makes(rows)
    for change in changes:
        rows, old = with_change(rows, change), made
        made = makes(rows)
        told += difference(old, made)
    return told


def flow(stages, named, rows, changes):
    """The changes at each of these stages, for changes of the rows that arrive at the first. `named` are the lists that the stages
    look into, in the stages' order."""
    if not stages or not changes:
        return [changes]
    makes, rest = over(stages[0], named)
    told = handed(makes, rows, changes)
    return [changes, *flow(stages[1:], rest, makes(rows), told)]


def flow_of_list(stages, named, at, rows, change):
    """The changes at the stage that looks into a list and at those after it, for a change of the list, which is at this place among
    those that the stages look into."""
    stage, others = stages[0], stages[1:]
    makes, rest = over(stage, named)
    if not stage.looks or at > 0:
        return flow_of_list(others, rest, at - stage.looks, makes(rows), change)
    after, _ = over(stage, [with_change(named[0], change)])
    return [[change], *flow(others, rest, makes(rows), difference(makes(rows), after(rows)))]


def over(stage, named):
    """A function that does a stage's work on rows, and the lists that are left. A stage that looks into a list takes the first."""
    others = documents_of(named[0]) if stage.looks else None
    return lambda rows: stage.makes(rows, others), named[stage.looks:]


def through(stages, lists):
    """What stages make of the lists that a view reads: the source's, and then each that they look into."""
    rows, *named = lists
    for stage in stages:
        makes, named = over(stage, named)
        rows = makes(rows)
    return rows


def flow_at(stages, lists, at, change):
    """The changes at each stage, for a change of one of the lists that a view reads: the source's, and then each that its stages
    look into."""
    source, *named = lists
    return flow_of_list(stages, named, at - 1, source, change) if at else flow(stages, named, source, [change])


def work(flows):
    """For each stage, 1 for each change that it takes in, and 1 for each that it passes on."""
    return sum(len(coming) + len(going) for coming, going in zip(flows, flows[1:]))
