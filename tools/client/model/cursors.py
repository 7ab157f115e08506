"""Results in batches, and the cursors that keep what is left of them."""
from collections import namedtuple

from model.refusals import CURSOR_NOT_FOUND, LIMIT_REACHED, Refusal
from model.values import MOST_BYTES, size

MOST_CURSORS = 1_000
FIRST_BATCH = 101

# The session that has it, the namespace that it was made for, and the rows that are not yet returned.
Cursor = namedtuple("Cursor", "session place rows")


def split(rows, most):
    """The rows of a batch of at most `most` rows (None is no limit), and those after it."""
    count, total = 0, 0
    for row in rows:
        total += size(row)
        if count == most or count and total > MOST_BYTES:
            break
        count += 1
    return rows[:count], rows[count:]


class Cursors:
    """The cursors by their ids, which grow from 1."""

    def __init__(self):
        self.open, self.last = {}, 0

    def check_room(self):
        if len(self.open) == MOST_CURSORS:
            raise Refusal(LIMIT_REACHED)

    def keep(self, cursor):
        """Keeps a new cursor and returns its id, 0 if it has no rows."""
        if not cursor.rows:
            return 0
        self.last += 1
        self.open[self.last] = cursor
        return self.last

    def has(self, identity, session, place):
        return identity in self.open and self.open[identity][:2] == (session, place)

    def more(self, identity, session, place, most):
        """The next rows of a cursor, and its id, 0 if it has no more."""
        if not self.has(identity, session, place):
            raise Refusal(CURSOR_NOT_FOUND)
        batch, rest = split(self.open[identity].rows, most)
        self.open[identity] = Cursor(session, place, rest)
        if rest:
            return batch, identity
        del self.open[identity]
        return batch, 0

    def kill(self, identities, session, place):
        """Removes these cursors, and returns the ids of those that were there and of those that weren't."""
        killed, missing = [], []
        for identity in identities:
            is_there = self.has(identity, session, place)
            (killed if is_there else missing).append(identity)
            if is_there:
                del self.open[identity]
        return killed, missing

    def end(self, session):
        self.open = {identity: cursor for identity, cursor in self.open.items() if cursor.session != session}
