"""Shows a view's rows, and again when they change."""
import time

from model.values import INT32, TEXT
from prompt.layout import Layout, batch_of

MOST = 101  # rows that are shown
ALL = INT32, 2**31 - 1  # as many rows in a batch as its bytes allow


class Refused(Exception):
    """A command is refused, with this reply."""


def rows_of(asker, view):
    """All rows of a view, or of a collection."""
    name, database = (TEXT, view.encode()), (b"$db", (TEXT, asker.database.encode()))
    rows, cursor = answered(asker, [(b"find", name), (b"batchSize", ALL), database])
    while cursor[1]:
        more, cursor = answered(asker, [(b"getMore", cursor), (b"collection", name), database])
        rows += more
    return rows


def answered(asker, fields):
    reply = asker.reply_to(fields)
    if not batch_of(reply):
        raise Refused(reply)
    return batch_of(reply)


def tell_if_none(asker, view, tell):
    """Tells the user if no view has the name."""
    reply = asker.reply_to([(b"viewStats", (TEXT, view.encode())), (b"$db", (TEXT, asker.database.encode()))])
    if dict(reply)[b"ok"][1] != 1:
        tell("there is no view %s in the database %s: the rows of the collection of this name are shown, if there is one" % (
            view, asker.database))


def counted(rows):
    return "one row" if len(rows) == 1 else "%d rows" % len(rows)


def lines_of(view, rows, width):
    """A head with the time, and the rows."""
    yield "# %s %s: %s" % (time.strftime("%H:%M:%S"), view, counted(rows))
    yield from (Layout(width).laid(row, "") for row in rows[:MOST])
    if len(rows) > MOST:
        yield "# and %d more" % (len(rows) - MOST)


class Watching:
    """A view's rows as they were seen last."""

    def __init__(self, view):
        self.view, self.seen = view, None

    def look(self, asker, width):
        """The lines to show: none if the rows are the same as before."""
        rows = rows_of(asker, self.view)
        if rows == self.seen:
            return []
        self.seen = rows
        return [*lines_of(self.view, rows, width)]


def watch(asker, view, every, width, tell):
    """Shows a view's rows, reads them again after `every` seconds each time, and never ends by itself."""
    watching = Watching(view)
    tell_if_none(asker, view, tell)
    while True:
        lines = watching.look(asker, width())
        if lines:
            print(*lines, sep="\n", flush=True)
        time.sleep(every)
