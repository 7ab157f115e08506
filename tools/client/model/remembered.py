"""Functions of rows that are computed once for each row, since views call them again at each change."""

MOST_REMEMBERED = 100_000


def remembered(function):
    """The same function. A row is known by its address in memory, as no row is changed in place. So each row is kept, until
    there are too many and all are dropped."""
    known = {}

    def of(row):
        place = id(row)
        if place not in known:
            if len(known) == MOST_REMEMBERED:
                known.clear()
            known[place] = row, function(row)
        return known[place][1]
    return of
