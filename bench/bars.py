"""A picture of bars, as SVG: each row has a bar for each column, with a text after it."""
from collections import namedtuple

from picture import COLOURS, legend, picture, text

# A row's name and its bars: pairs of a length and the text after the bar, or None for a column that the row lacks.
Row = namedtuple("Row", "name bars")

LEFT, WIDTH, RIGHT = 190, 460, 150
BAR, GAP, TOP, BOTTOM = 15, 14, 44, 40


def drawn(columns, rows, unit):
    """The picture of these rows, which have a bar for each of these columns, over an axis in this unit."""
    most = max(length for row in rows for length, _ in filter(None, row.bars))
    height = TOP + sum(GAP + BAR * len(row.bars) for row in rows)
    parts, y = [*legend(columns, LEFT), *axis(most, height, unit)], TOP
    for row in rows:
        parts += bars(row, y, most)
        y += GAP + BAR * len(row.bars)
    return picture(LEFT + WIDTH + RIGHT, height + BOTTOM, parts)


def across(length, most):
    return LEFT + WIDTH * length / most


def bars(row, y, most):
    yield text(LEFT - 10, y + BAR * len(row.bars) / 2 + 4, row.name, "plain", "end")
    for place, (colour, bar) in enumerate(zip(COLOURS, row.bars)):
        if bar:
            length, said = bar
            yield '<rect x="%d" y="%.1f" width="%.1f" height="%d" fill="%s"/>' % (
                LEFT, y + BAR * place, across(length, most) - LEFT, BAR - 2, colour)
            yield text(across(length, most) + 6, y + BAR * place + BAR - 4, said, "small")


def axis(most, height, unit):
    """The grid lines at whole numbers, a dozen at most, and the unit below them."""
    for number in range(0, int(most) + 1, 1 + int(most) // 12):
        x = across(number, most)
        yield '<line class="grid" x1="%.1f" x2="%.1f" y1="%d" y2="%d"/>' % (x, x, TOP - 6, height)
        yield text(x, height + 14, "%d" % number, "small", "middle")
    yield text(LEFT + WIDTH / 2, height + 32, unit, "small", "middle")
