"""A picture of times over counts, as SVG: panels with a few lines each, on logarithmic scales. bench/bars.py draws bars in the same
style."""
import math
from collections import namedtuple
from xml.sax.saxutils import escape

# A line's name and its points, pairs of a count and microseconds.
Line = namedtuple("Line", "name points")

ACROSS = 3
WIDTH, HEIGHT = 300, 206  # of a panel
LEFT, RIGHT, TOP, BOTTOM = 58, 34, 30, 48  # around a panel's lines
LEGEND = 58
COLOURS = ["#1b6ca8", "#2a9d4a", "#c8553d", "#7a5195"]
STYLE = ("text { font: 12px sans-serif; fill: #333 } .title { font-weight: bold } .small { font-size: 10px } "
         ".grid { stroke: #ddd } .line { fill: none; stroke-width: 2 }")


def decades(values):
    """The powers of ten around values, as exponents from the least to the greatest."""
    least, most = math.floor(math.log10(min(values))), math.ceil(math.log10(max(values)))
    return range(least, max(most, least + 1) + 1)


def exponent_text(exponent):
    """A power of ten of microseconds, as a number of seconds, milliseconds or microseconds."""
    for unit, start in (("s", 6), ("ms", 3), ("µs", 0)):
        if exponent >= start:
            return "%d %s" % (10 ** (exponent - start), unit)
    return "%g µs" % 10 ** exponent


class Panel:
    """A panel at a place, with scales that hold all its points."""

    def __init__(self, title, lines, x, y, heights):
        self.title, self.lines, self.x, self.y, self.heights = title, lines, x, y, heights
        counts = [count for line in lines for count, _ in line.points]
        self.low, self.high = math.log10(min(counts)), math.log10(max(counts))

    def across(self, count):
        width = WIDTH - LEFT - RIGHT
        share = (math.log10(count) - self.low) / (self.high - self.low) if self.high > self.low else 0.5
        return self.x + LEFT + share * width

    def down(self, exponent):
        share = (exponent - self.heights[0]) / (self.heights[-1] - self.heights[0])
        return self.y + HEIGHT - BOTTOM - share * (HEIGHT - TOP - BOTTOM)

    def parts(self):
        yield text(self.x + LEFT / 3, self.y + 18, self.title.replace("`", ""), "title")
        for exponent in self.heights:
            y = self.down(exponent)
            yield '<line class="grid" x1="%.1f" x2="%.1f" y1="%.1f" y2="%.1f"/>' % (self.x + LEFT, self.x + WIDTH - RIGHT, y, y)
            yield text(self.x + LEFT - 6, y + 4, exponent_text(exponent), "small", "end")
        for count in sorted({count for line in self.lines for count, _ in line.points}):
            yield text(self.across(count), self.y + HEIGHT - BOTTOM + 18, format(count, ","), "small", "middle")
        yield text(self.x + (LEFT + WIDTH - RIGHT) / 2, self.y + HEIGHT - BOTTOM + 32, "documents", "small", "middle")
        for colour, line in zip(COLOURS, self.lines):
            yield from self.drawn(colour, line)

    def drawn(self, colour, line):
        places = [(self.across(count), self.down(math.log10(spent))) for count, spent in line.points]
        yield '<polyline class="line" stroke="%s" points="%s"/>' % (colour, " ".join("%.1f,%.1f" % one for one in places))
        for x, y in places:
            yield '<circle cx="%.1f" cy="%.1f" r="3" fill="%s"/>' % (x, y, colour)


def text(x, y, said, kind, anchor="start"):
    return '<text class="%s" x="%.1f" y="%.1f" text-anchor="%s">%s</text>' % (kind, x, y, anchor, escape(said))


def legend(names, left=LEFT):
    """The names in one line, each after a square of its colour."""
    x = left
    for colour, name in zip(COLOURS, names):
        yield '<rect x="%d" y="13" width="12" height="12" fill="%s"/>' % (x, colour)
        yield text(x + 18, 24, name, "plain")
        x += 48 + 7 * len(name)


def picture(width, height, parts):
    """The picture of these parts."""
    opening = '<svg xmlns="http://www.w3.org/2000/svg" width="%d" height="%d" viewBox="0 0 %d %d">' % (width, height, width, height)
    return "\n".join([opening, "<style>%s</style>" % STYLE, '<rect width="%d" height="%d" fill="white"/>' % (width, height),
                      *parts, "</svg>", ""])


def drawn(panels, caption):
    """The picture of panels, which are lines by a title: times upwards, counts across, and one scale of times for all panels."""
    heights = decades([max(spent, 1e-3) for lines in panels.values() for line in lines for _, spent in line.points])
    made = [Panel(title, lines, WIDTH * (place % ACROSS), LEGEND + HEIGHT * (place // ACROSS), heights)
            for place, (title, lines) in enumerate(panels.items())]
    names = [line.name for line in max(panels.values(), key=len)]
    parts = [*legend(names), text(LEFT, 46, caption, "small"), *(part for panel in made for part in panel.parts())]
    return picture(WIDTH * ACROSS, LEGEND + HEIGHT * -(-len(made) // ACROSS), parts)
