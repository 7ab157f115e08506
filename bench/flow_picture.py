#!/usr/bin/python3
"""Draws how a write flows: through the crates, and then, change by change, through the views of docs/MANUAL.md's example.

    python3 bench/flow_picture.py        writes docs/flow.svg
"""
import os
from collections import namedtuple

from picture import COLOURS, picture, text

PICTURE = os.path.join(os.path.dirname(os.path.abspath(__file__)), "..", "docs", "flow.svg")
SIZE = 1030, 530
WIDE, HIGH = 400, 54  # of a box of a crate
VIEW = 370  # how wide a box of a view is
ARROW = ('<defs><marker id="end" viewBox="0 0 8 8" refX="8" refY="4" markerWidth="8" markerHeight="8" orient="auto">'
         '<path d="M0,0 L8,4 L0,8 z" fill="#555"/></marker></defs>')
HEAD = "Down: what becomes of a write's bytes. The reply goes back the same way when the last view has taken all in."
CRATE, STORED, SEEN = COLOURS[0], COLOURS[1], COLOURS[3]

Box = namedtuple("Box", "x y width name does colour")
Arrow = namedtuple("Arrow", "points said at", defaults=("", None))

LEFT, RIGHT, STEP = 30, 630, 96
# The crates, from a session's bytes downwards: what each does, and what it passes to the next.
CRATES = [
    ("dv_scripts, dv_serving", "take a line of a script, or what a reader has", "bytes of a session"),
    ("dv_wire, dv_message", "take whole messages off; dv_bson reads them", "documents"),
    ("dv_core", "carries out a command; dv_command says what is asked", "a statement of the write"),
    ("dv_catalog", "what matches (dv_match), what comes of it (dv_update)", "its changes, one document each"),
    ("dv_index, dv_coll", "keep the documents by _id, and the indexes (dv_keyed)", ""),
]
# The views: their names, what they are, and their places from the top.
VIEWS = [
    ("dv_views", "carries each change through all views, oldest first", 2),
    ("bysite", "$group over hives (dv_group): n for each site", 3),
    ("crowded", "$match over bysite (dv_flow): where n is 2 and more", 4),
    ("placed", "$lookup from hives into bysite (dv_join)", 5),
]


def boxes():
    for place, (name, does, _) in enumerate(CRATES):
        yield Box(LEFT, 40 + STEP * place, WIDE, name, does, STORED if place == 4 else CRATE)
    for name, does, place in VIEWS:
        more, colour = (60, CRATE) if place == 2 else (0, SEEN)
        yield Box(RIGHT - more, 40 + STEP * place - 60, VIEW + more, name, does, colour)


def arrows():
    middle = LEFT + WIDE / 2
    for place, (_, _, said) in enumerate(CRATES[:-1]):
        y = 40 + HIGH + STEP * place
        yield Arrow([(middle, y), (middle, y + STEP - HIGH)], said, (middle + 10, y + 26))
    views, gap = 40 + 2 * STEP - 60, STEP - HIGH
    told = 40 + 3 * STEP + HIGH / 2
    way = [(LEFT + WIDE, told), (554, told), (554, views + HIGH / 2), (RIGHT - 60, views + HIGH / 2)]
    yield Arrow(way, "the same changes", (LEFT + WIDE + 6, told - 8))
    across = RIGHT + 110
    yield Arrow([(across, views + HIGH), (across, views + STEP)], "a hive comes, goes or changes", (across + 10, views + HIGH + 26))
    yield Arrow([(across, views + STEP + HIGH), (across, views + 2 * STEP)], "the row of its site, with another n",
                (across + 10, views + STEP + HIGH + 26))
    end = views + 3 * STEP + HIGH / 2
    yield Arrow([(RIGHT - 30, views + HIGH), (RIGHT - 30, end - 8), (RIGHT, end - 8)], "1", (RIGHT - 42, end - 12))
    below = views + STEP + HIGH + gap / 2
    yield Arrow([(across, below), (RIGHT - 14, below), (RIGHT - 14, end + 8), (RIGHT, end + 8)], "2", (RIGHT - 26, end + 22))


def of_box(box):
    yield '<rect x="%.1f" y="%.1f" width="%d" height="%d" rx="6" fill="white" stroke="%s" stroke-width="2"/>' % (
        box.x, box.y, box.width, HIGH, box.colour)
    yield text(box.x + 12, box.y + 22, box.name, "title")
    yield text(box.x + 12, box.y + 41, box.does, "plain")


def of_arrow(arrow):
    points = " ".join("%.1f,%.1f" % one for one in arrow.points)
    yield '<polyline points="%s" fill="none" stroke="#555" stroke-width="1.5" marker-end="url(#end)"/>' % points
    if arrow.said:
        yield text(*arrow.at, arrow.said, "plain")


def main():
    parts = [ARROW, text(LEFT, 24, HEAD, "plain")]
    for arrow in arrows():
        parts += of_arrow(arrow)
    for box in boxes():
        parts += of_box(box)
    with open(PICTURE, "w", encoding="utf-8") as file:
        file.write(picture(*SIZE, parts))


if __name__ == "__main__":
    main()
