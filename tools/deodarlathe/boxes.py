"""The boxes of a picture: leaves, cuts and free rows, and the tags of the calls that stand at them."""

from .placement import Box
from .points import AXES, DRY_WEIGHT, NUMBERS, TIMES
from .rows import Cut, Leaf, Removed
from .svg import GREY, WHITE

LEAF_FILL, LEAF_EDGE = "#eaf5ec", "#7fb58c"
CUT_FILL, CUT_EDGE = "#eef3fb", "#8aa9d6"
READY_FILL, READY_EDGE = "#f6f8fa", "#b6bfc9"
AWAITED_FILL, AWAITED_EDGE = "#fff1d6", "#c98a00"
SMALL = 11
TAG_HEIGHT = 18


def tag_width(words):
    """The width of a tag with these words."""
    return 12 + 7.2 * len(words)


def tag(drawing, x, y, words, colour, filled=True):
    """A small tag in a station's colour."""
    box = Box(x, y, tag_width(words), TAG_HEIGHT)
    drawing.rect(box, fill=colour if filled else WHITE, stroke=colour, rx=TAG_HEIGHT / 2, stroke_width=1.5)
    ink = WHITE if filled else colour
    drawing.text(box.middle, y + 13, words, text_anchor="middle", font_weight="bold", font_size=SMALL, fill=ink)
    return box


def pair(drawing, box, y, name, words):
    """A line of a box: a name on the left, and what it is on the right."""
    drawing.text(box.x + 8, y, name, font_size=SMALL, fill=GREY)
    drawing.text(box.right - 8, y, words, text_anchor="end", font_size=SMALL)


def titled(drawing, box, title, row):
    """The first line of a box: what it is, and the number of its row."""
    drawing.text(box.x + 8, box.y + 17, title, font_weight="bold")
    drawing.text(box.right - 8, box.y + 17, f"row {row}", text_anchor="end", font_size=SMALL, fill=GREY)


def record(drawing, box, row):
    """The record of a row, a line for each number."""
    for at, (name, number) in enumerate(zip((*AXES, "curve"), (*row.point, row.curve))):
        pair(drawing, box, box.y + 33 + 15 * at, name, f"{number:,}")


def leaf(drawing, box, number, row):
    """A leaf with its record."""
    drawing.rect(box, fill=LEAF_FILL, stroke=LEAF_EDGE)
    titled(drawing, box, "leaf", number)
    record(drawing, box, row)


def cut_words(row):
    """What a point must be to go left: less than half the sum, which may end in .5; a coordinate as it is, not times 10,000."""
    total = row.sum // TIMES if row.axis > DRY_WEIGHT else row.sum
    half = f"{total / 2:,.1f}" if total % 2 else f"{total // 2:,}"
    return f"{NUMBERS[row.axis]} < {half}"


def cut(drawing, box, number, row):
    """A cut: what sends a point left, its row and its sum."""
    drawing.rect(box, fill=CUT_FILL, stroke=CUT_EDGE, rx=box.height / 2)
    drawing.text(box.middle, box.y + 17, cut_words(row), text_anchor="middle", font_weight="bold")
    small = f"row {number}, sum {row.sum:,}"
    drawing.text(box.middle, box.y + 32, small, text_anchor="middle", font_size=SMALL, fill=GREY)


def tree(drawing, index, boxes):
    """The links of the tree, and over them its rows."""
    if index.root is not None:
        top = boxes[index.root]
        drawing.text(top.right + 8, top.y + 17, "root", fill=GREY)
    for number, box in boxes.items():
        row = index.rows[number]
        for child in (row.left, row.right) if isinstance(row, Cut) else ():
            drawing.line(box.middle, box.bottom, boxes[child].middle, boxes[child].y, GREY)
    for number, box in boxes.items():
        row = index.rows[number]
        (leaf if isinstance(row, Leaf) else cut)(drawing, box, number, row)


def free(drawing, index, box, group):
    """A free row, or a group of spare rows: in amber where its removal is awaited."""
    row = index.rows[group[0]]
    awaited = row.number > index.removals - index.awaiting
    drawing.rect(box, fill=AWAITED_FILL if awaited else READY_FILL, stroke=AWAITED_EDGE if awaited else READY_EDGE)
    if len(group) > 1:
        drawing.text(box.x + 8, box.y + 17, f"{len(group)} spare", font_weight="bold")
        pair(drawing, box, box.bottom - 9, "rows", f"{group[0]} to {group[-1]}")
        return
    titled(drawing, box, "removed" if isinstance(row, Removed) else "spare", group[0])
    if isinstance(row, Removed):
        record(drawing, box, row)
    pair(drawing, box, box.bottom - 9, "by removal", str(row.number or "none"))


def queue(drawing, index, groups, boxes):
    """The queue from head to tail, with an arrow for each next link."""
    for box, after in zip(boxes, boxes[1:]):
        if after.y == box.y:
            drawing.arrow(box.right + 3, box.y + 21, after.x - 3, GREY)
        else:
            drawing.text(box.right + 4, box.y + 25, "↵", fill=GREY)
    for group, box in zip(groups, boxes):
        free(drawing, index, box, group)
    for word, box in (("head", boxes[0]), ("tail", boxes[-1])):
        end = word == "tail"
        drawing.text(box.right if end else box.x, box.bottom + 15, word, fill=GREY, text_anchor="end" if end else "start")
