"""Where the rows of an index stand in its picture: the tree from the root down, the queue from head to tail."""

from __future__ import annotations

from dataclasses import dataclass

from .points import DRY
from .rows import Leaf, Spare

LEAF_WIDTH, LEAF_HEIGHT = 116, 118
CUT_WIDTH, CUT_HEIGHT = 152, 40
# under rule 2, where a dry weight has up to ten digits
DRY_CUT_WIDTH = 208
COLUMN, LEVEL = LEAF_WIDTH + 16, 88
REMOVED_HEIGHT, SPARE_HEIGHT = LEAF_HEIGHT + 17, 43
QUEUE_GAP, QUEUE_LINE = 26, REMOVED_HEIGHT + 52
# more spare rows than these that no removal has freed stand in one box
MOST_SPARE = 3


@dataclass
class Box:
    """A rectangle of the picture."""

    x: float
    y: float
    width: float
    height: float

    @property
    def middle(self):
        """The middle from left to right."""
        return self.x + self.width / 2

    @property
    def bottom(self):
        """The lower edge."""
        return self.y + self.height

    @property
    def right(self):
        """The right edge."""
        return self.x + self.width


def tree_boxes(index, x, y):
    """The box of each row of the tree: the leaves side by side from left to right, each cut over its two children."""
    boxes = {}
    if index.root is None:
        return boxes
    leaves, width = 0, DRY_CUT_WIDTH if index.scale.rule == DRY else CUT_WIDTH

    def place(row, depth):
        """The middle of a row, after all that is below it."""
        nonlocal leaves
        if isinstance(index.rows[row], Leaf):
            middle = x + COLUMN * leaves + LEAF_WIDTH / 2
            boxes[row] = Box(middle - LEAF_WIDTH / 2, y + LEVEL * depth, LEAF_WIDTH, LEAF_HEIGHT)
            leaves += 1
        else:
            middle = (place(index.rows[row].left, depth + 1) + place(index.rows[row].right, depth + 1)) / 2
            boxes[row] = Box(middle - width / 2, y + LEVEL * depth, width, CUT_HEIGHT)
        return middle

    place(index.root, 0)
    shift = max(0, x - min(box.x for box in boxes.values()))
    for box in boxes.values():
        box.x += shift
    return boxes


def queue_rows(index):
    """The rows of the queue from head to tail."""
    at = index.head
    while at is not None:
        yield at
        at = index.rows[at].next


def queue_groups(index, kept):
    """The rows of the queue, each by itself, but many fresh spare rows as one group. Rows that are kept are shown alone."""
    groups, fresh = [], []
    for row in [*queue_rows(index), None]:
        if row is not None and isinstance(index.rows[row], Spare) and index.rows[row].number == 0 and row not in kept:
            fresh.append(row)
            continue
        groups += [fresh] if len(fresh) > MOST_SPARE else [[one] for one in fresh]
        groups += [] if row is None else [[row]]
        fresh = []
    return groups


def queue_boxes(index, groups, x, y, right):
    """The box of each group, side by side, on as many lines as they need up to the right edge."""
    boxes, at, line = [], x, y
    for group in groups:
        if at > x and at + LEAF_WIDTH > right:
            at, line = x, line + QUEUE_LINE
        height = SPARE_HEIGHT if isinstance(index.rows[group[0]], Spare) else REMOVED_HEIGHT
        boxes.append(Box(at, line, LEAF_WIDTH, height))
        at += LEAF_WIDTH + QUEUE_GAP
    return boxes
