"""The rows of an index: leaves and cuts of the tree, spare and removed rows of the queue (docs/LAYOUT.md).

A link is the number of a row, or None."""

from __future__ import annotations

from dataclasses import dataclass, field

SLOTS = 127


def slot_of(point):
    """The slot of a point: its grade less one, modulo 127."""
    return (point[0] - 1) % SLOTS


@dataclass
class Spare:
    """A free row without a record: the next row of the queue, and the number of the removal that freed it, 0 if none."""

    next: int | None
    number: int = 0


@dataclass
class Removed:
    """A free row that keeps its record: the next row of the queue, and the number of its removal."""

    next: int | None
    number: int
    added: int
    point: tuple
    curve: int


@dataclass
class Leaf:
    """A row of the tree with a record, and the number of the change that added it."""

    parent: int | None
    added: int
    point: tuple
    curve: int


@dataclass
class Cut:
    """A row of the tree that sends each point left or right, with the slots of grades that may lie on each side."""

    parent: int | None
    axis: int
    sum: int
    left: int
    right: int
    on_left: set = field(default_factory=set)
    on_right: set = field(default_factory=set)

    def child(self, left):
        """The child on a side."""
        return self.left if left else self.right

    def slots(self, left):
        """The slots that may lie on a side."""
        return self.on_left if left else self.on_right

    def replace(self, child, by):
        """Links to another row in place of a child."""
        if self.left == child:
            self.left = by
        else:
            self.right = by
