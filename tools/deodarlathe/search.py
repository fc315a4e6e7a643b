"""The step of a nearest: five tours, or a look at a missed row and three; the answer where nothing is left (Rules 2.8)."""

from .points import excluded, goes_left, rank, square
from .rows import Leaf, Removed, Spare, slot_of

FOUND, NONE_OF_GRADE = 8, 9


def search(index, station):
    """One step."""
    call, track = station.call, station.track
    tours = 5
    if track.missed is not None:
        tours = 3
        look(index, call, track)
    for _ in range(tours):
        if track.cursor is not None:
            tour(index, call, track)
    if track.cursor is None and track.missed is None:
        finish(index, station)


def consider(index, call, row):
    """A record that was held at the submission and is of the grade becomes the best where it is chosen over that."""
    if row.added <= call.asof and row.point[0] == call.point[0]:
        target, scale = call.point, index.scale
        if call.best is None or rank(target, row.point, scale) < rank(target, call.best[0], scale):
            call.best = row.point, row.curve


def look(index, call, track):
    """The first missed row is looked at; the cut that was freed with it is passed over."""
    row = index.rows[track.missed]
    if isinstance(row, Removed):
        consider(index, call, row)
    track.missed = row.next
    if row.next is not None and isinstance(index.rows[row.next], Spare):
        track.missed = index.rows[row.next].next


def far_open(index, call, cut, left):
    """The far side of a cut, whose near side is given, may have the grade and a record to choose."""
    best = call.best[0] if call.best else None
    if slot_of(call.point) not in cut.slots(not left):
        return False
    return not excluded(cut.axis, cut.sum, call.point, best, index.scale)


def tour(index, call, track):
    """One move: a leaf considered; down to the near child, or the far one; over to the far one; or up."""
    row = index.rows[track.cursor]
    if track.up:
        climb(index, call, track, row.parent)
    elif isinstance(row, Leaf):
        consider(index, call, row)
        track.up = True
    else:
        left = goes_left(row.axis, row.sum, call.point)
        if slot_of(call.point) in row.slots(left):
            track.cursor = row.child(left)
        elif far_open(index, call, row, left):
            track.cursor = row.child(not left)
        else:
            track.up = True


def climb(index, call, track, above):
    """Up to the cut above, or over to its far child. With nothing above, the tree is seen."""
    if above is not None:
        cut = index.rows[above]
        left = goes_left(cut.axis, cut.sum, call.point)
        if track.cursor == cut.child(left) and far_open(index, call, cut, left):
            track.cursor, track.up = cut.child(not left), False
            return
    track.cursor = above


def finish(index, station):
    """The answer: the best record with its square, or that the grade has none."""
    call = station.call
    if call.best is None:
        station.answered(NONE_OF_GRADE, call.point)
    else:
        station.answered(FOUND, *call.best, square(call.point, call.best[0], index.scale))
