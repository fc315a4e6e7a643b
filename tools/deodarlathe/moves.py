"""The step of an add, a remove or a contains: six rows down, or the decision at the leaf (Rules 2.5 to 2.7, 6.5)."""

from .frame import ADD, CONTAINS, REMOVE
from .points import cut_between, goes_left
from .rows import Cut, Leaf, Removed, Spare, slot_of

ROWS_OF_A_STEP = 6
ADDED, HELD_ALREADY, NO_ROOM, USED_UP, REMOVED, NOT_HELD, HELD = range(1, 8)


def walk(index, station):
    """One step. The call stands at its cursor, or at the root where that is none."""
    call, track = station.call, station.track
    at = index.root if track.cursor is None else track.cursor
    if at is None or isinstance(index.rows[at], Leaf):
        conclude(index, station, at)
        return
    for _ in range(ROWS_OF_A_STEP):
        row = index.rows[at]
        if isinstance(row, Leaf):
            break
        left = goes_left(row.axis, row.sum, call.point)
        if call.kind == ADD:
            row.slots(left).add(slot_of(call.point))
        at = row.child(left)
    track.cursor = at


def code_of(index, station, held):
    """The code of a call that has come to its leaf. The limit is for the changes of its own station."""
    kind = station.call.kind
    if kind == ADD and held:
        return HELD_ALREADY
    if kind != ADD and not held:
        return NOT_HELD
    if kind == CONTAINS:
        return HELD
    if station.changes == index.limit:
        return USED_UP
    if kind == REMOVE:
        return REMOVED
    return NO_ROOM if index.taken >= index.places else ADDED


def conclude(index, station, at):
    """The decision at a leaf, or in the empty tree: an answer, after an insert or an unlink where it is a change."""
    call, leaf = station.call, None if at is None else index.rows[at]
    held = leaf is not None and leaf.point == call.point
    code = code_of(index, station, held)
    curve = leaf.curve if code in (HELD_ALREADY, HELD, REMOVED) else call.curve if code == ADDED else 0
    if code == ADDED:
        insert(index, call, at)
    elif code == REMOVED:
        unlink(index, at)
    station.changes += code in (ADDED, REMOVED)
    station.answered(code, call.point, curve)


def insert(index, call, at):
    """The record gets the first row of the queue; beside a leaf it hangs under a new cut, which gets the second."""
    rows, first = index.rows, index.head
    index.changes += 1
    index.held += 1
    new = Leaf(None, index.changes, call.point, call.curve)
    if at is None:
        index.head, index.root = rows[first].next, first
    else:
        second = new.parent = rows[first].next
        index.head = rows[second].next
        rows[second] = cut_over(index.scale.rule, first, new, at, rows[at])
        hang(index, second, rows[at].parent, at)
        rows[at].parent = second
        for station in index.stations:
            if station.track.cursor == at:
                station.track.cursor = second
    rows[first] = new


def cut_over(rule, first, new, at, old):
    """The cut under a rule between the new leaf at row `first` and the old one, with the slots of both."""
    axis, total = cut_between(new.point, old.point, rule)
    left = goes_left(axis, total, new.point)
    cut = Cut(old.parent, axis, total, *((first, at) if left else (at, first)))
    cut.slots(left).add(slot_of(new.point))
    cut.slots(not left).add(slot_of(old.point))
    return cut


def hang(index, row, above, instead):
    """A row hangs where another hung: below the cut above, or at the root."""
    if above is None:
        index.root = row
    else:
        index.rows[above].replace(instead, row)


def unlink(index, at):
    """The row of the leaf is freed and keeps its record, then the cut above it, in whose place the other child hangs."""
    rows, leaf = index.rows, index.rows[at]
    over = leaf.parent
    cut = side = None
    index.changes += 1
    index.held -= 1
    index.removals += 1
    if over is None:
        index.root = None
    else:
        cut = rows[over]
        side = cut.right if cut.left == at else cut.left
        rows[side].parent = cut.parent
        hang(index, side, cut.parent, over)
        rows[over] = Spare(None, index.removals)
    rows[index.tail].next = at
    rows[at] = Removed(over, index.removals, leaf.added, leaf.point, leaf.curve)
    index.tail = at if over is None else over
    for station in index.stations:
        if station.call is not None:
            land(station, at, over, cut, side)


def land(station, at, over, cut, side):
    """A call on the leaf or on the cut goes on at the other child; a search that missed nothing yet has missed the leaf."""
    track = station.track
    if track.cursor == at:
        # down where the leaf was the near child, since the other is still to be seen; up where the other was seen before
        track.up = cut is not None and cut.child(goes_left(cut.axis, cut.sum, station.call.point)) != at
        track.cursor = side
    elif track.cursor is not None and track.cursor == over:
        track.cursor = side
    if track.since is not None and track.missed is None:
        track.missed = at
