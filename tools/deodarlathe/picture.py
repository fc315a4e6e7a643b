"""A picture of an index after a frame: the tree with its cuts, the queue, the eight stations and where their calls stand."""

from . import boxes
from .frame import CALL_NAMES, NEAREST
from .index import IDLE, UNFINISHED
from .placement import Box, queue_boxes, queue_groups, tree_boxes
from .points import DRY, NUMBERS, ONES, RULES, Scale
from .rows import Cut, Leaf
from .svg import GREY, Drawing
from .words import CODES, point_words

# one colour for each station, dark enough for white letters
COLOURS = ("#0a58ca", "#9a4d00", "#116b3c", "#a3217a", "#6b3fa0", "#0b6b7d", "#a61e1e", "#4d5560")
IDLE_EDGE = "#d1d9e0"
MARGIN, COLUMN, GUTTER = 24, 318, 56
TOP, GAP, LINE = 112, 8, 16
LEAST_WIDTH = 690
LEGEND = (
    "A point goes left of a cut where the words on it hold, else right.",
    "A full tag is the cursor of a station's call: ↓ it goes down from there, ↑ its search has seen the tree below.",
    "An empty tag is the first row that was freed since a search was submitted and that it has not looked at.",
    "A row in amber is awaited: an unfinished search may still look at it, and no add takes it.",
)


def call_lines(call, track):
    """An unfinished call in lines: what it asks for, how far it is, where it stands."""
    lines = [f"{CALL_NAMES[call.kind]} {point_words(call.point)}"]
    if call.curve:
        lines.append(f"curve {call.curve}")
    lines.append(f"{call.steps} own {'step' if call.steps == 1 else 'steps'} so far")
    if call.kind != NEAREST:
        return [*lines, "cursor: none, so the root" if track.cursor is None else f"cursor: row {track.cursor}"]
    phase = "up" if track.up else "down"
    lines.append("cursor: none, the tree is seen" if track.cursor is None else f"cursor: row {track.cursor}, {phase}")
    lines.append("missed: none" if track.missed is None else f"missed: row {track.missed}, not looked at yet")
    lines.append(f"as of change {call.asof}, since removal {track.since}")
    if call.best is None:
        return [*lines, "best so far: none"]
    return [*lines, f"best so far: {point_words(call.best[0])}", f"with curve {call.best[1]}"]


def answer_lines(answer):
    """A waiting answer in lines."""
    lines = [f"{answer.code}, {CODES[answer.code].rstrip(':')}", point_words(answer.point)]
    if answer.curve:
        lines.append(f"curve {answer.curve}")
    return lines if answer.code != 8 else [*lines, f"square {answer.square}"]


def station_lines(station):
    """The state of a station, and what there is to say of it."""
    if station.state == IDLE:
        return "idle", []
    if station.state == UNFINISHED:
        return "unfinished call", call_lines(station.call, station.track)
    return "answer waits", answer_lines(station.answer)


def stations(drawing, index):
    """The eight stations in a column, with the changes that each has made. Gives the box of each."""
    placed, y = [], TOP
    for number, station in enumerate(index.stations):
        state, lines = station_lines(station)
        box = Box(MARGIN, y, COLUMN, 30 + LINE * len(lines) + (6 if lines else 0))
        busy = station.state != IDLE
        drawing.rect(box, stroke=COLOURS[number] if busy else IDLE_EDGE, stroke_width=1.5 if busy else 1)
        name = boxes.tag(drawing, box.x + 8, y + 6, f"station {number}", COLOURS[number], filled=busy)
        drawing.text(name.right + 8, y + 19, state, font_weight="bold" if busy else "normal", fill=GREY)
        drawing.text(box.right - 10, y + 19, f"changes {station.changes:,}", text_anchor="end", fill=GREY)
        for at, line in enumerate(lines, 1):
            drawing.text(box.x + 14, y + 24 + LINE * at, line)
        placed.append(box)
        y = box.bottom + GAP
    return placed


def marks_of(index):
    """For each row the tags there: station, words, and whether it is a cursor and not a missed row."""
    marks = {}
    for number, station in enumerate(index.stations):
        track = station.track
        if track.cursor is not None:
            marks.setdefault(track.cursor, []).append((number, f"{number} {'↑' if track.up else '↓'}", True))
        if track.missed is not None:
            marks.setdefault(track.missed, []).append((number, f"{number}", False))
    return marks


def tags(drawing, index, rows):
    """The tags of all calls, over their rows; on two lines where they are many."""
    for row, marks in marks_of(index).items():
        box = rows[row]
        x, y = box.x - 8, box.y - 14
        for number, words, cursor in marks:
            if len(marks) == 1 and not cursor:
                words += " missed"
            if x + boxes.tag_width(words) > box.right + 18:
                x, y = box.x - 8, y - boxes.TAG_HEIGHT - 1
            x = boxes.tag(drawing, x, y, words, COLOURS[number], cursor).right + 2


def scale_words(scale):
    """By what the squares and cuts shown go, where that is not rule 1 with four ones."""
    words = []
    if scale.rule == DRY:
        words.append("rule 2: dry weight, and moisture, speed and draw times 10,000")
    if scale.factors != ONES:
        axes = RULES[scale.rule].axes[1:]
        factors = ", ".join(f"{NUMBERS[axis]} {factor:,}" for axis, factor in zip(axes, scale.factors))
        words.append(f"factors of the squared differences: {factors}")
    return "; ".join(words)


def heading(drawing, title, subtitle, index):
    """The title, what the frame did, the counts, and the rule and the factors where they are not rule 1 and four ones."""
    drawing.text(MARGIN, 36, title, font_size=18, font_weight="bold")
    drawing.text(MARGIN, 60, subtitle, font_size=14)
    counts = (
        f"places taken {index.taken} of {index.places}: records held {index.held}, awaited removals {index.awaiting}; "
        f"changes {index.changes:,}, of them removals {index.removals:,}; change limit of each station {index.limit:,}"
    )
    drawing.text(MARGIN, 82, counts, fill=GREY)
    if index.scale != Scale():
        drawing.text(MARGIN, 99, scale_words(index.scale), fill=GREY)


def picture(index, title, subtitle):
    """The whole picture as SVG."""
    drawing = Drawing()
    x = MARGIN + COLUMN + GUTTER
    rows = tree_boxes(index, x, TOP + 36)
    bottom = max((box.bottom for box in rows.values()), default=TOP + 36)
    right = max([x + LEAST_WIDTH, *(box.right for box in rows.values())])
    groups = queue_groups(index, {station.track.missed for station in index.stations})
    queued = queue_boxes(index, groups, x, bottom + 76, right)
    rows.update((row, box) for group, box in zip(groups, queued) for row in group)

    heading(drawing, title, subtitle, index)
    placed = stations(drawing, index)
    drawing.text(x, TOP + 6, "tree" if index.root is not None else "the tree is empty", font_size=14, font_weight="bold")
    boxes.tree(drawing, index, {row: box for row, box in rows.items() if isinstance(index.rows[row], (Leaf, Cut))})
    drawing.text(x, bottom + 38, "queue of free rows", font_size=14, font_weight="bold")
    boxes.queue(drawing, index, groups, queued)
    tags(drawing, index, rows)
    end = max(placed[-1].bottom, max(box.bottom for box in queued) + 20) + 28
    for at, line in enumerate(LEGEND):
        drawing.text(MARGIN, end + LINE * at, line, fill=GREY)
    return drawing.document(right + MARGIN, end + LINE * len(LEGEND) + 6, title, subtitle)
