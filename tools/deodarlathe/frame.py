"""Frames as bytes (Rules 9): their kinds, fields and widths, read and written."""

import struct
from typing import NamedTuple

# what the runner takes of its input (Rules 10.2)
MOST_BYTES = 65_536

# the questions of a frame that is read (Rules 7.18), by what is wrong where they are answered no
STOPS = {
    13: "the frame is cut short",
    14: "there is no such kind of frame",
    15: "the length is not that of its kind",
}

# the kinds of calls that a submission makes (Rules 2.2)
CALLS = {"add": 1, "remove": 2, "contains": 3, "nearest": 4}
CALL_NAMES = {number: name for name, number in CALLS.items()}
ADD, REMOVE, CONTAINS, NEAREST = CALLS.values()

# the letter of each width for `struct`, with its least and greatest number
WIDTHS = {
    "B": (0, 2**8 - 1),
    "H": (0, 2**16 - 1),
    "I": (0, 2**32 - 1),
    "i": (-(2**31), 2**31 - 1),
}


class Field(NamedTuple):
    """A field of a frame: its name and the numbers that its width holds."""

    name: str
    low: int
    high: int


class Shape:
    """The shape of a kind of frame: number, name, fields, and the layout of its bytes.

    Its parts are what a line of text has: a word, and after it the fields of that part. The words are its name."""

    def __init__(self, kind, **parts):
        self.kind, self.name = kind, " ".join(parts)
        self.parts = {word: [Field(field, *WIDTHS[width]) for field, width in part.items()] for word, part in parts.items()}
        self.fields = [field for fields in self.parts.values() for field in fields]
        self.layout = struct.Struct("<HH" + "".join(width for part in parts.values() for width in part.values()))
        self.length = self.layout.size - 2


class Frame(NamedTuple):
    """A frame: the name of its kind, and its fields in their order."""

    name: str
    fields: tuple


class Stop(NamedTuple):
    """What stands in place of a frame where the runner stops: its number, 13, 14 or 15."""

    number: int


OPENING = {"places": "H", "limit": "I"}
FACTORS = {"weight factor": "H", "moisture factor": "H", "speed factor": "H", "draw factor": "H"}
RULE = {"rule number": "B"}
STATION = {"station": "B"}
POINT = {"grade": "H", "weight": "i", "moisture": "i", "speed": "i", "draw": "i"}
SHAPES = (
    Shape(1, open=OPENING),
    Shape(2, submit={**STATION, "call": "B", **POINT, "curve": "I"}),
    Shape(3, step=STATION),
    Shape(4, take=STATION),
    Shape(5, run=STATION),
    Shape(6, open=OPENING, factors=FACTORS),
    Shape(7, open=OPENING, factors=FACTORS, rule=RULE),
    Shape(8, withdraw=STATION),
)
BY_NAME = {shape.name: shape for shape in SHAPES}
BY_KIND = {shape.kind: shape for shape in SHAPES}


def frame_bytes(name, fields):
    """The bytes of a frame: length, kind, fields."""
    shape = BY_NAME[name]
    return shape.layout.pack(shape.length, shape.kind, *fields)


def frame_at(data, at):
    """The frame at a position with the position after it, or a Stop with the same position."""
    left = len(data) - at
    length = int.from_bytes(data[at:at + 2], "little")
    if left < 2 or left < 2 + length:
        return Stop(13), at
    shape = BY_KIND.get(int.from_bytes(data[at + 2:at + 4], "little")) if length >= 2 else None
    if shape is None:
        return Stop(14), at
    if shape.length != length:
        return Stop(15), at
    return Frame(shape.name, shape.layout.unpack_from(data, at)[2:]), at + 2 + length


def frames_in(data):
    """The frames of an input in order, each with its position; the last may be a Stop."""
    at = 0
    while at < len(data):
        frame, after = frame_at(data, at)
        yield at, frame
        if isinstance(frame, Stop):
            return
        at = after
