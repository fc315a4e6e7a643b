"""Frames played on the model, one after the other, as the runner does (Rules 10)."""

from __future__ import annotations

from typing import NamedTuple

from .frame import MOST_BYTES, Frame, Stop, frames_in
from .index import Index
from .lines import Line


class Played(NamedTuple):
    """A frame that was played: where it stands, what it is, and its line."""

    at: int
    frame: Frame | Stop
    line: Line


def apply(index, frame):
    """The result of a frame on the index, and the answer where one was taken."""
    if frame.name == "submit":
        station, kind, *point, curve = frame.fields
        return index.submit(station, kind, tuple(point), curve), None
    if frame.name in ("open factors", "open factors rule"):
        places, limit, *factors = frame.fields[:6]
        return index.open(places, limit, tuple(factors), *frame.fields[6:]), None
    if frame.name == "take":
        return index.take(*frame.fields)
    return getattr(index, frame.name)(*frame.fields), None


def play(data, index=None):
    """Each frame of the bytes that the runner takes, with its line. The index changes as the frames are asked for."""
    index = index or Index()
    for ordinal, (at, frame) in enumerate(frames_in(data[:MOST_BYTES]), 1):
        result = (frame.number, None) if isinstance(frame, Stop) else apply(index, frame)
        yield Played(at, frame, Line(ordinal, *result))
