"""The index as a small model: stations, rows, and the calls on them, step by step (docs/RULES.md, docs/LAYOUT.md).

It is written anew, to be read beside the rules, and proves nothing: the runner decides. Question 11 is left out, since
an index that only these calls wrote never meets it (Rules 7.16)."""

from __future__ import annotations

from dataclasses import dataclass, field

from .frame import ADD, CALLS, NEAREST
from .lines import Answer
from .moves import walk
from .points import CURVES, ONES, PLAIN, RULES, Scale, in_range
from .rows import Spare
from .search import search

IDLE, UNFINISHED, WAITING = "idle", "unfinished", "waiting"
STATIONS = 8
WITHDRAWN = 11
# the words that the runner lends (Rules 10.1)
RUNNER_WORDS = 8_800


@dataclass
class Call:
    """A call as it is kept: the changes at its submission, the best record of a search so far, its own steps so far."""

    kind: int
    point: tuple
    curve: int
    asof: int
    best: tuple | None = None
    steps: int = 0


@dataclass
class Track:
    """Where a call stands: its cursor; for a search also its phase, since, and the first row that it missed."""

    cursor: int | None = None
    up: bool = False
    since: int | None = None
    missed: int | None = None


@dataclass
class Station:
    """A station: its state, its call, its answer, its track, and the changes that it has made since opening."""

    state: str = IDLE
    call: Call | None = None
    answer: Answer | None = None
    track: Track = field(default_factory=Track)
    changes: int = 0

    def answered(self, code, point, curve=0, square=0):
        """The answer waits, and the call stands nowhere any more."""
        self.state, self.answer, self.track = WAITING, Answer(code, point, curve, square), Track()


class Index:
    """An index over a lent slice of so many words. It is not opened at first."""

    def __init__(self, words=RUNNER_WORDS):
        self.words = words
        self.places = self.limit = 0
        self.scale = Scale()
        self.stations = []

    @property
    def opened(self):
        """Question 4."""
        return self.places > 0

    @property
    def awaiting(self):
        """How many removals still hold their place: those since the submission of the oldest unfinished search."""
        return self.removals - min([self.removals, *(s.track.since for s in self.stations if s.track.since is not None)])

    @property
    def taken(self):
        """The places taken."""
        return self.held + self.awaiting

    def open(self, places, limit, factors=ONES, rule=PLAIN):
        """Questions 1, 2, 20, 17 and 3; then no record is held, every row is spare, and every station is idle and has made
        no change."""
        if not 1 <= places <= 4_096:
            return 1
        if not 1 <= limit <= 500_000_000:
            return 2
        if rule not in RULES:
            return 20
        if not all(1 <= factor <= RULES[rule].most_factor for factor in factors):
            return 17
        if self.words < 32 * places + 608:
            return 3
        self.places, self.limit, self.scale = places, limit, Scale(factors, rule)
        self.changes = self.held = self.removals = 0
        self.root, self.head, self.tail = None, 0, 2 * places - 1
        self.rows = [*map(Spare, range(1, 2 * places)), Spare(None)]
        self.stations = [Station() for _ in range(STATIONS)]
        return 0

    def asked(self, station, state, number):
        """Questions 4 and 5, and the one whose number is given: the station is in this state."""
        if not self.opened:
            return 4
        if station >= STATIONS:
            return 5
        return 0 if self.stations[station].state == state else number

    def submit(self, station, kind, point, curve):
        """Questions 4 to 9; then the call stands at the root."""
        refused = self.asked(station, IDLE, 6)
        if refused:
            return refused
        if kind not in CALLS.values():
            return 7
        if not in_range(point, self.scale.rule):
            return 8
        if kind == ADD and not CURVES[0] <= curve <= CURVES[1]:
            return 9
        at = self.stations[station]
        at.state = UNFINISHED
        at.call = Call(kind, point, curve if kind == ADD else 0, self.changes)
        at.track = Track(self.root, since=self.removals if kind == NEAREST else None)
        return 0

    def step(self, station):
        """Questions 4, 5 and 10; then the call goes on, or is answered."""
        refused = self.asked(station, UNFINISHED, 10)
        if refused:
            return refused
        at = self.stations[station]
        at.call.steps += 1
        (search if at.call.kind == NEAREST else walk)(self, at)
        return 0

    def run(self, station):
        """Steps until the station is answered, at most 16 × places + 64."""
        for _ in range(16 * self.places + 64):
            refused = self.step(station)
            if refused:
                return refused
            if self.stations[station].state == WAITING:
                break
        return 0

    def take(self, station):
        """Questions 4, 5 and 12; then the answer, and the station is idle."""
        refused = self.asked(station, WAITING, 12)
        if refused:
            return refused, None
        self.stations[station].state = IDLE
        return 0, self.stations[station].answer

    def withdraw(self, station):
        """Questions 4, 5 and 10; then 11 waits with the point that was given."""
        refused = self.asked(station, UNFINISHED, 10)
        if refused:
            return refused
        at = self.stations[station]
        at.answered(WITHDRAWN, at.call.point)
        return 0
