"""The runner's lines (Rules 10.3): ordinal, result, and for a taken answer its code, point, curve and square."""

from __future__ import annotations

from typing import NamedTuple

from .fault import Fault, shown, whole

HEADER = "frame result code grade weight moisture speed draw curve square"
COLUMNS = HEADER.split()
NO_ANSWER = ["-"] * 8
# every number that a line can have lies between these
LEAST, GREATEST = -2_000, 2**64 - 1


class Answer(NamedTuple):
    """An answer: its code, its point, its curve and its square."""

    code: int
    point: tuple
    curve: int
    square: int


class Line(NamedTuple):
    """What the runner says of a frame: its ordinal, its result, and the answer that was taken or None."""

    ordinal: int
    result: int
    answer: Answer | None


def line_words(line):
    """The ten words of a line."""
    answer = line.answer
    tail = [answer.code, *answer.point, answer.curve, answer.square] if answer else NO_ANSWER
    return [str(word) for word in (line.ordinal, line.result, *tail)]


def printed(lines):
    """All lines as the runner prints them, the header first."""
    return "".join(f"{text}\n" for text in (HEADER, *(" ".join(line_words(line)) for line in lines)))


def line_from(words):
    """The line that ten words are."""
    if len(words) != len(COLUMNS):
        raise Fault(f"a line has {len(COLUMNS)} words; {len(words)} given")
    taken = words[2:] != NO_ANSWER
    numbers = []
    for at, (word, name) in enumerate(zip(words if taken else words[:2], COLUMNS), 1):
        try:
            numbers.append(whole(word, name, LEAST, GREATEST))
        except Fault:
            kind = "a whole number, or all from code on are '-'" if at > 2 else "a whole number"
            raise Fault(f"word {at}: {name} is {kind}; {shown(word)} given") from None
    answer = Answer(numbers[2], tuple(numbers[3:8]), *numbers[8:]) if taken else None
    return Line(*numbers[:2], answer)


def lines_from(texts):
    """The lines that the runner printed, given as lines of text: the header, and then a line for each frame in order."""
    if texts[-1] == "":
        texts = texts[:-1]
    if not texts or texts[0] != HEADER:
        raise Fault(f"line 1: the header is expected, '{HEADER}'; {shown(texts[0] if texts else '')} given")
    lines = []
    for ordinal, text in enumerate(texts[1:], 1):
        try:
            line = line_from(text.split(" "))
            if line.ordinal != ordinal:
                raise Fault(f"word 1: frame {ordinal} is expected; {shown(str(line.ordinal))} given")
        except Fault as fault:
            raise Fault(f"line {ordinal + 1}: {fault}") from None
        lines.append(line)
    return lines
