"""Frames and their lines in words, for a person: what each frame asked for, and what it got."""

from .fault import Fault
from .frame import ADD, CALL_NAMES, MOST_BYTES, STOPS, Stop, frames_in
from .points import DRY, PLAIN, in_range
from .text import line_of

# the questions (Rules 7.1), by what is wrong where they are answered no
REFUSALS = {
    1: "the places are not 1 to 4,096",
    2: "the change limit is not 1 to 500,000,000",
    3: "the slice has too few words for so many places",
    4: "nothing is opened",
    5: "the station is not 0 to 7",
    6: "the station is not idle",
    7: "the call is not 1 to 4",
    8: "the point is out of its ranges",
    9: "the curve is not 1 to 999,999",
    10: "the station has no unfinished call",
    11: "what it reads is out of range",
    12: "no answer waits there",
    **STOPS,
    17: "a factor is not 1 to 1,000",
    20: "the rule is not 1 or 2",
}

# the same where rule 2 asks for less
DRY_REFUSALS = {
    8: "the moisture is not 0 to 9,999, as rule 2 wants it",
    17: "a factor is not 1 to 16, as rule 2 wants it",
}

# the codes of answers (Rules 2.4)
CODES = {
    1: "added",
    2: "held already",
    3: "every place is taken:",
    4: "the station's changes are used up:",
    5: "removed",
    6: "not held",
    7: "held",
    8: "nearest record",
    9: "the grade has no record:",
    11: "withdrawn",
}

# what an accepted frame did, by its name and fields; a submission and a taking have more to say
OPENED = "opened with places {} and limit {}"
FACTORS = ", and factors weight {}, moisture {}, speed {} and draw {}"
DONE = {
    "open": OPENED,
    "open factors": OPENED + FACTORS,
    "open factors rule": OPENED + FACTORS + ", under rule {}",
    "step": "station {} made a step",
    "run": "station {} ran until it was answered",
    "withdraw": "station {} withdrew its call",
}


def point_words(point):
    """The five coordinates."""
    return " ".join(map(str, point))


def call_words(kind, point, curve):
    """A call: its name, its point, and the curve of an add."""
    words = f"{CALL_NAMES.get(kind, f'call {kind}')} {point_words(point)}"
    return f"{words}, curve {curve}" if kind == ADD else words


def answer_words(answer):
    """An answer: its code in words, its point, its curve where it has one, and the square of a nearest record."""
    words = f"{CODES.get(answer.code, f'code {answer.code}')} {point_words(answer.point)}"
    if answer.curve:
        words += f", curve {answer.curve}"
    return f"{words}, square {answer.square}" if answer.code == 8 else words


def refusal_words(number):
    """A refusal: its number, and what is wrong."""
    return f"{number}, {REFUSALS.get(number, 'no question has this number')}"


def asked_by_rule_2(frame):
    """Rule 2 refused a frame: an opening under that rule, or a point that is in range under rule 1."""
    if frame.name == "submit":
        return in_range(frame.fields[2:7], PLAIN)
    return frame.name == "open factors rule" and frame.fields[-1] == DRY


def frame_words(frame, line):
    """What a frame did, or why it was refused."""
    if line.result in DRY_REFUSALS and asked_by_rule_2(frame):
        return f"{line_of(frame)}: refused: {line.result}, {DRY_REFUSALS[line.result]}"
    if line.result:
        return f"{line_of(frame)}: refused: {refusal_words(line.result)}"
    if frame.name == "submit":
        station, kind, *point, curve = frame.fields
        return f"station {station} submitted {call_words(kind, point, curve)}"
    if frame.name == "take":
        return f"station {frame.fields[0]} took: {answer_words(line.answer)}"
    return DONE[frame.name].format(*frame.fields)


def check_line(frame, line):
    """A line fits its frame: an accepted taking has an answer, nothing else has one."""
    if isinstance(frame, Stop):
        if line.result != frame.number:
            raise Fault(f"frame {line.ordinal} stops the runner with {frame.number}; its line says {line.result}")
    elif (line.answer is not None) != (frame.name == "take" and not line.result):
        has = "an answer" if line.answer else "no answer"
        raise Fault(f"frame {line.ordinal} is {line_of(frame)}; its line has result {line.result} and {has}")


def played_words(frame, line):
    """What became of a frame: what it did, why it was refused, or that the runner stops."""
    if isinstance(frame, Stop):
        return f"the runner stops: {refusal_words(frame.number)}"
    return frame_words(frame, line)


def explained(data, lines, text_lines=None):
    """A sentence for each frame that the runner reads, with its line. `text_lines` are the lines of its text."""
    frames = [frame for _, frame in frames_in(data[:MOST_BYTES])]
    if len(frames) != len(lines):
        raise Fault(f"the runner prints a line for each of {len(frames)} frames; {len(lines)} given")
    for frame, line in zip(frames, lines):
        check_line(frame, line)
        place = f"frame {line.ordinal}"
        if text_lines and line.ordinal <= len(text_lines):
            place += f", line {text_lines[line.ordinal - 1]}"
        yield f"{place}: {played_words(frame, line)}"
    if len(data) > MOST_BYTES:
        yield f"# the runner takes the first {MOST_BYTES:,} bytes; {len(data) - MOST_BYTES:,} more are not looked at"
