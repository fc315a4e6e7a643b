"""Frames as text, one call to a line, written as bytes and read back; `tools/frames write --help` shows the lines.

Widths alone are looked at: whether a number is in range is for the index to say."""

from codecs import BOM_UTF8

from .fault import Fault, listed, shown, whole
from .frame import ADD, BY_NAME, CALL_NAMES, CALLS, MOST_BYTES, SHAPES, STOPS, Stop, frame_bytes, frames_in

# by the first word of a line the shape with the most parts; a line may leave out the last of them, which is another kind
FULLEST = {next(iter(shape.parts)): shape for shape in sorted(SHAPES, key=lambda shape: len(shape.parts))}


def lines_of(data):
    """The lines of a text in UTF-8, with a byte order mark or without, ended as any system ends them."""
    if data.startswith(BOM_UTF8):
        data = data[len(BOM_UTF8):]
    data = data.replace(b"\r\n", b"\n").replace(b"\r", b"\n")
    if b"\0" in data:
        raise Fault(f"line {line_at(data, data.index(0))}: text is expected; a zero byte given, as frames have them")
    try:
        return data.decode().split("\n")
    except UnicodeDecodeError as error:
        line, byte = line_at(data, error.start), data[error.start]
        raise Fault(f"line {line}: text in UTF-8 is expected; byte {byte} given") from None


def line_at(data, position):
    """The line of a byte, from 1."""
    return data.count(b"\n", 0, position) + 1


def number_of(words, at, field):
    """The number of a field, which is the word at an index of its line."""
    try:
        return whole(words[at], field.name, field.low, field.high)
    except Fault as fault:
        raise Fault(f"word {at + 1}: {fault}") from None


def call_of(words):
    """The call of a submission, by its name or by its number."""
    call = CALLS.get(words[2])
    if call is not None:
        return call
    try:
        return whole(words[2], "call", 0, 255)
    except Fault:
        names = listed(list(CALLS), "or")
        raise Fault(f"word 3: call is {names}, or a number from 0 to 255; {shown(words[2])} given") from None


def submission_of(words):
    """The fields of a submission. A curve that is not given is 0, but an add needs one."""
    fields = BY_NAME["submit"].fields
    names = [field.name for field in fields]
    given = len(words) - 1
    if given not in (7, 8):
        raise Fault(f"submit takes {listed(names[:-1])}, and for an add curve; {given} given")
    call = call_of(words)
    if given == 7 and call == ADD:
        raise Fault(f"submit of an add takes {listed(names)}; the curve is missing")
    numbers = [number_of(words, at, field) if at != 2 else call for at, field in enumerate(fields[:given], 1)]
    return numbers if given == 8 else numbers + [0]


def parts_of(words, shape):
    """The name and the fields of a call: of a shape that has all parts, as many as its line has."""
    said, numbers, before = [], [], []
    for word, fields in shape.parts.items():
        at = len(said) + len(numbers)
        if at == len(words):
            break
        if words[at] != word:
            raise Fault(f"word {at + 1}: after {listed(before)} comes {word} or nothing; {shown(words[at])} given")
        names, given = [field.name for field in fields], len(words) - at - 1
        last = len(numbers) + len(fields) == len(shape.fields)
        if given < len(fields) or (last and given > len(fields)):
            raise Fault(f"{word} takes {listed(names)}; {given} given")
        said.append(word)
        numbers += [number_of(words, place, field) for place, field in enumerate(fields, at + 1)]
        before = names
    return " ".join(said), numbers


def frame_of(words):
    """The bytes of one call, given as the words of its line."""
    shape = FULLEST.get(words[0])
    if shape is None:
        raise Fault(f"word 1: a call is {listed(list(FULLEST), 'or')}; {shown(words[0])} given")
    if shape.name == "submit":
        return frame_bytes("submit", submission_of(words))
    return frame_bytes(*parts_of(words, shape))


def numbered_frames(data):
    """The frames of a text, each as its bytes with the line where it stands. The first line that is no call is a fault."""
    for at, line in enumerate(lines_of(data), 1):
        words = line.partition("#")[0].split()
        if words:
            try:
                yield at, frame_of(words)
            except Fault as fault:
                raise Fault(f"line {at}: {fault}") from None


def written(data):
    """The frames of a whole text."""
    return b"".join(frame for _, frame in numbered_frames(data))


def places_in(data, frames):
    """The line of each frame, in a text that must be of these frames."""
    places = list(numbered_frames(data))
    read = [(at, frame) for at, frame in frames_in(frames) if not isinstance(frame, Stop)]
    for ordinal, ((line, given), (at, frame)) in enumerate(zip(places, read), 1):
        if not frames.startswith(given, at):
            raise Fault(f"line {line}: frame {ordinal} is expected, which is {line_of(frame)}")
    if len(places) != len(read):
        raise Fault(f"the text has {len(places)} calls; there are {len(read)} frames")
    return [line for line, _ in places]


def line_of(frame):
    """A frame as a line of text. A curve is left out where the call is no add and the curve is 0; factors and a rule never
    are, since an opening without them is another kind of frame."""
    if frame.name != "submit":
        numbers = iter(frame.fields)
        parts = BY_NAME[frame.name].parts.items()
        return " ".join(f"{word} {' '.join(str(next(numbers)) for _ in fields)}" for word, fields in parts)
    station, call, *point, curve = frame.fields
    words = [station, CALL_NAMES.get(call, call), *point]
    if call == ADD or curve:
        words.append(curve)
    return f"submit {' '.join(map(str, words))}"


def stop_words(ordinal, at, stop):
    """Where and why the runner stops, in words."""
    return f"byte {at}: frame {ordinal} stops the runner with {stop.number}: {STOPS[stop.number]}"


def limit_words(ordinal, at):
    """What the runner makes of the first frame that reaches beyond the bytes that it takes, in words."""
    end = "ends before" if at == MOST_BYTES else "stops with 13 in"
    return f"byte {MOST_BYTES}: the runner takes no more bytes, and {end} frame {ordinal}"


def read_back(data):
    """The text of frames as a list of lines, and where the runner stops in words, or None where all frames are whole."""
    lines, beyond = [], False
    for ordinal, (at, frame) in enumerate(frames_in(data), 1):
        if isinstance(frame, Stop):
            stop = stop_words(ordinal, at, frame)
            return [*lines, f"# {stop}"], stop
        if not beyond and at + BY_NAME[frame.name].layout.size > MOST_BYTES:
            beyond = True
            lines.append(f"# {limit_words(ordinal, at)}")
        lines.append(line_of(frame))
    return lines, None
