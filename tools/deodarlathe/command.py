"""The command tools/frames: its sub-commands, their arguments, and what they write."""

import argparse
import signal
import sys

from . import text
from .fault import Fault, whole
from .files import file_bytes, is_standard, write_bytes, write_lines
from .frame import MOST_BYTES
from .index import Index
from .lines import lines_from
from .picture import picture
from .play import play
from .records import adds, table
from .usage import ADDS_NOTE, CSV_NOTE, DRAW_NOTE, EXPLAIN_NOTE, READ_NOTE, WRITE_NOTE
from .words import explained, played_words

NAME = "tools/frames"
MODEL = "# no lines are given: the model of tools/frames answers here, not the runner"


class Parser(argparse.ArgumentParser):
    """A parser that complains in one line."""

    def error(self, message):
        """Bad usage ends with status 2."""
        self.exit(2, f"{NAME}: {message}; see {self.prog} --help\n")


def ranged(name, low, high):
    """An argument that is a whole number in a range."""

    def number(word):
        """The number that a word is."""
        try:
            return whole(word, name, low, high)
        except Fault as fault:
            raise argparse.ArgumentTypeError(str(fault)) from None

    return number


def about(name, work, *inputs):
    """What is made of one of several inputs; a fault in it names its file."""
    try:
        return work(*inputs)
    except Fault as fault:
        raise Fault(f"{'standard input' if is_standard(name) else name}: {fault}") from None


def lines_in(data):
    """The runner's lines."""
    return lines_from(text.lines_of(data))


def write(args):
    """Text to frames."""
    write_bytes(text.written(file_bytes(args.file)))


def read(args):
    """Frames to text. Where the runner would stop, a comment says so, and the status is 1."""
    lines, stop = text.read_back(file_bytes(args.file))
    write_lines(lines)
    if stop:
        raise Fault(stop)


def explain(args):
    """Each frame in words, with the line that it got."""
    if [is_standard(args.frames), args.lines == "-", args.text == "-"].count(True) > 1:
        args.parser.error("only one of the files can be standard input")
    data = file_bytes(args.frames)
    places = about(args.text, text.places_in, file_bytes(args.text), data) if args.text else None
    if args.lines is None:
        write_lines([MODEL, *explained(data, [played.line for played in play(data)], places)])
    else:
        lines = about(args.lines, lines_in, file_bytes(args.lines))
        write_lines(list(explained(data, lines, places)))


def add_records(args):
    """A table of records to the text that adds them."""
    write_lines(list(adds(file_bytes(args.file), args.station)))


def tabulate(args):
    """The runner's lines to a table."""
    write_lines(table(lines_in(file_bytes(args.file))))


def draw(args):
    """A picture of the index after a frame."""
    index, read_so_far = Index(), 0
    for _, frame, line in play(file_bytes(args.frames), index):
        read_so_far = line.ordinal
        if read_so_far == args.at:
            break
    if read_so_far != args.at:
        raise Fault(f"there is no frame {args.at}; the runner reads {read_so_far}")
    if not index.opened:
        raise Fault(f"frame {args.at}: nothing is opened yet, so there is nothing to draw")
    write_bytes(picture(index, f"After frame {args.at}", played_words(frame, line)).encode(), args.output)


def argument(*flags, **options):
    """An argument of a command."""
    return flags, options


def input_file(what, name="file", metavar="FILE"):
    """An argument that is a file; a hyphen or none is standard input."""
    return argument(name, metavar=metavar, nargs="?", help=f"{what}; standard input where it is - or not given")


FRAMES = input_file("the frames", "frames", "FRAMES")
LINES = argument("lines", metavar="LINES", nargs="?", help="what the runner printed; a model answers where it is not given")
TEXT = argument("--text", metavar="FILE", help="the text of these frames, whose lines are named")
TABLE = input_file("the table", metavar="FILE.csv")
STATION = argument("--station", metavar="N", type=ranged("station", 0, 7), default=0, help="the station that adds, 0 to 7 (0)")
AT = argument("--at", metavar="N", type=ranged("frame", 1, MOST_BYTES), required=True, help="the frame after which it is drawn")
OUTPUT = argument("-o", "--output", metavar="FILE.svg", help="the file to write; standard output where it is - or not given")

# each command: what does it, what it is for, its arguments, and a note for its help
COMMANDS = {
    "write": (write, "text to frames", [input_file("the text")], WRITE_NOTE),
    "read": (read, "frames to text", [input_file("the frames")], READ_NOTE),
    "explain": (explain, "each frame in words, with the line that it got", [FRAMES, LINES, TEXT], EXPLAIN_NOTE),
    "adds": (add_records, "a table of records (CSV) to the text that adds them", [STATION, TABLE], ADDS_NOTE),
    "csv": (tabulate, "the runner's lines to a table (CSV)", [input_file("the lines")], CSV_NOTE),
    "draw": (draw, "a picture (SVG) of the index after a frame", [FRAMES, AT, OUTPUT], DRAW_NOTE),
}


def parsers():
    """The parser of the whole, and that of each command."""
    about_all = "Frames of the curve index: as text, in words, as tables, as a picture."
    top = Parser(prog=NAME, allow_abbrev=False, description=about_all)
    commands = top.add_subparsers(metavar="COMMAND", required=True, title="commands")
    for name, (work, purpose, arguments, note) in COMMANDS.items():
        made = commands.add_parser(
            name,
            help=purpose,
            description=f"{NAME} {name}: {purpose}.\n\n{note}",
            allow_abbrev=False,
            formatter_class=argparse.RawDescriptionHelpFormatter,
        )
        made.set_defaults(work=work, parser=made)
        for flags, options in arguments:
            made.add_argument(*flags, **options)
    return top, commands.choices


def parsed(words):
    """The arguments of a command, whose files and options may stand in any order."""
    top, commands = parsers()
    if words and words[0] in commands:
        return commands[words[0]].parse_intermixed_args(words[1:])
    return top.parse_args(words)


def main():
    """Runs a command. The status is 0, 1 where an input or a file is not what it must be, or 2 for bad usage."""
    if hasattr(signal, "SIGPIPE"):
        signal.signal(signal.SIGPIPE, signal.SIG_DFL)
    args = parsed(sys.argv[1:])
    try:
        args.work(args)
    except Fault as fault:
        print(f"{NAME}: {fault}", file=sys.stderr)
        return 1
    except KeyboardInterrupt:
        return 130
    return 0
