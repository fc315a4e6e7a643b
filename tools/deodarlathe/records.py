"""Records and lines as CSV: adds from a table of records, a table from the runner's lines."""

import csv

from .fault import Fault, listed, shown, whole
from .lines import COLUMNS, NO_ANSWER, line_words
from .points import AXES, CURVES, RANGES
from .text import lines_of

FIELDS = {**dict(zip(AXES, RANGES)), "curve": CURVES}
SEPARATORS = ",;\t"


def header_of(names):
    """The column of each field of a record, from the names in the header. Other columns are not looked at."""
    names = [name.strip().lower() for name in names]
    for field in FIELDS:
        if names.count(field) != 1:
            wrong = "is missing" if field not in names else "stands there twice"
            raise Fault(f"the header has {listed(list(FIELDS))}, in any order; {field} {wrong}")
    return {field: names.index(field) for field in FIELDS}


def record_of(cells, columns, width):
    """The six numbers of a record, from the cells of its line."""
    if len(cells) != width:
        raise Fault(f"the header has {width} columns; {len(cells)} given")
    return [whole(cells[at].strip(), field, *FIELDS[field]) for field, at in columns.items()]


def rows_of(data):
    """The rows of a table, each with its line, the header first. Empty lines are left out."""
    separator = None
    for at, line in enumerate(lines_of(data), 1):
        if not line.strip():
            continue
        separator = separator or next((mark for mark in SEPARATORS if mark in line), ",")
        try:
            yield at, next(csv.reader([line], delimiter=separator, strict=True))
        except csv.Error:
            expected = "the quotes of each cell close on its line, and a cell is not long"
            raise Fault(f"line {at}: {expected}; {shown(line)} given") from None


def adds(data, station):
    """The lines of text that add each record of a table: a submission, its run and its taking."""
    columns = None
    for at, cells in rows_of(data):
        try:
            if columns is None:
                columns, width = header_of(cells), len(cells)
                continue
            record = record_of(cells, columns, width)
        except Fault as fault:
            raise Fault(f"line {at}: {fault}") from None
        yield f"submit {station} add {' '.join(map(str, record))}"
        yield f"run {station}"
        yield f"take {station}"
    if columns is None:
        raise Fault(f"line 1: the header has {listed(list(FIELDS))}, in any order; nothing given")


def table(lines):
    """The runner's lines as a table: the header, and a row for each line; where no answer was taken its cells are empty."""
    yield ",".join(COLUMNS)
    for line in lines:
        yield ",".join(line_words(line) if line.answer else [*line_words(line)[:2], *[""] * len(NO_ANSWER)])
