"""What the tests share: where things are, and the examples with the lines of the runner for them."""

from pathlib import Path

TOOLS = Path(__file__).resolve().parents[1]
REPOSITORY = TOOLS.parent
EXAMPLES = REPOSITORY / "examples"
HISTORIES = TOOLS / "tests" / "histories"
COMMAND = TOOLS / "frames"

WEIGHT_CHANGE = EXAMPLES / "weight_change.frames"
HALF_DONE = EXAMPLES / "half_done.frames"


def with_lines():
    """Every file of frames that has the runner's lines beside it."""
    files = sorted([*EXAMPLES.glob("*.frames"), *HISTORIES.glob("*.frames")])
    return [(file, file.with_suffix(".lines")) for file in files]
