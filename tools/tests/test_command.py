"""The command as it is called: from any folder, through a link, with its statuses and its one line of complaint."""

import os
import subprocess
import sys
import tempfile
import unittest
from pathlib import Path

from .sample import COMMAND, EXAMPLES, HALF_DONE, REPOSITORY, WEIGHT_CHANGE

TEXT = WEIGHT_CHANGE.with_suffix(".txt")
LINES = WEIGHT_CHANGE.with_suffix(".lines")


def called(*words, given=b"", folder=REPOSITORY, command=COMMAND):
    """Status, output and complaint of a call."""
    done = subprocess.run([sys.executable, command, *map(str, words)], input=given, capture_output=True, cwd=folder, check=False)
    return done.returncode, done.stdout, done.stderr.decode()


class Commands(unittest.TestCase):
    """Each sub-command."""

    def test_write_and_read(self):
        frames = WEIGHT_CHANGE.read_bytes()
        self.assertEqual(called("write", TEXT), (0, frames, ""))
        self.assertEqual(called("write", given=TEXT.read_bytes()), (0, frames, ""))
        status, text, _ = called("read", "-", given=frames)
        self.assertEqual((status, called("write", given=text)[1]), (0, frames))

    def test_read_says_where_the_runner_stops(self):
        stop = "byte 5: frame 2 stops the runner with 14: there is no such kind of frame"
        given = bytes([3, 0, 3, 0, 2, 3, 0, 9, 0, 2])
        self.assertEqual(called("read", given=given), (1, f"step 2\n# {stop}\n".encode(), f"tools/frames: {stop}\n"))

    def test_explain(self):
        status, words, _ = called("explain", WEIGHT_CHANGE, LINES, "--text", TEXT)
        self.assertEqual((status, words.decode().count("\n")), (0, 23))
        self.assertEqual(called("explain", WEIGHT_CHANGE, "--text", TEXT, LINES), (0, words, ""))
        status, own, _ = called("explain", given=WEIGHT_CHANGE.read_bytes())
        self.assertEqual(own.decode().splitlines()[0], "# no lines are given: the model of tools/frames answers here, not the runner")
        self.assertEqual(own.decode().splitlines()[1], "frame 1: opened with places 4 and limit 100")
        self.assertEqual(called("explain", "-", "-")[0], 2)

    def test_a_fault_in_one_of_several_files_names_it(self):
        self.assertEqual(called("explain", WEIGHT_CHANGE, TEXT)[2].split(": ")[:3], ["tools/frames", str(TEXT), "line 1"])

    def test_adds_and_csv(self):
        status, text, _ = called("adds", "--station", 7, EXAMPLES / "records.csv")
        self.assertEqual((status, text.splitlines()[0]), (0, b"submit 7 add 12 8000 550 9000 0 41"))
        status, table, _ = called("csv", LINES)
        self.assertEqual((status, table.splitlines()[6]), (0, b"6,0,1,12,8000,550,9000,0,41,0"))

    def test_draw(self):
        with tempfile.TemporaryDirectory() as folder:
            file = Path(folder, "picture.svg")
            self.assertEqual(called("draw", HALF_DONE, "--at", 26, "-o", file), (0, b"", ""))
            self.assertEqual(called("draw", "--at", 26, given=HALF_DONE.read_bytes()), (0, file.read_bytes(), ""))

    def test_draw_of_what_is_not_there(self):
        self.assertEqual(called("draw", HALF_DONE, "--at", 37), (1, b"", "tools/frames: there is no frame 37; the runner reads 36\n"))
        fault = "tools/frames: frame 1: nothing is opened yet, so there is nothing to draw\n"
        self.assertEqual(called("draw", "--at", 1, given=bytes([3, 0, 3, 0, 2])), (1, b"", fault))


class Calls(unittest.TestCase):
    """How it is called."""

    def test_through_a_link_from_another_folder(self):
        with tempfile.TemporaryDirectory() as folder:
            link = Path(folder, "fr")
            os.symlink(COMMAND, link)
            self.assertEqual(called("write", TEXT, folder=folder, command=link)[1], WEIGHT_CHANGE.read_bytes())

    def test_help(self):
        for words in ([], ["write"], ["read"], ["explain"], ["adds"], ["csv"], ["draw"]):
            status, help_text, _ = called(*words, "--help")
            self.assertEqual((status, help_text[:19]), (0, b"usage: tools/frames"))

    def test_files_that_cannot_be_used(self):
        missing = "tools/frames: cannot read 'nothing.txt': there is no such file\n"
        self.assertEqual(called("write", "nothing.txt"), (1, b"", missing))
        self.assertEqual(called("write", "examples"), (1, b"", "tools/frames: cannot read 'examples': it is a folder\n"))
        status, _, fault = called("draw", HALF_DONE, "--at", 26, "-o", "nothing/picture.svg")
        self.assertEqual((status, fault), (1, "tools/frames: cannot write 'nothing/picture.svg': there is no such folder\n"))

    def test_bad_usage(self):
        for words in ([], ["jump"], ["write", "a", "b"], ["draw"], ["draw", "--at", "0"], ["draw", "--at", "1_0"], ["adds", "--station", "8"]):
            status, output, fault = called(*words)
            self.assertEqual((status, output, fault.count("\n")), (2, b"", 1), words)
            self.assertTrue(fault.startswith("tools/frames: "))

    def test_nothing_is_written_where_the_text_is_wrong(self):
        self.assertEqual(called("write", given=b"step 1\nopen 4\n"), (1, b"", "tools/frames: line 2: open takes places and limit; 1 given\n"))


if __name__ == "__main__":
    unittest.main()
