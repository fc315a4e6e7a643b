"""Frames in words, the runner's lines read, and tables."""

import unittest

from deodarlathe.fault import Fault
from deodarlathe.frame import Frame
from deodarlathe.lines import HEADER, Answer, Line, lines_from, printed
from deodarlathe.play import play
from deodarlathe.records import adds, table
from deodarlathe.text import lines_of, places_in, written
from deodarlathe.words import CODES, REFUSALS, explained, frame_words

from .sample import EXAMPLES, WEIGHT_CHANGE, with_lines

COLUMNS = "grade,weight,moisture,speed,draw,curve"
SIX = "grade, weight, moisture, speed, draw and curve"
# what is wrong with a table, by the table
TABLE_FAULTS = {
    "": f"line 1: the header has {SIX}, in any order; nothing given",
    "grade,weight,moisture,speed,draw": f"line 1: the header has {SIX}, in any order; curve is missing",
    f"{COLUMNS},draw": f"line 1: the header has {SIX}, in any order; draw stands there twice",
    f"{COLUMNS}\n12,8000,550,9000,0": "line 2: the header has 6 columns; 5 given",
    f"{COLUMNS}\n\n12,0,550,9000,0,41": "line 3: weight is a whole number from 1 to 100,000; '0' given",
    f"{COLUMNS}\n12,1_0,550,9000,0,41": "line 2: weight is a whole number from 1 to 100,000; '1_0' given",
    f"{COLUMNS}\n12,8000,550,9000,0,": "line 2: curve is a whole number from 1 to 999,999; '' given",
    f"{COLUMNS}\n12,8000,550,9000,-2001,1": "line 2: draw is a whole number from -2,000 to 2,000; '-2001' given",
    f'{COLUMNS}\n12,8000,550,9000,0,"41': "line 2: the quotes of each cell close on its line, and a cell is not long; '12,8000,550,9000,0,\"41' given",
}
# what is wrong with lines, by the lines
LINE_FAULTS = {
    "": f"line 1: the header is expected, '{HEADER}'; '' given",
    "1 0 - - - - - - - -\n": f"line 1: the header is expected, '{HEADER}'; '1 0 - - - - - - - -' given",
    f"{HEADER}\n2 0 - - - - - - - -\n": "line 2: word 1: frame 1 is expected; '2' given",
    f"{HEADER}\n1 0 - - -\n": "line 2: a line has 10 words; 5 given",
    f"{HEADER}\n1 x - - - - - - - -\n": "line 2: word 2: result is a whole number; 'x' given",
    f"{HEADER}\n1 0 8 - 1 1 1 1 1 1\n": "line 2: word 4: grade is a whole number, or all from code on are '-'; '-' given",
    f"{HEADER}\n\n": "line 2: a line has 10 words; 1 given",
}


def fault_of(work, *inputs):
    """What is wrong, as the fault says it."""
    try:
        work(*inputs)
    except Fault as fault:
        return str(fault)
    return None


class Explain(unittest.TestCase):
    """Each frame in words."""

    def test_weight_change(self):
        frames, text = WEIGHT_CHANGE.read_bytes(), WEIGHT_CHANGE.with_suffix(".txt").read_bytes()
        lines = lines_from(WEIGHT_CHANGE.with_suffix(".lines").read_text().split("\n"))
        words = list(explained(frames, lines, places_in(text, frames)))
        self.assertEqual(words[0], "frame 1, line 2: opened with places 4 and limit 100")
        self.assertEqual(words[1], "frame 2, line 5: station 0 submitted add 12 8000 550 9000 0, curve 41")
        self.assertEqual(words[11], "frame 12, line 19: station 2 made a step")
        self.assertEqual(words[16], "frame 17, line 28: station 2 took: nearest record 12 12000 600 8200 16, curve 77, square 3620436")
        self.assertEqual(words[18], "frame 19, line 32: station 5 withdrew its call")
        self.assertEqual(words[20], "frame 21, line 36: take 2: refused: 12, no answer waits there")
        self.assertEqual(len(words), 23)

    def test_every_file_with_its_lines_and_without(self):
        for frames, lines in with_lines():
            data = frames.read_bytes()
            given = list(explained(data, lines_from(lines.read_text().split("\n"))))
            self.assertEqual(given, list(explained(data, [played.line for played in play(data)])), frames.name)

    def test_stop(self):
        data = written(b"step 1") + b"\x01"
        words = list(explained(data, [played.line for played in play(data)]))
        self.assertEqual(words, ["frame 1: step 1: refused: 4, nothing is opened", "frame 2: the runner stops: 13, the frame is cut short"])

    def test_changes_used_up(self):
        call = b"submit 3 add 1 %d 0 0 0 7\nrun 3\ntake 3\n"
        data = written(b"open 2 500000001\nopen 2 1\n" + call % 1 + call % 2)
        words = list(explained(data, [played.line for played in play(data)]))
        self.assertEqual(words[0], "frame 1: open 2 500000001: refused: 2, the change limit is not 1 to 500,000,000")
        self.assertEqual(words[-1], "frame 8: station 3 took: the station's changes are used up: 1 2 0 0 0")

    def test_factors(self):
        data = written(b"open 2 1 factors 1 9 1 1001\nopen 2 1 factors 1 9 1 4")
        words = list(explained(data, [played.line for played in play(data)]))
        self.assertEqual(words[0], "frame 1: open 2 1 factors 1 9 1 1001: refused: 17, a factor is not 1 to 1,000")
        self.assertEqual(words[1], "frame 2: opened with places 2 and limit 1, and factors weight 1, moisture 9, speed 1 and draw 4")

    def test_rule(self):
        opening = b"open 2 1 factors 1 9 1 %d rule %d\n"
        data = written(opening % (17, 3) + opening % (17, 2) + opening % (1001, 1) + opening % (4, 2))
        words = list(explained(data, [played.line for played in play(data)]))
        self.assertEqual(words[0], "frame 1: open 2 1 factors 1 9 1 17 rule 3: refused: 20, the rule is not 1 or 2")
        self.assertEqual(words[1], "frame 2: open 2 1 factors 1 9 1 17 rule 2: refused: 17, a factor is not 1 to 16, as rule 2 wants it")
        self.assertEqual(words[2], "frame 3: open 2 1 factors 1 9 1 1001 rule 1: refused: 17, a factor is not 1 to 1,000")
        factors = "factors weight 1, moisture 9, speed 1 and draw 4"
        self.assertEqual(words[3], f"frame 4: opened with places 2 and limit 1, and {factors}, under rule 2")

    def test_moisture_under_rule_2(self):
        call = b"submit 3 nearest 1 %d 10000 0 0\n"
        data = written(b"open 2 1 factors 1 1 1 1 rule 2\n" + call % 1 + call % 0 + b"open 2 1\n" + call % 0 + call % 1)
        words = list(explained(data, [played.line for played in play(data)]))
        self.assertEqual(words[1], "frame 2: submit 3 nearest 1 1 10000 0 0: refused: 8, the moisture is not 0 to 9,999, as rule 2 wants it")
        for at in (2, 4):
            self.assertEqual(words[at], f"frame {at + 1}: submit 3 nearest 1 0 10000 0 0: refused: 8, the point is out of its ranges")
        self.assertEqual(words[5], "frame 6: station 3 submitted nearest 1 1 10000 0 0")

    def test_more_than_the_runner_takes(self):
        data = written(b"step 1\n" * 20_000)
        words = list(explained(data, [played.line for played in play(data)]))
        self.assertEqual(words[-1], "# the runner takes the first 65,536 bytes; 34,464 more are not looked at")

    def test_every_code_and_refusal_has_words(self):
        self.assertEqual(sorted(CODES), [*range(1, 10), 11])
        self.assertEqual(sorted(REFUSALS), [*range(1, 16), 17, 20])
        for code in CODES:
            answer = Answer(code, (12, 8000, 550, 9000, 0), 0, 0)
            self.assertIn("12 8000 550 9000 0", frame_words(Frame("take", (3,)), Line(1, 0, answer)))

    def test_lines_that_do_not_fit(self):
        data = written(b"open 1 1\ntake 0")
        given = Answer(1, (1, 1, 0, 0, 0), 1, 0)
        for lines, fault in (
            ([Line(1, 0, None)], "the runner prints a line for each of 2 frames; 1 given"),
            ([Line(1, 0, given), Line(2, 12, None)], "frame 1 is open 1 1; its line has result 0 and an answer"),
            ([Line(1, 0, None), Line(2, 0, None)], "frame 2 is take 0; its line has result 0 and no answer"),
        ):
            self.assertEqual(fault_of(lambda lines=lines: list(explained(data, lines))), fault)


class Lines(unittest.TestCase):
    """The runner's lines."""

    def test_read_and_printed(self):
        for _, lines in with_lines():
            text = lines.read_text()
            self.assertEqual(printed(lines_from(text.split("\n"))), text)

    def test_squares_up_to_64_bits(self):
        line = "1 0 8 1 100000 0 0 -2000 7 {}\n"
        for square in (17_625_567_969_600_000_016, 2**64 - 1):
            text = f"{HEADER}\n{line.format(square)}"
            self.assertEqual(printed(lines_from(text.split("\n"))), text)
        fault = f"line 2: word 10: square is a whole number, or all from code on are '-'; '{2**64}' given"
        self.assertEqual(fault_of(lines_from, [HEADER, line.format(2**64).strip()]), fault)

    def test_faults(self):
        for text, fault in LINE_FAULTS.items():
            self.assertEqual(fault_of(lambda text=text: lines_from(lines_of(text.encode()))), fault)

    def test_table(self):
        lines = [Line(1, 0, None), Line(2, 0, Answer(8, (12, 8000, 550, 9000, -5), 41, 25)), Line(3, 12, None)]
        self.assertEqual(list(table(lines)), [HEADER.replace(" ", ","), "1,0,,,,,,,,", "2,0,8,12,8000,550,9000,-5,41,25", "3,12,,,,,,,,"])


class Adds(unittest.TestCase):
    """Tables of records."""

    def test_example(self):
        text = "open 4 100\n" + "\n".join(adds((EXAMPLES / "records.csv").read_bytes(), 3))
        answers = [played.line.answer for played in play(written(text.encode())) if played.line.answer]
        self.assertEqual([answer.code for answer in answers], [1, 1, 1])
        self.assertEqual(answers[2].point, (40, 4500, 480, 11000, -5))

    def test_any_order_and_other_columns(self):
        want = ["submit 5 add 12 8000 550 9000 -4 41", "run 5", "take 5"]
        for table_text in (
            "\ufeffcurve,draw,speed,moisture,weight,grade\r\n41,-4,9000,550,8000,12\r\n",
            'Grade; Weight;moisture;speed;draw;curve;note\n12;8000;550;9000;-4;"41";by hand\n\n',
            "\ngrade\tweight\tmoisture\tspeed\tdraw\tcurve\n12\t8000\t550\t9000\t-4\t41",
        ):
            self.assertEqual(list(adds(table_text.encode(), 5)), want)

    def test_faults(self):
        for text, fault in TABLE_FAULTS.items():
            self.assertEqual(fault_of(lambda text=text: list(adds(text.encode(), 0))), fault)


if __name__ == "__main__":
    unittest.main()
