"""Text to frames and back, and what is wrong with a text."""

import random
import time
import unittest

from deodarlathe.fault import Fault
from deodarlathe.frame import MOST_BYTES, SHAPES, Frame, Stop, frame_bytes, frames_in
from deodarlathe.text import lines_of, places_in, read_back, written

from .sample import EXAMPLES, with_lines

NEAREST = "submit 2 nearest 12 11500 580 8300 10"
FOUR = "weight factor, moisture factor, speed factor and draw factor"
# each text with the fault that it has
FAULTS = {
    "open 4": "line 1: open takes places and limit; 1 given",
    "open 4 100 1": "line 1: word 4: after places and limit comes factors or nothing; '1' given",
    "open 4 100 Factors 1 1 1 1": "line 1: word 4: after places and limit comes factors or nothing; 'Factors' given",
    "open 4 factors 1 1 1 1": "line 1: word 3: limit is a whole number from 0 to 4,294,967,295; 'factors' given",
    "open 4 100 factors": f"line 1: factors takes {FOUR}; 0 given",
    "open 4 100 factors 1 9 1": f"line 1: factors takes {FOUR}; 3 given",
    "open 4 100 factors 1 9 1 4 1": f"line 1: word 9: after {FOUR} comes rule or nothing; '1' given",
    "open 4 100 factors 1 9 1 4 Rule 2": f"line 1: word 9: after {FOUR} comes rule or nothing; 'Rule' given",
    "open 4 100 factors 1 9 1 4 rule": "line 1: rule takes rule number; 0 given",
    "open 4 100 factors 1 9 1 4 rule 2 1": "line 1: rule takes rule number; 2 given",
    "open 4 100 factors 1 9 1 4 rule 256": "line 1: word 10: rule number is a whole number from 0 to 255; '256' given",
    "open 4 100 factors 1 9 1 4 rule -1": "line 1: word 10: rule number is a whole number from 0 to 255; '-1' given",
    "open 4 100 factors 1 9 1 4 rule dry": "line 1: word 10: rule number is a whole number from 0 to 255; 'dry' given",
    "open 4 100 factors 1 9 1 rule 2": "line 1: word 8: draw factor is a whole number from 0 to 65,535; 'rule' given",
    "open 4 100 rule 2": "line 1: word 4: after places and limit comes factors or nothing; 'rule' given",
    "rule 2": "line 1: word 1: a call is open, submit, step, take, run or withdraw; 'rule' given",
    "open 4 100 factors 65536 9 1 4": "line 1: word 5: weight factor is a whole number from 0 to 65,535; '65536' given",
    "open 4 100 factors 1 -9 1 4": "line 1: word 6: moisture factor is a whole number from 0 to 65,535; '-9' given",
    "open 4 100 factors 1 9 1.5 4": "line 1: word 7: speed factor is a whole number from 0 to 65,535; '1.5' given",
    "open 4 100 factors 1 9 1 x": "line 1: word 8: draw factor is a whole number from 0 to 65,535; 'x' given",
    "factors 1 1 1 1": "line 1: word 1: a call is open, submit, step, take, run or withdraw; 'factors' given",
    "step": "line 1: step takes station; 0 given",
    "\n# x\njump 3": "line 3: word 1: a call is open, submit, step, take, run or withdraw; 'jump' given",
    "Open 4 100": "line 1: word 1: a call is open, submit, step, take, run or withdraw; 'Open' given",
    "submit 0 add 12 8000 550 9000 0": "line 1: submit of an add takes station, call, grade, weight, moisture, speed, draw and curve; the curve is missing",
    "submit 0 1 12 8000 550 9000 0": "line 1: submit of an add takes station, call, grade, weight, moisture, speed, draw and curve; the curve is missing",
    "submit 0 nearest 12 8000": "line 1: submit takes station, call, grade, weight, moisture, speed and draw, and for an add curve; 4 given",
    "submit 0 find 12 8000 550 9000 0": "line 1: word 3: call is add, remove, contains or nearest, or a number from 0 to 255; 'find' given",
    "step 1_0": "line 1: word 2: station is a whole number from 0 to 255; '1_0' given",
    "step +1": "line 1: word 2: station is a whole number from 0 to 255; '+1' given",
    "step ٣": "line 1: word 2: station is a whole number from 0 to 255; '\\u0663' given",
    "step 256": "line 1: word 2: station is a whole number from 0 to 255; '256' given",
    "step -1": "line 1: word 2: station is a whole number from 0 to 255; '-1' given",
    "step 0x1": "line 1: word 2: station is a whole number from 0 to 255; '0x1' given",
    "open 65536 1": "line 1: word 2: places is a whole number from 0 to 65,535; '65536' given",
    "open 1 4294967296": "line 1: word 3: limit is a whole number from 0 to 4,294,967,295; '4294967296' given",
    "submit 0 256 1 1 1 1 1 1": "line 1: word 3: call is add, remove, contains or nearest, or a number from 0 to 255; '256' given",
    "submit 0 add 65536 1 1 1 1 1": "line 1: word 4: grade is a whole number from 0 to 65,535; '65536' given",
    "submit 0 add 1 1 1 2147483648 1 1": "line 1: word 7: speed is a whole number from -2,147,483,648 to 2,147,483,647; '2147483648' given",
    "submit 0 add 1 1 1 1 1 4294967296": "line 1: word 9: curve is a whole number from 0 to 4,294,967,295; '4294967296' given",
    "step 1\r\nstep \0": "line 2: text is expected; a zero byte given, as frames have them",
    "step " + "9" * 5000: f"line 1: word 2: station is a whole number from 0 to 255; '{'9' * 40}…' given",
}


def random_frame(rng):
    """A frame of any kind, with any numbers of its widths."""
    shape = rng.choice(SHAPES)
    fields = [rng.choice([f.low, f.high, rng.randint(f.low, f.high), min(f.high, rng.randint(0, 5))]) for f in shape.fields]
    return frame_bytes(shape.name, fields)


class Write(unittest.TestCase):
    """Text to frames."""

    def test_examples(self):
        for file in EXAMPLES.glob("*.frames"):
            self.assertEqual(written(file.with_suffix(".txt").read_bytes()), file.read_bytes(), file.name)

    def test_step_of_station_2(self):
        self.assertEqual(written(b"step 2"), bytes([3, 0, 3, 0, 2]))

    def test_factors(self):
        scaled = bytes([16, 0, 6, 0, 64, 0, 0xE8, 3, 0, 0, 1, 0, 9, 0, 1, 0, 4, 0])
        self.assertEqual(written(b"open 64 1000 factors 1 9 1 4  # much for moisture"), scaled)
        self.assertEqual(written(b"open 64 1000"), bytes([8, 0, 1]) + scaled[3:10])
        self.assertEqual(written(b"open 64 1000 factors 1 1000 0 65535")[10:], bytes([1, 0, 0xE8, 3, 0, 0, 0xFF, 0xFF]))

    def test_rule(self):
        ruled = bytes([17, 0, 7, 0, 64, 0, 0xE8, 3, 0, 0, 1, 0, 9, 0, 1, 0, 4, 0, 2])
        self.assertEqual(written(b"open 64 1000 factors 1 9 1 4 rule 2  # by dry weight"), ruled)
        self.assertEqual(written(b"open 64 1000 factors 1 9 1 4"), bytes([16, 0, 6]) + ruled[3:18])
        self.assertEqual([written(b"open 64 1000 factors 1 9 1 4 rule %d" % rule)[18] for rule in (0, 1, 3, 255)], [0, 1, 3, 255])

    def test_kinds_by_number(self):
        self.assertEqual(written(NEAREST.encode()), written(NEAREST.replace("nearest", "4").encode()))

    def test_spellings(self):
        plain = written(b"step 2\ntake 2\n")
        for text in (b"\xef\xbb\xbfstep 2\ntake 2", b"step 2\r\ntake 2\r\n", b"step 2\rtake 2", b"\t step  002 # two\n#\n\n take\t2"):
            self.assertEqual(written(text), plain, text)
        self.assertEqual(written(b""), b"")

    def test_faults(self):
        for text, fault in FAULTS.items():
            with self.assertRaises(Fault) as raised:
                written(text.encode())
            self.assertEqual(str(raised.exception), fault)

    def test_bytes_that_are_no_text(self):
        with self.assertRaisesRegex(Fault, "^line 2: text in UTF-8 is expected; byte 255 given$"):
            lines_of(b"\xef\xbb\xbfstep 1\nstep \xff")

    def test_many_lines_in_linear_time(self):
        text = "".join(f"submit {n % 8} add 12 {n % 100_000} 550 9000 -5 {n + 1}  # {n}\n" for n in range(200_000)).encode()
        start = time.monotonic()
        self.assertEqual(len(written(text)), 28 * 200_000)
        self.assertLess(time.monotonic() - start, 15)


class Read(unittest.TestCase):
    """Frames to text."""

    def test_random_frames_round_trip(self):
        rng = random.Random(23)
        for _ in range(200):
            frames = b"".join(random_frame(rng) for _ in range(rng.randint(0, 40)))
            lines, stop = read_back(frames)
            self.assertIsNone(stop)
            self.assertEqual(written("\n".join(lines).encode()), frames)
            self.assertEqual(read_back(written("\n".join(lines).encode()))[0], lines)

    def test_files_round_trip(self):
        for file, _ in with_lines():
            frames = file.read_bytes()
            lines, stop = read_back(frames)
            back = written("\n".join(lines).encode())
            self.assertEqual(back, frames if stop is None else frames[:len(back)], file.name)

    def test_text_of_each_kind(self):
        lines = ["open 4 100", "submit 0 add 12 8000 550 9000 0 41", NEAREST, "submit 7 nearest 1 1 0 0 -5 9", "submit 1 9 0 0 0 0 0"]
        lines += ["submit 1 add 0 0 0 0 0 0", "step 9", "take 0", "run 255", "withdraw 1"]
        lines += ["open 64 1000 factors 1 9 1 4", "open 4 100 factors 1 1 1 1", "open 0 0 factors 0 1001 2 65535"]
        lines += ["open 64 1000 factors 1 9 1 4 rule 2", "open 4 100 factors 1 1 1 1 rule 1", "open 0 0 factors 0 17 2 65535 rule 255"]
        self.assertEqual(read_back(written("\n".join(lines).encode())), (lines, None))

    def test_stops(self):
        step = bytes([3, 0, 3, 0, 2])
        ends = {
            b"\x03": (13, "the frame is cut short"),
            b"\x03\x00\x03\x00": (13, "the frame is cut short"),
            b"\x00\x00": (14, "there is no such kind of frame"),
            b"\x01\x00\x07": (14, "there is no such kind of frame"),
            b"\x03\x00\x09\x00\x02": (14, "there is no such kind of frame"),
            b"\x03\x00\x00\x00\x02": (14, "there is no such kind of frame"),
            b"\x03\x00\x07\x00\x02": (15, "the length is not that of its kind"),
            b"\x10\x00\x07\x00\x04\x00\x64\x00\x00\x00\x01\x00\x09\x00\x01\x00\x04\x00": (15, "the length is not that of its kind"),
            b"\x11\x00\x07\x00\x04\x00\x64\x00\x00\x00\x01\x00\x09\x00\x01\x00\x04\x00": (13, "the frame is cut short"),
            b"\x03\x00\x06\x00\x02": (15, "the length is not that of its kind"),
            b"\x08\x00\x06\x00\x04\x00\x64\x00\x00\x00": (15, "the length is not that of its kind"),
            b"\x10\x00\x06\x00\x04\x00\x64\x00\x00\x00\x01\x00\x09\x00\x01\x00\x04": (13, "the frame is cut short"),
            b"\x04\x00\x03\x00\x02\x00": (15, "the length is not that of its kind"),
        }
        for end, (number, wrong) in ends.items():
            lines, stop = read_back(step + end)
            self.assertEqual(stop, f"byte 5: frame 2 stops the runner with {number}: {wrong}")
            self.assertEqual(lines, ["step 2", f"# {stop}"])
            self.assertEqual([frame for _, frame in frames_in(step + end)], [Frame("step", (2,)), Stop(number)])

    def test_more_than_the_runner_takes(self):
        step = bytes([3, 0, 3, 0, 2])
        lines, stop = read_back(step * 20_000)
        self.assertIsNone(stop)
        self.assertEqual(lines[MOST_BYTES // 5], "# byte 65536: the runner takes no more bytes, and stops with 13 in frame 13108")
        self.assertEqual(written("\n".join(lines).encode()), step * 20_000)
        exact = step * 13_096 + written(NEAREST.encode()) * 2
        self.assertEqual(len(exact), MOST_BYTES)
        self.assertFalse([line for line in read_back(exact)[0] if line.startswith("#")])
        comment = "# byte 65536: the runner takes no more bytes, and ends before frame 13099"
        self.assertEqual(read_back(exact + step)[0][-2:], [comment, "step 2"])


class Places(unittest.TestCase):
    """The lines of a text where frames stand."""

    def test_lines(self):
        text = b"# x\nstep 1\n\ntake 1\n"
        self.assertEqual(places_in(text, written(text)), [2, 4])

    def test_another_text(self):
        with self.assertRaisesRegex(Fault, "^line 1: frame 1 is expected, which is step 1$"):
            places_in(b"step 2", written(b"step 1"))
        with self.assertRaisesRegex(Fault, "^the text has 2 calls; there are 1 frames$"):
            places_in(b"step 1\nstep 2", written(b"step 1"))


if __name__ == "__main__":
    unittest.main()
