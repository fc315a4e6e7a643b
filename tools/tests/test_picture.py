"""The picture: what it shows of an index, and that the one in docs/ is what the tool draws."""

import unittest
import xml.etree.ElementTree as xml

from deodarlathe.boxes import cut_words
from deodarlathe.index import Index
from deodarlathe.picture import COLOURS, picture
from deodarlathe.placement import LEAF_HEIGHT, queue_groups, tree_boxes
from deodarlathe.play import play
from deodarlathe.rows import Cut
from deodarlathe.text import written
from deodarlathe.words import played_words

from .sample import EXAMPLES, HALF_DONE, HISTORIES, REPOSITORY, with_lines


def drawn(data, at):
    """The picture after a frame, and the index."""
    index = Index()
    for played in play(data, index):
        if played.line.ordinal == at:
            return picture(index, f"After frame {at}", played_words(played.frame, played.line)), index
    raise AssertionError(f"no frame {at}")


def words_in(svg):
    """All texts of a picture."""
    return [element.text for element in xml.fromstring(svg).iter("{http://www.w3.org/2000/svg}text")]


class HalfDone(unittest.TestCase):
    """The half-done search of docs/PICTURE.md."""

    @classmethod
    def setUpClass(cls):
        cls.svg, cls.index = drawn(HALF_DONE.read_bytes(), 26)
        cls.words = words_in(cls.svg)

    def test_the_one_in_docs(self):
        self.assertEqual((REPOSITORY / "docs" / "half_done.svg").read_text(encoding="utf-8"), self.svg)

    def test_title_and_stations(self):
        self.assertEqual(self.words[0], "After frame 26")
        for number in range(8):
            self.assertIn(f"station {number}", self.words)
        states = [word for word in self.words if word in ("idle", "unfinished call", "answer waits")]
        self.assertEqual(states, "idle,idle,unfinished call,answer waits,idle,unfinished call,idle,unfinished call".split(","))

    def test_changes(self):
        counts = "records held 5, awaited removals 1; changes 7, of them removals 1; change limit of each station 100"
        self.assertEqual(self.words[2], f"places taken 6 of 6: {counts}")
        changes = [word for word in self.words[3:] if word.startswith("changes")]
        self.assertEqual(changes, [f"changes {number}" for number in (6, 0, 0, 1, 0, 0, 0, 0)])

    def test_tree_and_queue(self):
        for words in ("weight < 10,000", "row 2, sum 20,000", "speed < 8,900", "removed", "head", "tail", "root"):
            self.assertIn(words, self.words)
        self.assertEqual(self.words.count("leaf"), self.index.held)

    def test_cursors_and_missed_row(self):
        for words in ("2 ↓", "5 ↓", "7 ↓", "2 missed", "cursor: row 1, down", "missed: row 5, not looked at yet", "1 own step so far"):
            self.assertIn(words, self.words)

    def test_white_ground(self):
        first = next(xml.fromstring(self.svg).iter("{http://www.w3.org/2000/svg}rect"))
        self.assertEqual((first.get("x"), first.get("fill")), (None, "#ffffff"))


class Any(unittest.TestCase):
    """Pictures of other inputs."""

    def test_every_file_at_some_frames(self):
        for file, lines in with_lines():
            last = len(lines.read_text().splitlines()) - 1
            for at in {1, last // 2, last}:
                self.assertIn(f"After frame {at}", words_in(drawn(file.read_bytes(), at)[0]))

    def test_boxes_do_not_overlap(self):
        for file in ("2.frames", "8.frames"):
            index = drawn((HISTORIES / file).read_bytes(), 500)[1]
            boxes = list(tree_boxes(index, 0, 0).values())
            self.assertGreater(len(boxes), 3)
            for at, one in enumerate(boxes):
                for other in boxes[at + 1:]:
                    self.assertTrue(one.right <= other.x or other.right <= one.x or one.bottom <= other.y or other.bottom <= one.y)

    def test_deepest_tree(self):
        text = "open 256 1000\n" + "".join(f"submit 0 add 1 {300 * n + 1} 0 0 0 1\nrun 0\ntake 0\n" for n in range(256))
        svg, index = drawn(written(text.encode()), 769)
        self.assertEqual(words_in(svg).count("leaf"), 256)
        self.assertEqual(max(box.bottom for box in tree_boxes(index, 0, 0).values()), 255 * 88 + LEAF_HEIGHT)

    def test_many_spare_rows_stand_in_one_box(self):
        index = drawn(written(b"open 256 1"), 1)[1]
        self.assertEqual([len(group) for group in queue_groups(index, set())], [512])
        self.assertEqual([len(group) for group in queue_groups(index, {3})], [1, 1, 1, 1, 508])

    def test_all_eight_at_the_root(self):
        text = "open 2 9\nsubmit 0 add 1 1 0 0 0 1\nrun 0\ntake 0\n" + "".join(f"submit {s} nearest 1 1 0 0 0\n" for s in range(8))
        words = words_in(drawn(written(text.encode()), 12)[0])
        self.assertEqual([word for word in words if "↓" in word][:8], [f"{s} ↓" for s in range(8)])
        self.assertEqual(len(set(COLOURS)), 8)

    def test_factors_are_told_where_they_are_not_all_one(self):
        told = "factors of the squared differences: weight 1, moisture 1,000, speed 2, draw 4"
        self.assertIn(told, words_in(drawn(written(b"open 2 9 factors 1 1000 2 4"), 1)[0]))
        for text in (b"open 2 9", b"open 2 9 factors 1 1 1 1"):
            self.assertFalse([word for word in words_in(drawn(written(text), 1)[0]) if word.startswith("factors")])

    def test_rule_2_is_told(self):
        rule = "rule 2: dry weight, and moisture, speed and draw times 10,000"
        told = f"{rule}; factors of the squared differences: dry weight 1, moisture 16, speed 2, draw 4"
        self.assertIn(told, words_in(drawn(written(b"open 2 9 factors 1 16 2 4 rule 2"), 1)[0]))
        self.assertIn(rule, words_in(drawn(written(b"open 2 9 factors 1 1 1 1 rule 2"), 1)[0]))
        for text in (b"open 2 9", b"open 2 9 factors 1 16 2 4 rule 1", b"open 2 9 factors 1 1 1 1 rule 1"):
            self.assertFalse([word for word in words_in(drawn(written(text), 1)[0]) if word.startswith("rule")])

    def test_cuts_of_rule_2(self):
        self.assertEqual(cut_words(Cut(None, 5, 150_943_400, 0, 1)), "dry weight < 75,471,700")
        self.assertEqual(cut_words(Cut(None, 5, 1_999_999_999, 0, 1)), "dry weight < 999,999,999.5")
        self.assertEqual(cut_words(Cut(None, 6, 11_110_000, 0, 1)), "moisture < 555.5")
        self.assertEqual(cut_words(Cut(None, 7, 180_000_000, 0, 1)), "speed < 9,000")
        self.assertEqual(cut_words(Cut(None, 8, -70_000, 0, 1)), "draw < -3.5")
        words = words_in(drawn((EXAMPLES / "dry_weight.frames").read_bytes(), 17)[0])
        self.assertIn("dry weight < 74,679,240", words)
        self.assertTrue([word for word in words if word.endswith(", sum 149,358,480")])

    def test_odd_sum(self):
        self.assertEqual(cut_words(Cut(None, 4, -7, 0, 1)), "draw < -3.5")
        self.assertEqual(cut_words(Cut(None, 1, 20_001, 0, 1)), "weight < 10,000.5")


if __name__ == "__main__":
    unittest.main()
