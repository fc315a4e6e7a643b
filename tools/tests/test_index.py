"""The model: the runner's lines for the examples, and a plain list of records for random histories."""

import random
import unittest

from deodarlathe.frame import ADD, CONTAINS, NEAREST, REMOVE
from deodarlathe.index import IDLE, UNFINISHED, WAITING, Index
from deodarlathe.lines import printed
from deodarlathe.placement import queue_rows
from deodarlathe.play import play
from deodarlathe.points import DRY, ONES, PLAIN, RANGES, Scale, cut_between, excluded, goes_left, number, rank, square
from deodarlathe.rows import Leaf
from deodarlathe.text import written

from .plain import Plain
from .sample import EXAMPLES, with_lines


def lines_for(text):
    """What the model prints for a text."""
    return printed(played.line for played in play(written(text.encode())))


def results_for(text):
    """The results that the model prints for a text."""
    return [line.split()[1] for line in lines_for(text).splitlines()[1:]]


def leaves_below(index, row):
    """The records below a row, and how many rows there are."""
    if row is None:
        return {}, 0
    at = index.rows[row]
    if isinstance(at, Leaf):
        return {at.point: at.curve}, 1
    left, right = leaves_below(index, at.left), leaves_below(index, at.right)
    assert all(goes_left(at.axis, at.sum, point) for point in left[0])
    assert not any(goes_left(at.axis, at.sum, point) for point in right[0])
    assert index.rows[at.left].parent == index.rows[at.right].parent == row
    return {**left[0], **right[0]}, left[1] + right[1] + 1


class Runner(unittest.TestCase):
    """The model gives the runner's lines."""

    def test_examples_and_histories(self):
        files = with_lines()
        self.assertGreaterEqual(len(files), 5)
        for frames, lines in files:
            got = printed(played.line for played in play(frames.read_bytes()))
            self.assertEqual(got, lines.read_text(), frames.name)

    def test_rules_10_5(self):
        text = "open 2 10\nsubmit 0 add 12 8000 550 9000 0 41\nrun 0\ntake 0\nsubmit 1 nearest 12 12000 550 9000 0\nrun 1\ntake 1"
        self.assertEqual(lines_for(text).splitlines()[-1], "7 0 8 12 8000 550 9000 0 41 16000000")

    def test_questions(self):
        text = "\n".join(
            ["step 0", "run 0", "open 0 1", "open 4097 1", "open 1 0", "open 1 500000001", "open 257 1", "open 256 1", "take 8", "take 0"]
            + ["submit 0 5 1 1 0 0 0", "submit 0 nearest 0 1 0 0 0", "submit 0 add 1 1 0 0 0 0", "step 0", "withdraw 0"]
            + ["submit 0 nearest 1 1 0 0 0", "submit 0 nearest 1 1 0 0 0"]
        )
        self.assertEqual(results_for(text), "4 4 1 1 2 2 3 0 5 12 7 8 9 10 10 0 6".split())

    def test_no_more_than_the_runner_takes(self):
        lines = lines_for("step 1\n" * 20_000).splitlines()
        self.assertEqual(lines[-1], "13108 13 - - - - - - - -")


class Changes(unittest.TestCase):
    """The limit holds for the changes of each station by itself."""

    def codes(self, index, *calls):
        """The codes of calls, one after the other: station, kind, weight."""
        answers = []
        for station, kind, weight in calls:
            self.assertEqual(index.submit(station, kind, (1, weight, 0, 0, 0), 7), 0)
            self.assertEqual(index.run(station), 0)
            answers.append(index.take(station)[1].code)
        return answers

    def opened(self, places, limit):
        """An index."""
        index = Index()
        self.assertEqual(index.open(places, limit), 0)
        return index

    def test_limits(self):
        limits = (0, 1, 500_000_000, 500_000_001, 4_000_000_000)
        self.assertEqual([Index().open(1, limit) for limit in limits], [2, 0, 0, 2, 2])

    def test_one_station_has_used_up_its_changes(self):
        index = self.opened(8, 1)
        self.assertEqual(self.codes(index, (0, ADD, 1), (0, ADD, 2), (0, REMOVE, 1), (0, ADD, 1)), [1, 4, 4, 2])
        self.assertEqual(self.codes(index, (0, REMOVE, 2), (0, CONTAINS, 1), (0, NEAREST, 1)), [6, 7, 8])
        self.assertEqual(self.codes(index, (1, ADD, 2), (1, ADD, 3), (7, REMOVE, 2), (7, REMOVE, 1)), [1, 4, 5, 4])
        self.assertEqual([station.changes for station in index.stations], [1, 1, 0, 0, 0, 0, 0, 1])

    def test_two_stations_at_the_same_time(self):
        index = self.opened(8, 1)
        self.assertEqual(self.codes(index, (0, ADD, 1)), [1])
        for station, weight in ((0, 2), (1, 3)):
            index.submit(station, ADD, (1, weight, 0, 0, 0), 7)
        for station in (0, 1):
            index.step(station)
        self.assertEqual([index.take(station)[1].code for station in (0, 1)], [4, 1])

    def test_used_up_comes_before_no_room(self):
        index = self.opened(1, 1)
        self.assertEqual(self.codes(index, (0, ADD, 1), (0, ADD, 2), (1, ADD, 2)), [1, 4, 3])

    def test_what_is_no_change(self):
        index = self.opened(1, 2)
        self.assertEqual(self.codes(index, (0, ADD, 1), (0, ADD, 1), (0, ADD, 2), (0, REMOVE, 2)), [1, 2, 3, 6])
        index.submit(0, REMOVE, (1, 1, 0, 0, 0), 0)
        index.withdraw(0)
        index.take(0)
        self.assertEqual(index.stations[0].changes, 1)
        self.assertEqual(self.codes(index, (0, REMOVE, 1), (0, ADD, 1)), [5, 4])

    def test_all_changes_number_the_records(self):
        index = self.opened(8, 1)
        self.assertEqual(self.codes(index, *((station, ADD, station + 1) for station in range(8))), [1] * 8)
        self.assertEqual(self.codes(index, *((station, ADD, 9) for station in range(8))), [4] * 8)
        self.assertEqual(index.changes, 8)
        self.assertEqual(sorted(row.added for row in index.rows if isinstance(row, Leaf)), list(range(1, 9)))

    def test_opening_clears(self):
        index = self.opened(2, 1)
        self.assertEqual(self.codes(index, (0, ADD, 1), (0, ADD, 2)), [1, 4])
        self.assertEqual(index.open(2, 1), 0)
        self.assertEqual(self.codes(index, (0, ADD, 1), (0, ADD, 2)), [1, 4])


class Measured(unittest.TestCase):
    """What an opening measures with."""

    RECORDS = ("12 8000 550 9000 0 41", "12 8030 560 9000 0 42")

    def nearest(self, opening, target, records=RECORDS):
        """What the nearest of some records is answered with."""
        adds = "".join(f"submit 0 add {record}\nrun 0\ntake 0\n" for record in records)
        text = f"{opening}\n{adds}submit 7 nearest {target}\nrun 7\ntake 7"
        return lines_for(text).splitlines()[-1].split(" ", 2)[2]

    def root_cut(self, *points, factors=ONES, rule=PLAIN):
        """The axis and the sum of the cut at the root, when these points are added."""
        index = Index()
        self.assertEqual(index.open(len(points), len(points), factors, rule), 0)
        for point in points:
            index.submit(0, ADD, point, 7)
            index.run(0)
            index.take(0)
        return index.rows[index.root].axis, index.rows[index.root].sum


class Factors(Measured):
    """Each squared difference is multiplied by the factor of its axis."""

    def test_nearest(self):
        target = "12 8020 556 9000 0"
        plain = "8 12 8030 560 9000 0 42 116"
        self.assertEqual(self.nearest("open 2 10", target), plain)
        self.assertEqual(self.nearest("open 2 10 factors 1 1 1 1", target), plain)
        self.assertEqual(self.nearest("open 2 10 factors 1 100 1 1", target), "8 12 8030 560 9000 0 42 1700")
        target = "12 8020 554 9000 0"
        self.assertEqual(self.nearest("open 2 10", target), "8 12 8030 560 9000 0 42 136")
        self.assertEqual(self.nearest("open 2 10 factors 1 100 1 1", target), "8 12 8000 550 9000 0 41 2000")
        self.assertEqual(self.nearest("open 2 10 factors 1 100 5 1", "12 8020 554 9001 0"), "8 12 8000 550 9000 0 41 2005")

    def test_the_example_of_a_tissue_machine(self):
        answers = [played.line.answer for played in play((EXAMPLES / "tissue.frames").read_bytes()) if played.line.answer]
        self.assertEqual([(answer.curve, answer.square) for answer in answers if answer.code == 8], [(62, 5725), (61, 277000), (61, 277000)])

    def test_a_tie_by_factors(self):
        self.assertEqual(self.nearest("open 2 10 factors 1 1 1 9", "12 8015 555 9000 0"), "8 12 8030 560 9000 0 42 250")
        self.assertEqual(self.nearest("open 2 10 factors 1 3 1 1", "12 8020 550 9000 0"), "8 12 8030 560 9000 0 42 400")

    def test_questions(self):
        text = "\n".join(
            ["open 1 1 factors 0 1 1 1", "open 1 1 factors 1 0 1 1", "open 1 1 factors 1 1 1001 1", "open 1 1 factors 1 1 1 65535", "step 0"]
            + ["open 1 0 factors 0 1 1 1", "open 0 0 factors 0 1 1 1", "open 257 1 factors 1 1 1 0", "open 257 1 factors 1 1 1 1"]
            + ["open 256 1 factors 1000 1 1 1000", "step 0"]
        )
        self.assertEqual(results_for(text), "17 17 17 17 4 2 1 17 3 0 10".split())

    def test_a_refused_opening_leaves_the_factors(self):
        index = Index()
        self.assertEqual([index.open(4, 10, (1, 9, 1, 4)), index.open(4, 10, (1, 0, 1, 4))], [0, 17])
        self.assertEqual(index.scale, Scale((1, 9, 1, 4), PLAIN))
        self.assertEqual((index.open(4, 10), index.scale), (0, Scale(ONES, PLAIN)))

    def test_greatest_square(self):
        low, high = zip(*RANGES)
        self.assertEqual(square(low, high, Scale()), 11_015_800_001)
        self.assertEqual(square(low, high, Scale((1_000,) * 4)), 11_015_800_001_000)
        text = "open 1 1 factors 1000 1000 1000 1000\nsubmit 0 add 1 1 0 0 -2000 1\nrun 0\ntake 0\n"
        lines = lines_for(text + "submit 0 nearest 1 100000 10000 30000 2000\nrun 0\ntake 0")
        self.assertEqual(lines.split()[-1], "11015800001000")

    def test_exclusion_goes_by_the_factor_of_its_axis(self):
        target, best = (1, 100, 0, 0, 0), (1, 90, 0, 0, 0)
        for axis in (2, 3, 4):
            own = tuple(5 if axis == other else 1 for other in range(1, 5))
            others = tuple(1 if axis == other or other == 1 else 5 for other in range(1, 5))
            self.assertTrue(excluded(axis, 10, target, best, Scale(own)))
            for total, factors in ((10, ONES), (8, own), (10, others)):
                self.assertFalse(excluded(axis, total, target, best, Scale(factors)))
            self.assertTrue(excluded(axis, 21, target, best, Scale(others)))
            self.assertFalse(excluded(axis, 20, target, best, Scale(others)))

    def test_cuts_do_not_see_the_factors(self):
        self.assertEqual(self.root_cut((1, 1, 0, 0, 0), (1, 4, 2, 0, 0), factors=(1, 1_000, 1, 1)), (1, 5))


class DryWeight(Measured):
    """Under rule 2 squares and cuts go by the dry weight, and by moisture, speed and draw times 10,000."""

    DRIEST, WETTEST = (1, 100_000, 0, 0, -2_000), (1, 1, 9_999, 30_000, 2_000)

    def test_numbers(self):
        point = (12, 8030, 560, 9000, -5)
        self.assertEqual([number(point, axis) for axis in range(9)], [*point, 75_803_200, 5_600_000, 90_000_000, -50_000])

    def test_nearest(self):
        target = "12 8020 555 9000 0"
        self.assertEqual(self.nearest("open 2 10 factors 1 1 1 1 rule 2", target), "8 12 8030 560 9000 0 42 5448490000")
        for opening in ("open 2 10", "open 2 10 factors 1 1 1 1", "open 2 10 factors 1 1 1 1 rule 1"):
            self.assertEqual(self.nearest(opening, target), "8 12 8030 560 9000 0 42 125")
        target = "12 8015 554 9001 3"
        self.assertEqual(self.nearest("open 2 10 factors 2 3 5 7 rule 1", target), "8 12 8000 550 9000 0 41 566")
        self.assertEqual(self.nearest("open 2 10 factors 2 3 5 7 rule 2", target), "8 12 8030 560 9000 0 42 35088240200")

    def test_the_example_of_dry_weight(self):
        answers = [played.line.answer for played in play((EXAMPLES / "dry_weight.frames").read_bytes()) if played.line.answer]
        found = [(answer.curve, answer.square) for answer in answers if answer.code == 8]
        self.assertEqual(found, [(81, 12_100), (82, 883_656_550_400), (82, 883_656_550_400)])

    def test_a_tie_goes_by_basis_weight(self):
        # as far in moisture and in dry weight: the heavier has the lesser dry weight
        records = ("12 4800 4000 0 0 41", "12 5300 6000 0 0 42")
        for order in (records, records[::-1]):
            answer = self.nearest("open 2 10 factors 1 1 1 1 rule 2", "12 5000 5000 0 0", order)
            self.assertEqual(answer, "8 12 5300 6000 0 0 42 114440000000000")
        records = ("12 5000 5000 0 3 41", "12 5000 5000 0 -3 42")
        self.assertEqual(self.nearest("open 2 10 factors 1 1 1 9 rule 2", "12 5000 5000 0 0", records), "8 12 5000 5000 0 -3 42 8100000000")

    def test_questions(self):
        text = "\n".join(
            ["open 1 1 factors 1 1 1 1 rule 0", "open 1 1 factors 1 1 1 1 rule 3", "open 1 1 factors 1 1 1 1 rule 255", "step 0"]
            + ["open 1 1 factors 0 1 1 1 rule 3", "open 1 0 factors 1 1 1 1 rule 3", "open 0 0 factors 0 1 1 1 rule 0"]
            + ["open 257 1 factors 1 1 1 1 rule 0", "open 257 1 factors 1 1 1 17 rule 2", "open 257 1 factors 1 1 1 16 rule 2"]
        )
        self.assertEqual(results_for(text), "20 20 20 4 20 2 1 20 17 3".split())

    def test_factors_end_at_sixteen(self):
        for axis in range(4):
            results = []
            for factor in (0, 1, 16, 17, 1_000, 1_001):
                factors = " ".join(str(factor if axis == other else 1) for other in range(4))
                results += results_for(f"open 1 1 factors {factors} rule 2\nopen 1 1 factors {factors} rule 1")
            self.assertEqual(results, "17 17 0 0 0 0 17 0 17 0 17 17".split())

    def test_a_refused_opening_leaves_the_rule(self):
        index = Index()
        self.assertEqual([index.open(4, 10, ONES, 2), index.open(4, 10, ONES, 3), index.open(4, 10, (1, 17, 1, 1), 2)], [0, 20, 17])
        self.assertEqual(index.scale, Scale(ONES, DRY))
        self.assertEqual((index.open(4, 10), index.scale), (0, Scale(ONES, PLAIN)))

    def test_moisture(self):
        for call in ("add", "remove", "contains", "nearest"):
            for rule, results in ((1, "0 0 0"), (2, "0 0 8")):
                text = "".join(f"open 1 1 factors 1 1 1 1 rule {rule}\nsubmit 0 {call} 1 1 {moisture} 0 0 5\n" for moisture in (0, 9_999, 10_000))
                self.assertEqual(results_for(text)[1::2], results.split())

    def test_greatest_square(self):
        self.assertEqual(square(self.DRIEST, self.WETTEST, Scale((16,) * 4, DRY)), 17_625_567_969_600_000_016)
        record = f"{' '.join(map(str, self.DRIEST))} 7"
        answer = self.nearest("open 1 1 factors 16 16 16 16 rule 2", "1 1 9999 30000 2000", [record])
        self.assertEqual(answer, f"8 {record} 17625567969600000016")

    def test_cuts(self):
        # the weights differ most, the dry weights do not at all
        a, b = (1, 5_000, 0, 0, 0), (1, 10_000, 5_000, 0, 0)
        self.assertEqual((self.root_cut(a, b), self.root_cut(a, b, rule=DRY)), ((1, 15_000), (6, 50_000_000)))
        # one unit of moisture is more than all grades
        a, b = (1, 1, 0, 0, 0), (9_999, 1, 1, 0, 0)
        self.assertEqual((self.root_cut(a, b), self.root_cut(a, b, rule=DRY)), ((0, 10_000), (6, 10_000)))
        self.assertEqual(self.root_cut((1, 1, 9_999, 0, 0), (3, 1, 9_999, 0, 0), rule=DRY), (0, 4))
        # on a tie the lowest axis
        self.assertEqual(self.root_cut((1, 1, 0, 0, 0), (1, 2, 0, 1, 1), rule=DRY), (5, 30_000))
        self.assertEqual(self.root_cut((1, 1, 0, 0, -2_000), (1, 1, 0, 0, 2_000), rule=DRY), (8, 0))
        # the greatest sum
        self.assertEqual(self.root_cut((1, 100_000, 0, 0, 0), (1, 99_999, 0, 0, 0), rule=DRY), (5, 1_999_990_000))

    def test_cuts_do_not_see_the_factors(self):
        self.assertEqual(self.root_cut((1, 4, 0, 0, 0), (1, 8, 2, 0, 0), factors=(1, 16, 1, 1), rule=DRY), (5, 119_984))

    def test_exclusion_goes_by_the_factor_of_its_axis(self):
        target, best = (1, 100, 0, 0, 0), (1, 90, 0, 0, 0)
        for axis in (6, 7, 8):
            own = tuple(5 if axis == other else 1 for other in range(5, 9))
            others = tuple(1 if axis == other or other == 5 else 5 for other in range(5, 9))
            self.assertTrue(excluded(axis, 100_000, target, best, Scale(own, DRY)))
            for total, factors in ((100_000, ONES), (80_000, own), (100_000, others)):
                self.assertFalse(excluded(axis, total, target, best, Scale(factors, DRY)))
            self.assertTrue(excluded(axis, 200_001, target, best, Scale(others, DRY)))
            self.assertFalse(excluded(axis, 200_000, target, best, Scale(others, DRY)))

    def test_exclusion_by_dry_weight(self):
        target, best = (1, 100, 5_000, 0, 0), (1, 100, 5_001, 0, 0)
        self.assertEqual(4 * square(target, best, Scale(ONES, DRY)), 20_001 * 20_001 - 1)
        self.assertFalse(excluded(5, 1_000_000 + 20_000, target, best, Scale(ONES, DRY)))
        self.assertTrue(excluded(5, 1_000_000 + 20_001, target, best, Scale(ONES, DRY)))

    def test_nothing_is_excluded_beyond_64_bits(self):
        scale, best = Scale((16,) * 4, DRY), (1, 60_000, 0, 0, 0)
        target = (1, 1, 0, 0, 0)
        self.assertGreater(4 * square(target, best, scale), 2**64)
        self.assertGreater(16 * (1_999_990_000 - 20_000) ** 2, 4 * square(target, best, scale))
        self.assertFalse(excluded(5, 1_999_990_000, target, best, scale))
        self.assertTrue(excluded(5, 1_999_990_000, target, (1, 50_000, 0, 0, 0), scale))


class Points(unittest.TestCase):
    """The cases P1 to P5 of Rules 13."""

    def test_cases(self):
        self.assertEqual(square((1, 1, 0, 0, -3), (1, 1, 0, 0, 4), Scale()), 49)
        self.assertEqual(cut_between((1, 3, 0, 0, 0), (1, 4, 0, 0, 0), PLAIN), (1, 7))
        self.assertTrue(goes_left(1, 7, (1, 3, 0, 0, 0)) and not goes_left(1, 7, (1, 4, 0, 0, 0)))
        self.assertTrue(goes_left(4, -7, (1, 1, 0, 0, -4)) and not goes_left(4, -7, (1, 1, 0, 0, -3)))
        self.assertEqual(cut_between((1, 1, 0, 0, 0), (1, 6, 0, 5, 0), PLAIN), (1, 7))
        target = (1, 9000, 0, 0, 0)
        self.assertLess(rank(target, (1, 9010, 0, 0, 0), Scale()), rank(target, (1, 8990, 0, 0, 0), Scale()))


class Histories(unittest.TestCase):
    """Random histories of single steps agree with the plain list, and leave a tree and a queue that are all the rows."""

    def event(self, rng, index, plain, number):
        """One event of a station on both."""
        station = index.stations[number]
        if station.state == IDLE:
            kind = rng.choice([1, 1, 1, 2, 2, 3, 4, 4])
            moisture = rng.choice([0, 1, 2, 5_000, 9_999])
            point = (rng.choice([1, 2, 128]), rng.randint(1, 6), moisture, rng.randint(0, 2), rng.randint(-1, 1))
            if kind == 2 and plain.held and rng.random() < 0.8:
                point = rng.choice(sorted(plain.held))
            self.assertEqual(index.submit(number, kind, point, rng.randint(1, 999_999)), 0)
            plain.submitted(number, kind, point)
        elif station.state == WAITING:
            self.assertEqual(index.take(number)[0], 0)
        elif rng.random() < 0.03:
            self.assertEqual(index.withdraw(number), 0)
            plain.ended(number)
            self.assertEqual(station.answer, (11, station.call.point, 0, 0))
        else:
            call = station.call
            self.assertEqual(index.step(number), 0)
            if station.state == WAITING:
                self.assertEqual(tuple(station.answer), plain.answered(number, call.kind, call.point, call.curve))
            elif call.kind == NEAREST:
                self.assertLessEqual(5 * call.steps, 9 * index.places)

    def test_random_histories(self):
        rng = random.Random(5)
        for rule in (PLAIN, DRY) * 40:
            places, limit = rng.choice([1, 2, 5, 12, 40]), rng.choice([1, 4, 500_000_000])
            factors = rng.choice([ONES, tuple(rng.choice([1, 2, 9, 1_000 if rule == PLAIN else 16]) for _ in range(4))])
            index, plain = Index(), Plain(places, limit, factors, rule)
            self.assertEqual(index.open(places, limit, factors, rule), 0)
            for _ in range(400):
                self.event(rng, index, plain, rng.randrange(8))
            records, rows = leaves_below(index, index.root)
            self.assertEqual(records, plain.held)
            self.assertEqual(index.taken, len(plain.held) + len(plain.awaited))
            self.assertEqual([station.changes for station in index.stations], plain.changes)
            self.assertEqual(index.changes, sum(plain.changes))
            self.assertEqual(rows + len(list(queue_rows(index))), 2 * places)

    def test_a_station_left_to_itself_is_answered(self):
        index = Index()
        index.open(3, 10)
        index.submit(6, NEAREST, (1, 1, 0, 0, 0), 0)
        self.assertEqual(index.stations[6].state, UNFINISHED)
        self.assertEqual(index.run(6), 0)
        self.assertEqual(index.take(6), (0, (9, (1, 1, 0, 0, 0), 0, 0)))


if __name__ == "__main__":
    unittest.main()
