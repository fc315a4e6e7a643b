"""Points: five coordinates, their ranges, the square, the choice of the nearest, and cuts (Rules 1, 6.2, 6.3).

A point is a tuple of five numbers. An axis counts from 0 here, so axis 1 of the rules, the grade, is 0. Axes 5 to 8 are what
rule 2 makes of axes 1 to 4: the dry weight, and moisture, speed and draw times 10,000. Squares and cuts go by the axes of the
opening's rule; squares also by its four factors, for all axes but the grade."""

from typing import NamedTuple

AXES = ("grade", "weight", "moisture", "speed", "draw")
RANGES = ((1, 9_999), (1, 100_000), (0, 10_000), (0, 30_000), (-2_000, 2_000))
CURVES = (1, 999_999)
GRADE, WEIGHT, MOISTURE = range(3)
DRY_WEIGHT = 5
# what a point has on each axis, those of rule 2 too
NUMBERS = (*AXES, "dry weight", *AXES[MOISTURE:])
TIMES = 10_000
# products stop at the greatest number of 64 bits
TOP = 2**64 - 1


class Rule(NamedTuple):
    """A rule of distance: the axes by which it goes, the grade first, and its greatest factor."""

    axes: tuple
    most_factor: int


PLAIN, DRY = 1, 2
RULES = {PLAIN: Rule((0, 1, 2, 3, 4), 1_000), DRY: Rule((0, 5, 6, 7, 8), 16)}
ONES = (1, 1, 1, 1)


class Scale(NamedTuple):
    """How an opening measures: its factors, and its rule."""

    factors: tuple = ONES
    rule: int = PLAIN


def in_range(point, rule):
    """Every coordinate is in the range of its axis; under rule 2 a moisture of 10,000, which leaves no dry weight, is not."""
    within = all(low <= coordinate <= high for coordinate, (low, high) in zip(point, RANGES))
    return within and not (rule == DRY and point[MOISTURE] == TIMES)


def number(point, axis):
    """The number of a point on an axis: a coordinate, the dry weight, or a coordinate times 10,000."""
    if axis < DRY_WEIGHT:
        return point[axis]
    if axis == DRY_WEIGHT:
        return point[WEIGHT] * (TIMES - point[MOISTURE])
    return TIMES * point[axis - 4]


def difference(a, b, axis):
    """How far apart two points are on an axis."""
    return abs(number(a, axis) - number(b, axis))


def square(a, b, scale):
    """The sum of the squared differences on all axes of the rule but the grade, each times the factor of its axis."""
    axes = RULES[scale.rule].axes[1:]
    return sum(factor * difference(a, b, axis) ** 2 for factor, axis in zip(scale.factors, axes))


def rank(target, point, scale):
    """Of two points of the target's grade the lesser rank is chosen: the nearer, then the heavier, then the lower."""
    return square(target, point, scale), -point[WEIGHT], point


def cut_between(a, b, rule):
    """The cut between two points: of the rule's axes that of the greatest difference, the lowest on a tie, and the sum there."""
    axis = max(RULES[rule].axes, key=lambda axis: (difference(a, b, axis), -axis))
    return axis, number(a, axis) + number(b, axis)


def goes_left(axis, total, point):
    """A point goes left exactly if twice its number on the axis is less than the sum."""
    return 2 * number(point, axis) < total


def excluded(axis, total, target, best, scale):
    """No record beyond the cut can be chosen over the best point so far, or over none.

    The gap is at most twice the difference on the cut's axis to any point beyond it, so four times the square of such a
    point is at least the factor times the squared gap. An equal square may still win the tie. Where four times the best
    square is more than 64 bits hold, nothing is excluded."""
    if axis == GRADE:
        return True
    if best is None:
        return False
    twice = 2 * number(target, axis)
    gap = total - twice if twice < total else twice - total + 1
    factor = scale.factors[RULES[scale.rule].axes.index(axis) - 1]
    return min(factor * gap * gap, TOP) > min(4 * square(target, best, scale), TOP)
