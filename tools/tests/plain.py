"""A plain list of records with the calls of eight stations, to judge the model by. It knows no row, no tree and no queue."""

from deodarlathe.frame import ADD, CONTAINS, NEAREST, REMOVE
from deodarlathe.points import ONES, PLAIN


def by_dry_weight(point):
    """The numbers by which rule 2 goes."""
    grade, weight, moisture, speed, draw = point
    return grade, weight * (10_000 - moisture), 10_000 * moisture, 10_000 * speed, 10_000 * draw


def square(target, point, factors, rule):
    """The square, axis by axis: each difference times itself times the factor of its axis."""
    if rule == 2:
        target, point = by_dry_weight(target), by_dry_weight(point)
    weight, moisture, speed, draw = (given - held for given, held in zip(target[1:], point[1:]))
    of_weight, of_moisture, of_speed, of_draw = factors
    return of_weight * weight * weight + of_moisture * moisture * moisture + of_speed * speed * speed + of_draw * draw * draw


class Plain:
    """The records held, the changes of each station, and each removal with the searches that were unfinished at its moment."""

    def __init__(self, places, limit, factors=ONES, rule=PLAIN):
        self.places, self.limit, self.factors, self.rule = places, limit, factors, rule
        self.held, self.changes, self.awaited, self.searches = {}, [0] * 8, [], {}

    def square(self, target, point):
        """The square by the factors and the rule of the opening."""
        return square(target, point, self.factors, self.rule)

    def submitted(self, station, kind, point):
        """The answer of a nearest is that of its submission."""
        if kind == NEAREST:
            near = [held for held in self.held if held[0] == point[0]]
            best = min(near, key=lambda held: (self.square(point, held), -held[1], held), default=None)
            found = best and (8, best, self.held[best], self.square(point, best))
            self.searches[station] = found or (9, point, 0, 0)

    def ended(self, station):
        """A search is answered or withdrawn: it awaits nothing any more."""
        self.awaited = [stations - {station} for stations in self.awaited if stations - {station}]
        return self.searches.pop(station, None)

    def answered(self, station, kind, point, curve):
        """The answer of a call at the step that answers it."""
        if kind == NEAREST:
            return self.ended(station)
        code = self.code(station, kind, point)
        given = {1: curve, 2: self.held.get(point), 5: self.held.get(point), 7: self.held.get(point)}.get(code, 0)
        if code == 1:
            self.held[point] = curve
        elif code == 5:
            del self.held[point]
            if self.searches:
                self.awaited.append(set(self.searches))
        self.changes[station] += code in (1, 5)
        return code, point, given, 0

    def code(self, station, kind, point):
        """The code of an add, a remove or a contains (Rules 2.5 to 2.7)."""
        if kind == CONTAINS or (kind == REMOVE and point not in self.held):
            return 7 if point in self.held else 6
        if kind == ADD and point in self.held:
            return 2
        if self.changes[station] == self.limit:
            return 4
        if kind == REMOVE:
            return 5
        return 3 if len(self.held) + len(self.awaited) >= self.places else 1
