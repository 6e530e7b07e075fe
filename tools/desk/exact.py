"""Exact courses, their areas and what demand 3 allows, in whole numbers and fractions; nothing is rounded.

One module for the desk's audit and for the tests. It is a check outside the proof and no part of it: stops, rates and holds are
worked out here once more from the unit's data and the paper.
"""

from bisect import bisect_left, bisect_right
from collections.abc import Iterable, Iterator, Sequence
from dataclasses import dataclass, field
from fractions import Fraction
from itertools import accumulate
from math import lcm
from numbers import Rational

HALF_HOURS = 48  # of an ordinary Trading Day
HALF_HOUR, GRAINS = 1_800, 60
ROUNDING, DOUBLED = 108_000, 216_000  # grain-seconds allowed for each half-hour; a kW over one, doubled

Hold = tuple[int, int]  # level in grains, seconds
Segment = Sequence[int]  # from, to (seconds), first and last level (grains)
Piece = tuple[Rational, Rational, int, Rational]  # from, to (seconds of the day), level at first (grains), slope


@dataclass(slots=True)
class Column:
    """What a unit declares for starts of one heat."""

    block_load: int
    rates: list[int]
    breaks: list[int]
    soaks: list[Hold]


@dataclass(slots=True)
class Unit:
    """A unit's data: levels in grains, rates in grains a second, holds and cooling boundaries in seconds."""

    capacity: int
    short_term_maximum: int
    msg: int
    hot_boundary: int
    warm_boundary: int
    columns: list[Column]
    up_rates: list[int]
    up_breaks: list[int]
    dwells: list[Hold]
    down_rates: list[int]
    down_breaks: list[int]
    deload_rates: list[int]
    deload_breaks: list[int]

    @classmethod
    def of(cls, numbers: Sequence[int]) -> "Unit":
        """From the 62 numbers of its record."""
        if len(numbers) != 62:
            raise ValueError(f"a unit has 62 numbers, not {len(numbers)}")
        rest = iter(numbers)

        def take(count: int, factor: int = 1) -> list[int]:
            return [next(rest) * factor for _ in range(count)]

        def holds(count: int) -> list[Hold]:
            return list(zip(take(count, GRAINS), take(count, 60)))

        def column() -> Column:
            return Column(take(1, GRAINS)[0], take(3), take(2, GRAINS), holds(2))

        levels, boundaries = take(3, GRAINS), take(2, 60)
        columns = [column(), column(), column()]
        up_rates, up_breaks, dwells = take(5), take(4, GRAINS), holds(3)
        down_rates, down_breaks = take(5), take(4, GRAINS)
        return cls(*levels, *boundaries, columns, up_rates, up_breaks, dwells, down_rates, down_breaks, take(2), take(1, GRAINS))


@dataclass(slots=True)
class Course:
    """A course: when it runs, from which level to which (grains), its rates, and its stops with their holds."""

    unit: Unit
    begin: int
    end: int
    start: int
    target: int
    heat: int
    up: Sequence[int]
    down: Sequence[int]
    rising: bool = field(init=False)
    stops: list[Hold] = field(init=False)  # in the order in which they are met

    def __post_init__(self):
        self.rising = self.target > self.start
        self.stops = self._find_stops()

    @property
    def column(self) -> Column:
        return self.unit.columns[self.heat - 1]

    @property
    def distance(self) -> int:
        return abs(self.target - self.start)

    @property
    def allowance(self) -> int:
        """What demand 3 allows for this course wherever it has time."""
        return 2 * len(self.stops) * self.distance

    def rate(self, level: int) -> int:
        """Grains a second at a level on the way."""
        unit = self.unit
        if self.rising:
            rates, breaks = (self.column.rates, self.column.breaks) if level < unit.msg else (self.up, unit.up_breaks)
            return rates[sum(b <= level for b in breaks)]
        rates, breaks = (self.down, unit.down_breaks) if level > unit.msg else (unit.deload_rates, unit.deload_breaks)
        return rates[sum(b < level for b in breaks)]

    def _find_stops(self) -> list[Hold]:
        unit, msg = self.unit, self.unit.msg
        if self.rising:
            marks = [b for b in self.column.breaks if b < msg] + [b for b in unit.up_breaks if b >= msg]
            triggers = [t for t in self.column.soaks if t[0] < msg]
        else:
            marks = [b for b in unit.down_breaks if b > msg] + [b for b in unit.deload_breaks if b <= msg]
            triggers = []
        triggers += [t for t in unit.dwells if t[0] >= msg]
        holds = dict.fromkeys(marks + [msg], 0)
        for level, seconds in triggers:
            if seconds:
                holds[level] = holds.get(level, 0) + seconds
        holds[self.target] = 0
        if self.rising:
            return [(level, holds[level]) for level in sorted(holds) if self.start < level <= self.target]
        return [(level, holds[level]) for level in sorted(holds, reverse=True) if self.target <= level < self.start]

    def pieces(self) -> Iterator[Piece]:
        """Straight pieces of the exact course up to its end: from, to (seconds of the day), level at first, slope."""
        time, level = self.begin, self.start
        for stop, hold in self.stops:
            if time >= self.end:
                return
            rate = self.rate(level)
            reached = time + Fraction(abs(stop - level), rate)
            yield time, min(reached, self.end), level, rate if self.rising else -rate
            time, level = reached, stop
            if hold and time < self.end:
                yield time, min(time + hold, self.end), level, 0
            time += hold
        if time < self.end:
            yield time, self.end, level, 0


def doubled_areas(pieces: Iterable[Piece], half_hours: int) -> list[Rational]:
    """Twice the area below straight pieces in each half-hour, in grain-seconds."""
    areas: list[Rational] = [0] * half_hours
    for first, last, level, slope in pieces:
        at, here = first, level
        while at < last:
            half_hour = int(at // HALF_HOUR)
            to = min(last, (half_hour + 1) * HALF_HOUR)
            there = level + slope * (to - first) if slope else level
            areas[half_hour] += (to - at) * (here + there)
            at, here = to, there
    return areas


def exact_areas(courses: Sequence[Course], half_hours: int = HALF_HOURS) -> list[Rational]:
    """Twice the exact area of each half-hour."""
    return doubled_areas((piece for course in courses for piece in course.pieces()), half_hours)


def recorded_quantities(segments: Sequence[Segment], half_hours: int = HALF_HOURS) -> list[int]:
    """The quantities that the printed segments give, rounded as the paper has it."""
    pieces = ((first, last, level, Fraction(end - level, last - first)) for first, last, level, end in segments)
    return [(area + ROUNDING) // DOUBLED for area in doubled_areas(pieces, half_hours)]


class Balance:
    """The quantities of a day against its exact areas, and what demand 3 allows between two half-hour boundaries.

    Boundary 0 is 06:00; half-hour k lies between boundaries k - 1 and k. Figures are doubled areas in grain-seconds.
    """

    def __init__(self, courses: Sequence[Course], quantities: Sequence[int]):
        self.half_hours = len(quantities)
        self.areas = exact_areas(courses, self.half_hours)
        self.common = lcm(*(area.denominator for area in self.areas))
        # At each boundary the sum so far of quantity less area, over the common denominator.
        self.gaps = [0]
        for quantity, area in zip(quantities, self.areas):
            gap = quantity * DOUBLED * self.common - area.numerator * (self.common // area.denominator)
            self.gaps.append(self.gaps[-1] + gap)
        # Courses with time run end to end. For each boundary: the allowances of those that end by it, and that begin before it.
        running = [c for c in courses if c.begin < c.end]
        begins, ends = [c.begin for c in running], [c.end for c in running]
        sums = [0, *accumulate(c.allowance for c in running)]
        boundaries = [k * HALF_HOUR for k in range(self.half_hours + 1)]
        self.over = [sums[bisect_right(ends, second)] for second in boundaries]
        self.begun = [sums[bisect_left(begins, second)] for second in boundaries]

    def off(self, a: int, b: int) -> Fraction:
        """Quantities less exact area between two boundaries."""
        return Fraction(self.gaps[b] - self.gaps[a], self.common)

    def allowed(self, a: int, b: int) -> int:
        """How far `off` may lie from 0."""
        return ROUNDING * (b - a) + self.begun[b] - self.over[a]

    def pairs(self) -> Iterator[tuple[int, int, int, int, int]]:
        """Each pair of boundaries: a, b, how far off over the common denominator, allowed for rounding, allowed for stops."""
        gaps, begun = self.gaps, self.begun
        for a in range(self.half_hours):
            gap, over = gaps[a], self.over[a]
            for b in range(a + 1, self.half_hours + 1):
                yield a, b, abs(gaps[b] - gap), ROUNDING * (b - a), begun[b] - over

    def outside(self) -> list[tuple[int, int]]:
        """The pairs between which demand 3 fails: none, by the proof."""
        return [(a, b) for a, b, off, rounding, stops in self.pairs() if off > (rounding + stops) * self.common]

    def worst(self) -> tuple[int, int]:
        """The pair that uses the largest share of what is allowed; the earliest of equal ones."""
        worst, most, of = (0, 1), -1, 1
        for a, b, off, rounding, stops in self.pairs():
            allowed = rounding + stops
            if off * of > most * allowed:
                worst, most, of = (a, b), off, allowed
        return worst


def too_fast(course: Course, segment: Segment, held_until: int) -> bool:
    """Whether a second of a segment moves the level further than the rate in force where that second began."""
    first, last, start, end = segment
    if start == end:
        return False
    # Each second moves alike, and no stop lies within: so one rate is in force throughout, and none in a hold or at rest.
    move, odd = divmod(abs(end - start), last - first)
    stop_within = any(min(start, end) < stop < max(start, end) for stop, _ in course.stops)
    at_rest = first < held_until or abs(end - start) > abs(course.target - start)
    return bool(odd) or stop_within or at_rest or (end > start) != course.rising or move > course.rate(start)


def speed_faults(courses: Sequence[Course], segments: Sequence[Segment], half_hours: int = HALF_HOURS) -> list[str]:
    """Printed seconds that move further than the rate in force, and segments that do not join."""
    faults, at, level = [], 0, None
    begins = {c.begin: c for c in courses if c.begin < c.end}
    course, holds, held_until = None, {}, 0
    for segment in segments:
        first, last, start, end = segment
        if first != at or last <= first:
            faults.append(f"segment at {first} does not join")
        if first in begins:
            course = begins[first]
            holds, held_until = dict(course.stops), first
            if start != course.start:
                faults.append(f"course at {first} starts at {start}")
        elif start != level:
            faults.append(f"level jumps at {first}")
        if last > course.end:
            faults.append(f"segment at {first} runs past its course")
        if too_fast(course, segment, held_until):
            faults.append(f"segment at {first} moves from {start} to {end}")
        if start != end:
            held_until = last + holds.get(end, 0)
        at, level = last, end
    if at != half_hours * HALF_HOUR:
        faults.append(f"segments end at {at}")
    return faults
