"""The audit: each quantity against the exact area, with what the price list allows there.

Worked out from the records and the listing with exact fractions. It is a check outside the proof and no part of it: that nothing
lies outside its allowance is proved for every day, and the audit shows it for this one.

The courses are found as a reader of the listing finds them. The opening's runs from second 0, that of each instruction with fate 0
from its acting second, each until the next one's or the day's end. Starts and the levels just before are read off the S lines;
targets, heats and rates follow from Table 7.
"""

from collections.abc import Mapping, Sequence
from dataclasses import dataclass
from fractions import Fraction

from desk import exact
from desk.exact import DOUBLED, GRAINS, HALF_HOUR
from desk.fields import Code, acting
from desk.listing import MOST_OFF, Listing

Opening = Mapping[str, int]  # level (grains), target (kW), heat, off (seconds)
Instruction = Mapping[str, int]  # effective, issue (seconds), code (1 to 7), level (kW), up, down (kW/min)


class AuditError(ValueError):
    """A listing that cannot be that of these records."""


@dataclass(frozen=True)
class Figures:
    """The half-hours first to last: what was printed, what is exact, and what is allowed, in kW summed over them."""

    first: int
    last: int
    quantity: int
    exact: Fraction
    allowed: Fraction

    @property
    def difference(self) -> Fraction:
        """Quantity less exact area."""
        return self.quantity - self.exact

    @property
    def share(self) -> Fraction:
        """How much of what is allowed the difference uses: at most 1, by the proof."""
        return abs(self.difference) / self.allowed

    @property
    def within(self) -> bool:
        return abs(self.difference) <= self.allowed


@dataclass(frozen=True)
class Audit:
    """What the audit of a day finds."""

    courses: list[exact.Course]
    half_hours: list[Figures]
    total: Figures  # the whole day
    worst: Figures  # between the two boundaries that use the largest share
    faults: list[Figures]  # between two boundaries, outside the allowance: none, by the proof
    speed_faults: list[str]  # where the profile moves faster than the rate in force or jumps: none, by the proof
    sum_faults: list[str]  # where a Q line is not what the S lines give: none, by the proof

    @property
    def within(self) -> bool:
        return not self.faults and not self.speed_faults and not self.sum_faults


def audit(unit: Sequence[int], opening: Opening, instructions: Sequence[Instruction], listing: Listing) -> Audit:
    """The audit of a closed day: the unit's 62 numbers, its opening, the instructions as entered, and what was printed."""
    day = _Day(unit, opening, instructions, listing)
    balance = exact.Balance(day.courses, listing.quantities)
    count = len(listing.quantities)

    def figures(a: int, b: int) -> Figures:
        area, allowed = Fraction(sum(balance.areas[a:b])), balance.allowed(a, b)
        return Figures(a + 1, b, sum(listing.quantities[a:b]), area / DOUBLED, Fraction(allowed, DOUBLED))

    return Audit(
        courses=day.courses,
        half_hours=[figures(k, k + 1) for k in range(count)],
        total=figures(0, count),
        worst=figures(*balance.worst()),
        faults=[figures(a, b) for a, b in balance.outside()],
        speed_faults=day.jumps + exact.speed_faults(day.courses, listing.segments, count),
        sum_faults=_sum_faults(listing),
    )


def _sum_faults(listing: Listing) -> list[str]:
    """Quantities that are not those of the printed profile."""
    given = exact.recorded_quantities(listing.segments, len(listing.quantities))
    both = enumerate(zip(listing.quantities, given), 1)
    return [f"half-hour {k}: {printed} kW printed, the segments give {found}" for k, (printed, found) in both if printed != found]


def courses(unit: Sequence[int], opening: Opening, instructions: Sequence[Instruction], listing: Listing) -> list[exact.Course]:
    """The day's courses in order of time; the opening's is the first, also where it has no time."""
    return _Day(unit, opening, instructions, listing).courses


def carried(one: Instruction, instructions: Sequence[Instruction]) -> Instruction | None:
    """The MWOF that gives level and rates: a MWOF itself, or the one that a SYNC or DESY carries."""
    if one["code"] == Code.MWOF:
        return one
    if one["code"] not in (Code.SYNC, Code.DESY):
        return None
    together = [i for i in instructions if (i["effective"], i["issue"]) == (one["effective"], one["issue"])]
    # Of equal levels the earliest entered: max gives the first.
    return max((i for i in together if i["code"] == Code.MWOF), key=lambda i: i["level"], default=None)


class _Day:
    """Goes along the listing from one instruction with fate 0 to the next."""

    def __init__(self, unit: Sequence[int], opening: Opening, instructions: Sequence[Instruction], listing: Listing):
        if len(listing.fates) != len(instructions):
            raise AuditError(f"{len(listing.fates)} fates for {len(instructions)} instructions")
        self.unit, self.opening, self.instructions = exact.Unit.of(unit), opening, instructions
        self.beginning = {segment[0]: segment for segment in listing.segments}
        self.ending = {segment[1]: segment for segment in listing.segments}
        self.heat, self.ordinary = opening["heat"], opening["target"] * GRAINS  # ordinary: the target to which MXOF goes back
        self.opened = self._after_step(opening["level"], self.ordinary)
        self.jumps: list[str] = []  # courses that do not start at the level just before, after any step

        acts = sorted((acting(one), number) for number, one in enumerate(instructions) if listing.fates[number] == 0)
        ends = [second for second, _ in acts] + [len(listing.quantities) * HALF_HOUR]
        rates = self.unit.up_rates, self.unit.down_rates
        self.courses = [self._course(0, ends[0], opening["level"], self.ordinary, *rates)]
        for (second, number), end in zip(acts, ends[1:]):
            level, target, up, down = self._effect(second, instructions[number])
            self.courses.append(self._course(second, end, level, target, up, down))

    def _after_step(self, level: int, target: int) -> int:
        """At level 0 with a target above 0 the level goes at once to the smaller of block load and target."""
        return min(self.unit.columns[self.heat - 1].block_load, target) if level == 0 else level

    def _course(self, begin: int, end: int, level: int, target: int, up: Sequence[int], down: Sequence[int]) -> exact.Course:
        """The course that begins here; it starts where its S line starts, which the rules put at `level` after any step."""
        due = start = self._after_step(level, target)
        if begin < end:
            if begin not in self.beginning:
                raise AuditError(f"no segment begins at {begin}, where a course does")
            start = self.beginning[begin][2]
        if start != due:
            self.jumps.append(f"course at {begin} starts at {start} where {due} was due")
        return exact.Course(self.unit, begin, end, start, target, self.heat, up, down)

    def _level_before(self, second: int) -> int:
        """The recorded level just before a second; at second 0 that after the opening's step."""
        if second == 0:
            return self.opened
        if second not in self.ending:
            raise AuditError(f"no segment ends at {second}, where an instruction acts")
        return self.ending[second][3]

    def _seconds_off(self, second: int) -> int:
        """From the second at which the recorded level reached 0, or from the opening's figure if it has been 0 since 06:00."""
        since = second
        while since in self.ending and self.ending[since][2] == self.ending[since][3] == 0:
            since = self.ending[since][0]
        before = self.opening["off"] if since == 0 and self.opened == 0 else 0
        return min(before + second - since, MOST_OFF)

    def _heat_at(self, second: int) -> int:
        """The heat of a SYNC by seconds off."""
        off = self._seconds_off(second)
        if off <= self.unit.hot_boundary:
            return 1
        return 2 if off <= self.unit.warm_boundary else 3

    def _effect(self, second: int, one: Instruction) -> tuple[int, int, Sequence[int], Sequence[int]]:
        """Table 7: the level from which the course goes on, before any step, its target, ramp-up and ramp-down rates."""
        unit, level, mwof = self.unit, self._level_before(second), carried(one, self.instructions)
        up = [mwof["up"]] * 5 if mwof and mwof["up"] else unit.up_rates
        down = [mwof["down"]] * 5 if mwof and mwof["down"] else unit.down_rates
        asked = mwof["level"] * GRAINS if mwof else 0
        match one["code"]:
            case Code.MWOF:
                self.heat = 3 if level == 0 else self.heat
                target = self.ordinary = min(asked, unit.capacity)
            case Code.SYNC:
                self.heat = self._heat_at(second)
                target = self.ordinary = min(max(asked, unit.msg), unit.capacity)
            case Code.MXON:
                target, up = unit.short_term_maximum, unit.up_rates[4:] * 5
            case Code.MXOF:
                target, down = self.ordinary, unit.down_rates[:1] * 5
            case Code.DESY:
                target = 0
            case Code.TRIP:
                level = target = 0
            case _:
                raise AuditError(f"fate 0 for an instruction of code {one['code']}")
        return level, target, up, down
