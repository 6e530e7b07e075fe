"""What became of a day: its records, what the program printed, and what is worked out of both."""

from dataclasses import dataclass
from fractions import Fraction
from functools import cached_property
from pathlib import Path

from desk import audit, days, listing, records, sheets, tables, words
from desk.clock import Clock
from desk.exact import HALF_HOUR
from desk.fields import acting
from desk.measures import printable
from desk.program import Program, Refusal, digest


@dataclass(frozen=True)
class HalfHour:
    """A half-hour of the listing: its number, first second and the one after its last, its quantity."""

    number: int
    start: int
    end: int
    kw: int
    label: str


@dataclass
class Outcome:
    """A day that the program has answered."""

    day: days.Day
    source: Path
    records: bytes
    printed: bytes
    refusal: Refusal | None
    program: dict

    @cached_property
    def listing(self) -> listing.Listing | None:
        return None if self.refusal else listing.parse(self.printed, self.day.clock.half_hours)

    @cached_property
    def audit(self) -> audit.Audit | None:
        if self.refusal:
            return None
        unit = records.numbers("unit", self.day.unit)
        return audit.audit(unit, self.day.opening, self.day.instructions, self.listing)

    @cached_property
    def half_hours(self) -> list[HalfHour]:
        found, clock = [], self.day.clock
        for number, kw in enumerate(self.listing.quantities if self.listing else [], 1):
            start, end = (number - 1) * HALF_HOUR, number * HALF_HOUR
            found.append(HalfHour(number, start, end, kw, f"half-hour {number}, {short(clock, start)} to {short(clock, end)}"))
        return found

    @property
    def unit_name(self) -> str:
        return self.day.unit_name or "unit not named"

    @property
    def date(self) -> str:
        return str(self.day.clock.date or "date unknown")

    @property
    def title(self) -> str:
        return f"{printable(self.day.name)}: {self.unit_name}, Trading Day {self.date}"

    @property
    def energy(self) -> Fraction:
        """The day's energy in MWh."""
        return Fraction(sum(self.listing.quantities), 2000)

    @property
    def within(self) -> bool:
        """Whether the audit found every quantity within its allowance, and no second too fast."""
        return self.audit is None or self.audit.within

    def sums(self) -> dict:
        """SHA-256 of records and listing."""
        return {"records": digest(self.records), "listing": digest(self.printed)}

    def rule(self, place: int) -> str:
        """The rule behind an instruction's fate."""
        return words.rule(self.day.instructions, self.listing, place, self.day.unit)

    def sentence(self, place: int) -> str:
        """An instruction, its times, its fate and the rule behind it."""
        one, fate, clock = self.day.instructions[place], self.listing.fates[place], self.day.clock
        times = f"effective {clock.text(one['effective'])}"
        if fate in words.HAS_ACTING:
            times += f", acting {clock.text(acting(one))}"
        return f"{place + 1} {words.order(one)}, {times}: fate {fate}, {words.FATES.get(fate, 'unknown')}. {self.rule(place)}"


def short(clock: Clock, second: int) -> str:
    """The time of a half-hour boundary."""
    return clock.parts(second)[1].strftime("%H:%M")


def answer(program: Program, day: days.Day, source: Path, data: bytes) -> Outcome:
    """The program's answer to a day's records. Of a day that is refused, or that has bytes which no sheet can say, what was
    let in is read from the records."""
    printed = program.run(data)
    refusal = program.refusal(data, printed)
    if refusal or day.rest is not None:
        let_in = refusal.place - 1 if refusal else len(records.split(data))
        day = days.of_bytes(day, data, let_in)
    return Outcome(day, source, data, printed, refusal, program.identity)


def of_sheet(program: Program, path: Path, clock: Clock) -> Outcome:
    """A sheet's day."""
    day = sheets.read(path, clock)
    return answer(program, day, path, day.records())


def of_records(program: Program, path: Path, clock: Clock) -> Outcome:
    """The day of a records file: what of it was let in."""
    try:
        data = path.read_bytes()
    except OSError as error:
        raise tables.Unreadable(path, error.strerror) from None
    return answer(program, days.Day(path.stem, clock, rest=data), path, data)


def of_file(program: Program, path: Path, clock: Clock) -> Outcome:
    """The day of a sheet or of a records file."""
    return (of_records if path.suffix.lower() == ".records" else of_sheet)(program, path, clock)
