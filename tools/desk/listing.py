"""The listing's bytes, read strictly: anything that is not the paper's form is an error with its line."""

import re
from collections.abc import Iterator
from dataclasses import dataclass
from typing import NamedTuple

from desk.exact import HALF_HOUR, HALF_HOURS

NUMBER = rb"(?:0|[1-9][0-9]*)"
KINDS = {"F": "number fate", "S": "from to level level", "Q": "first last kW", "E": "level target heat off"}  # in their order
LINE = re.compile(rb"([FSQE])((?: " + NUMBER + rb")+)")
REFUSAL = re.compile(rb"X (" + NUMBER + rb")\n")
MOST_FATE, MOST_OFF = 8, 10_000_000

Numbered = list[tuple[int, list[int]]]  # lines of one kind: number of the line, its numbers


class ListingError(ValueError):
    """Bytes that are no listing: the line, from 1, and what is wrong there."""

    def __init__(self, line: int, words: str):
        super().__init__(f"line {line}: {words}")
        self.line = line


class Closing(NamedTuple):
    """The E line: level in grains, target in kW, heat, seconds off."""

    level: int
    target: int
    heat: int
    off: int


@dataclass(frozen=True)
class Listing:
    """A printed day."""

    fates: list[int]  # by number of the instruction, less 1
    segments: list[tuple[int, int, int, int]]  # from, to (seconds), first and last level (grains)
    quantities: list[int]  # kW, one for each half-hour
    closing: Closing


def refusal(data: bytes) -> int | None:
    """The number of the line `X n`, if that is all there is."""
    match = REFUSAL.fullmatch(data)
    return int(match[1]) if match else None


def parse(data: bytes, half_hours: int = HALF_HOURS) -> Listing:
    """The listing of a day with so many half-hours."""
    found: dict[str, Numbered] = {kind: [] for kind in KINDS}
    line = 0
    for line, kind, numbers in _lines(data):
        found[kind].append((line, numbers))
    for kind in "SQE":
        if not found[kind]:
            raise ListingError(line + 1, f"ends without a line {kind}")
    segments = _segments(found["S"], half_hours * HALF_HOUR)
    quantities = _quantities(found["Q"], half_hours)
    return Listing(_fates(found["F"]), segments, quantities, _closing(found["E"], segments[-1][3]))


def _lines(data: bytes) -> Iterator[tuple[int, str, list[int]]]:
    """Each line: its number, kind and numbers; the kinds in their order."""
    if not data.endswith(b"\n"):
        raise ListingError(data.count(b"\n") + 1, "not ended by a line feed")
    order, before = "".join(KINDS), "F"
    for line, text in enumerate(data[:-1].split(b"\n"), 1):
        match = LINE.fullmatch(text)
        kind = match[1].decode() if match else ""
        numbers = [int(word) for word in match[2].split()] if match else []
        if not match or len(numbers) != len(KINDS[kind].split()):
            raise ListingError(line, f"{text.decode('ascii', 'replace')[:60]!r} is none of the lines F, S, Q, E")
        if order.index(kind) < order.index(before) or kind == before == "E":
            raise ListingError(line, f"a line {kind} after a line {before}")
        before = kind
        yield line, kind, numbers


def _fates(lines: Numbered) -> list[int]:
    for place, (line, (number, fate)) in enumerate(lines, 1):
        if number != place:
            raise ListingError(line, f"instruction {number} where {place} was due")
        if fate > MOST_FATE:
            raise ListingError(line, f"fate {fate}")
    return [fate for _, (_, fate) in lines]


def _segments(lines: Numbered, end: int) -> list[tuple[int, int, int, int]]:
    at = 0
    for line, (first, last, _, _) in lines:
        if first != at:
            raise ListingError(line, f"a segment from {first} where {at} was due")
        if last <= first or last > end:
            raise ListingError(line, f"a segment from {first} to {last}")
        at = last
    if at != end:
        raise ListingError(lines[-1][0], f"the segments end at {at}, the day at {end}")
    return [tuple(numbers) for _, numbers in lines]


def _quantities(lines: Numbered, half_hours: int) -> list[int]:
    quantities: list[int] = []
    for line, (first, last, quantity) in lines:
        if first != len(quantities) + 1:
            raise ListingError(line, f"half-hour {first} where {len(quantities) + 1} was due")
        if last < first or last > half_hours:
            raise ListingError(line, f"half-hours {first} to {last}")
        if quantities and quantity == quantities[-1]:
            raise ListingError(line, f"{quantity} kW again: not the longest run")
        quantities += [quantity] * (last - first + 1)
    if len(quantities) != half_hours:
        raise ListingError(lines[-1][0], f"the quantities end with half-hour {len(quantities)} of {half_hours}")
    return quantities


def _closing(lines: Numbered, level: int) -> Closing:
    line, numbers = lines[0]
    closing = Closing(*numbers)
    if closing.level != level:
        raise ListingError(line, f"closing level {closing.level}, the last segment's is {level}")
    if not 1 <= closing.heat <= 3:
        raise ListingError(line, f"heat {closing.heat}")
    if closing.off > (MOST_OFF if closing.level == 0 else 0):
        raise ListingError(line, f"{closing.off} seconds off at level {closing.level}")
    return closing
