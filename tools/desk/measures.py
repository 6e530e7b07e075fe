"""How a figure is typed in a sheet and shown in one: MW, MW a minute, minutes, times, names.

A measure reads what was typed (`read`), and shows a record's number as a sheet has it (`show`, TOML). What cannot be read raises
Wrong, with the reason in words; the reader of the sheet adds file, table and field.
"""

import re
from dataclasses import dataclass
from decimal import Context, Decimal, Inexact, InvalidOperation

from desk.exact import GRAINS as GRAINS_IN_KW

EXACT = Context(prec=60, traps=[Inexact, InvalidOperation])
FIGURE = re.compile(r"([+-]?[0-9]+(?:\.[0-9]+)?)\s*(\S.*)?", re.ASCII)


class Wrong(ValueError):
    """What is wrong with a figure, in words."""


class Measure:
    """What one field of a record is measured in."""

    def read(self, value, clock) -> int:
        raise NotImplementedError

    def show(self, number: int, clock) -> str:
        raise NotImplementedError


def kind_of(value):
    """The type of a sheet's value, in words."""
    kinds = {bool: "true or false", str: "text", int: "a number", Decimal: "a number", list: "a list", dict: "a table"}
    return kinds.get(type(value), "a date or time")


def printable(text):
    """Text for one line."""
    return "".join(letter if letter.isprintable() else "?" for letter in text)


def reason(error: Exception) -> str:
    """An error in one line, that of a file without its number."""
    if isinstance(error, OSError) and error.strerror:
        return printable(f"{error.filename}: {error.strerror}" if error.filename else error.strerror)
    known = isinstance(error, (OSError, ValueError))
    return printable(str(error) if known else f"a fault of this tool, {type(error).__name__}: {error}")


def short(value):
    """A value as it was typed, cut to a readable length."""
    if type(value) is int and value.bit_length() > 1000:
        return "a number with far too many digits"
    text = repr(value) if type(value) is str else str(value)
    return text if len(text) <= 40 else text[:37] + "..."


def plain(figure):
    """A decimal number without exponent and without zeros at its end."""
    text = f"{figure:f}"
    return text.rstrip("0").rstrip(".") if "." in text else text


def whole(value, factor, unit):
    """A number times a whole factor, which has to come out whole."""
    if Decimal(value).is_finite() and abs(Decimal(value)) >= 2**63:
        raise Wrong(f"{short(value)} is more than a record can hold")
    try:
        scaled = EXACT.multiply(Decimal(value), Decimal(factor))
    except (Inexact, InvalidOperation):
        scaled = Decimal("NaN")
    if not scaled.is_finite() or scaled != scaled.to_integral_value():
        raise Wrong(f"{short(value)} is no whole number of {unit}")
    return int(scaled)


@dataclass(frozen=True)
class Amount(Measure):
    """A number in the first of `units`, or text with one of them. Each has its factor to the smallest, of which it must be a
    whole number."""

    units: dict
    smallest: str

    def read(self, value, clock):
        number, unit = self.parts(value)
        return whole(number, self.units[unit], self.smallest)

    def show(self, number, clock):
        return plain(Decimal(number) / next(iter(self.units.values())))

    def parts(self, value):
        """The number, and its unit."""
        names = list(self.units)
        if type(value) in (int, Decimal):
            return value, names[0]
        match = FIGURE.fullmatch(value.strip()) if type(value) is str else None
        if match and match[2] in self.units:
            return Decimal(match[1]), match[2]
        given = short(value) if type(value) is str else kind_of(value)
        raise Wrong(f"{given}, where a number in {names[0]} is wanted, or text with its unit ({', '.join(names)})")


@dataclass(frozen=True)
class OpeningLevel(Amount):
    """A level in MW or kW, kept in grains. Text in grains for a level that is no whole kW."""

    def read(self, value, clock):
        if type(value) is str and (match := FIGURE.fullmatch(value.strip())) and match[2] == "grains":
            return whole(Decimal(match[1]), 1, "grains")
        return super().read(value, clock) * GRAINS_IN_KW

    def show(self, number, clock):
        kw, odd = divmod(number, GRAINS_IN_KW)
        return f'"{number} grains"' if odd else super().show(kw, clock)


@dataclass(frozen=True)
class Named(Measure):
    """A name out of a list, numbered from 1."""

    what: str
    names: tuple

    def read(self, value, clock):
        if type(value) is not str:
            raise Wrong(f"{kind_of(value)}, where the name of a {self.what} is wanted ({', '.join(self.names)})")
        if value.strip() not in self.names:
            raise Wrong(f"{short(value)} is no {self.what}; known are {', '.join(self.names)}")
        return self.names.index(value.strip()) + 1

    def show(self, number, clock):
        return f'"{self.names[number - 1]}"' if 1 <= number <= len(self.names) else str(number)


@dataclass(frozen=True)
class Time(Measure):
    """A time, kept in seconds from 06:00."""

    inside: bool  # whether it has to lie in the day

    def read(self, value, clock):
        second = clock.second(value)
        if self.inside and not 0 <= second < clock.seconds:
            raise Wrong(f"{short(value)} lies outside the Trading Day, {clock.bounds()}")
        return second

    def show(self, number, clock):
        return clock.toml(number)


LEVEL = Amount({"MW": 1000, "kW": 1}, "kW")
RATE = Amount({"MW/min": 1000, "kW/min": 1}, "kW/min")
GRAINS = OpeningLevel({"MW": 1000, "kW": 1}, "kW")
MINUTES = Amount({"min": 1, "h": 60}, "minutes")
SECONDS = Amount({"s": 1, "min": 60, "h": 3600}, "seconds")
EFFECTIVE = Time(inside=True)
ISSUE = Time(inside=False)
