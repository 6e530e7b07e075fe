"""Sheets: a day typed in TOML, its instructions as tables or as a CSV file.

Every fault of a sheet is found before anything is written; each names file, table and field.
"""

import csv
import io
import re
from datetime import date, datetime
from decimal import Decimal
from pathlib import Path

from desk.clock import ZONE, Clock, zone_named
from desk.days import Day
from desk.exact import HALF_HOURS
from desk.fields import INSTRUCTION, OPENING, UNIT, Code
from desk.measures import Wrong, kind_of, printable, short
from desk.tables import Reader, SheetError, Unreadable, listed, parse, text_of

UNKNOWN = "unknown"  # the date of a sheet that was made from records
TOP = ("date", "zone", "unit", "opening", "instructions", "rest")
BARE = re.compile(r"[+-]?[0-9]+(\.[0-9]+)?", re.ASCII)

# The columns of P.9: as P.9 names them, as the desk says them.
COLUMNS = {
    "issue": ("instruction issue time", "issue time"),
    "effective": ("instruction effective time", "effective time"),
    "code": ("instruction code",),
    "level": ("target instruction level",),
    "up": ("dispatch ramp up rate", "up rate"),
    "down": ("dispatch ramp down rate", "down rate"),
}


def read(path: Path, unknown: Clock) -> Day:
    """The day of a sheet, or SheetError with every fault of it. `unknown` is the clock of a sheet whose date is unknown."""
    sheet, faults = parse(path), []
    reader = Reader(path, clock_of(path, sheet, unknown, faults), faults)
    reader.known("", sheet, TOP)
    day = Day(path.stem, reader.clock or unknown)
    day.rest = rest_of(reader, sheet)
    read_unit(reader, sheet, day)
    read_opening(reader, sheet, day)
    read_instructions(reader, sheet, day)
    if day.after > len(day.instructions):
        reader.fault("opening", "after", f"{day.after} is more than the instructions, {len(day.instructions)}")
    if faults:
        raise SheetError(faults, day.unit_name, str(day.clock.date or ""))
    return day


def clock_of(path, sheet, unknown, faults):
    """The clock of the sheet's date and zone, or None where they are wrong."""
    reader = Reader(path, None, faults)
    day, zone = sheet.get("date"), sheet.get("zone", ZONE)
    if day is None:
        reader.fault("", "date", "missing")
    elif day != UNKNOWN and (not isinstance(day, date) or isinstance(day, datetime)):
        reader.fault("", "date", f"{short(day)}, where a date is wanted, such as 2026-11-16")
    try:
        zone_named(zone)
    except Wrong as wrong:
        reader.fault("", "zone", str(wrong))
    if faults:
        return None
    if day == UNKNOWN and unknown.date is None:
        return unknown
    if day == UNKNOWN:
        day, zone = unknown.date, sheet.get("zone", unknown.zone)
    try:
        clock = Clock(day, zone)
    except Wrong as wrong:
        reader.fault("", "date", str(wrong))
        return None
    if clock.half_hours != HALF_HOURS:
        reader.fault("", "date", clock_change(clock))
    return clock


def clock_change(clock):
    """Why the program does not take a day on which the clocks change."""
    which = f"the clocks change in the Trading Day of {clock.date}, which has {clock.half_hours} half-hours"
    return f"{which}; the program takes days of {HALF_HOURS} only"


def rest_of(reader, sheet):
    """Bytes that follow as they are, in hexadecimal."""
    text = sheet.get("rest")
    if text is None:
        return None
    try:
        return bytes.fromhex(text)
    except (TypeError, ValueError):
        reader.fault("", "rest", "bytes in hexadecimal are wanted, as text")
        return b""


def read_unit(reader, sheet, day):
    """The unit: a table, or the path of a unit file, seen from the sheet."""
    unit = sheet.get("unit")
    if unit is None:
        if day.rest is None:
            reader.fault("", "unit", "missing")
        return
    table = "unit"
    if type(unit) is str:
        path = reader.file.parent / unit
        day.unit_name = printable(path.stem)
        try:
            unit = parse(path)
        except Unreadable as error:
            reader.fault("", "unit", f"{short(unit)}: {error.why}")
            return
        except SheetError as error:
            reader.faults += error.faults
            return
        reader, table = Reader(path, reader.clock, reader.faults), ""
    elif type(unit) is not dict:
        reader.fault("", "unit", f"{kind_of(unit)}, where a table or the path of a unit file is wanted")
        return
    name = unit.get("name", day.unit_name)
    if type(name) is not str:
        reader.fault(table, "name", f"{kind_of(name)}, where text is wanted")
    else:
        day.unit_name = printable(name)
    day.unit = reader.table(table, unit, UNIT, also=("name",))


def read_opening(reader, sheet, day):
    """The opening. Seconds off may be left out where the level is above 0."""
    opening = sheet.get("opening")
    if opening is None:
        if day.rest is None:
            reader.fault("", "opening", "missing")
        return
    before = len(reader.faults)
    day.opening = reader.table("opening", opening, OPENING, ("off",), ("after",))
    if type(opening) is not dict:
        return
    if len(reader.faults) == before and "off" not in opening and day.opening["level"] == 0:
        reader.fault("opening", "off", "missing, where the level is 0")
    after = opening.get("after", 0)
    if type(after) is not int or after < 0:
        reader.fault("opening", "after", f"{short(after)}, where the number of instructions entered before it is wanted")
    else:
        day.after = after


def read_instructions(reader, sheet, day):
    """The instructions, as tables or as the path of a CSV file, seen from the sheet."""
    given = sheet.get("instructions", [])
    if type(given) is str:
        path = reader.file.parent / given
        try:
            text = text_of(path)
        except Unreadable as error:
            reader.fault("", "instructions", f"{short(given)}: {error.why}")
            return
        day.instructions = read_csv(Reader(path, reader.clock, reader.faults), text)
    elif type(given) is not list:
        reader.fault("", "instructions", f"{kind_of(given)}, where tables or the path of a CSV file are wanted")
    else:
        day.instructions = [read_instruction(reader, f"instructions {n}", one) for n, one in enumerate(given, 1)]


def read_instruction(reader, table, value):
    """One instruction. Rates may be left out, and the level of a code that carries none."""
    mwof = type(value) is dict and value.get("code") == Code.MWOF.name
    return reader.table(table, value, INSTRUCTION, ("up", "down") if mwof else ("level", "up", "down"))


def read_csv(reader, text):
    """The instructions of a CSV file, by its first line's names; an empty cell counts as missing."""
    try:
        lines = csv.reader(io.StringIO(text, newline=""), strict=True)
        rows = [(line, row) for line, row in numbered(lines) if any(row)]
    except csv.Error as error:
        reader.fault("", "", f"no CSV file: {error}")
        return []
    keys = columns(reader, rows[0] if rows else (1, []))
    if keys is None:
        return []
    found = []
    for line, row in rows[1:]:
        if len(row) > len(keys):
            reader.fault(f"line {line}", "", f"{len(row)} cells, where there are {len(keys)} columns")
        cells = {key: cell_value(cell.strip()) for key, cell in zip(keys, row) if cell.strip()}
        found.append(read_instruction(reader, f"line {line}", cells))
    return found


def numbered(rows):
    """Rows of a CSV file with the line on which each ends."""
    for row in rows:
        yield rows.line_num, [cell.strip() for cell in row]


def columns(reader, first):
    """The keys of a CSV file's columns, or None if they are not those of P.9."""
    line, names = first
    known = {name: key for key, others in COLUMNS.items() for name in (key, *others)}
    before = len(reader.faults)
    keys = [known.get(" ".join(name.lower().split())) for name in names]
    for name, key in zip(names, keys):
        if key is None:
            reader.fault(f"line {line}", name, f"unknown name of a column; known are {listed(COLUMNS)}")
        elif keys.count(key) > 1:
            reader.fault(f"line {line}", name, "given twice")
    for key in COLUMNS:
        if key not in keys:
            reader.fault(f"line {line}", key, "missing")
    return keys if len(reader.faults) == before else None


def cell_value(text):
    """A cell: a bare number, or text."""
    return Decimal(text) if BARE.fullmatch(text) else text
