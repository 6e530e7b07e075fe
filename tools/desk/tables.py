"""Tables of a sheet read by the fields of the records. Every fault is kept, with file, table and field."""

import difflib
import re
import tomllib
from decimal import Decimal
from pathlib import Path

from desk.clock import Clock
from desk.fields import TRIGGER, Table, Triggers
from desk.measures import Time, Wrong, kind_of, printable, short


class SheetError(Exception):
    """What is wrong with a sheet, one line for each fault; unit and date as far as they could be read."""

    def __init__(self, faults, unit="", date=""):
        super().__init__("\n".join(faults))
        self.faults, self.unit, self.date = faults, unit, date


class Unreadable(SheetError):
    """A file that could not be read, and why."""

    def __init__(self, path, why):
        super().__init__([printable(f"{path}: {why}")])
        self.why = why


def text_of(path: Path) -> str:
    """The text of a file."""
    try:
        return path.read_bytes().decode("utf-8-sig")
    except OSError as error:
        raise Unreadable(path, error.strerror) from None
    except UnicodeDecodeError:
        raise Unreadable(path, "no text in UTF-8") from None
    except ValueError:
        raise Unreadable(path, "no name of a file") from None


def decimal(text: str) -> Decimal | str:
    """A number as it is typed; text where its exponent is beyond all measure."""
    try:
        return Decimal(text)
    except ArithmeticError:
        return text


def parse(path: Path) -> dict:
    """The tables of a TOML file, decimals exact."""
    text = text_of(path)
    try:
        return tomllib.loads(text, parse_float=decimal)
    except ValueError as error:
        raise SheetError([printable(f"{path}{toml_fault(text, str(error))}")]) from None
    except RecursionError:
        raise SheetError([f"{path}: tables within tables too deep"]) from None


def toml_fault(text, message):
    """Where TOML itself is broken, in words: line, table and field."""
    lines = text.splitlines() or [""]
    at = re.search(r"at line ([0-9]+)", message)
    place = min(int(at[1]), len(lines)) if at else len(lines)
    while place > 1 and not re.search(r"=|^\s*\[", lines[place - 1]):
        place -= 1  # to the line on which the field or the table begins
    tables = [line.strip() for line in lines[:place] if re.match(r"\s*\[", line)]
    line = lines[place - 1]
    field = line.split("=")[0].strip() if "=" in line else ""
    words = re.sub(r" \(at .*\)$", "", message)
    if message.startswith("Cannot"):
        words = "given twice"
    elif message.startswith("Exceeds the limit"):
        words = "a number with far too many digits"
    elif inline := re.match(r"Duplicate inline table key '(.*)'", message):
        words = f"{inline[1]} given twice"
    elif re.search(r"=\s*[0-9]{1,2}:[0-9]{2}\s*(#.*)?$", line):
        words = 'a time is written 06:30:00, or "06:30" as text'
    where = [f"line {place}"] + tables[-1:] + ([field] if field else [])
    return f", {', '.join(where)}: {words}"


class Reader:
    """Reads the tables of one file by the fields of the records, and keeps every fault. Without a clock, as date or zone are
    wrong, times are not looked at."""

    def __init__(self, file: Path, clock: Clock | None, faults: list):
        self.file, self.clock, self.faults = file, clock, faults

    def fault(self, table, field, words):
        """One fault: file, table (or line of a CSV file) and field."""
        shown = table if table.startswith("line ") or not table else f"[{table}]"
        where = ", ".join(part for part in (str(self.file), shown, field) if part)
        self.faults.append(printable(f"{where}: {words}"))

    def known(self, table, value, keys):
        """Every key of a table has to be one of these."""
        for key in value:
            if key not in keys:
                near = difflib.get_close_matches(key, keys, 1)
                self.fault(table, key, f"unknown name; {f'did you mean {near[0]}?' if near else f'known are {listed(keys)}'}")

    def figure(self, table, name, value, field):
        """One figure, which has to fit in its bytes; 0 where it is wrong."""
        if self.clock is None and isinstance(field.measure, Time):
            return 0
        most = 2 ** (8 * field.width - field.signed)
        try:
            number = field.measure.read(value, self.clock)
            if number < 0 and not field.signed:
                raise Wrong(f"{short(value)} is negative")
            if not -most <= number < most:
                raise Wrong(f"{short(value)} is more than a record can hold")
            return number
        except Wrong as wrong:
            self.fault(table, name, str(wrong))
            return 0

    def figures(self, table, value, field):
        """A list of figures, as many as the record has."""
        if type(value) is not list or len(value) != field.count:
            given = f"{len(value)} are given" if type(value) is list else f"{kind_of(value)} is given"
            self.fault(table, field.key, f"a list of {field.count} figures is wanted, {given}")
            return [0] * field.count
        return [self.figure(table, f"{field.key} {place}", one, field) for place, one in enumerate(value, 1)]

    def triggers(self, table, value, entry):
        """A list of triggers; where it is shorter than the record's, the others are none."""
        if type(value) is not list or len(value) > entry.count:
            self.fault(table, entry.key, f"a list of at most {entry.count} tables is wanted, each with level and minutes")
            value = []
        none = [{"level": 0, "minutes": 0}] * (entry.count - len(value))
        return [self.table(f"{table}.{entry.key} {place}".lstrip("."), one, TRIGGER) for place, one in enumerate(value + none, 1)]

    def tables(self, table, value, entry):
        """One table for each name."""
        if type(value) is not dict:
            self.fault(table, entry.key, f"{kind_of(value)}, where tables are wanted: {listed(entry.names)}")
            return {}
        inner = f"{table}.{entry.key}".lstrip(".")
        self.known(inner, value, entry.names)
        for name in entry.names:
            if name not in value:
                self.fault(inner, name, "missing")
        return {name: self.table(f"{inner}.{name}", value[name], entry.fields) for name in entry.names if name in value}

    def entry(self, table, value, entry):
        """What stands under one key."""
        if isinstance(entry, Triggers):
            return self.triggers(table, value, entry)
        if isinstance(entry, Table) and entry.names:
            return self.tables(table, value, entry)
        if isinstance(entry, Table):
            return self.table(f"{table}.{entry.key}".lstrip("."), value, entry.fields)
        if entry.count is None:
            return self.figure(table, entry.key, value, entry)
        return self.figures(table, value, entry)

    def table(self, table, value, fields, optional=(), also=()):
        """A table by its fields; an optional one that is missing is 0. Keys in `also` are read elsewhere."""
        if type(value) is not dict:
            self.fault(table, "", f"{kind_of(value)}, where a table is wanted")
            return {}
        self.known(table, value, [entry.key for entry in fields] + list(also))
        found = {}
        for entry in fields:
            if entry.key in value:
                found[entry.key] = self.entry(table, value[entry.key], entry)
            elif entry.key in optional:
                found[entry.key] = 0
            else:
                self.fault(table, entry.key, "missing")
        return found


def listed(names):
    return ", ".join(names)
