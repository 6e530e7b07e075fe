"""A day written as a sheet: what a customer's bytes say, for a person to read. `sheets.read` gives the same bytes of it again."""

import textwrap

from desk import words
from desk.days import Day
from desk.fields import INSTRUCTION, KINDS, NUMBERS, OPENING, TRIGGER, UNIT, Code, Table, Triggers
from desk.measures import printable
from desk.program import Refusal


MEASURED = "Levels in MW, rates in MW/min, cooling boundaries and holds in minutes."


def sheet(day: Day, source: str, refusal: Refusal | None) -> str:
    """The sheet of a day that was read from `source`."""
    lines = [f"# The records of {printable(source)} as a sheet. {MEASURED}"]
    if refusal:
        lines += refused(day, refusal)
    lines.append("")
    if day.clock.date is None:
        lines.append('date = "unknown"  # records carry no date')
    else:
        lines += [f"date = {day.clock.date}", f'zone = "{day.clock.zone}"']
    if day.rest is not None:
        lines += rest(day.rest)
    if day.unit is not None:
        lines += table("unit", day.unit, UNIT, day.clock)
    if day.opening is not None:
        lines += table("opening", day.opening, OPENING, day.clock)
        lines += [f"after = {day.after}  # instructions entered before it"] if day.after else []
    for number, instruction in enumerate(day.instructions, 1):
        lines += ["", f"[[instructions]]  # {number}"] + figures(given(instruction), INSTRUCTION, day.clock)
    return "\n".join(lines) + "\n"


def given(instruction):
    """An instruction without the figures that it need not carry."""
    needed = ("effective", "issue", "code") + (("level",) if instruction["code"] == Code.MWOF else ())
    return {key: value for key, value in instruction.items() if key in needed or value}


def rest(data):
    """Bytes as they are, in lines of 32."""
    lines = ["# From here on the bytes stand as they are, and no close is added."]
    if len(data) <= 32:
        return lines + [f'rest = "{data.hex(" ")}"']
    return lines + ['rest = """'] + [data[at : at + 32].hex(" ") for at in range(0, len(data), 32)] + ['"""']


def refused(day, refusal):
    """Where it stops and why, as comments; the refused record's figures if it stands whole."""
    said = words.refused(refusal, day.clock)
    lines = [f"# {line}" for line in textwrap.wrap(f"Refused: {said}", 110)]
    lines.append(f"# It begins at byte {refusal.start}; what stands before it was let in.")
    record = refusal.record
    if record and record.value:
        fields = KINDS[NUMBERS[record.kind]].fields
        said = table(record.kind, record.value, fields, day.clock)[1:]
        lines += ["# What it says:"] + [f"#   {line}".rstrip() for line in said]
    return lines


def table(name, value, fields, clock):
    """A table and the tables in it."""
    lines = ["", f"[{name}]"] + figures(value, fields, clock)
    for entry in fields:
        if isinstance(entry, Table):
            for part in entry.names or (None,):
                inner = value[entry.key][part] if part else value[entry.key]
                lines += table(".".join(filter(None, (name, entry.key, part))), inner, entry.fields, clock)
    return lines


def figures(value, fields, clock):
    """The lines of a table's own figures."""
    lines = []
    for entry in fields:
        if entry.key not in value or isinstance(entry, Table):
            continue
        if isinstance(entry, Triggers):
            shown = [trigger(one, clock) for one in value[entry.key]]
            lines.append(f"{entry.key} = [{', '.join(shown)}]")
        elif entry.count is None:
            lines.append(f"{entry.key} = {entry.measure.show(value[entry.key], clock)}")
        else:
            shown = [entry.measure.show(one, clock) for one in value[entry.key]]
            lines.append(f"{entry.key} = [{', '.join(shown)}]")
    return lines


def trigger(value, clock):
    shown = [f"{field.key} = {field.measure.show(value[field.key], clock)}" for field in TRIGGER]
    return f"{{ {', '.join(shown)} }}"
