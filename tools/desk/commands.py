"""The commands: day, morning, sheet.

Exit status 0 all is well, 1 refused, 2 an error in what was given or in reading or writing, 3 outside the allowance.
"""

import argparse
import os
import signal
import sys
from datetime import date
from pathlib import Path

from desk import files, morning, report, sheets, tables, words, writing
from desk.clock import ZONE, Clock, zone_named
from desk.exact import HALF_HOURS
from desk.measures import Wrong, reason
from desk.outcome import Outcome, of_file, of_records
from desk.program import Program, ProgramError

GOOD, REFUSED, ERROR, OUTSIDE = 0, 1, 2, 3
ENDING = (signal.SIGINT, signal.SIGTERM)


def arguments() -> argparse.ArgumentParser:
    parser = argparse.ArgumentParser(prog="desk", description="The desk's tool: sheets in; listings, tables and pictures out.")
    commands = parser.add_subparsers(dest="command", required=True)
    of_date = argparse.ArgumentParser(add_help=False)
    of_date.add_argument("--date", type=date.fromisoformat, help="the Trading Day where records or sheet have none: 2026-11-16")
    of_date.add_argument("--zone", default=ZONE, help=f"its zone ({ZONE})")
    of_date.add_argument("--program", type=Path, help=argparse.SUPPRESS)  # another listing program, for tests
    day = commands.add_parser("day", parents=[of_date], help="works out days: NAME.records, .listing, .csv, .json, .html")
    day.add_argument("sheets", nargs="+", type=Path, metavar="SHEET", help="a sheet (TOML) or a .records file")
    day.add_argument("--out", type=Path, help="the folder for the files (beside each sheet)")
    all_ = commands.add_parser("morning", parents=[of_date], help="does that for every sheet and records file of a folder")
    all_.add_argument("folder", type=Path, metavar="FOLDER")
    all_.add_argument("--out", type=Path, help="the folder that is replaced when the morning is whole (FOLDER/out)")
    sheet = commands.add_parser("sheet", parents=[of_date], help="prints a records file as a sheet")
    sheet.add_argument("records", type=Path, metavar="FILE.records")
    return parser


def main(words_: list[str] | None = None) -> int:
    given = arguments().parse_args(words_)
    for number in ENDING:
        signal.signal(number, stop)
    try:
        status = {"day": day, "morning": whole_morning, "sheet": sheet}[given.command](given, clock_of(given))
        sys.stdout.flush()
        return status
    except (ProgramError, Wrong) as error:
        return fail(str(error))
    except KeyboardInterrupt:
        fail("stopped")
        return 128 + signal.SIGINT
    except OSError as error:
        # What is left in the buffer of standard output must not be tried again at the end.
        os.dup2(os.open(os.devnull, os.O_WRONLY), sys.stdout.fileno())
        return fail(reason(error) if error.filename else f"the output could not be written whole: {reason(error)}")


def stop(number: int, _) -> None:
    """The first signal ends the tool; no later one may break into what is tidied up then."""
    for each in ENDING:
        signal.signal(each, signal.SIG_IGN)
    raise KeyboardInterrupt if number == signal.SIGINT else SystemExit(128 + number)


def fail(text: str) -> int:
    print(f"desk: {text}", file=sys.stderr)
    return ERROR


def clock_of(given) -> Clock:
    """The clock of records files, and of sheets whose date is unknown."""
    zone_named(given.zone)
    clock = Clock(given.date, given.zone)
    if clock.half_hours != HALF_HOURS:
        raise Wrong(f"--date: {sheets.clock_change(clock)}")
    return clock


def day(given, clock: Clock) -> int:
    """Each day, one after the other; an error in one stops no other."""
    program, status, written = Program(given.program), GOOD, set()
    for path in given.sheets:
        try:
            outcome = of_file(program, path, clock)
            files.write(outcome, given.out or path.parent, written)
        except tables.SheetError as error:
            for fault in error.faults:
                fail(fault)
            status = max(status, ERROR)
            continue
        except Exception as error:
            status = max(status, fail(f"{path}: {reason(error)}"))
            continue
        print(said(outcome))
        status = max(status, REFUSED if outcome.refusal else GOOD if outcome.within else OUTSIDE)
    return status


def said(outcome: Outcome) -> str:
    """A day in words: fates and energy, or the refusal."""
    lines = [outcome.title]
    if outcome.refusal:
        return "\n".join(lines + [f"  refused: {words.refused(outcome.refusal, outcome.day.clock)}"])
    lines += [f"  {outcome.sentence(place)}" for place in range(len(outcome.day.instructions))]
    lines += [f"  {fault}" for fault in words.faults(outcome.audit)]
    used = f"at most {report.percent(outcome.audit.worst.share)} of the allowance used"
    verdict = used if outcome.within else "OUTSIDE THE ALLOWANCE"
    return "\n".join(lines + [f"  energy {report.fixed(outcome.energy, 4)} MWh; {verdict}"])


def whole_morning(given, clock: Clock) -> int:
    folder, out = given.folder, given.out or given.folder / "out"
    if not folder.is_dir():
        return fail(f"{folder}: no folder")
    if out.exists() and not (out / morning.MADE).is_file() and (not out.is_dir() or any(out.iterdir())):
        return fail(f"{out} was not made by a morning, and is not replaced")
    if folder.resolve().is_relative_to(out.resolve()):
        return fail(f"{out} holds what the morning reads")
    if not morning.found(folder):
        return fail(f"{folder}: no sheets (.toml) and no .records files")
    rows = morning.run(Program(given.program), folder, out, clock)
    print(table(rows))
    print(f"{morning.summary(rows)}; {out / morning.INDEX}")
    return max((row.status for row in rows), default=GOOD)


def table(rows) -> str:
    """The morning's table in columns; the answer, which may be long, stands last."""
    lines = [[head.lstrip("#") for head in morning.HEADS]] + [row.cells() for row in rows]
    widths = [max(len(line[i]) for line in lines) for i in range(len(morning.HEADS))]
    put = [str.rjust if head.startswith("#") else str.ljust for head in morning.HEADS]
    return "\n".join("  ".join(pad(cell, width) for pad, cell, width in zip(put, line, widths)).rstrip() for line in lines)


def sheet(given, clock: Clock) -> int:
    try:
        outcome = of_records(Program(given.program), given.records, clock)
    except tables.SheetError as error:
        return fail(str(error))
    print(writing.sheet(outcome.day, given.records.name, outcome.refusal), end="")
    return REFUSED if outcome.refusal else GOOD
