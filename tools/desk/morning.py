"""A morning: every sheet and every records file of a folder, into a folder that is replaced only when it is whole."""

import ctypes
import json
import os
import re
import shutil
import sys
from dataclasses import dataclass
from fractions import Fraction
from html import escape
from pathlib import Path
from urllib.parse import quote

from desk import files, report, tables, words
from desk.clock import Clock
from desk.measures import printable, reason
from desk.outcome import Outcome, of_file
from desk.program import Program

INDEX, MADE = "index.html", "morning.json"  # a folder with the second was made by a morning, and may be replaced
OLD = ".old"  # ends the name of a folder that is moved aside
DAY_KEYS = {"date", "unit", "opening", "instructions"}


@dataclass
class Row:
    """One file of the morning: its day, or what was wrong with it, with unit and date as far as they are known."""

    path: Path
    outcome: Outcome | None = None
    fault: str = ""
    unit: str = ""
    date: str = ""

    @property
    def answer(self) -> str:
        """Accepted, or why not, in words."""
        if self.outcome is None:
            return self.fault
        if self.outcome.refusal:
            return words.refused(self.outcome.refusal, self.outcome.day.clock)
        return "accepted" if self.outcome.within else "OUTSIDE THE ALLOWANCE"

    @property
    def closed(self) -> bool:
        return self.outcome is not None and self.outcome.refusal is None

    @property
    def status(self) -> int:
        """3 outside the allowance, 1 refused, 0 accepted."""
        if self.closed and not self.outcome.within:
            return 3
        return 0 if self.closed else 1

    def cells(self) -> list[str]:
        """File, unit, date, MWh, instructions by fate, answer."""
        named = [printable(self.path.name), self.unit, self.date]
        if not self.closed:
            return named + ["", "", self.answer]
        return named + [report.fixed(self.outcome.energy, 4), by_fate(self.outcome), self.answer]


HEADS = ["file", "unit", "date", "#MWh", "instructions by fate", "answer"]


def by_fate(outcome: Outcome) -> str:
    """How many instructions have each fate: fate 0: 3, 7: 1."""
    fates = outcome.listing.fates
    return f"fate {', '.join(f'{fate}: {fates.count(fate)}' for fate in sorted(set(fates)))}" if fates else "none"


def is_unit_file(path: Path) -> bool:
    """Whether a TOML file is a unit's, which sheets share."""
    try:
        table = tables.parse(path)
    except tables.SheetError:
        return False
    return "capacity" in table and not DAY_KEYS & table.keys()


def is_sheet(path: Path) -> bool:
    return path.suffix.lower() == ".toml"


def found(folder: Path) -> list[Path]:
    """The sheets and records files of a folder by name, a sheet before records of the same name. Unit files are no days, nor
    are hidden files, nor records that this tool has written beside their sheet."""
    paths = [path for path in folder.iterdir() if path.suffix.lower() in (".toml", ".records") and not path.name.startswith(".")]
    days = [path for path in paths if not (is_sheet(path) and is_unit_file(path))]
    stems = {path.stem for path in days if is_sheet(path)}
    kept = [path for path in days if is_sheet(path) or path.stem not in stems or not (path.is_file() and files.is_own(path))]
    return sorted(kept, key=lambda path: (path.stem, not is_sheet(path), path.name))


def work(program: Program, path: Path, clock: Clock, taken: dict[str, bytes], folder: Path) -> Row | None:
    """One file's day, written; None for records that are those of their sheet. A bad file stops no other."""
    try:
        if path.stem in (Path(INDEX).stem, Path(MADE).stem):
            raise ValueError(f"{INDEX} and {MADE} are the morning's own; give it another name")
        outcome = of_file(program, path, clock)
        row = Row(path, None, "", outcome.unit_name, outcome.date)
        if path.stem in taken:
            row.fault = "not done: the other file of this name gives other records"
            return row if taken[path.stem] != outcome.records else None
        taken[path.stem] = outcome.records
        files.write(outcome, folder, set())
        row.outcome = outcome
        return row
    except tables.SheetError as error:
        taken.setdefault(path.stem, b"")
        here = f"{path.parent}{os.sep}"
        return Row(path, None, "; ".join(fault.replace(here, "") for fault in error.faults), error.unit, error.date)
    except Exception as error:
        return Row(path, fault=f"not done: {reason(error)}")


def show(text: str) -> None:
    """One line of progress, on a terminal only; an empty one wipes it."""
    if sys.stderr.isatty():
        width = shutil.get_terminal_size().columns - 1
        print(f"\r\033[K{text[:width]}", end="", file=sys.stderr, flush=True)


def run(program: Program, folder: Path, out: Path, clock: Clock) -> list[Row]:
    """The morning's rows, in the order of the files; sheets come before records of the same name."""
    paths, out = found(folder), out.resolve()
    remove_left_over(out)
    new = beside(out, os.getpid())
    new.mkdir(parents=True)
    rows, taken = [], {}
    try:
        for place, path in enumerate(paths, 1):
            show(printable(f"{place} of {len(paths)}: {path.name}"))
            row = work(program, path, clock, taken, new)
            rows += [row] if row else []
        (new / INDEX).write_text(index(folder, rows), encoding="utf-8")
        (new / MADE).write_text(data(rows), encoding="utf-8")
        put_in_place(new, out)
    finally:
        show("")
        shutil.rmtree(new, ignore_errors=True)
    return rows


def beside(out: Path, process: int) -> Path:
    """Where a process makes what is to take a folder's place."""
    return out.with_name(f".{out.name}.desk-{process}")


def remove_left_over(out: Path) -> None:
    """Removes what mornings that were cut off have left beside the folder; one that was moved aside comes back."""
    ours = re.compile(rf"\.{re.escape(out.name)}\.desk-([0-9]{{1,9}})({re.escape(OLD)})?")
    for path in sorted(out.parent.iterdir(), reverse=True) if out.parent.is_dir() else []:
        match = ours.fullmatch(path.name)
        if not match or runs(int(match[1])):
            continue
        if path.name.endswith(OLD) and not out.exists():
            os.rename(path, out)
        else:
            shutil.rmtree(path, ignore_errors=True)


def runs(process: int) -> bool:
    """Whether there is such a process."""
    try:
        os.kill(process, 0)
    except ProcessLookupError:
        return False
    except OSError:
        pass
    return True


def put_in_place(new: Path, out: Path) -> None:
    """The new folder takes the old one's place at once; what `new` names then is to be removed."""
    if not out.exists():
        os.rename(new, out)
    elif not exchange(new, out):
        old = new.with_name(new.name + OLD)
        os.rename(out, old)
        os.rename(new, out)
        shutil.rmtree(old)


def exchange(one: Path, other: Path) -> bool:
    """Two folders change names in one step, where the system can."""
    try:
        call = ctypes.CDLL(None, use_errno=True).renameat2
    except (OSError, AttributeError):
        return False
    here, swap = -100, 2  # AT_FDCWD, RENAME_EXCHANGE
    return call(here, os.fsencode(one.absolute()), here, os.fsencode(other.absolute()), swap) == 0


def index(folder: Path, rows: list[Row]) -> str:
    """The morning's page, with a link to each day."""
    lines = []
    for row in rows:
        cells = [escape(cell) for cell in row.cells()]
        if row.outcome:
            cells[0] = f'<a href="{quote(os.fsencode(row.path.stem))}.html">{cells[0]}</a>'
        if row.status:
            cells[-1] = f'<span class="bad">{cells[-1]}</span>'
        lines.append(cells)
    name = printable(folder.resolve().name)
    body = f"<h1>Morning, folder {escape(name)}</h1>\n<p>{escape(summary(rows))}</p>\n{report.table(HEADS, lines)}"
    return report.page(f"Morning, folder {name}", body + f'\n<p class="small">{report.OUTSIDE}</p>')


def data(rows: list[Row]) -> str:
    """The morning's table for other programs."""
    found = []
    for row in rows:
        one = {"file": printable(row.path.name), "unit": row.unit, "date": row.date, "accepted": row.closed, "answer": row.answer}
        if row.closed:
            fates = row.outcome.listing.fates
            one["fates"] = {str(fate): fates.count(fate) for fate in sorted(set(fates))}
            one["MWh"] = float(row.outcome.energy)
        found.append(one | {"status": row.status})
    return json.dumps(found, indent=1) + "\n"


def summary(rows: list[Row]) -> str:
    accepted = [row for row in rows if row.closed]
    total = sum((row.outcome.energy for row in accepted), start=Fraction(0))
    days = "1 day" if len(rows) == 1 else f"{len(rows)} days"
    return f"{days}: {len(accepted)} accepted, {len(rows) - len(accepted)} refused; {report.fixed(total, 4)} MWh"
