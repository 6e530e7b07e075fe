"""The files of a day, side by side: records, listing, CSV, JSON, HTML. Each comes whole or not at all."""

import csv
import io
import json
import os
from fractions import Fraction
from pathlib import Path

from desk import report, words
from desk.clock import Clock
from desk.fields import HEATS, acting
from desk.measures import printable
from desk.outcome import Outcome
from desk.program import digest

MEASURES = {"levels, quantities": "kW", "rates": "kW/min", "times": "seconds from 06:00"}
MEASURES["levels of opening, segments and closing"] = "grains, 1/60 kW"


def contents(outcome: Outcome) -> dict[str, bytes]:
    """What each file holds, by its suffix. The JSON file has the sums of all others."""
    made = {".records": outcome.records, ".listing": outcome.printed}
    made |= {".csv": table(outcome).encode(), ".html": report.html(outcome).encode()}
    sums = {suffix.lstrip("."): digest(content) for suffix, content in made.items()}
    return made | {".json": data(outcome, sums).encode()}


def own_sums(path: Path) -> dict[str, str]:
    """The sums in a JSON file that this tool has written; none if there is no such file."""
    try:
        found = json.loads(path.read_bytes())
        return {suffix: found["sha256"][suffix] for suffix in ("records", "listing", "csv", "html") if found["program"]}
    except (OSError, ValueError, KeyError, TypeError, RecursionError):
        return {}


def is_own(path: Path) -> bool:
    """Whether a day's file is as this tool has written it, by the JSON file beside it."""
    sums = own_sums(path.with_name(path.stem + ".json"))
    return bool(sums) if path.suffix == ".json" else sums.get(path.suffix.lstrip(".")) == digest(path.read_bytes())


def write(outcome: Outcome, folder: Path, written: set[Path]) -> None:
    """Writes the files beside each other. None is put in place before all are written; and none over a file that this tool has
    not written, or that was changed since, or that stands in `written`, those of other days."""
    folder.mkdir(parents=True, exist_ok=True)
    waiting = []
    try:
        for suffix, content in contents(outcome).items():
            path = folder / (outcome.day.name + suffix)
            if path.exists() and path.read_bytes() == content:
                continue
            if path.resolve() in written or (path.exists() and not is_own(path)):
                what = "is another day's" if path.resolve() in written else "was not written by this tool, or was changed since"
                raise FileExistsError(f"{path} {what}; it is not overwritten, name another folder (--out)")
            new = path.with_name(f".{path.name}.{os.getpid()}")
            waiting.append((new, path))
            new.write_bytes(content)
        for new, path in waiting:
            os.replace(new, path)
    finally:
        for new, _ in waiting:
            new.unlink(missing_ok=True)
    written |= {path.resolve() for _, path in waiting}


def mwh(kw):
    """The energy of a half-hour, or of a sum of them: exact, since a kW is 0.0005 MWh."""
    return kw / 2000


def table(outcome: Outcome) -> str:
    """The half-hours as CSV; of a refused day the first line alone."""
    out = io.StringIO(newline="")
    rows = csv.writer(out, lineterminator="\n")
    rows.writerow(["half-hour", "from", "to", "kW", "MWh"])
    clock = outcome.day.clock
    for one in outcome.half_hours:
        rows.writerow([one.number, moment(clock, one.start), moment(clock, one.end), one.kw, mwh(one.kw)])
    return out.getvalue()


def moment(clock: Clock, second: int) -> str:
    """Date and time with its offset, or the time of day where no date is known."""
    return clock.moment(second).isoformat() if clock.date else clock.text(second)


def data(outcome: Outcome, sums: dict[str, str]) -> str:
    """Everything, for other programs."""
    day, clock = outcome.day, outcome.day.clock
    found = {
        "name": printable(day.name),
        "source": printable(outcome.source.name),
        "unit_name": day.unit_name or None,
        "date": str(clock.date) if clock.date else None,
        "zone": clock.zone if clock.date else None,
        "half_hours_in_day": clock.half_hours,
        "accepted": outcome.refusal is None,
        "refusal": refusal(outcome),
        "unit": day.unit,
        "opening": day.opening and {**day.opening, "heat": HEATS[day.opening["heat"] - 1]},
        "instructions": [instruction(outcome, place) for place in range(len(day.instructions))],
        "measures": MEASURES,
        **(closed(outcome) if outcome.refusal is None else {}),
        "sha256": sums,
        "program": outcome.program,
    }
    return json.dumps(found, indent=1) + "\n"


def refusal(outcome):
    found = outcome.refusal
    if found is None:
        return None
    where = {"record": found.place, "byte": found.start, "which": words.which(found, outcome.day.clock)}
    return {"number": found.number, "words": found.words, **where}


def instruction(outcome, place):
    one, clock = outcome.day.instructions[place], outcome.day.clock
    found = {"number": place + 1, **one, "code": words.code_name(one["code"])}
    found |= {"effective_time": moment(clock, one["effective"]), "issue_time": moment(clock, one["issue"])}
    if outcome.listing:
        fate = outcome.listing.fates[place]
        acts = acting(one) if fate in words.HAS_ACTING else None
        found |= {"acting": acts, "fate": fate, "fate_in_words": words.FATES.get(fate), "rule": outcome.rule(place)}
    return found


def span(row):
    """An audited span: exact figures as fractions and as decimal numbers, in kW."""
    found = {"first": row.first, "last": row.last, "kW": row.quantity, "MWh": mwh(row.quantity)}
    for name in ("exact", "difference", "allowed", "share"):
        value = Fraction(getattr(row, name))
        found[name] = {"decimal": float(value), "fraction": str(value)}
    return found | {"within": row.within}


def closed(outcome):
    """What only a closed day has."""
    found, clock = outcome.audit, outcome.day.clock
    rows = []
    for one, row in zip(outcome.half_hours, found.half_hours, strict=True):
        rows.append({"half_hour": one.number, "from": moment(clock, one.start), "to": moment(clock, one.end), **span(row)})
    keys = ("from", "to", "level_from", "level_to")
    return {
        "segments": [dict(zip(keys, segment)) for segment in outcome.listing.segments],
        "half_hours": rows,
        "total": span(found.total),
        "worst": span(found.worst),
        "within_allowance": found.within,
        "faults": words.faults(found),
        "closing": {**outcome.listing.closing._asdict(), "heat": HEATS[outcome.listing.closing.heat - 1]},
    }
