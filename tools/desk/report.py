"""The report of a day: one HTML file with no outside resource, for screen and paper."""

from fractions import Fraction
from html import escape

from desk import picture, words
from desk.exact import HALF_HOUR
from desk.fields import Code, acting
from desk.measures import printable
from desk.outcome import Outcome, short

STYLE = """
body{font:14px/1.45 system-ui,sans-serif;color:#222;max-width:1100px;margin:1.5em auto;padding:0 1em}
h1{font-size:1.35em;margin:0 0 .2em}h2{font-size:1.05em;margin:1.6em 0 .4em}p{margin:.3em 0}
table{border-collapse:collapse;width:100%;font-variant-numeric:tabular-nums}
th,td{padding:.18em .55em;border-bottom:1px solid #ddd;text-align:left;vertical-align:top}
th{border-bottom:1.5px solid #888;font-weight:600}td.n,th.n{text-align:right}td.n,td.t{white-space:nowrap}
svg{width:100%;height:auto}.small{color:#555;font-size:.88em}.bad{color:#b00020;font-weight:700}
code{font-size:.9em;overflow-wrap:anywhere}
@media print{body{margin:0;max-width:none;font-size:10.5px}h2{break-after:avoid}tr{break-inside:avoid}}
"""
OUTSIDE = "This page is no part of what is proved: it shows what the proved program printed, and checks it with exact fractions."
NOTE = """Exact: twice the exact area divided by 216,000, so that it compares with a sum of kW. Allowed: the price list's figure,
108,000 for each half-hour and twice stops times distance for each course having time there, divided likewise."""
UNBROKEN = ("issued", "effective", "acting", "fate", "date", "file")


def fixed(value, places):
    """A fraction as a decimal number with so many places, thousands apart."""
    scaled = round(Fraction(value) * 10**places)
    sign = "-" if scaled < 0 else ""
    head, tail = divmod(abs(scaled), 10**places)
    return f"{sign}{head:,}.{tail:0{places}d}" if places else f"{sign}{head:,}"


def percent(share):
    return f"{fixed(share * 100, 2)} %"


def page(title, body):
    """A whole page."""
    head = f'<meta charset="utf-8"><meta name="viewport" content="width=device-width"><title>{escape(title)}</title>'
    return f'<!DOCTYPE html>\n<html lang="en">\n<head>{head}<style>{STYLE}</style></head>\n<body>\n{body}\n</body>\n</html>\n'


def table(heads, rows):
    """A table; a head that begins with # is a column of numbers, and one of times or dates is not broken. Cells are HTML."""
    marks = [' class="n"' if head.startswith("#") else ' class="t"' if head in UNBROKEN else "" for head in heads]
    top = "".join(f"<th{mark}>{escape(head.lstrip('#'))}</th>" for head, mark in zip(heads, marks))
    lines = ["<tr>" + "".join(f"<td{mark}>{cell}</td>" for cell, mark in zip(row, marks)) + "</tr>" for row in rows]
    return f"<table>\n<thead><tr>{top}</tr></thead>\n<tbody>\n" + "\n".join(lines) + "\n</tbody></table>"


def html(outcome: Outcome) -> str:
    """The report of a day, closed or refused."""
    parts = [f"<h1>{escape(outcome.unit_name)}, Trading Day {escape(outcome.date)}</h1>"]
    parts.append(f'<p class="small">{heading(outcome)}</p>')
    if outcome.refusal:
        parts += refused(outcome)
    else:
        parts += [verdict(outcome), picture.svg(outcome), "<h2>Instructions</h2>", instructions(outcome)]
        parts += ["<h2>Half-hours</h2>", half_hours(outcome), "<h2>Energy and allowance</h2>", totals(outcome)]
        parts += [f"<p>{escape(words.closing(outcome.listing.closing))}</p>"]
    parts += ["<h2>Where it comes from</h2>", provenance(outcome), f'<p class="small">{OUTSIDE}</p>']
    return page(outcome.title, "\n".join(parts))


def heading(outcome):
    clock = outcome.day.clock
    zone = f"times of {escape(clock.zone)}" if clock.date else "records carry no date; times count from 06:00"
    return f"{escape(printable(outcome.source.name))}; from 06:00 to 06:00, {clock.half_hours} half-hours; {zone}; +1 marks the day after"


def refused(outcome):
    """What was refused, and what stands before it."""
    day = outcome.day
    said = escape(words.refused(outcome.refusal, day.clock))
    parts = [f'<p class="bad">Refused: {said}.</p>', "<p>The program made no profile and no quantities.</p>"]
    rows = [[n, escape(day.clock.text(one["effective"])), escape(words.order(one))] for n, one in enumerate(day.instructions, 1)]
    return parts + (["<h2>Instructions read</h2>", table(["#no.", "effective", "instruction"], rows)] if rows else [])


def verdict(outcome):
    """Whether the audit agrees with the proof, in a sentence."""
    found = outcome.audit
    if found.within:
        said = "Between any two boundaries the quantities lie within their allowance of the exact area"
        used = f"at most {percent(found.worst.share)} of it is used"
        return f"<p>Energy {fixed(outcome.energy, 4)} MWh. {said}; {used}.</p>"
    faults = "; ".join(escape(fault) for fault in words.faults(found)[:3])
    return f'<p class="bad">Outside the allowance, which the proof rules out: {faults}. Stop and report this day.</p>'


def instructions(outcome):
    clock, rows = outcome.day.clock, []
    for place, one in enumerate(outcome.day.instructions):
        fate = outcome.listing.fates[place]
        rates = ", ".join(f"{key} {fixed(Fraction(one[key], 1000), 3)}" for key in ("up", "down") if one[key])
        acts = clock.text(acting(one)) if fate in words.HAS_ACTING else ""
        level = fixed(Fraction(one["level"], 1000), 3) if one["code"] == Code.MWOF else ""
        times = [clock.text(one["issue"]), clock.text(one["effective"])]
        said = f"{fate}, {words.FATES.get(fate, 'unknown')}"
        rows.append([place + 1, *times, Code(one["code"]).name, level, rates, acts, escape(said), escape(outcome.rule(place))])
    heads = ["#no.", "issued", "effective", "code", "#MW", "MW/min", "acting", "fate", "rule"]
    return table(heads, rows) if rows else "<p>None.</p>"


def figures(row):
    """Exact area, difference, allowance and share of a span, in kW; red where it is outside."""
    cells = [fixed(row.exact, 6), fixed(row.difference, 6), fixed(row.allowed, 6), percent(row.share)]
    return cells if row.within else [f'<span class="bad">{cell}</span>' for cell in cells]


def half_hours(outcome):
    clock, rows = outcome.day.clock, []
    for half_hour, row in zip(outcome.half_hours, outcome.audit.half_hours, strict=True):
        span = [short(clock, half_hour.start), short(clock, half_hour.end)]
        rows.append([half_hour.number, *span, f"{half_hour.kw:,}", fixed(Fraction(half_hour.kw, 2000), 4), *figures(row)])
    heads = ["#half-hour", "from", "to", "#kW", "#MWh", "#exact kW", "#difference", "#allowed", "#share used"]
    return table(heads, rows)


def totals(outcome):
    """The whole day, and the two boundaries between which most of the allowance is used."""
    found, clock, rows = outcome.audit, outcome.day.clock, []
    for name, row in (("whole day", found.total), ("worst by share", found.worst)):
        times = f"{short(clock, (row.first - 1) * HALF_HOUR)} to {short(clock, row.last * HALF_HOUR)}"
        energy = [f"{row.quantity:,}", fixed(Fraction(row.quantity, 2000), 4)]
        rows.append([f"{name}, half-hours {row.first} to {row.last}, {times}", *energy, *figures(row)])
    heads = ["between", "#sum of kW", "#MWh", "#exact", "#difference", "#allowed", "#share used"]
    return table(heads, rows) + f'\n<p class="small">{NOTE}</p>'


def provenance(outcome):
    sums, program = outcome.sums(), outcome.program
    commit = program["commit"] or "unknown"
    changed = ", changed since" if program["changed"] else ""
    rows = [["records, SHA-256", f"<code>{sums['records']}</code>"], ["listing, SHA-256", f"<code>{sums['listing']}</code>"]]
    rows += [
        ["program, commit", f"<code>{escape(commit)}</code>{changed}"],
        ["program, SHA-256", f"<code>{program['sha256']}</code>"],
    ]
    return table(["what", "figure"], rows)
