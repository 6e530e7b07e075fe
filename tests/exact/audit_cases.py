"""Cases of the audit worked out by hand from the paper, and listings that must be refused."""

from fractions import Fraction

from desk.audit import AuditError, Code, audit
from desk.listing import ListingError, parse, refusal

COLUMN = [0, 1, 1, 1, 0, 0, 0, 0, 0, 0]
RAMP_UP, RAMP_DOWN = [1_000, 1, 1, 1, 1] + [400_000] * 4, [1] * 5 + [0] * 4


def unit(dwell=0, minutes=0):
    """The paper's unit, with a dwell if there is to be one."""
    dwells = [dwell, 0, 0, minutes, 0, 0]
    return [400_000, 400_000, 100_000, 0, 0] + COLUMN * 3 + RAMP_UP + dwells + RAMP_DOWN + [1, 1, 0]


def opening(level=6_000_000, target=100_000):
    return {"level": level, "target": target, "heat": 1, "off": 0}


def instruction(code, effective, level=0):
    return {"effective": effective, "issue": 0, "code": int(code), "level": level, "up": 0, "down": 0}


MWOF = instruction(Code.MWOF, 0, 103_000)
PAPER = b"""F 1 0
S 0 120 6000000 6000000
S 120 300 6000000 6180000
S 300 86400 6180000 6180000
Q 1 1 102650
Q 2 48 103000
E 6180000 103000 1 0
"""
# A dwell of a minute at 101,000 kW: twice the area of the first half-hour is 22,158,000,000.
DWELL = PAPER.replace(
    b"S 120 300 6000000 6180000\nS 300 ",
    b"""S 120 180 6000000 6060000
S 180 240 6060000 6060000
S 240 360 6060000 6180000
S 360 """,
).replace(b"102650", b"102583")
# Half a kW on average: rounding up uses all that is allowed.
TRIPPED = b"F 1 0\nS 0 900 60 60\nS 900 86400 0 0\nQ 1 1 1\nQ 2 48 0\nE 0 0 1 85500\n"
# A SYNC above 0 does nothing; the first quantity is a kW too much.
RESTING = b"F 1 7\nS 0 86400 6000000 6000000\nQ 1 1 100001\nQ 2 48 100000\nE 6000000 100000 1 0\n"
LONG = b"S 0 90000 6000000 6000000\nQ 1 50 100000\nE 6000000 100000 1 0\n"


def by_hand():
    """Days whose figures are worked out on paper."""
    paper = audit(unit(), opening(), [MWOF], parse(PAPER))
    first = paper.half_hours[0]
    yield "the paper's day", paper.within and (first.exact, first.allowed) == (102_650, Fraction(13, 6))
    yield "the paper's day, second half-hour", paper.half_hours[1].allowed == Fraction(13, 6)
    yield "the paper's day, total", paper.total.quantity == 102_650 + 47 * 103_000 and paper.total.share == 0
    held = audit(unit(101_000, 1), opening(), [MWOF], parse(DWELL))
    first = held.half_hours[0]
    yield "a dwell", held.within and (first.difference, first.share) == (Fraction(-1, 3), Fraction(2, 23))
    yield "a dwell, worst pair", (held.worst.first, held.worst.last, held.worst.share) == (1, 1, Fraction(2, 23))
    trip = [instruction(Code.TRIP, 900)]
    half = audit(unit(), opening(60, 1), trip, parse(TRIPPED))
    yield "half a kW", half.within and half.worst.share == 1 and half.half_hours[0].allowed == Fraction(1, 2)
    long = audit(unit(), opening(), [], parse(LONG, 50))
    yield "fifty half-hours", long.within and len(long.half_hours) == 50 and long.total.exact == 5_000_000


def to_be_found():
    """Listings in form whose figures are wrong."""
    wrong = audit(unit(), opening(), [instruction(Code.SYNC, 0)], parse(RESTING))
    # No stops: one kW too much is outside what one half-hour allows, and just within what two do.
    yield "one kW too much", [(f.first, f.last) for f in wrong.faults] == [(1, 1)] and not wrong.half_hours[0].within
    yield "one kW too much, the profile good", not wrong.speed_faults and not wrong.within
    for name, data, (old, new), second in TOO_FAST:
        found = audit(unit(101_000, 1) if data is DWELL else unit(), opening(), [MWOF], parse(data.replace(old, new)))
        yield name, f" at {second} " in f"{' '.join(found.speed_faults[:1])} "
    for name, instructions in [("a fate too few", [MWOF, MWOF]), ("another acting second", [instruction(Code.TRIP, 5)])]:
        yield name, raises(AuditError, lambda given=instructions: audit(unit(), opening(), given, parse(PAPER)))


# What is put in place of what in which day, and the second at which the audit must find it.
RISE, HELD = b"S 120 300 6000000 6180000\nS 300 ", b"S 180 240 6060000 6060000\nS 240 360 6060000 6180000\nS 360 "
TOO_FAST = [
    ("faster than the rate", PAPER, (RISE, b"S 120 210 6000000 6180000\nS 210 "), 120),
    ("the last second too far", PAPER, (RISE, b"S 120 298 6000000 6178000\nS 298 299 6178000 6180000\nS 299 "), 298),
    ("a hold not kept", DWELL, (HELD, b"S 180 300 6060000 6180000\nS 300 "), 180),
    ("a hold cut short", DWELL, (HELD, b"S 180 239 6060000 6060000\nS 239 359 6060000 6180000\nS 359 "), 239),
    ("past a stop", DWELL, (b"S 120 180 6000000 6060000\n" + HELD, b"S 120 300 6000000 6180000\nS 300 "), 120),
    ("past the target", PAPER, (RISE, RISE + b"301 6180000 6181000\nS 301 302 6181000 6180000\nS 302 "), 300),
    ("the wrong way", PAPER, (RISE, b"S 120 121 6000000 5999000\nS 121 302 5999000 6180000\nS 302 "), 120),
    ("a course that jumps", PAPER, (RISE, b"S 120 299 6001000 6180000\nS 299 "), 120),
    ("a level that jumps", PAPER, (RISE, b"S 120 299 6000000 6179000\nS 299 "), 299),
]

# What is put in place of what in the paper's day, and the line at which it must be refused.
FORMS = [
    (b"1 0\nS", b"1 9\nS", 1),
    (b"F 1", b"F 2", 1),
    (b"F 1 0", b"F 1 0 0", 1),
    (b"F 1 0", b"F 01 0", 1),
    (b"F 1 0", b"F 1  0", 1),
    (b"F 1 0", b"F 1 +0", 1),
    (b"F 1 0", b"F 1 0\r", 1),
    (b"F 1 0", b"X 7", 1),
    (b"F 1 0", b"", 1),
    (b"S 0 120", b"S 1 120", 2),
    (b"S 120 300", b"S 121 300", 3),
    (b"S 120 300", b"S 120 120", 3),
    (b"S 300 86400", b"S 300 86399", 4),
    (b"S 300 86400", b"S 300 86401", 4),
    (b"Q 1 1", b"Q 2 2", 5),
    (b"Q 1 1", b"Q 1 0", 5),
    (b"Q 2 48", b"Q 3 48", 6),
    (b"Q 2 48", b"Q 2 47", 6),
    (b"Q 2 48", b"Q 2 49", 6),
    (b"102650", b"103000", 6),
    (b"102650", b"-1", 5),
    (b"Q 1 1 102650", b"E 0 0 1 0", 6),
    (b"Q 1 1 102650\nQ 2 48 103000\n", b"", 6),
    (b"E 6180000", b"E 6180001", 7),
    (b"103000 1 0\n", b"103000 4 0\n", 7),
    (b"103000 1 0\n", b"103000 1 1\n", 7),
    (b"103000 1 0\n", b"103000 1 0", 7),
    (b"103000 1 0\n", b"103000 1 0\n\n", 8),
    (b"103000 1 0\n", b"103000 1 0\nE 6180000 103000 1 0\n", 8),
    (b"E 6180000 103000 1 0\n", b"", 7),
    (PAPER, b"", 1),
    (PAPER, b"\n", 1),
]


def to_be_refused():
    for old, new, line in FORMS:
        damaged = PAPER.replace(old, new, 1)
        yield f"{new!r} for {old!r}", damaged != PAPER and raises(ListingError, lambda given=damaged: parse(given), line)
    yield "46 half-hours", raises(ListingError, lambda: parse(PAPER, 46), 4)
    yield "a refusal", refusal(b"X 27\n") == 27
    for data in [PAPER, b"", b"X 27", b"X 7\n\n", b"X 07\n", b"X\n", b"X 1 2\n"]:
        yield f"no refusal: {data[:9]!r}", refusal(data) is None


def raises(kind, call, line=None):
    try:
        call()
    except kind as error:
        return line is None or error.line == line
    return False


def cases():
    """Name and whether it came out right, of each."""
    yield from by_hand()
    yield from to_be_found()
    yield from to_be_refused()
