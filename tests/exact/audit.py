"""The desk's audit against the second implementation.

For each exported day the audit, from records and listing alone, must find the courses that the second implementation exported,
the figures that the price list's sentence gives for them, and the verdict of demand3.py; the listing as parsed must print as the
same bytes. Then cases worked out by hand from the paper, and listings that must be refused.

    audit.py FILE [--parts N]
"""

import struct
import sys
from concurrent.futures import ProcessPoolExecutor
from fractions import Fraction

import demand3  # puts the desk on the path
from audit_cases import cases
from desk import audit, listing
from desk.exact import DOUBLED, HALF_HOUR, ROUNDING, exact_areas

ALL_PAIRS = 100  # one day in so many is looked at between every two boundaries


def records(data):
    """Unit, opening and instructions of records that close a day."""
    unit, opening, instructions = None, None, []
    while data[0] != 4:
        kind, body = data[0], data[1:]
        if kind == 1:
            unit, size = struct.unpack_from(">62I", body), 248
        elif kind == 2:
            opening, size = dict(zip(("level", "target", "heat", "off"), struct.unpack_from(">4I", body))), 16
        else:
            keys = ("effective", "issue", "code", "level", "up", "down")
            instructions.append(dict(zip(keys, struct.unpack_from(">IiB3I", body))))
            size = 21
        data = body[size:]
    return unit, opening, instructions


def printed(day):
    """A parsed listing as bytes."""
    lines = [f"F {number} {fate}" for number, fate in enumerate(day.fates, 1)]
    lines += ["S %d %d %d %d" % segment for segment in day.segments]
    first = 1
    for last, quantity in enumerate(day.quantities, 1):
        if last == len(day.quantities) or day.quantities[last] != quantity:
            lines.append(f"Q {first} {last} {quantity}")
            first = last + 1
    lines.append("E %d %d %d %d" % day.closing)
    return "".join(line + "\n" for line in lines).encode()


class Sentence:
    """The price list's sentence for the exported courses and quantities of a day, in kW."""

    def __init__(self, day):
        self.quantities, self.areas = day["quantities"], exact_areas(day["courses"])
        self.courses = [c for c in day["courses"] if c.begin < c.end]

    def figures(self, first, last):
        """Quantity, exact area and what is allowed for the half-hours first to last."""
        begin, end = (first - 1) * HALF_HOUR, last * HALF_HOUR
        there = [c for c in self.courses if c.begin < end and begin < c.end]
        allowed = ROUNDING * (last - first + 1) + sum(2 * len(c.stops) * abs(c.target - c.start) for c in there)
        area = sum(self.areas[first - 1 : last])
        return sum(self.quantities[first - 1 : last]), Fraction(area) / DOUBLED, Fraction(allowed, DOUBLED)

    def worst(self):
        """The largest share of what is allowed that any two boundaries use."""
        count, shares = len(self.quantities), []
        for first in range(1, count + 1):
            for last in range(first, count + 1):
                quantity, area, allowed = self.figures(first, last)
                shares.append(abs(quantity - area) / allowed)
        return max(shares)


def difference(block, every_pair):
    """Where the audit of an exported day differs, if it does."""
    try:
        return compare(block, every_pair)
    except ValueError as error:
        return str(error)


def compare(block, every_pair):
    at = next(i for i, line in enumerate(block) if line.startswith("R "))
    given, text = records(bytes.fromhex(block[at][2:])), "".join(block[at + 1 : -1]).encode()
    day = demand3.day_of(block)
    parsed = listing.parse(text)
    if printed(parsed) != text:
        return "the parsed listing prints otherwise"
    found = audit.audit(*given, parsed)
    if audit.courses(*given, parsed) != day["courses"] or found.courses != day["courses"]:
        return "courses"
    sentence = Sentence(day)
    for one in [*found.half_hours, found.total, found.worst]:
        if (one.quantity, one.exact, one.allowed) != sentence.figures(one.first, one.last):
            return f"figures of half-hours {one.first} to {one.last}"
    if [(one.first, one.last) for one in found.half_hours] != [(k, k) for k in range(1, len(day["quantities"]) + 1)]:
        return "half-hours"
    if every_pair and found.worst.share != sentence.worst():
        return "worst pair"
    return "verdict" if found.within == bool(demand3.faults(day)) else None


def check_part(task):
    """Every `parts`-th day: passed, and the differences found."""
    passed, found = 0, []
    for count, block in enumerate(demand3.exported(*task)):
        wrong = difference(block, count % ALL_PAIRS == 0)
        passed += not wrong
        found += [f"{block[0].strip()}: {wrong}"] if wrong else []
    return passed, found


def main():
    path = sys.argv[1]
    parts = int(sys.argv[sys.argv.index("--parts") + 1]) if "--parts" in sys.argv else 2
    with ProcessPoolExecutor(parts) as pool:
        results = list(pool.map(check_part, [(path, part, parts) for part in range(parts)]))
    passed = sum(result[0] for result in results)
    found = [fault for result in results for fault in result[1]]
    print(f"audit: {passed} days as the second implementation has them")
    by_hand = list(cases())
    passed += sum(good for _, good in by_hand)
    found += [name for name, good in by_hand if not good]
    print(f"audit, cases by hand and listings to be refused: {sum(good for _, good in by_hand)} of {len(by_hand)}")
    for fault in found[:5]:
        print("audit:", fault)
    print(f"audit: {passed} passed, {len(found)} failed")
    sys.exit(1 if found else 0)


if __name__ == "__main__":
    main()
