"""Demand 3 with true fractions: the exact course of every course, its area, and the allowance.

Reads closed days as the comparison exports them (unit, courses, the product's listing) and checks, for each pair of half-hour
boundaries, that the printed quantities lie within the allowance of the exact area; and that within a course no printed second
moves the level further than the rate in force where it began. The mathematics is that of `tools/desk/exact.py`, which works out stops
and rates once more from the unit's data, so that this is a third reading of the paper.

    demand3.py FILE [--parts N] [--self-test]
"""

import os
import sys
from concurrent.futures import ProcessPoolExecutor

sys.path.insert(0, os.path.join(os.path.dirname(os.path.abspath(__file__)), "..", "..", "tools"))
from desk.exact import DOUBLED, GRAINS, HALF_HOUR, HALF_HOURS, Balance, Course, Unit, speed_faults


def allowance_faults(courses, quantities, used=None):
    """Pairs of boundaries between which demand 3 fails; in `used`, what part of the allowance for stops a pair needs at most."""
    balance = Balance(courses, quantities)
    common, found = balance.common, []
    for a, b, off, rounding, stops in balance.pairs():
        beyond = off - rounding * common
        if beyond <= 0:
            continue
        if used is not None and stops:
            used[0] = max(used[0], beyond / (stops * common))
        if beyond > stops * common:
            found.append(f"quantities {a + 1} to {b}: allowed {rounding + stops}, off by {float(balance.off(a, b))}")
    return found


def course(unit, numbers):
    """A C line: begin, end, start (grains), target (kW), heat, ramp-up and ramp-down rates."""
    begin, end, start, target, heat = numbers[:5]
    return Course(unit, begin, end, start, target * GRAINS, heat, numbers[5:10], numbers[10:15])


def exported(path, part=0, parts=1):
    """The lines of every `parts`-th exported day."""
    block, count = [], 0
    with open(path, encoding="ascii") as lines:
        for line in lines:
            block.append(line)
            if line == "\n":
                if count % parts == part:
                    yield block
                block, count = [], count + 1


def day_of(block):
    """An exported day: number, unit, courses, segments, quantities; the records (R) are for the test of the audit."""
    day = None
    for line in block:
        words = line.split()
        kind = words[0] if words else ""
        numbers = [int(word) for word in words[1:]] if kind != "R" else []
        if kind == "D":
            day = {"number": numbers[0], "courses": [], "segments": [], "quantities": []}
        elif kind == "U":
            day["unit"] = Unit.of(numbers)
        elif kind == "C":
            day["courses"].append(course(day["unit"], numbers))
        elif kind == "S":
            day["segments"].append(numbers)
        elif kind == "Q":
            first, last, quantity = numbers
            day["quantities"] += [quantity] * (last - first + 1)
    return day


def faults(day, used=None):
    if len(day["quantities"]) != HALF_HOURS:
        return [f"{len(day['quantities'])} quantities"]
    return allowance_faults(day["courses"], day["quantities"], used) + speed_faults(day["courses"], day["segments"])


def check_part(task):
    """Every `parts`-th day: passed, the faults found, and the most of the allowance for stops that was needed."""
    passed, found, used = 0, [], [0.0]
    for day in map(day_of, exported(*task)):
        wrong = faults(day, used)
        passed += not wrong
        found += [f"day {day['number']}: {wrong[0]}"] if wrong else []
    return passed, found, used[0]


def self_test(path):
    """Wrong quantities, rates and levels must be found: a check of the check."""

    def serves(day):
        return len(day["segments"]) > 4 and any(c.stops and c.end - c.begin > 3_600 for c in day["courses"])

    sample = next(day for day in map(day_of, exported(path)) if serves(day))
    assert not faults(sample)
    wrong = 0
    largest = max(c.allowance for c in sample["courses"])
    for change in (1, -1):
        quantities = list(sample["quantities"])
        quantities[20] += change * (2 + HALF_HOURS * len(sample["courses"]) * largest // DOUBLED)
        wrong += bool(allowance_faults(sample["courses"], quantities))
    moving = next(i for i, s in enumerate(sample["segments"]) if s[2] != s[3])
    for field in (1, 3):
        segments = [list(s) for s in sample["segments"]]
        segments[moving][field] += 1 if segments[moving][3] > segments[moving][2] or field == 1 else -1
        wrong += bool(speed_faults(sample["courses"], segments))
    # A unit at rest has no stops: one kW too much is twice the rounding.
    rest = course(sample["unit"], [0, HALF_HOURS * HALF_HOUR, 6_000, 100, 1] + [1] * 10)
    level = [100] * (HALF_HOURS - 1)
    wrong += not allowance_faults([rest], level + [100]) and bool(allowance_faults([rest], level + [101]))
    return wrong, 5


def main():
    path = sys.argv[1]
    parts = int(sys.argv[sys.argv.index("--parts") + 1]) if "--parts" in sys.argv else 2
    with ProcessPoolExecutor(parts) as pool:
        results = list(pool.map(check_part, [(path, part, parts) for part in range(parts)]))
    passed = sum(result[0] for result in results)
    found = [fault for result in results for fault in result[1]]
    for fault in found[:5]:
        print("demand 3:", fault)
    most = max(result[2] for result in results)
    print(f"demand 3: {passed} days within it; beyond rounding, at most {most:.4f} of the allowance for stops was needed")
    if "--self-test" in sys.argv:
        good, of = self_test(path)
        print(f"demand 3, wrong figures found: {good} of {of}")
        passed += good
        found += ["self-test"] * (of - good)
    print(f"demand3: {passed} passed, {len(found)} failed")
    sys.exit(1 if found else 0)


if __name__ == "__main__":
    main()
