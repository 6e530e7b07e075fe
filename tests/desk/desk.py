#!/usr/bin/env python3
"""The desk's tool: sheets, reports, mornings.

    desk.py --profiler PROGRAM

Its last line is 'desk: N passed, M failed'. A test that cannot be tried on this machine says so and is not counted.
"""

import argparse
import sys
import unittest
from pathlib import Path

import support

PARTS = ("reading", "roundtrip", "reports", "wording", "mornings", "building", "browser")


def main() -> int:
    parser = argparse.ArgumentParser()
    parser.add_argument("--profiler", type=Path, required=True)
    support.PROFILER = parser.parse_args().profiler.resolve()
    suite = unittest.defaultTestLoader.loadTestsFromNames(PARTS)
    result = unittest.TextTestRunner(stream=sys.stdout, verbosity=0).run(suite)
    for test, reason in result.skipped:
        print(f"desk: not tried: {test.id()}: {reason}")
    failed = len({getattr(test, "test_case", test).id() for test, _ in result.failures + result.errors})
    print(f"desk: {result.testsRun - failed - len(result.skipped)} passed, {failed} failed")
    return int(failed > 0)


if __name__ == "__main__":
    sys.exit(main())
