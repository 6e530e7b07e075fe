"""Prints the listing of the records in a file, or of those on standard input."""

import sys
from pathlib import Path

sys.path.insert(0, str(Path(__file__).resolve().parents[1] / "bindings" / "python"))
import gristpebble  # noqa: E402


def main() -> int:
    if len(sys.argv) > 2:
        print("usage: listing.py [FILE]", file=sys.stderr)
        return 2
    records = Path(sys.argv[1]).read_bytes() if len(sys.argv) == 2 else sys.stdin.buffer.read()
    try:
        sys.stdout.buffer.write(gristpebble.listing(records))
    except gristpebble.Refusal as refusal:
        print(f"X {refusal.number}")
        print(refusal.words, file=sys.stderr)
        return 1
    return 0


if __name__ == "__main__":
    sys.exit(main())
