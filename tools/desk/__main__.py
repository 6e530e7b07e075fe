"""The desk's tool as a program."""

import io
import os
import sys
from pathlib import Path

sys.path[0] = str(Path(__file__).resolve().parents[1])
if sys.version_info < (3, 11):
    sys.exit("desk: Python 3.11 or newer is wanted")

from desk.commands import ERROR, fail, main  # noqa: E402


class Whole(io.RawIOBase):
    """Standard output that takes all bytes or raises, also where it is a pipe that does not block."""

    def writable(self):
        return True

    def fileno(self):
        return 1

    def write(self, data):
        left = memoryview(data).cast("B")
        while left:
            try:
                left = left[os.write(1, left) :]
            except BlockingIOError:
                raise OSError("nobody empties the pipe") from None
        return len(data)


if __name__ == "__main__":
    if sys.stderr is not None:
        sys.stderr.reconfigure(errors="backslashreplace")
    if sys.stdout is None:
        fail("standard output is closed")
        sys.exit(ERROR)
    sys.stdout = io.TextIOWrapper(io.BufferedWriter(Whole()), encoding=sys.stdout.encoding, errors="backslashreplace")
    sys.exit(main())
