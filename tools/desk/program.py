"""The proved program: builds it if need be, runs it on bytes, and says which record it refused."""

import hashlib
import signal
import subprocess
import sys
from dataclasses import dataclass
from functools import cache
from pathlib import Path

from desk import listing, records

ROOT = Path(__file__).resolve().parents[2]
sys.path.insert(0, str(ROOT / "bindings" / "python"))
import gristpebble  # noqa: E402  the table of refusals in words

WORDS = gristpebble.WORDS
WAITS = b"X 2\n"  # what the program says of records that were all let in and do not close the day


class ProgramError(OSError):
    """The program could not be built or did not answer."""


@dataclass(frozen=True)
class Refusal:
    """The first refusal: its number, the place of the record (from 1), where its bytes begin, those bytes and all after
    them, and the record if it stands whole."""

    number: int
    place: int
    start: int
    bytes: bytes
    record: records.Record | None

    @property
    def words(self):
        return WORDS.get(self.number, "a refusal that this tool does not know")


def build() -> None:
    """Has the program proved and linked if need be.

    Ctrl-C goes to the script as well, which ends the provers with it: so signals are only noted here until it has ended.
    """
    noted = []
    with subprocess.Popen([ROOT / "profile", "--build"], stdin=subprocess.DEVNULL) as script:

        def note(number, _):
            noted.append(number)
            if number == signal.SIGTERM:
                script.terminate()

        before = {number: signal.signal(number, note) for number in (signal.SIGINT, signal.SIGTERM)}
        status = script.wait()
    for number, handler in before.items():
        signal.signal(number, handler)
    if noted:
        raise KeyboardInterrupt
    if status:
        raise ProgramError("the program could not be built")


class Program:
    """The listing program of this repository, or another one at a path."""

    def __init__(self, path: Path | None = None):
        self.own = path is None
        self.path = path or ROOT / "target" / "bin" / "profiler"
        if self.own:
            build()

    def run(self, data: bytes) -> bytes:
        """What the program prints for these bytes: a listing, or the line of a refusal."""
        try:
            ran = subprocess.run([self.path], input=data, capture_output=True, timeout=60)
        except (OSError, subprocess.TimeoutExpired) as error:
            raise ProgramError(f"the program did not answer: {error}") from None
        if ran.returncode or ran.stderr or not ran.stdout:
            said = ran.stderr.decode(errors="replace").strip() or f"status {ran.returncode}"
            raise ProgramError(f"the program did not answer: {said}")
        return ran.stdout

    def refusal(self, data: bytes, printed: bytes) -> Refusal | None:
        """The first refusal in these bytes, of which `printed` came.

        Which record it was is asked of the program: records that are let in and do not close give X 2, for no bytes are left.
        So the first of them up to which the answer is another is looked for, by halves.
        """
        number = listing.refusal(printed)
        if number is None:
            return None
        whole = records.split(data)
        low, high = 0, len(whole)  # the first `low` records are let in; if the first `high` are too, it is the one after
        while low < high:
            middle = (low + high) // 2
            if self.run(data[: records.end(whole[middle])]) == WAITS:
                low = middle + 1
            else:
                high = middle
        record = whole[low] if low < len(whole) else None
        start = record.start if record else (records.end(whole[-1]) if whole else 0)
        return Refusal(number, low + 1, start, data[start:], record)

    @property
    def identity(self) -> dict:
        """Which program this is: SHA-256 of it and, of the one of this repository, where its source stands."""
        return {"sha256": digest(self.path.read_bytes()), **(source() if self.own else {"commit": None, "changed": None})}


def digest(content: bytes) -> str:
    """SHA-256 of bytes."""
    return hashlib.sha256(content).hexdigest()


@cache
def source() -> dict:
    """The commit that last changed the program's source, and whether that was changed since."""
    where = ["--", "crates", "crates.txt"]
    try:
        commit = git("log", "-1", "--format=%H", *where) or None
        return {"commit": commit, "changed": bool(git("status", "--porcelain", *where))}
    except (OSError, subprocess.CalledProcessError):
        return {"commit": None, "changed": None}  # no git, or no repository of it


def git(*words):
    ran = subprocess.run(["git", "-C", ROOT, *words], capture_output=True, text=True, check=True)
    return ran.stdout.strip()
