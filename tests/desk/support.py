"""What the tests of the desk's tool share."""

import contextlib
import io
import re
import sys
import tempfile
import unittest
from pathlib import Path

ROOT = Path(__file__).resolve().parents[2]
PROFILER = ROOT / "target" / "bin" / "profiler"

sys.dont_write_bytecode = True
sys.path.insert(0, str(ROOT / "tools"))
from desk import commands  # noqa: E402
from desk.program import Program  # noqa: E402

UNIT = """
[unit]
name = "Unit under test"
capacity = 400
maximum = 400
msg = 100
hot = 0
warm = 0
dwells = []
up = { rates = [1, 0.001, 0.001, 0.001, 0.001], breaks = [400, 400, 400, 400] }
down = { rates = [0.001, 0.001, 0.001, 0.001, 0.001], breaks = [0, 0, 0, 0] }
deload = { rates = [0.001, 0.001], breaks = [0] }
[unit.columns]
hot = { block = 0, rates = [0.001, 0.001, 0.001], breaks = [0, 0], soaks = [] }
warm = { block = 0, rates = [0.001, 0.001, 0.001], breaks = [0, 0], soaks = [] }
cold = { block = 0, rates = [0.001, 0.001, 0.001], breaks = [0, 0], soaks = [] }
"""
OPENING = """
[opening]
level = 100
target = 100
heat = "hot"
off = 0
"""
INSTRUCTION = """
[[instructions]]
effective = 06:00:00
issue = 06:00:00
code = "MWOF"
level = 103
"""
# The day of document 01, as a person would type it.
SHEET = "date = 2026-11-16\n" + UNIT + OPENING + INSTRUCTION


def vectors():
    """The days that are given with the listings that they must give."""
    return sorted((ROOT / "tests" / "vectors").glob("*.records")) + sorted((ROOT / "examples").glob("*.records"))


def listing_numbers(printed: bytes) -> dict[str, list[list[int]]]:
    """The lines of a listing by their letter; read here once more, apart from the tool."""
    found = {letter: [] for letter in "FSQE"}
    for letter, rest in re.findall(r"^([FSQE])((?: \d+)+)$", printed.decode("ascii"), re.MULTILINE):
        found[letter].append([int(word) for word in rest.split()])
    return found


def quantities(printed: bytes) -> list[int]:
    return [kw for first, last, kw in listing_numbers(printed)["Q"] for _ in range(first, last + 1)]


class DeskTest(unittest.TestCase):
    """A test with a folder of its own."""

    def setUp(self):
        folder = tempfile.TemporaryDirectory()
        self.addCleanup(folder.cleanup)
        self.folder = Path(folder.name)

    @property
    def program(self):
        return Program(PROFILER)

    def write(self, name: str, content: str | bytes) -> Path:
        path = self.folder / name
        path.parent.mkdir(parents=True, exist_ok=True)
        path.write_bytes(content if isinstance(content, bytes) else content.encode())
        return path

    def desk(self, *words, program: Path | None = None) -> tuple[int, str, str]:
        """A command: exit status, what it printed, what it said on standard error."""
        out, err = io.StringIO(), io.StringIO()
        with contextlib.redirect_stdout(out), contextlib.redirect_stderr(err):
            status = commands.main([*map(str, words), "--program", str(program or PROFILER)])
        return status, out.getvalue(), err.getvalue()

    def files(self) -> dict[str, bytes]:
        """Every file below the folder."""
        return {
            str(path.relative_to(self.folder)): path.read_bytes() for path in sorted(self.folder.rglob("*")) if path.is_file()
        }

    def script(self, name: str, text: str) -> Path:
        """A program in the place of the listing program."""
        path = self.write(name, "#!/bin/sh\n" + text)
        path.chmod(0o755)
        return path
