"""Bytes as sheets and back: the same bytes again, whatever they are."""

import random
import re
import tomllib

from support import ROOT, DeskTest, vectors

from desk import sheets
from desk.clock import Clock

SEED, DAMAGED = 20261116, 200
DATES = [(), ("--date", "2026-11-16"), ("--date", "2026-10-26"), ("--date", "2026-07-01", "--zone", "America/New_York")]


def damaged(chance: random.Random, data: bytes) -> bytes:
    """Bytes with a few of them changed, cut, doubled or put elsewhere."""
    found = bytearray(data)
    for _ in range(chance.randint(1, 4)):
        at, size = chance.randrange(len(found) + 1), chance.choice((1, 1, 4, 17, 22, 249))
        match chance.randrange(5):
            case 0:
                found[at : at + 1] = bytes([chance.choice((0, 1, 2, 3, 4, 5, 127, 128, 255, chance.randrange(256)))])
            case 1:
                del found[at : at + size]
            case 2:
                found[at:at] = found[at : at + size]
            case 3:
                found[at:at] = chance.randbytes(size)
            case 4:
                del found[at:]
        found = found or bytearray(b"\x04")
    return bytes(found)


class RoundTrip(DeskTest):
    def back(self, data: bytes, *words) -> str:
        """The sheet of these bytes, which gives them again."""
        path = self.write("sent.records", data)
        status, text, err = self.desk("sheet", path, *words)
        self.assertIn(status, (0, 1), err)
        self.assertEqual(sheets.read(self.write("sent.toml", text), Clock()).records(), data, text)
        return text

    def test_every_vector(self):
        for path in vectors():
            for words in DATES:
                with self.subTest(path.name, words=words):
                    text = self.back(path.read_bytes(), *words)
                    printed = path.with_suffix(".listing").read_bytes()
                    self.assertEqual("# Refused: " in text, printed.startswith(b"X "))

    def test_refused_bytes_are_explained(self):
        for path in vectors():
            printed = path.with_suffix(".listing").read_bytes()
            if printed.startswith(b"X "):
                with self.subTest(path.name):
                    text = self.back(path.read_bytes())
                    self.assertIn(f"refusal {int(printed[2:])},", text)
                    start = int(re.search(r"# It begins at byte (\d+)", text)[1])
                    self.assertEqual(bytes.fromhex(tomllib.loads(text)["rest"]), path.read_bytes()[start:])

    def test_damaged_bytes(self):
        chance, days = random.Random(SEED), [path.read_bytes() for path in vectors()]
        for number in range(DAMAGED):
            data = damaged(chance, chance.choice(days))
            with self.subTest(number, data=data.hex()):
                self.back(data)
                path = self.write("sent.records", data)
                status, out, err = self.desk("day", path, "--out", self.folder / "out")
                self.assertIn(status, (0, 1), err)
                self.assertEqual((self.folder / "out" / "sent.records").read_bytes(), data)

    def test_random_bytes(self):
        chance = random.Random(SEED + 1)
        for number in range(100):
            with self.subTest(number):
                self.back(chance.randbytes(chance.choice((0, 1, 2, 16, 300, 5000))))

    def test_bytes_after_close(self):
        data = (ROOT / "examples" / "document01.records").read_bytes() + b"\x01\x02"
        text = self.back(data)
        self.assertIn("04 01 02", text)
        self.assertNotIn("Refused", text)

    def test_every_record_refused_is_found(self):
        """The record named is the one that a record-by-record reading of the bytes meets first: X 2 for all bytes before it."""
        for path in vectors():
            data, printed = path.read_bytes(), path.with_suffix(".listing").read_bytes()
            refusal = self.program.refusal(data, printed)
            if refusal is None:
                continue
            with self.subTest(path.name):
                self.assertEqual(self.program.run(data[: refusal.start]), b"X 2\n")
                self.assertEqual(self.program.run(data[: refusal.start + max(1, len(refusal.bytes))]), printed)

    def test_examples_have_sheets(self):
        for path in sorted((ROOT / "examples").glob("*.records")):
            with self.subTest(path.name):
                self.assertEqual(sheets.read(path.with_suffix(".toml"), Clock()).records(), path.read_bytes())
