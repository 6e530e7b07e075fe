"""Fates and the rules behind them in words: a day with every code and every fate, its sentences written out from the paper."""

from support import OPENING, UNIT, DeskTest

from desk.clock import Clock
from desk.outcome import of_sheet

MERGED = "Instruction 5 (SYNC) of the same times is used"
USED = "Instruction 11 (MWOF 250 MW) of the same times is used"
DOWN = "Instruction 26 (DESY) of the same times is used"
LARGER = "the larger of its level and Minimum Stable Generation, at most capacity"
BACK = "Ends maximisation: back to the target of the last MWOF or SYNC that acted, or the opening's."
VOID = "A FAIL came at most 3,600 s after the latest SYNC kept: that SYNC and all kept after it are void."
FAILS = "A FAIL sets no course going; it voids a SYNC of at most 3,600 s before it and all kept after that."

# Code and level (MW), effective and issue time, fate with its word, sentence. The unit is at 0 at 06:00.
DAY = [
    ("MWOF 0", "06:10", "06:00", "7, no effect", "The unit is at 0, and 0 is asked for."),
    ("MXON", "06:20", "06:00", "7, no effect", "The unit is at 0."),
    ("TRIP", "06:25", "06:00", "7, no effect", "The unit is at 0 already."),
    ("DESY", "06:30", "06:00", "7, no effect", "The unit is at 0 already."),
    (
        "SYNC",
        "07:00",
        "06:00",
        "0, acts",
        f"Synchronises and goes to 400 MW: {LARGER}, with the level of the MWOF beside it (500 MW).",
    ),
    ("MWOF 500", "07:00", "06:00", "2, merged or outranked", f"{MERGED}, with the level and the rates of this one."),
    (
        "MWOF 300",
        "07:00",
        "06:00",
        "2, merged or outranked",
        f"{MERGED}: the MWOF that it carries (500 MW) has the larger level.",
    ),
    ("MXON", "07:00", "06:00", "2, merged or outranked", f"{MERGED}: the MWOF that it carries (500 MW) ranks higher."),
    ("SYNC", "07:30", "06:00", "3, repeated", "The last one kept before it is SYNC too."),
    (
        "MWOF 200",
        "09:00",
        "08:00",
        "1, superseded",
        "For the same effective time instruction 11 (MWOF 250 MW) was issued later (P.12).",
    ),
    ("MWOF 250", "09:00", "08:30", "0, acts", "Goes to 250 MW."),
    ("MWOF 250", "09:00", "08:30", "2, merged or outranked", f"{USED}: it was entered earlier."),
    ("MWOF 240", "09:00", "08:30", "2, merged or outranked", f"{USED}: its level is larger."),
    ("MXON", "10:00", "08:30", "0, acts", "Goes to the short-term maximum, 420 MW; maximised from here on."),
    ("MXON", "11:00", "08:30", "7, no effect", "The unit is maximised already."),
    ("MXOF", "12:00", "08:30", "0, acts", BACK),
    ("MXOF", "13:00", "08:30", "7, no effect", "The unit is not maximised."),
    ("SYNC", "14:00", "08:30", "7, no effect", "The unit is above 0, so it is synchronised already."),
    ("MWOF 500", "15:00", "08:30", "0, acts", "Goes to 400 MW, which is its capacity."),
    (
        "MWOF 350",
        "16:00",
        "08:30",
        "6, overtaken",
        "Instruction 21 (TRIP) has a later effective time and acts no later than this one.",
    ),
    ("TRIP", "16:01", "08:30", "0, acts", "Is at 0 from this second on."),
    ("TRIP", "17:00", "08:30", "3, repeated", "The last one kept before it is TRIP too."),
    ("SYNC", "18:00", "08:30", "4, voided by FAIL", VOID),
    ("FAIL", "18:30", "08:30", "5, FAIL", FAILS),
    ("SYNC", "19:00", "08:30", "0, acts", f"Synchronises and goes to 100 MW: {LARGER}."),
    ("DESY", "21:00", "08:30", "0, acts", "Goes down to 0 and desynchronises, with the rates of the MWOF beside it."),
    ("MWOF 50", "21:00", "08:30", "2, merged or outranked", f"{DOWN}, with the rates of this one."),
    ("MXOF", "21:00", "08:30", "2, merged or outranked", f"{DOWN}: the MWOF that it carries (50 MW) ranks higher."),
    ("TRIP", "22:00", "08:30", "7, no effect", "The unit is at 0 already."),
    ("MXOF", "22:00", "08:30", "2, merged or outranked", "Instruction 29 (TRIP) of the same times is used: it ranks higher."),
    ("MXON", "05:59 +1", "08:30", "8, after the day's end", "It would act at the day's end or after it."),
]


def sheet() -> str:
    """A unit that goes anywhere within minutes, at 0 at 06:00."""
    unit = UNIT.replace("maximum = 400", "maximum = 420").replace("0.001", "100").replace("rates = [1, ", "rates = [100, ")
    opening = OPENING.replace("level = 100", "level = 0").replace("target = 100", "target = 0")
    lines = ["date = 2026-11-16", unit, opening]
    for order, effective, issue, _, _ in DAY:
        code, *level = order.split()
        lines += ["[[instructions]]", f'code = "{code}"', f'effective = "{effective}"', f'issue = "{issue}"']
        lines += [f"level = {level[0]}"] if level else []
    return "\n".join(lines)


class Wording(DeskTest):
    def test_every_fate(self):
        outcome = of_sheet(self.program, self.write("day.toml", sheet()), Clock())
        self.assertIsNone(outcome.refusal)
        self.assertEqual(set(outcome.listing.fates), set(range(9)))
        for place, (order, _, _, fate, rule) in enumerate(DAY):
            with self.subTest(place + 1, order=order):
                self.assertTrue(f": fate {fate}. {rule}" in outcome.sentence(place), outcome.sentence(place))
                self.assertEqual(outcome.rule(place), rule)

    def test_every_refusal(self):
        """A refusal in words: number, reason, which record."""
        cases = {
            b"": "refusal 2, too few bytes for the kind of record, or none: record 1 is missing, the day is not closed",
            b"\x09": "refusal 1, the kind of record is not 1 to 4: record 1, of kind 9",
            b"\x01\x00": "refusal 2, too few bytes for the kind of record, or none: record 1, a unit cut short after 2 bytes",
            b"\x04": "refusal 25, close without an opening, or a listing before close: record 1, close",
            b"\x02" + bytes(16): "refusal 21, an opening or an instruction before a unit: record 1, an opening",
        }
        for data, said in cases.items():
            with self.subTest(data):
                _, out, _ = self.desk("day", self.write("sent.records", data), "--out", self.folder / "out")
                self.assertEqual(out.splitlines()[1], f"  refused: {said}")
