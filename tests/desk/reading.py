"""Sheets: what they say, and every error in them, each with file, table and field in words."""

import random

from support import INSTRUCTION, OPENING, ROOT, SHEET, UNIT, DeskTest

from desk import records, sheets, tables
from desk.clock import Clock

DOCUMENT01 = (ROOT / "examples" / "document01.records").read_bytes()
HEAD = "issue,effective,code,level,up,down\n"


def edit(old: str, new: str, sheet: str = SHEET) -> str:
    assert sheet.count(old) == 1, old
    return sheet.replace(old, new)


# What is edited in the sheet, and words that its one error must have beside the file's name.
FAULTS = {
    "no whole kW": (edit("level = 103", "level = 103.0005"), "[instructions 1], level", "no whole number of kW"),
    "no whole kW, as kW": (edit("level = 103", 'level = "0.5 kW"'), "[instructions 1], level", "no whole number of kW"),
    "no whole kW of 70 digits": (edit("level = 103", "level = 103." + "0" * 70 + "1"), "[instructions 1], level", "no whole"),
    "not a number": (edit("level = 103", "level = nan"), "[instructions 1], level", "no whole"),
    "an immense number": (edit("level = 103", "level = 1e999999"), "[instructions 1], level", "more than a record can hold"),
    "more than a record holds": (edit("level = 103", "level = 4294967.296"), "[instructions 1], level", "more than a record"),
    "negative": (edit("level = 103", "level = -1"), "[instructions 1], level", "negative"),
    "rate without unit as text": (edit("level = 103", 'level = 103\nup = "5"'), "[instructions 1], up", "MW/min"),
    "unit of another measure": (edit("level = 103", 'level = "5 MW/min"'), "[instructions 1], level", "MW, kW"),
    "minutes with decimals": (edit("hot = 0", "hot = 0.5"), "[unit], hot", "no whole number of minutes"),
    "before the day": (
        edit("effective = 06:00:00", "effective = 05:59:59"),
        "[instructions 1], effective",
        "outside the Trading Day",
    ),
    "after the day": (edit("effective = 06:00:00", "effective = 2026-11-17T06:00:00"), "[instructions 1], effective", "outside"),
    "another date": (edit("effective = 06:00:00", "effective = 2026-11-15T12:00:00"), "[instructions 1], effective", "outside"),
    "parts of a second": (
        edit("issue = 06:00:00", "issue = 06:00:00.5"),
        "[instructions 1], issue",
        "06:00:00.500000 is no whole second",
    ),
    "an exponent beyond measure": (edit("level = 103", "level = 1e9999999999999999999"), "[instructions 1], level", "'1e999"),
    "digits beyond measure": (edit("level = 103", "level = " + "9" * 5000), "[[instructions]], level", "far too many digits"),
    "hexadecimal digits beyond measure": (
        edit("level = 103", "level = 0x" + "f" * 5000),
        "[instructions 1], level",
        "too many digits",
    ),
    "path of nothing": ('date = 2026-11-16\nunit = ""\n' + OPENING, "day.toml, unit", "Is a directory"),
    "no time": (edit("issue = 06:00:00", 'issue = "six"'), "[instructions 1], issue", "is no time"),
    "no time of day": (edit("issue = 06:00:00", 'issue = "25:00"'), "[instructions 1], issue", "no time of day"),
    "time of a wrong type": (edit("issue = 06:00:00", "issue = 6"), "[instructions 1], issue", "a time is wanted"),
    "time without seconds": (edit("issue = 06:00:00", "issue = 06:00"), "[[instructions]], issue", "06:30:00"),
    "unknown code": (edit('"MWOF"', '"MWON"'), "[instructions 1], code", "MWON"),
    "code of a wrong type": (edit('"MWOF"', "2"), "[instructions 1], code", "name of a code"),
    "unknown heat": (edit('"hot"', '"tepid"'), "[opening], heat", "hot, warm, cold"),
    "unknown key": (edit("target = 100", "target = 100\ntagret = 1"), "[opening], tagret", "did you mean target?"),
    "unknown key at the top": ("colour = 1\n" + SHEET, "colour", "known are"),
    "unknown column": (edit("[unit.columns]", "[unit.columns]\ntepid = {}"), "[unit.columns], tepid", "unknown name"),
    "missing in the unit": (edit("msg = 100\n", ""), "[unit], msg", "missing"),
    "missing in a column": (edit("hot = { block = 0, ", "hot = { "), "[unit.columns.hot], block", "missing"),
    "missing column": (
        edit("cold = { block = 0, rates = [0.001, 0.001, 0.001], breaks = [0, 0], soaks = [] }", ""),
        "[unit.columns], cold",
        "missing",
    ),
    "missing level of an MWOF": (edit("level = 103\n", ""), "[instructions 1], level", "missing"),
    "missing seconds off at level 0": (
        edit("level = 100\ntarget = 100", "level = 0\ntarget = 0", edit("off = 0\n", "")),
        "[opening], off",
        "missing",
    ),
    "missing date": (edit("date = 2026-11-16\n", ""), "date", "missing"),
    "missing unit": ("date = 2026-11-16\n" + OPENING, "unit", "missing"),
    "missing opening": ("date = 2026-11-16\n" + UNIT, "opening", "missing"),
    "doubled field": (edit("msg = 100", "msg = 100\nmsg = 100"), "[unit], msg", "given twice"),
    "doubled field in a line": (
        edit("hot = { block = 0,", "hot = { block = 0, block = 1,"),
        "[unit.columns], hot",
        "block given twice",
    ),
    "doubled field over lines": (edit("msg = 100", "msg = 100\nmsg = [\n1,\n]"), "[unit], msg", "given twice"),
    "doubled table": (SHEET + OPENING, "[opening]", "given twice"),
    "wrong type": (edit("capacity = 400", "capacity = true"), "[unit], capacity", "true or false"),
    "text for a number": (edit("capacity = 400", 'capacity = "400"'), "[unit], capacity", "MW, kW"),
    "number for a table": (
        edit('[opening]\nlevel = 100\ntarget = 100\nheat = "hot"\noff = 0\n', "", "opening = 5\n" + SHEET),
        "[opening]",
        "a table is wanted",
    ),
    "number for a unit": ("date = 2026-11-16\nunit = 5\n" + OPENING, "unit", "table or the path"),
    "number for instructions": ("date = 2026-11-16\ninstructions = 5\n" + UNIT + OPENING, "instructions", "CSV file"),
    "too few rates": (edit("[1, 0.001, 0.001, 0.001, 0.001]", "[1, 0.001]"), "[unit.up], rates", "5 figures"),
    "too many triggers": (edit("dwells = []", "dwells = [{}, {}, {}, {}]"), "[unit], dwells", "at most 3"),
    "a trigger's field": (edit("dwells = []", "dwells = [{ level = 5 }]"), "[unit.dwells 1], minutes", "missing"),
    "no date": (edit("date = 2026-11-16", 'date = "today"'), "date", "a date is wanted"),
    "date with a time": (edit("date = 2026-11-16", "date = 2026-11-16T06:00:00"), "date", "a date is wanted"),
    "unknown zone": ('zone = "Europe/Atlantis"\n' + SHEET, "zone", "no zone"),
    "zone of a wrong type": ("zone = 5\n" + SHEET, "zone", "name of a zone"),
    "clocks go forward": (edit("2026-11-16", "2026-03-28"), "date", "46 half-hours"),
    "clocks go back": (edit("2026-11-16", "2026-10-24"), "date", "50 half-hours"),
    "instructions before the opening": (edit("off = 0", "off = 0\nafter = 2"), "[opening], after", "more than the instructions"),
    "bytes that are none": ('rest = "0g"\n' + SHEET, "rest", "hexadecimal"),
    "broken TOML": (edit("msg = 100", "msg = = 100"), "[unit], msg", ""),
    "unit file that is missing": (
        'date = 2026-11-16\nunit = "none.toml"\n' + OPENING,
        "day.toml, unit",
        "'none.toml': No such file",
    ),
    "CSV file that is missing": (
        'date = 2026-11-16\ninstructions = "none.csv"\n' + UNIT + OPENING,
        "day.toml, instructions",
        "'none.csv': No such file",
    ),
}

# The same for the CSV file of a sheet.
CSV_FAULTS = {
    "unknown column": ("issue,effective,code,level,up,down,colour\n", "line 1, colour", "unknown name"),
    "doubled column": ("issue,effective,code,level,up,down,Up Rate\n", "line 1, Up Rate", "given twice"),
    "missing column": ("issue,effective,code,level,up\n", "line 1, down", "missing"),
    "missing cell": (HEAD + "06:00:00,,MWOF,103,,\n", "line 2, effective", "missing"),
    "too many cells": (HEAD + "06:00:00,06:00:00,MWOF,103,,,7\n", "line 2", "7 cells"),
    "no whole kW": (HEAD + "\n06:00:00,06:00:00,MWOF,0.0001,,\n", "line 3, level", "no whole number of kW"),
    "unknown code": (HEAD + "06:00:00,06:00:00,NONE,,,\n", "line 2, code", "NONE"),
    "time outside": (HEAD + "06:00:00,2026-11-18 06:00,TRIP,,,\n", "line 2, effective", "outside the Trading Day"),
    "nothing": ("", "line 1, issue", "missing"),
}


# Edits that leave the day as it is.
SAME = [
    ("level = 103", 'level = "103000 kW"'),
    ("level = 100\n", 'level = "6000000 grains"\n'),
    ("level = 103", "level = 103.000"),
    ("msg = 100", 'msg = "100 MW"'),
    ("off = 0", 'off = "0 h"'),
    ("[1, 0.001", '["1000 kW/min", 0.001'),
    ("off = 0\n", ""),
]
# Edits that the program refuses, and its number for each.
REFUSED = [
    ("capacity = 400", "capacity = 401", 4),
    ("level = 103", "level = 2000.001", 9),
    ('"MWOF"', '"TRIP"', 9),
    ("level = 100\ntarget", "level = 401\ntarget", 22),
    ("issue = 06:00:00", "issue = 2026-11-01T06:00:00", 8),
]


class Faults(DeskTest):
    def refused(self, sheet, where, words):
        path = self.write("day.toml", sheet)
        before = self.files()
        status, out, err = self.desk("day", path)
        self.assertEqual((status, out), (2, ""), err)
        lines = err.splitlines()
        self.assertTrue(any(where in line and words in line for line in lines), err)
        self.assertTrue(all(line.startswith(f"desk: {self.folder}") for line in lines), err)
        self.assertEqual(self.files(), before)  # nothing written
        return lines

    def test_each(self):
        for name, (sheet, where, words) in FAULTS.items():
            with self.subTest(name):
                self.refused(sheet, where, words)

    def test_each_of_a_csv_file(self):
        sheet = 'date = 2026-11-16\ninstructions = "day.csv"\n' + UNIT + OPENING
        for name, (text, where, words) in CSV_FAULTS.items():
            with self.subTest(name):
                self.write("day.csv", text)
                self.assertIn("day.csv", self.refused(sheet, where, words)[0])

    def test_no_utf8(self):
        self.refused(b"\xff\xfe", "UTF-8", "")
        self.write("day.csv", b"\xff\xfe")
        self.refused(
            'date = 2026-11-16\ninstructions = "day.csv"\n' + UNIT + OPENING,
            "day.toml, instructions",
            "'day.csv': no text in UTF-8",
        )

    def test_each_fault_is_one_line(self):
        for sheet in (
            edit("target = 100", 'target = 100\n"a\\nb" = 1'),
            edit('"hot"', '"a\\nb"'),
            edit("date = 2026-11-16", 'date = "a\\nb"'),
        ):
            self.assertEqual(len(self.refused(sheet, "", "")), 1)

    def test_a_wrong_date_makes_no_wrong_times(self):
        sheet = edit("effective = 06:00:00", "effective = 2026-11-17T01:30:00", edit("date = 2026-11-16\n", ""))
        self.assertEqual(len(self.refused(sheet, "date", "missing")), 1)

    def test_all_at_once(self):
        sheet = edit("level = 103", "level = 103.0005", edit('"hot"', '"tepid"', edit("msg = 100\n", "")))
        self.assertEqual(len(self.refused(sheet, "", "")), 3)

    def test_in_a_unit_file(self):
        body = UNIT.replace("[unit]\n", "").replace("[unit.columns]", "[columns]")
        self.write("units/one.toml", edit("msg = 100", "msg = 0.0001", body))
        lines = self.refused('date = 2026-11-16\nunit = "units/one.toml"\n' + OPENING, "one.toml, msg", "no whole")
        self.assertEqual(len(lines), 1)

    def test_one_bad_sheet_of_two(self):
        bad, good = self.write("bad.toml", "date = 1"), self.write("good.toml", SHEET)
        status, out, _ = self.desk("day", bad, good)
        self.assertEqual(status, 2)
        self.assertIn("good: Unit under test", out)
        self.assertEqual((self.folder / "good.records").read_bytes(), DOCUMENT01)
        self.assertFalse((self.folder / "bad.records").exists())


# What is put into damaged sheets.
PIECES = [
    '"',
    "[",
    "]",
    "{",
    "}",
    "=",
    "\n",
    ",",
    "-1",
    "nan",
    "1e400",
    "true",
    "06:00:00",
    "2026-11-16",
    '"25:61"',
    '"12:00 -99"',
]
PIECES += [
    '"1 kW"',
    '"\\u0000"',
    "9999-12-31T23:59:59Z",
    "0001-01-01T00:00:00",
    "99999999999999999999",
    "[unit]",
    "\x00",
    "\u2028",
]


def damaged(chance: random.Random, text: str) -> str:
    """A text with a few places changed, lines doubled, and values put in the place of others."""
    for _ in range(chance.randint(1, 4)):
        lines, at = text.split("\n"), chance.randrange(len(text) + 1)
        place = chance.randrange(len(lines))
        match chance.randrange(4):
            case 0:
                text = text[:at] + chance.choice(PIECES) + text[at:]
            case 1:
                text = text[:at] + text[at + chance.choice((1, 2, 5, 20)) :]
            case 2:
                lines[place] = lines[place].split("=")[0] + "= " + chance.choice(PIECES)
                text = "\n".join(lines)
            case 3:
                lines.insert(chance.randrange(len(lines)), lines[place])
                text = "\n".join(lines)
    return text


class Sheets(DeskTest):
    def records(self, sheet) -> bytes:
        return sheets.read(self.write("day.toml", sheet), Clock()).records()

    def test_the_papers_day(self):
        self.assertEqual(self.records(SHEET), DOCUMENT01)

    def test_kw_as_text(self):
        for old, new in SAME:
            with self.subTest(new):
                self.assertEqual(self.records(edit(old, new)), DOCUMENT01)

    def test_unit_file_and_csv_file(self):
        body = UNIT.replace("[unit]\n", "").replace("[unit.columns]", "[columns]")
        self.write("units/one.toml", body)
        head = "\ufeffInstruction Effective Time, Instruction Issue Time,code,Level,up rate,Down Rate"
        self.write("orders.csv", f"{head}\r\n06:00,06:00:00,MWOF,103,,\r\n")
        sheet = 'date = 2026-11-16\nunit = "units/one.toml"\ninstructions = "orders.csv"\n' + OPENING
        self.assertEqual(self.records(sheet), DOCUMENT01)

    def test_times(self):
        def second(text, sheet=SHEET, key="issue"):
            data = self.records(edit(f"{key} = 06:00:00", f"{key} = {text}", sheet))
            return records.split(data)[2].value[key]

        self.assertEqual(second("05:50:00"), -600)
        self.assertEqual(second('"05:50"'), -600)
        self.assertEqual(second('"05:59:59 +1"', key="effective"), 86_399)
        self.assertEqual(second("2026-11-17T01:30:00", key="effective"), 19 * 3600 + 1800)
        self.assertEqual(second('"2026-11-17 01:30"', key="effective"), 19 * 3600 + 1800)
        self.assertEqual(second("2026-11-16T07:00:00Z"), 3600)  # winter: local time is UTC
        self.assertEqual(second("2026-11-16T07:00:00+01:00"), 0)
        # The clocks went back on 25 October: an hour more lies between.
        october = edit("2026-11-16", "2026-10-25")
        self.assertEqual(second("2026-10-24T06:00:00", october), -25 * 3600)
        self.assertEqual(second("2026-10-25T01:30:00+01:00", october), -5 * 3600 - 1800)
        for twice_or_never, day in (("2026-10-25T01:30:00", "2026-10-26"), ("2026-03-29T01:30:00", "2026-03-30")):
            with self.assertRaisesRegex(tables.SheetError, "twice|does not exist"):
                second(twice_or_never, edit("2026-11-16", day))

    def test_another_zone(self):
        sheet = 'zone = "America/New_York"\n' + edit("issue = 06:00:00", "issue = 2026-11-16T11:00:00Z")
        self.assertEqual(self.records(sheet), DOCUMENT01)
        self.records('zone = "America/New_York"\n' + edit("2026-11-16", "2026-10-24"))  # the clocks change elsewhere only

    def test_number_of_half_hours(self):
        for day, half_hours in (("2026-03-28", 46), ("2026-10-24", 50), ("2027-03-27", 46), ("2025-10-25", 50)):
            with self.assertRaisesRegex(tables.SheetError, f"{half_hours} half-hours; the program takes days of 48 only"):
                self.records(edit("2026-11-16", day))
        for day in ("2026-03-29", "2026-03-27", "2026-10-25"):
            self.records(edit("2026-11-16", day))

    def test_damaged_sheets(self):
        """They give records, or errors of a line each; nothing else."""
        chance, outcomes = random.Random(20261116), [0, 0]
        csv_text = HEAD + "06:00:00,06:00:00,MWOF,103,,\n05:50,06:30,TRIP,,,\n"
        for number in range(600):
            sheet = damaged(chance, SHEET)
            if number % 3 == 0:
                self.write("day.csv", damaged(chance, csv_text))
                sheet = 'date = 2026-11-16\ninstructions = "day.csv"\n' + UNIT + OPENING
            with self.subTest(number):
                try:
                    self.records(sheet)
                    outcomes[0] += 1
                except tables.SheetError as error:
                    self.assertTrue(error.faults and all(": " in fault and fault.isprintable() for fault in error.faults))
                    outcomes[1] += 1
        self.assertGreater(min(outcomes), 10)

    def test_mark_of_utf8(self):
        self.assertEqual(self.records("\ufeff" + SHEET.replace("\n", "\r\n")), DOCUMENT01)

    def test_no_instructions(self):
        self.assertEqual(len(records.split(self.records(SHEET.replace(INSTRUCTION, "")))), 3)

    def test_program_refuses(self):
        """What a sheet can say and the program does not take is refused by the program."""
        for old, new, number in REFUSED:
            path = self.write("day.toml", edit(old, new))
            status, out, _ = self.desk("day", path)
            self.assertEqual(status, 1, new)
            self.assertIn(f"refusal {number}, ", out)
            self.assertEqual((self.folder / "day.listing").read_bytes(), b"X %d\n" % number)
