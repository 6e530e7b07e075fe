"""Reports: the numbers are the listing's, the pages are whole, every coordinate lies in its view, a fault is shown."""

import csv
import hashlib
import json
import re
from fractions import Fraction
from html.parser import HTMLParser
from xml.etree import ElementTree

from support import PROFILER, ROOT, SHEET, DeskTest, listing_numbers, quantities, vectors

from desk import picture
from desk.clock import Clock
from desk.outcome import of_file, of_sheet

VOID = {"meta", "br", "hr", "img", "input", "link"}
OUTSIDE = re.compile(r"(?:src|href|url|@import)\s*[=(]\s*[\"']?\s*(?:https?:)?//", re.IGNORECASE)


class Page(HTMLParser):
    """A page's tables; every tag has to be closed in its turn."""

    def __init__(self, text):
        super().__init__()
        self.open, self.tables, self.text = [], [], []
        self.feed(text)
        self.close()
        assert not self.open, self.open

    def handle_starttag(self, tag, attributes):
        if tag not in VOID:
            self.open.append(tag)
        if tag == "table":
            self.tables.append([])
        elif tag == "tr":
            self.tables[-1].append([])
        elif tag in ("td", "th"):
            self.tables[-1][-1].append("")

    def handle_endtag(self, tag):
        assert self.open and self.open[-1] == tag, (tag, self.open)
        self.open.pop()

    def handle_startendtag(self, tag, attributes):
        pass

    def handle_data(self, data):
        self.text.append(data)
        if "td" in self.open or "th" in self.open:
            self.tables[-1][-1][-1] += data


def table_with(page, head):
    return next(table for table in page.tables if head in table[0])


def of_day(second):
    """The time of day of a second, with the days after the first; no date, so every day has 24 hours."""
    days, rest = divmod(second + 6 * 3600, 86_400)
    text = f"{rest // 3600:02}:{rest // 60 % 60:02}:{rest % 60:02}"
    return f"{text} {days:+}" if days else text


def number(cell):
    return Fraction(cell.replace(",", "").removesuffix(" %"))


class Reports(DeskTest):
    def setUp(self):
        super().setUp()
        self.out = self.folder / "out"

    def made(self, path):
        """The five files of a day."""
        status, out, err = self.desk("day", path, "--out", self.out)
        self.assertIn(status, (0, 1), err)
        return {
            suffix: (self.out / f"{path.stem}.{suffix}").read_bytes() for suffix in ("records", "listing", "csv", "json", "html")
        }

    def days(self):
        yield from vectors()

    def test_numbers_are_the_listings(self):
        for path in self.days():
            with self.subTest(path.name):
                files = self.made(path)
                printed = files["listing"]
                if path.suffix == ".records":
                    self.assertEqual(files["records"], path.read_bytes())
                    self.assertEqual(printed, self.program.run(path.read_bytes()))
                kw, lines = quantities(printed), listing_numbers(printed)
                rows = list(csv.DictReader(files["csv"].decode().splitlines()))
                self.assertEqual([int(row["kW"]) for row in rows], kw)
                self.assertEqual([Fraction(row["MWh"]) for row in rows], [Fraction(one, 2000) for one in kw])
                data = json.loads(files["json"])
                self.assertEqual(data["sha256"]["records"], hashlib.sha256(files["records"]).hexdigest())
                self.assertEqual(data["sha256"]["listing"], hashlib.sha256(printed).hexdigest())
                page = Page(files["html"].decode())
                for kind in ("csv", "html"):
                    self.assertEqual(data["sha256"][kind], hashlib.sha256(files[kind]).hexdigest())
                shown = dict(table_with(page, "figure")[1:])
                self.assertEqual(shown["records, SHA-256"], data["sha256"]["records"])
                self.assertEqual(shown["listing, SHA-256"], data["sha256"]["listing"])
                if printed.startswith(b"X "):
                    self.assertEqual((data["accepted"], data["refusal"]["number"]), (False, int(printed[2:])))
                    self.assertIn(f"refusal {int(printed[2:])},", "".join(page.text))
                else:
                    self.closed(data, page, kw, lines)

    def closed(self, data, page, kw, lines):
        """A closed day's JSON and HTML."""
        self.assertEqual([row["kW"] for row in data["half_hours"]], kw)
        self.assertEqual([one["fate"] for one in data["instructions"]], [fate for _, fate in lines["F"]])
        self.assertEqual([list(one.values()) for one in data["segments"]], lines["S"])
        level, target, heat, off = lines["E"][0]
        heat = ("hot", "warm", "cold")[heat - 1]
        self.assertEqual(data["closing"], {"level": level, "target": target, "heat": heat, "off": off})
        self.assertEqual(data["total"]["kW"], sum(kw))
        self.assertTrue(data["within_allowance"])
        rows = table_with(page, "half-hour")[1:]
        self.assertEqual([number(row[3]) for row in rows], kw)
        self.assertEqual([number(row[4]) for row in rows], [Fraction(one, 2000) for one in kw])
        for row, one in zip(rows, data["half_hours"]):
            exact, difference = (Fraction(one[key]["fraction"]) for key in ("exact", "difference"))
            self.assertEqual(one["kW"] - exact, difference)
            self.assertLessEqual(abs(difference), Fraction(one["allowed"]["fraction"]))
            self.assertLessEqual(abs(number(row[5]) - exact), Fraction(1, 10**6))
        self.worst(data, table_with(page, "between"))
        if lines["F"]:
            self.instructions(data["instructions"], table_with(page, "rule")[1:], [fate for _, fate in lines["F"]])

    def worst(self, data, rows):
        """The whole day, and the two boundaries that use most of the allowance."""
        shares = [Fraction(one["share"]["fraction"]) for one in [*data["half_hours"], data["total"]]]
        worst = Fraction(data["worst"]["share"]["fraction"])
        self.assertGreaterEqual(worst, max(shares))
        for row, one in zip(rows[1:], (data["total"], data["worst"]), strict=True):
            self.assertIn(f"half-hours {one['first']} to {one['last']}", row[0])
            self.assertEqual(number(row[1]), one["kW"])
            self.assertLessEqual(abs(number(row[6]) - 100 * Fraction(one["share"]["fraction"])), Fraction(1, 200))

    def instructions(self, entered, rows, fates):
        """The table of instructions: times by the clock, acting times for those that have one, fates."""
        for one, row, fate in zip(entered, rows, fates, strict=True):
            acts = one["effective"] + (120 if one["code"] in ("MWOF", "MXON", "MXOF", "DESY") else 0)
            acts = acts if fate in (0, 6, 7, 8) else None
            self.assertEqual((one["acting"], one["fate"]), (acts, fate))
            shown = [of_day(one["issue"]), of_day(one["effective"]), of_day(acts) if acts is not None else ""]
            self.assertEqual(([row[1], row[2], row[6]], row[3]), (shown, one["code"]))
            self.assertEqual(row[4], f"{one['level'] / 1000:,.3f}" if one["code"] == "MWOF" else "")
            self.assertEqual((row[7], row[8]), (f"{fate}, {one['fate_in_words']}", one["rule"]))

    def test_rules_name_the_right_instruction(self):
        """Where a sentence names another instruction, that one is the reason."""
        named = 0
        for path in self.days():
            outcome = of_file(self.program, path, Clock())
            if outcome.refusal:
                continue
            entered, fates = outcome.day.instructions, outcome.listing.fates
            for place, fate in enumerate(fates):
                found = re.search(r"[Ii]nstruction (\d+) ", outcome.rule(place))
                self.assertEqual(bool(found), fate in (1, 2, 6), outcome.sentence(place))
                if not found:
                    continue
                named += 1
                mine, other, theirs = entered[place], entered[int(found[1]) - 1], fates[int(found[1]) - 1]
                if fate == 6:
                    lag = {2: 120, 3: 120, 5: 120, 6: 120}
                    acts = [one["effective"] + lag.get(one["code"], 0) for one in (mine, other)]
                    self.assertTrue(mine["effective"] < other["effective"] and acts[1] <= acts[0])
                    continue
                self.assertEqual(mine["effective"], other["effective"])
                self.assertTrue(
                    mine["issue"] < other["issue"] if fate == 1 else mine["issue"] == other["issue"] and theirs not in (1, 2)
                )
        self.assertGreater(named, 100)

    def test_keys_are_documented(self):
        """Every key of the files for other programs stands in docs/SHEETS.md."""
        text = (ROOT / "docs" / "SHEETS.md").read_text()
        named = set(re.findall(r"`([^`]*)`", text))
        data = json.loads(self.made(self.write("day.toml", SHEET))["json"])
        rows = [data, data["instructions"][0], data["half_hours"][0], data["segments"][0], data["closing"]]
        self.desk("morning", self.folder, "--out", self.folder / "all")
        rows += json.loads((self.folder / "all" / "morning.json").read_text())
        rows.append(json.loads(self.made(ROOT / "examples" / "refused.records")["json"])["refusal"])
        for row in rows:
            self.assertLessEqual(set(row), named)

    def test_nothing_outside_is_needed(self):
        for path in self.days():
            with self.subTest(path.name):
                text = self.made(path)["html"].decode()
                self.assertIsNone(OUTSIDE.search(text))
                self.assertNotIn("<script", text)

    def test_coordinates_lie_in_the_view(self):
        for path in self.days():
            outcome = of_file(self.program, path, Clock())
            if outcome.refusal:
                continue
            with self.subTest(path.name):
                self.in_view(ElementTree.fromstring(picture.svg(outcome)))

    def in_view(self, svg):
        _, _, width, height = (float(word) for word in svg.get("viewBox").split())
        seen = 0
        for element in svg.iter():
            far = (float(element.get("width", 0)), float(element.get("height", 0))) if element is not svg else (0, 0)
            for x, y in (("x", "y"), ("x1", "y1"), ("x2", "y2"), ("cx", "cy")):
                if element.get(x) is not None:
                    seen += 1
                    self.assertTrue(0 <= float(element.get(x)) <= float(element.get(x)) + far[0] <= width + 0.02, element.attrib)
                    self.assertTrue(0 <= float(element.get(y)) <= float(element.get(y)) + far[1] <= height + 0.02, element.attrib)
            for point in element.get("points", "").split():
                x, y = map(float, point.split(","))
                seen += 1
                self.assertTrue(0 <= x <= width and 0 <= y <= height, point)
        self.assertGreater(seen, 100)

    def test_the_kept_picture(self):
        """The picture in docs/ is what the tool makes of its sheet now."""
        outcome = of_sheet(self.program, ROOT / "examples" / "morning" / "2026-11-14-ballymoor.toml", Clock())
        self.assertEqual(picture.svg(outcome), (ROOT / "docs" / "ballymoor.svg").read_text())

    def test_a_quantity_outside_its_allowance(self):
        """The proof rules it out, so the program's place is taken by one that prints another quantity."""
        path = self.write("day.toml", SHEET)
        other = self.script("other", f"{PROFILER} | sed 's/^Q 1 1 102650$/Q 1 1 102660/'\n")
        status, out, _ = self.desk("day", path, "--out", self.out, program=other)
        self.assertEqual(status, 3)
        self.assertIn("OUTSIDE THE ALLOWANCE", out)
        text = (self.out / "day.html").read_text()
        self.assertIn('<p class="bad">Outside the allowance', text)
        self.assertIn('<span class="bad">10.000000</span>', text)
        data = json.loads((self.out / "day.json").read_text())
        self.assertFalse(data["within_allowance"])
        self.assertFalse(data["half_hours"][0]["within"])
        self.assertTrue(any("half-hours 1 to 1: off by 10.0 kW" in fault for fault in data["faults"]))
        self.assertTrue(data["half_hours"][1]["within"])

    def test_a_profile_that_is_too_fast(self):
        path = self.write("day.toml", SHEET)
        other = self.script("other", f"{PROFILER} | sed 's/^S 120 300 /S 120 299 /; s/^S 300 /S 299 /'\n")
        self.assertEqual(self.desk("day", path, "--out", self.out, program=other)[0], 3)

    def test_a_quantity_that_is_not_the_profiles(self):
        """Within its allowance, yet not what the S lines give."""
        path = self.write("day.toml", SHEET)
        other = self.script("other", f"{PROFILER} | sed 's/^Q 1 1 102650$/Q 1 1 102651/'\n")
        status, out, _ = self.desk("day", path, "--out", self.out, program=other)
        self.assertEqual(status, 3)
        self.assertIn("half-hour 1: 102651 kW printed, the segments give 102650", out)

    def test_a_program_that_does_not_answer(self):
        path = self.write("day.toml", SHEET)
        wrong = {"silent": "cat >/dev/null", "failing": "exit 4", "grumbling": f"echo no >&2; {PROFILER}"}
        wrong["other"] = "cat >/dev/null; echo F 1 2"
        for name, text in wrong.items():
            with self.subTest(name):
                status, out, err = self.desk("day", path, "--out", self.out, program=self.script(name, text + "\n"))
                self.assertEqual((status, out), (2, ""))
                self.assertEqual(len(err.splitlines()), 1, err)
                self.assertFalse(self.out.exists() and any(self.out.iterdir()))

    def test_names_are_escaped(self):
        sheet = SHEET.replace("Unit under test", "<b>&\\\"'")
        text = self.made(self.write("day.toml", sheet))["html"].decode()
        self.assertNotIn("<b>", text)
        self.assertIn("&lt;b&gt;&amp;", text)

    def test_nothing_is_overwritten(self):
        """A day's files never take the place of what this tool has not written, nor of another day's."""
        sheet = 'instructions = "day.csv"\n' + SHEET[: SHEET.index("[[instructions]]")]
        self.write("day.csv", "issue,effective,code,level,up,down\n06:00:00,06:00:00,MWOF,103,,\n")
        self.not_written("day.csv was not written by this tool", self.write("day.toml", sheet))
        # Of two days with one name; of a customer's bytes beside the sheet that was made of them; of a file changed since.
        one, other = self.write("a/day.toml", SHEET), self.write("b/day.toml", SHEET.replace("level = 103", "level = 104"))
        status, _, err = self.desk("day", one, other, "--out", self.out)
        self.assertEqual((status, "is another day's" in err), (2, True), err)
        self.write("c/sent.records", self.program_records(SHEET))
        self.not_written("sent.records was not written", self.write("c/sent.toml", SHEET.replace("level = 103", "level = 104")))
        self.assertEqual(self.desk("day", self.write("d/day.toml", SHEET))[0], 0)
        self.write("d/day.csv", "mine")
        self.not_written("day.csv was not written by this tool, or was changed since", self.folder / "d" / "day.toml")

    def program_records(self, sheet):
        return of_sheet(self.program, self.write("made.toml", sheet), Clock()).records

    def not_written(self, words, path):
        before = self.files()
        status, _, err = self.desk("day", path)
        self.assertEqual((status, self.files()), (2, before))
        self.assertTrue(words in err, err)

    def test_a_corrected_sheet(self):
        """What the tool itself wrote is written anew."""
        path = self.write("day.toml", SHEET)
        self.assertEqual(self.desk("day", path)[0], 0)
        self.write("day.toml", SHEET.replace("level = 103", "level = 104"))
        self.assertEqual(self.desk("day", path)[0], 0)
        self.assertTrue("104000" in (self.folder / "day.csv").read_text())

    def test_a_refused_sheet(self):
        """Its report has what stands before the refusal, and no more."""
        more = '\n[[instructions]]\neffective = {}\nissue = 06:00:00\ncode = "MWOF"\nlevel = {}\n'
        sheet = SHEET + more.format("07:00:00", 3000) + more.format("08:00:00", 200)
        files = self.made(self.write("day.toml", sheet))
        self.assertEqual(files["listing"], b"X 9\n")
        data = json.loads(files["json"])
        self.assertEqual([one["level"] for one in data["instructions"]], [103_000])
        self.assertEqual(data["refusal"]["record"], 4)
        self.assertEqual(len(table_with(Page(files["html"].decode()), "instruction")), 2)

    def test_an_unknown_date_is_given(self):
        path = self.write("day.toml", SHEET.replace("date = 2026-11-16", 'date = "unknown"'))
        self.assertEqual(self.desk("day", path, "--date", "2026-11-20")[0], 0)
        self.assertEqual(json.loads((self.folder / "day.json").read_text())["date"], "2026-11-20")
        self.assertEqual(self.desk("day", path, "--zone", "Foo/Bar")[0], 2)
        path = self.write("zone.toml", 'zone = "America/New_York"\n' + path.read_text())
        self.assertEqual(self.desk("day", path, "--date", "2026-11-20")[0], 0)
        self.assertEqual(json.loads((self.folder / "zone.json").read_text())["zone"], "America/New_York")
        self.assertEqual(self.desk("day", path, "--date", "2026-03-28")[0], 2)

    def test_a_time_that_comes_twice(self):
        """The offset tells the two apart."""
        sheet = SHEET.replace("2026-11-16", "2026-10-26").replace("issue = 06:00:00", "issue = 2026-10-25T01:30:00+00:00")
        self.assertTrue("01:30:00+00:00 -1" in self.made(self.write("day.toml", sheet))["html"].decode())
