"""Mornings: one bad file stops no other; one that is cut off leaves the last one as it was."""

import contextlib
import json
import os
import pty
import shutil
import signal
import subprocess
import sys
import time
from pathlib import Path
from unittest import mock

from support import PROFILER, ROOT, SHEET, DeskTest, quantities

from desk import files, morning

MORNING = ROOT / "examples" / "morning"
DESK = [sys.executable, "-B", ROOT / "tools" / "desk" / "__main__.py"]


class Mornings(DeskTest):
    def setUp(self):
        super().setUp()
        self.out = self.folder / "out"

    def some(self, *names):
        for name in names:
            self.write(f"{name}.toml", SHEET)

    def test_the_example(self):
        """Eleven days of six units, of which a sheet and a record are refused."""
        status, out, _ = self.desk("morning", MORNING, "--out", self.out)
        self.assertEqual(status, 1)
        self.assertIn("11 days: 9 accepted, 2 refused", out)
        kw = sum(sum(quantities(path.read_bytes())) for path in self.out.glob("*.listing"))
        self.assertIn(f"{kw / 2000:,.4f} MWh", out)
        self.assertIn("2026-11-15-inishmor.toml, [instructions 2], level: 10.3333", out)
        self.assertIn("refusal 7, the effective time is outside the day: record 5, an instruction (DESY", out)
        rows = json.loads((self.out / "morning.json").read_text())
        self.assertEqual(sum(row.get("MWh", 0) * 2000 for row in rows), kw)
        units = {row["unit"] for row in rows if row["accepted"]} | {rows[9]["unit"]}
        self.assertEqual((len(rows), len(units)), (11, 6))
        page = (self.out / "index.html").read_text()
        for row in rows:
            self.assertIn(row["file"], page)
            name = row["file"].rsplit(".", 1)[0]
            self.assertEqual((self.out / f"{name}.html").exists(), "inishmor" not in name)

    def test_one_bad_file(self):
        self.some("a", "c")
        self.write("b.toml", "date = ")
        self.write("d.records", b"\x07")
        self.write("notes.txt", "none of ours")
        status, out, _ = self.desk("morning", self.folder)
        self.assertEqual(status, 1)
        self.assertIn("4 days: 2 accepted, 2 refused", out)
        made = {path.name for path in self.out.iterdir()}
        self.assertLessEqual({"a.html", "c.html", "d.html", "index.html"}, made)
        self.assertNotIn("b.html", made)

    def test_all_good(self):
        self.some("a", "b")
        status, out, _ = self.desk("morning", self.folder)
        self.assertEqual(status, 0)
        self.assertIn("2 days: 2 accepted, 0 refused", out)

    def test_again_replaces_the_folder(self):
        self.some("a", "b")
        self.desk("morning", self.folder)
        (self.folder / "a.toml").unlink()
        self.desk("morning", self.folder)
        self.assertFalse((self.out / "a.html").exists())
        self.assertEqual([path.name for path in self.folder.iterdir() if path.name.startswith(".")], [])

    def test_without_exchanging_names(self):
        """Where the system cannot exchange two names, a morning that is cut off between two steps is mended by the next."""
        self.some("a")
        self.desk("morning", self.folder)
        with mock.patch.object(morning, "exchange", return_value=False):
            self.some("b")
            self.assertEqual(self.desk("morning", self.folder)[0], 0)
        self.assertTrue((self.out / "b.html").exists())
        ended = subprocess.run(["sh", "-c", "echo $$"], capture_output=True, text=True, check=True).stdout.strip()
        self.out.rename(self.folder / f".out.desk-{ended}.old")
        (self.folder / f".out.desk-{ended}").mkdir()
        self.write("b.toml", "date = ")
        morning.remove_left_over(self.out)
        self.assertTrue((self.out / "b.html").exists())
        self.assertEqual([path.name for path in self.folder.iterdir() if path.name.startswith(".")], [])

    def test_an_empty_folder(self):
        status, out, err = self.desk("morning", self.folder)
        self.assertEqual((status, out, self.out.exists()), (2, "", False))
        self.assertIn("no sheets", err)

    def test_a_folder_of_others_is_not_replaced(self):
        self.some("a")
        self.write("out/index.html", "mine")
        status, _, err = self.desk("morning", self.folder)
        self.assertEqual((status, (self.out / "index.html").read_text()), (2, "mine"))
        self.assertIn("not made by a morning", err)
        self.assertEqual(self.desk("morning", self.folder, "--out", self.folder)[0], 2)
        self.assertEqual(self.desk("morning", self.folder / "none")[0], 2)

    def test_records_beside_their_sheet(self):
        """The records that `day` has written beside a sheet are no second day; other records of that name are refused."""
        self.some("a")
        self.desk("day", self.folder / "a.toml")
        self.assertIn("1 day: 1 accepted", self.desk("morning", self.folder)[1].splitlines()[-1])
        self.write("a.records", b"\x04")
        status, out, _ = self.desk("morning", self.folder)
        self.assertEqual(status, 1)
        self.assertIn("the other file of this name gives other records", out)

    def test_unit_files_are_no_days(self):
        shutil.copy(MORNING / "units" / "derrybeg.toml", self.folder / "unit.toml")
        sheet = (MORNING / "2026-11-15-derrybeg.toml").read_text().replace("units/derrybeg.toml", "unit.toml")
        self.write("day.toml", sheet)
        status, out, _ = self.desk("morning", self.folder)
        self.assertEqual((status, "1 day: 1 accepted" in out), (0, True))

    def test_cut_off(self):
        """A morning that is ended in its midst, by any signal, leaves the last one byte for byte."""
        self.some("a", "b", "c")
        self.desk("morning", self.folder)
        before = {path: content for path, content in self.files().items() if path.startswith("out/")}
        self.write("b.toml", SHEET.replace("level = 103", "level = 104"))
        slow = self.script("slow", f'echo >>"$0.calls"; [ "$(wc -l <"$0.calls")" -lt 3 ] || sleep 60\nexec {PROFILER}\n')
        for ending in (signal.SIGKILL, signal.SIGTERM, signal.SIGINT):
            with self.subTest(ending.name):
                (self.folder / "slow.calls").unlink(missing_ok=True)
                self.cut(slow, ending)
                self.assertEqual({path: content for path, content in self.files().items() if path.startswith("out/")}, before)
        self.assertEqual(self.desk("morning", self.folder)[0], 0)
        self.assertNotEqual((self.out / "b.listing").read_bytes(), before["out/b.listing"])
        self.assertEqual([path.name for path in self.folder.iterdir() if path.name.startswith(".")], [])

    def cut(self, slow, ending):
        words = [*DESK, "morning", self.folder, "--program", slow]
        started = subprocess.Popen(words, stdout=subprocess.DEVNULL, stderr=subprocess.DEVNULL, start_new_session=True)
        calls = self.folder / "slow.calls"
        until = time.monotonic() + 20
        while time.monotonic() < until and not (calls.exists() and len(calls.read_text()) >= 3):
            time.sleep(0.01)
        self.assertIsNone(started.poll())
        self.assertTrue(any(path.name.startswith(".out.") for path in self.folder.iterdir()))
        started.send_signal(ending)
        self.assertNotEqual(started.wait(20), 0)
        os.killpg(started.pid, signal.SIGKILL)

    def test_progress_on_a_terminal_only(self):
        self.some("a", "b")
        words = [*DESK, "morning", self.folder, "--program", PROFILER]
        piped = subprocess.run(words, capture_output=True, text=True, check=True)
        self.assertEqual(piped.stderr, "")
        ours, theirs = pty.openpty()
        subprocess.run(words, stdout=subprocess.DEVNULL, stderr=theirs, check=True)
        os.close(theirs)
        shown = os.read(ours, 10_000).decode()
        os.close(ours)
        self.assertIn("1 of 2: a.toml", shown)
        self.assertIn("2 of 2: b.toml", shown)
        self.assertNotIn("\n", shown)

    def test_the_script(self):
        """./desk as the README has it, with the program of this repository, where that is built."""
        if PROFILER != ROOT / "target" / "bin" / "profiler":
            self.skipTest("another listing program is given")
        ran = subprocess.run([ROOT / "desk", "morning", MORNING, "--out", self.out], capture_output=True, text=True)
        self.assertEqual(ran.returncode, 1, ran.stderr)
        self.assertIn("11 days: 9 accepted, 2 refused", ran.stdout)
        program = json.loads((self.out / "2026-11-14-ballymoor.json").read_text())["program"]
        source = ["--", "crates", "crates.txt"]
        log, changes = (self.git("log", "-1", "--format=%H", *source), self.git("status", "--porcelain", *source))
        self.assertEqual((program["commit"], program["changed"]), (log, None if changes is None else bool(changes)))
        self.assertIn(program["sha256"], (self.out / "2026-11-14-ballymoor.html").read_text())

    def git(self, *words):
        """What git prints here; None where there is no repository."""
        ran = subprocess.run(["git", "-C", ROOT, *words], capture_output=True, text=True)
        return None if ran.returncode else ran.stdout.strip()

    def test_through_a_link(self):
        (self.folder / "link").symlink_to(ROOT / "desk")
        ran = subprocess.run([self.folder / "link", "--help"], capture_output=True, text=True)
        self.assertEqual((ran.returncode, ran.stdout[:11]), (0, "usage: desk"))

    def test_records_of_a_sheet_with_errors(self):
        """Records that the tool wrote for a sheet are no day of their own, whatever becomes of the sheet."""
        self.some("a")
        self.desk("day", self.folder / "a.toml")
        self.write("a.toml", SHEET.replace("level = 103", "level = 103.00001"))
        status, out, _ = self.desk("morning", self.folder)
        self.assertEqual((status, "1 day: 0 accepted, 1 refused" in out), (1, True), out)
        self.write("a.toml", SHEET.replace("level = 103", "level = 104"))
        status, out, _ = self.desk("morning", self.folder)
        self.assertEqual((status, "1 day: 1 accepted" in out), (0, True), out)

    def test_names_of_files(self):
        """Names in capitals, names that are no text, links to nothing, folders, and the morning's own names: each has its row."""
        self.write("E.TOML", SHEET)
        self.write("index.toml", SHEET)
        self.write("good.toml", SHEET)
        (self.folder / "nothing.toml").symlink_to(self.folder / "none")
        (self.folder / "folder.toml").mkdir()
        Path(os.fsdecode(os.fsencode(self.folder) + b"/d\xeda.toml")).write_text(SHEET)
        status, out, err = self.desk("morning", self.folder)
        self.assertEqual((status, "6 days: 3 accepted, 3 refused" in out), (1, True), out + err)
        self.assertTrue("index.html and morning.json are the morning's own" in out)
        self.assertTrue("d?a.toml" in (self.out / "index.html").read_text())
        self.assertTrue((self.out / "E.html").exists())

    def test_a_fault_of_the_tool(self):
        """Even that stops no other day."""
        self.some("a", "b")
        with mock.patch.object(files, "write", side_effect=[KeyError("x"), None]):
            status, out, _ = self.desk("morning", self.folder)
        self.assertEqual((status, "2 days: 1 accepted, 1 refused" in out), (1, True), out)

    def test_folders_of_others_stay(self):
        self.some("a")
        self.write(".out.20261114/mine", "mine")
        self.desk("morning", self.folder)
        self.assertTrue((self.folder / ".out.20261114" / "mine").exists())

    def test_output_that_cannot_be_written(self):
        """Closed, or a pipe that does not block and that nobody empties: said in a line, and no success."""
        words = [*DESK, "sheet", ROOT / "examples" / "forty-instructions.records", "--program", PROFILER]
        ran = subprocess.run(["sh", "-c", 'exec "$@" >&-', "sh", *words], stderr=subprocess.PIPE, text=True)
        self.assertEqual((ran.returncode, ran.stderr), (2, "desk: standard output is closed\n"))
        ours, theirs = os.pipe()
        os.set_blocking(theirs, False)
        with contextlib.suppress(BlockingIOError):
            while True:
                os.write(theirs, bytes(4096))
        ran = subprocess.run(words, stdout=theirs, stderr=subprocess.PIPE, text=True)
        self.assertEqual(
            (ran.returncode, ran.stderr), (2, "desk: the output could not be written whole: nobody empties the pipe\n")
        )
        os.close(ours)
        os.close(theirs)

    def test_a_full_disk(self):
        """What could not be written whole is said, and is no success."""
        if not os.path.exists("/dev/full"):
            self.skipTest("no /dev/full")
        self.some("a")
        for words in (
            ("day", self.folder / "a.toml"),
            ("morning", self.folder),
            ("sheet", ROOT / "examples" / "document01.records"),
        ):
            with open("/dev/full", "wb") as full:
                ran = subprocess.run([*DESK, *words, "--program", PROFILER], stdout=full, stderr=subprocess.PIPE, text=True)
            self.assertEqual((ran.returncode, len(ran.stderr.splitlines())), (2, 1), ran.stderr)
