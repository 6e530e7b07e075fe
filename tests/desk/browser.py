"""A page in a browser, where one is installed: no error in its console."""

import os
import shutil
import subprocess

from support import ROOT, DeskTest

MORNING = ROOT / "examples" / "morning"


class Browser(DeskTest):
    def test_pages_in_chromium(self):
        chromium = shutil.which("chromium") or shutil.which("chromium-browser")
        if chromium is None:
            self.skipTest("chromium is not installed")
        self.desk("morning", MORNING, "--out", self.folder / "out")
        for name in ("index", "2026-11-15-corrandulla", "2026-11-15-tarbay"):
            page = self.folder / "out" / f"{name}.html"
            words = [chromium, "--headless", "--disable-gpu", "--no-sandbox", f"--user-data-dir={self.folder}/profile"]
            words += ["--enable-logging=stderr", "--log-level=0", "--dump-dom", page.as_uri()]
            ran = subprocess.run(words, capture_output=True, text=True, timeout=120, env={**os.environ, "HOME": str(self.folder)})
            self.assertEqual(ran.returncode, 0, ran.stderr)
            self.assertIn("</table>", ran.stdout)
            self.assertEqual([line for line in ran.stderr.splitlines() if "CONSOLE" in line], [])
