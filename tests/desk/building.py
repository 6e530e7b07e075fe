"""./desk on a fresh machine: one line of progress while the program is proved, and Ctrl-C at any time. rt has a stand-in."""

import os
import pty
import select
import shutil
import subprocess
import time
from pathlib import Path

from support import PROFILER, ROOT, DeskTest

STAND_IN = f"""#!/bin/sh
echo 'crate level: modules loaded=1 checked=1'
echo 'logic=proved functions=1'
if [ -n "${{RT_WAITS-}}" ]; then
    sleep 60 &
    echo $! >"$RT_WAITS"
    wait
fi
echo 'crate profiler: modules loaded=1 checked=1'
echo 'logic=proved functions=1'
mkdir -p out
cp {PROFILER} out/profiler
"""
WAIT = 20


def running(process):
    """Whether a process is there and has not ended."""
    try:
        return Path(f"/proc/{process}/stat").read_text().rsplit(")", 1)[1].split()[0] != "Z"
    except OSError:
        return False


class Building(DeskTest):
    def setUp(self):
        super().setUp()
        self.copy = self.folder / "copy"
        for name in ("profile", "desk", "crates.txt", "tools", "bindings", "examples"):
            source = ROOT / name
            self.copy.mkdir(exist_ok=True)
            leave = shutil.ignore_patterns("__pycache__", "out")
            shutil.copytree(source, self.copy / name, ignore=leave) if source.is_dir() else shutil.copy(source, self.copy / name)
        (self.copy / "crates" / "profiler").mkdir(parents=True)
        self.script("bin/rt", STAND_IN.removeprefix("#!/bin/sh\n"))
        self.waits = self.folder / "waits"
        self.out = self.copy / "examples" / "morning" / "out"

    def environment(self, **more):
        return {**os.environ, "PATH": f"{self.folder}/bin:{os.environ['PATH']}", **more}

    def test_progress(self):
        """Standard error is a terminal: each crate in the place of the one before, and the line is gone at the end."""
        ours, theirs = pty.openpty()
        words = ["./desk", "morning", "examples/morning"]
        ran = subprocess.run(words, cwd=self.copy, env=self.environment(), stdout=subprocess.PIPE, stderr=theirs, text=True)
        os.close(theirs)
        shown = os.read(ours, 100_000).decode()
        os.close(ours)
        self.assertEqual(ran.returncode, 1)
        self.assertIn("11 days: 9 accepted, 2 refused", ran.stdout)
        self.assertIn("crates proved, last: level", shown)
        self.assertIn("11 of 11: ", shown)
        self.assertNotIn("\n", shown)
        self.assertIn("crate profiler: ", (self.copy / "target" / "profiler.log").read_text())

    def test_not_proved(self):
        self.script("bin/rt", "echo wrong; exit 1\n")
        ran = subprocess.run(
            ["./desk", "morning", "examples/morning"], cwd=self.copy, env=self.environment(), capture_output=True, text=True
        )
        self.assertEqual((ran.returncode, ran.stdout), (2, ""))
        self.assertEqual(ran.stderr.splitlines()[-1], "desk: the program could not be built")
        self.assertFalse(self.out.exists())

    def test_interrupted(self):
        """Ctrl-C while the program is proved ends the tool and the provers, again and again."""
        for _ in range(3):
            self.waits.unlink(missing_ok=True)
            status, prover = self.interrupt()
            self.assertEqual(status, 130)
            until = time.monotonic() + WAIT
            while running(prover) and time.monotonic() < until:
                time.sleep(0.02)
            self.assertFalse(running(prover))
            self.assertFalse(self.out.exists())

    def interrupt(self):
        """How the tool ends, and the process of a prover."""
        child, ours = pty.fork()
        if child == 0:
            os.chdir(self.copy)
            os.execvpe("./desk", ["./desk", "morning", "examples/morning"], self.environment(RT_WAITS=str(self.waits)))
        until = time.monotonic() + WAIT
        while time.monotonic() < until and not (self.waits.exists() and self.waits.read_text().strip()):
            time.sleep(0.02)
        os.write(ours, b"\x03")
        while time.monotonic() < until + WAIT:
            if select.select([ours], [], [], 0.1)[0]:
                try:
                    if not os.read(ours, 65_536):
                        break
                except OSError:  # the other end is closed
                    break
        ended, status = os.waitpid(child, os.WNOHANG)
        while not ended and time.monotonic() < until + WAIT:
            time.sleep(0.02)
            ended, status = os.waitpid(child, os.WNOHANG)
        if not ended:
            os.kill(child, 9)
            os.waitpid(child, 0)
        os.close(ours)
        return os.waitstatus_to_exitcode(status) if ended else "still running", int(self.waits.read_text())
