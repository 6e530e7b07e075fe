"""The programs at their edges: where reading or writing fails, and ./profile around them.

    edges.py --profiler PROGRAM --calls PROGRAM

Each program has to say a failure in one line on standard error and to print no false answer. ./profile is tried in a folder of
its own, under each shell that the machine has, with the given program and a stand-in for rt. The last line is
'edges: N passed, M failed'; the status is 1 if M is above 0.
"""

import argparse
import contextlib
import fcntl
import os
import pathlib
import pty
import re
import select
import shutil
import signal
import subprocess
import sys
import tempfile
import time

ROOT = pathlib.Path(__file__).resolve().parents[2]
EXAMPLES = ROOT / "examples"
PIPE_SIZE = getattr(fcntl, "F_SETPIPE_SZ", 1031)
NUMBERS = [*range(1, 10), *range(20, 28)]
ROOM = 4096  # left in a pipe; the outputs are longer
WAIT = 20
UNREAD, UNWRITTEN = "the input could not be read", "the output could not be written whole"

passed, failed = 0, 0


def check(what, good, *shown):
    global passed, failed
    passed, failed = passed + bool(good), failed + (not good)
    if not good:
        print("edges:", what, *shown, sep=" | ")


def run(command, **named):
    """Status, standard output and standard error of a command; SIGPIPE is ignored unless asked otherwise."""
    data = named.pop("input", None)
    named.setdefault("stdin", subprocess.DEVNULL if data is None else subprocess.PIPE)
    named = {"stdout": subprocess.PIPE, "restore_signals": False, **named}
    with subprocess.Popen(command, stderr=subprocess.PIPE, start_new_session=True, **named) as child:
        try:
            written, said = child.communicate(data, timeout=WAIT)
            return child.returncode, written, said
        except subprocess.TimeoutExpired:
            os.killpg(child.pid, signal.SIGKILL)
            return "still running", b"", b""


def with_closed(command, descriptor):
    return ["sh", "-c", f'exec "$@" {descriptor}', "sh", *command]


# ---- places that cannot be written or read


@contextlib.contextmanager
def small_pipe():
    """A pipe that nobody empties, as small as there are, and whose ends don't block; its size."""
    reader, writer = os.pipe()
    size = fcntl.fcntl(writer, PIPE_SIZE, ROOM)
    os.set_blocking(reader, False)
    os.set_blocking(writer, False)
    try:
        yield reader, writer, size
    finally:
        os.close(reader)
        os.close(writer)


@contextlib.contextmanager
def closed_pipe():
    reader, writer = os.pipe()
    os.close(reader)
    try:
        yield writer
    finally:
        os.close(writer)


def bad_outputs(command, **named):
    """The command with each kind of output that fails: what it is, how it ended, what was written, what it said."""
    if os.path.exists("/dev/full"):
        with open("/dev/full", "wb") as full:
            status, _, said = run(command, stdout=full, **named)
            yield "full disk", status, b"", said
    else:
        print("edges: no /dev/full on this machine: a full disk is not tried")
    with closed_pipe() as writer:
        status, _, said = run(command, stdout=writer, **named)
        yield "closed pipe", status, b"", said
    for name, room in ("full pipe", 0), ("pipe too small", ROOM):
        with small_pipe() as (reader, writer, size):
            os.write(writer, b"." * (size - room))
            status, _, said = run(command, stdout=writer, **named)
            written = b""
            with contextlib.suppress(BlockingIOError):
                written = os.read(reader, size)[size - room :]
            yield name, status, written, said
    status, written, said = run(with_closed(command, ">&-"), **named)
    yield "closed output", status, written, said


# ---- the two programs


def call(letter, length, body=b""):
    return letter + length.to_bytes(4, "big") + body


def program_edges(name, program, data, whole, part):
    """data gives whole; part is a front of some input that is no whole day or call."""
    unread, unwritten = (f"{name}: {line}\n".encode() for line in (UNREAD, UNWRITTEN))
    got = run([program], input=data)
    check(f"{name}, all well", got == (0, whole, b""), got)
    check(f"{name}, longer than the room", len(whole) > ROOM)
    for what, status, written, said in bad_outputs([program], input=data):
        front = len(written) < len(whole) and whole.startswith(written)
        check(f"{name}, {what}", said == unwritten and status == 0 and front, status, written[-40:], said)
    with closed_pipe() as writer:
        got = run([program], input=data, stdout=writer, restore_signals=True)
        # A program ignores SIGPIPE by itself: its startup code does so.
        check(f"{name}, closed pipe, SIGPIPE not ignored", got == (0, None, unwritten), got)
    folder = os.open("/", os.O_RDONLY)
    got = run([program], stdin=folder)
    os.close(folder)
    check(f"{name}, folder as input", got == (0, b"", unread), got)
    got = run(with_closed([program], "<&-"))
    check(f"{name}, closed input", got == (0, b"", unread), got)
    for what, before in ("empty", b""), ("after a part", part):
        with small_pipe() as (reader, writer, _):
            os.write(writer, before)
            got = run([program], stdin=reader)
            check(f"{name}, input that is not ready, {what}", got == (0, b"", unread), got)


def program_part(profiler, calls):
    day, listing = (EXAMPLES / f"forty-instructions.{kind}" for kind in ("records", "listing"))
    records = day.read_bytes()
    program_edges("profiler", profiler, records, listing.read_bytes(), records[:300])
    got = run([profiler], input=records[:300])
    check("profiler, input that ends early", got == (0, b"X 2\n", b""), got)
    program_edges("calls", calls, call(b"L", 0) * 1000, b"A 25 0\n" * 1000, call(b"T", 249, records[:100]))
    for what, part in ("call", call(b"T", 249, records[:100])), ("head", b"L\0"):
        got = run([calls], input=call(b"L", 0) + part)
        check(f"calls, {what} that ends early", got == (0, b"A 25 0\nmalformed\n", b""), got)


# ---- the words of refusals


def words_part():
    source = (ROOT / "crates/records/src/lib.rt").read_text(encoding="utf-8")
    variants = re.search(r"pub enum Refusal \{(.*?)\}", source, re.S).group(1)
    numbers = sorted(int(number) for number in re.findall(r"\w+ = (\d+),", variants))
    check("refusals of the code", numbers == NUMBERS, numbers)
    lines = (ROOT / "bindings/refusals.txt").read_text(encoding="utf-8").splitlines()
    table = [line.split(" ", 1) for line in lines]
    check("each refusal once, in words", [int(row[0]) for row in table] == NUMBERS and all(row[1:] and row[1] for row in table))
    return {int(number): words for number, words in table}


# ---- ./profile

STAND_IN = """#!/bin/sh
# Prints what rt prints, and makes the program. RT_TRY: fail, unmade, wait.
[ "$*" = run ] && [ "${PWD##*/}" = profiler ] || exit 9
cat >/dev/null
echo called >>../../../calls-of-rt
for name in %(crates)s; do
    echo "fn $name::main: proved"
    echo "crate $name: modules loaded=1 checked=1"
    if [ "${RT_TRY-}" = fail ] && [ $name = profiler ]; then
        mkdir -p out && cp "$RT_PROGRAM" out/profiler
        for n in 1 2 3 4 5 6 7 8 9 10 11 12 13 14 15 16 17 18 19 20 21 22 23 24 25; do echo "error $n" >&2; done
        echo 'logic=not-proved'
        exit 1
    fi
    echo 'logic=proved functions=1'
    if [ "${RT_TRY-}" = wait ]; then
        sleep 60 &
        echo $! >../../../sleeper
        wait
    fi
done
[ "${RT_TRY-}" = unmade ] || { mkdir -p out && cp "$RT_PROGRAM" out/profiler; }
echo 'X 2'
"""


def rt_lines(name):
    return f"fn {name}::main: proved", f"crate {name}: modules loaded=1 checked=1", "logic=proved functions=1"


TOOLS = "sh awk cat cp dirname find mkdir sed sleep tail tee touch".split()


class Copy:
    """A folder with ./profile, what it reads, and a PATH of its own with the stand-in for rt."""

    def __init__(self, folder, shell, program):
        self.top, self.shell, self.program = folder, shell, program
        self.here = folder / "copy"
        for name in "bindings", "crates/profiler":
            (self.here / name).mkdir(parents=True)
        for name in "profile", "crates.txt", "bindings/refusals.txt":
            shutil.copy(ROOT / name, self.here / name)
        self.tools, self.rt = folder / "tools", folder / "rt"
        for name in self.tools, self.rt:
            name.mkdir()
        for name in TOOLS:
            (self.tools / name).symlink_to(shutil.which(name))
        uses = dict((line.split(":")[0].split()[0], line.split(":")[1]) for line in (ROOT / "crates.txt").read_text(encoding="utf-8").splitlines())
        reached, todo = set(), ["profiler"]
        while todo:
            name = todo.pop()
            if name in uses and name not in reached:
                reached.add(name)
                todo += uses[name].split()
        self.crates = [name for name in uses if name in reached]
        (self.rt / "rt").write_text(STAND_IN % {"crates": " ".join(self.crates)}, encoding="utf-8")
        (self.rt / "rt").chmod(0o755)

    def command(self, *words):
        return [self.shell, str(self.here / "profile"), *map(str, words)]

    def named(self, path=None, **more):
        return {"env": {"PATH": path or f"{self.rt}:{self.tools}", "RT_PROGRAM": self.program, **more}, "cwd": self.top}

    def run(self, *words, trying="", path=None, **named):
        return run(self.command(*words), **self.named(path, RT_TRY=trying), **named)

    def built(self):
        """How often rt was called."""
        calls = self.top / "calls-of-rt"
        return len(calls.read_text(encoding="utf-8").splitlines()) if calls.exists() else 0

    def fresh(self):
        for made in "target", "crates/profiler/out":
            shutil.rmtree(self.here / made, ignore_errors=True)


def profile_answers(copy, words):
    """Listings and refusals: bytes, status, words."""
    for records in sorted(EXAMPLES.glob("*.records")):
        whole = records.with_suffix(".listing").read_bytes()
        status, said = 0, b""
        if whole.startswith(b"X "):
            status, said = 1, f"profile: refusal {int(whole[2:])}: {words[int(whole[2:])]}\n".encode()
        printed = run([copy.program], input=records.read_bytes())[1]
        for what, got in ("file", copy.run(records)), ("input", copy.run(input=records.read_bytes())):
            check(f"./profile, {records.stem}, {what}", got == (status, whole, said) and printed == whole, got)
    got = copy.run()
    check("./profile, no input", got == (1, b"X 2\n", f"profile: refusal 2: {words[2]}\n".encode()), got)
    got = copy.run("--build")
    check("./profile --build, built", got == (0, b"", b""), got)


def says(got, status, line):
    return got == (status, b"", f"{line}\n".encode())


def profile_failures(copy):
    usage = "usage: ./profile [FILE], or ./profile --build"
    got = copy.run("/")
    check("./profile, folder", says(got, 2, f"profiler: {UNREAD}"), got)
    got = copy.run("not-here")
    check("./profile, no such file", says(got, 2, "profile: not-here: no such file"), got)
    got = run(with_closed(copy.command(), "<&-"), **copy.named())
    check("./profile, closed input", says(got, 2, "profile: standard input is closed"), got)
    for wrong in (["a", "b"], ["--other"], ["--build", "a"]):
        got = copy.run(*wrong)
        check(f"./profile {' '.join(wrong)}", says(got, 2, f"profile: {usage}"), got)
    got = copy.run("--help")
    check("./profile --help", got == (0, usage.encode() + b"\n", b""), got)
    day = EXAMPLES / "forty-instructions.records"
    whole = day.with_suffix(".listing").read_bytes()
    for what, status, written, said in bad_outputs(copy.command(day), restore_signals=True, **copy.named()):
        front = len(written) < len(whole) and whole.startswith(written)
        check(f"./profile, {what}", status == 2 and said == f"profile: {UNWRITTEN}\n".encode() and front, status, said)
    if os.getuid():
        hidden = copy.top / "hidden"
        hidden.write_bytes(b"")
        hidden.chmod(0)
        got = copy.run(hidden)
        check("./profile, file that may not be read", says(got, 2, f"profile: {hidden}: it may not be read"), got)


def profile_build(copy):
    """The first build, with standard error no terminal."""
    day = EXAMPLES / "document01.records"
    whole = day.with_suffix(".listing").read_bytes()
    total = len(copy.crates)
    first = f"proving {total} crates, log in target/profiler.log\n".encode()
    got = copy.run(day, path=str(copy.tools))
    check("./profile, no rt", says(got, 2, "profile: rt, the command of the kit of Rattle, is not on PATH"), got)
    before = {path for path in copy.here.rglob("*") if path.is_file()}
    got = copy.run(day)
    check("./profile, built first", got == (0, whole, first), got)
    made = {str(path.relative_to(copy.here)) for path in copy.here.rglob("*") if path.is_file() and path not in before}
    check("./profile, what a build leaves", made == {"target/profiler.log", "target/bin/profiler", "crates/profiler/out/profiler"}, made)
    log = (copy.here / "target/profiler.log").read_text(encoding="utf-8").splitlines()
    check(
        "./profile, whole log",
        log == [line for name in copy.crates for line in rt_lines(name)] + ["X 2"],
        log[-3:],
    )
    count = copy.built()
    os.utime(copy.here / "target/bin/profiler", (1e9, 1e9))
    check("./profile, built again after a change", copy.run(day)[0] == 0 and copy.built() == count + 1)

    # A program of an earlier build is there, older than a source.
    os.utime(copy.here / "target/bin/profiler", (1e9, 1e9))
    for again in "", ", again":
        status, printed, said = copy.run(day, trying="fail")
        last = [f"error {n}" for n in range(7, 26)] + ["logic=not-proved"]
        last.append("profile: the program is not proved; the whole log is target/profiler.log")
        good = status == 2 and not printed and said == first + ("\n".join(last) + "\n").encode()
        check(f"./profile, not proved{again}", good, status, printed, said)
    copy.fresh()
    got = copy.run("--build", trying="unmade")
    check("./profile, no program made", got[0] == 2 and got[2].startswith(first) and got[2].count(b"\n") == 2, got)
    copy.fresh()
    got = copy.run("--build")
    check("./profile --build", got == (0, b"", first), got)
    copy.fresh()
    got = copy.run(input=day.read_bytes())
    check("./profile, built first, input", got == (0, whole, first), got)


def read_terminal(master, until):
    """What comes from a terminal, up to its end or to a text."""
    shown, end = b"", time.monotonic() + WAIT
    while time.monotonic() < end and not (until and until in shown):
        if not select.select([master], [], [], 0.1)[0]:
            continue
        try:
            more = os.read(master, 65536)
        except OSError:  # nobody has the other end
            break
        if not more:
            break
        shown += more
    return shown


def profile_terminal(copy):
    """The same with a terminal: one line, rewritten, and gone at the end."""
    day = EXAMPLES / "document01.records"
    copy.fresh()
    master, end = pty.openpty()
    with subprocess.Popen(
        copy.command(day), stdin=subprocess.DEVNULL, stdout=subprocess.PIPE, stderr=end, **copy.named()
    ) as child:
        os.close(end)
        shown = read_terminal(master, b"")
        printed = child.stdout.read()
    os.close(master)
    total = len(copy.crates)
    lines = [f"0 of {total} crates proved"]
    lines += [f"{n} of {total} crates proved, last: {name}" for n, name in enumerate(copy.crates, 1)] + [""]
    check("./profile, terminal", shown == "".join(f"\r{line}\x1b[K" for line in lines).encode(), shown[-80:])
    check("./profile, terminal, listing", child.returncode == 0 and printed == day.with_suffix(".listing").read_bytes())


def running(pid):
    try:
        return pathlib.Path(f"/proc/{pid}/stat").read_text(encoding="utf-8").rsplit(")", 1)[1].split()[0] != "Z"
    except OSError:
        return False


def lead(copy):
    """A session of its own, which stays when the build in it is interrupted; it prints how that ended."""
    for number in signal.SIGINT, signal.SIGTERM:
        signal.signal(number, signal.SIG_IGN)

    def usual():
        for number in signal.SIGINT, signal.SIGTERM:
            signal.signal(number, signal.SIG_DFL)

    child = subprocess.run(copy.command("--build"), preexec_fn=usual, check=False, **copy.named(RT_TRY="wait"))
    print(f"ended by {-child.returncode}.", flush=True)
    time.sleep(WAIT)


def profile_interrupted(copy):
    """Ctrl-C ends the build, with what rt runs in the background."""
    copy.fresh()
    pid, master = pty.fork()
    if pid == 0:
        lead(copy)
        os._exit(0)
    shown = read_terminal(master, b"1 of ")
    sleeper, end = copy.top / "sleeper", time.monotonic() + WAIT
    while not (sleeper.exists() and sleeper.read_text(encoding="utf-8").strip()) and time.monotonic() < end:
        time.sleep(0.02)
    os.write(master, b"\x03")
    ended = f"ended by {signal.SIGINT:d}.".encode()
    shown += read_terminal(master, ended)
    check("./profile, Ctrl-C", ended in shown, shown)
    prover, end = int(sleeper.read_text(encoding="utf-8")), time.monotonic() + 2
    while running(prover) and time.monotonic() < end:
        time.sleep(0.02)
    check("./profile, Ctrl-C, provers ended", not running(prover))
    os.close(master)
    os.waitpid(pid, 0)


def main():
    parser = argparse.ArgumentParser()
    parser.add_argument("--profiler", required=True)
    parser.add_argument("--calls", required=True)
    given = parser.parse_args()
    profiler, calls = os.path.abspath(given.profiler), os.path.abspath(given.calls)
    program_part(profiler, calls)
    words = words_part()
    shells = {os.path.realpath(path): path for path in map(shutil.which, ("sh", "dash", "bash")) if path}
    for shell in shells.values():
        with tempfile.TemporaryDirectory() as folder:
            copy = Copy(pathlib.Path(folder), shell, profiler)
            profile_build(copy)
            profile_answers(copy, words)
            profile_failures(copy)
            profile_terminal(copy)
            profile_interrupted(copy)
    print(f"edges: {passed} passed, {failed} failed")
    sys.exit(1 if failed else 0)


if __name__ == "__main__":
    main()
