#!/usr/bin/env python3
"""The Python binding, over a shared library made from the static one: vectors, refusals, types, threads, where it looks.

    binding.py --library FILE.a

Its last line is 'binding: N passed, M failed'.
"""

import argparse
import array
import os
import pickle
import shutil
import subprocess
import sys
import threading
from collections.abc import Callable, Iterator
from concurrent.futures import ThreadPoolExecutor
from pathlib import Path

ROOT = Path(__file__).resolve().parents[2]
MODULE, TABLE = ROOT / "bindings" / "python" / "gristpebble.py", ROOT / "bindings" / "refusals.txt"
OUT = ROOT / "target" / "tests" / "binding"
SHARED = OUT / "libgristpebble.so"
NUMBERS = [*range(1, 10), *range(20, 28)]
THREADS, ROUNDS = 4, 20

sys.dont_write_bytecode = True
sys.path.insert(0, str(MODULE.parent))
import gristpebble  # noqa: E402

Check = Callable[[], None]


def equal(found: object, expected: object) -> None:
    if found != expected:
        raise AssertionError(f"{found!r}, expected {expected!r}")


def raised(kind: type[Exception], records: object) -> Exception:
    """What `listing` raises for these records."""
    try:
        gristpebble.listing(records)
    except kind as error:
        return error
    raise AssertionError(f"no {kind.__name__}")


def printed(records: bytes) -> bytes:
    """What the listing program prints for these records, by the binding."""
    try:
        return gristpebble.listing(records)
    except gristpebble.Refusal as refusal:
        return b"X %d\n" % refusal.number


def vectors() -> list[tuple[str, bytes, bytes]]:
    paths = sorted((ROOT / "tests" / "vectors").glob("*.records"))
    return [(path.stem, path.read_bytes(), path.with_suffix(".listing").read_bytes()) for path in paths]


def table() -> dict[int, str]:
    """The words of the refusals, read here once more."""
    lines = (line.partition(" ") for line in TABLE.read_text(encoding="utf-8").splitlines())
    return {int(number): words for number, _, words in lines}


def python(words: list[object], library: Path | None, given: bytes = b"") -> subprocess.CompletedProcess[bytes]:
    """Runs Python with GRISTPEBBLE_LIBRARY set to this library, or not set."""
    environment = {name: value for name, value in os.environ.items() if name != "GRISTPEBBLE_LIBRARY"}
    if library:
        environment["GRISTPEBBLE_LIBRARY"] = str(library)
    command = [sys.executable, "-B", *map(str, words)]
    return subprocess.run(command, input=given, capture_output=True, env=environment, cwd=OUT, check=False)


def vector(records: bytes, expected: bytes) -> None:
    if not expected.startswith(b"X "):
        return equal(gristpebble.listing(records), expected)
    number = int(expected[2:])
    refusal = raised(gristpebble.Refusal, records)
    equal((refusal.number, refusal.words), (number, table()[number]))


def words() -> None:
    equal(dict(gristpebble.WORDS), table())
    equal(list(gristpebble.WORDS), NUMBERS)
    for number, text in table().items():
        refusal = gristpebble.Refusal(number)
        equal((refusal.number, refusal.words, str(refusal)), (number, text, f"refusal {number}: {text}"))


def pickled() -> None:
    refusal = pickle.loads(pickle.dumps(gristpebble.Refusal(3)))
    equal(str(refusal), "refusal 3: a field of the unit is out of range")


def empty() -> None:
    for records in (b"", bytearray(), memoryview(b"")):
        equal(raised(gristpebble.Refusal, records).number, 2)


def close_alone() -> None:
    equal(raised(gristpebble.Refusal, b"\x04").number, 25)


def bytes_like(kind: Callable[[bytes], object]) -> None:
    for _, records, expected in vectors():
        given = kind(records)
        equal(printed(given), expected)
        equal(bytes(given), records)


def wrong_types() -> None:
    for records in ("records", None, 5, [1, 2], object()):
        raised(TypeError, records)


def after_close() -> None:
    _, records, expected = closed()
    for rest in (b"\0", b"\x04", b"\xff" * 100_000):
        equal(gristpebble.listing(records + rest), expected)


def closed() -> tuple[str, bytes, bytes]:
    return next(day for day in vectors() if not day[2].startswith(b"X "))


def threads() -> None:
    days, start = vectors(), threading.Barrier(THREADS)

    def differences(first: int) -> int:
        start.wait(timeout=10)
        mine = days[first:] + days[:first]
        return sum(printed(records) != expected for _ in range(ROUNDS) for _, records, expected in mine)

    with ThreadPoolExecutor(THREADS) as pool:
        equal(list(pool.map(differences, range(THREADS))), [0] * THREADS)


def missing_library() -> None:
    script = "import sys; sys.path.insert(0, sys.argv[1]); import gristpebble as g; print(g.WORDS[6]); g.listing(b'')"
    run = python(["-c", script, MODULE.parent], OUT / "none.so")
    equal(run.stdout.decode(), "the code is not 1 to 7\n")
    last = run.stderr.decode().splitlines()[-1]
    equal(last, f"FileNotFoundError: no library at {OUT / 'none.so'}; bindings/python/build makes it")


def no_function() -> None:
    """A library that is another one is an OSError, too."""
    other = OUT / "other.so"
    subprocess.run(["cc", "-shared", "-o", other, "-x", "c", "/dev/null"], check=True)
    run = python([ROOT / "examples" / "listing.py"], other)
    equal(run.stderr.decode().splitlines()[-1], f"OSError: {other} has no function gristpebble_listing")


def places() -> None:
    """Where a copy of the repository's binding looks: nowhere found, target/staticlib, beside the module, the variable."""
    copy = OUT / "copy"
    shutil.rmtree(copy, ignore_errors=True)
    for folder in ("bindings/python", "examples", "target/staticlib"):
        (copy / folder).mkdir(parents=True)
    for source in (MODULE, TABLE, ROOT / "examples" / "listing.py"):
        shutil.copy(source, copy / source.relative_to(ROOT))
    in_target, beside = copy / "target/staticlib" / SHARED.name, copy / "bindings/python" / SHARED.name

    def answer(library: Path | None = None) -> str:
        run = python([copy / "examples" / "listing.py"], library, b"\x09")
        return run.stdout.decode().strip() or run.stderr.decode().splitlines()[-1]

    equal(answer(), f"FileNotFoundError: no library at {beside} or {in_target}; bindings/python/build makes it")
    shutil.copy(SHARED, in_target)
    equal(answer(), "X 1")
    static = in_target.with_suffix(".a")
    static.touch()
    os.utime(in_target, (0, 0))
    equal(answer(), f"OSError: {in_target} is older than {static.name} beside it; bindings/python/build makes it anew")
    os.utime(static, (0, 0))
    equal(answer(), "X 1")
    beside.write_bytes(b"no library")
    equal(answer().startswith(f"OSError: {beside}: "), True)
    equal(answer(SHARED), "X 1")


def example() -> None:
    program = ROOT / "examples" / "listing.py"
    for path in sorted((ROOT / "examples").glob("*.records")):
        expected = path.with_suffix(".listing").read_bytes()
        refused = expected.startswith(b"X ")
        said = table()[int(expected[2:])] + "\n" if refused else ""
        for run in (python([program, path], SHARED), python([program], SHARED, path.read_bytes())):
            equal((run.stdout, run.stderr.decode(), run.returncode), (expected, said, int(refused)))
    equal(python([program, "one", "two"], SHARED).returncode, 2)


def checks() -> Iterator[tuple[str, Check]]:
    for name, records, expected in vectors():
        yield f"vector {name}", lambda records=records, expected=expected: vector(records, expected)
    yield "words of every number", words
    yield "a refusal pickled", pickled
    yield "empty records", empty
    yield "close alone", close_alone
    for kind in (bytearray, memoryview, lambda records: array.array("B", records)):
        yield "bytes-like records", lambda kind=kind: bytes_like(kind)
    yield "records of a wrong type", wrong_types
    yield "bytes after close", after_close
    yield f"{THREADS} threads at once", threads
    yield "a missing library", missing_library
    yield "a library without the function", no_function
    yield "places of the library", places
    yield "examples/listing.py", example


def passes(name: str, check: Check) -> bool:
    try:
        check()
    except Exception as error:
        print(f"binding: {name}: {type(error).__name__}: {error}")
        return False
    return True


def build(library: Path) -> None:
    OUT.mkdir(parents=True, exist_ok=True)
    SHARED.unlink(missing_ok=True)
    subprocess.run([ROOT / "bindings" / "python" / "build", library, SHARED], check=True)


def main() -> int:
    parser = argparse.ArgumentParser()
    parser.add_argument("--library", type=Path, required=True)
    library = parser.parse_args().library
    os.environ["GRISTPEBBLE_LIBRARY"] = str(SHARED)
    results = [passes("bindings/python/build", lambda: build(library))]
    results += [passes(name, check) for name, check in checks()]
    print(f"binding: {results.count(True)} passed, {results.count(False)} failed")
    return int(False in results)


if __name__ == "__main__":
    sys.exit(main())
