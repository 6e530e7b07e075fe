"""Instruction profiling for one thermal unit over a Trading Day: a binding of the library.

`bindings/python/build` makes the shared library. It is loaded at the first call of `listing`: the one that GRISTPEBBLE_LIBRARY
names, else libgristpebble.so beside this file, else the one in target/staticlib of the repository.
"""

import ctypes
import os
from collections.abc import Callable, Mapping
from functools import cache
from pathlib import Path
from types import MappingProxyType

__all__ = ["LISTING_BYTES", "WORDS", "Refusal", "listing"]

_HERE = Path(__file__).resolve().parent
_NAME = "libgristpebble.so"

# This many bytes suffice for the listing of any day.
LISTING_BYTES = 46_080


def _read_words() -> Mapping[int, str]:
    """The table of refusals: of the repository, or a copy beside this file."""
    beside = _HERE / "refusals.txt"
    table = beside if beside.exists() else _HERE.parent / "refusals.txt"
    lines = (line.split(" ", 1) for line in table.read_text(encoding="utf-8").splitlines())
    return MappingProxyType({int(number): words for number, words in lines})


# Every refusal by its number, as document 01 has it: 1 to 9 from the input, 20 to 27 from the state of the day.
WORDS = _read_words()


class Refusal(Exception):
    """The first refusal: its `number`, and what it means in `words`."""

    def __init__(self, number: int) -> None:
        super().__init__(number)
        self.number = number
        self.words = WORDS.get(number, "unknown")

    def __str__(self) -> str:
        return f"refusal {self.number}: {self.words}"


def _library() -> Path:
    """Where the shared library is."""
    named = os.environ.get("GRISTPEBBLE_LIBRARY")
    places = [Path(named).absolute()] if named else [_HERE / _NAME, _HERE.parents[1] / "target" / "staticlib" / _NAME]
    for place in places:
        if place.exists():
            static = place.with_suffix(".a")
            if static.exists() and static.stat().st_mtime > place.stat().st_mtime:
                raise OSError(f"{place} is older than {static.name} beside it; bindings/python/build makes it anew")
            return place
    raise FileNotFoundError(f"no library at {' or '.join(map(str, places))}; bindings/python/build makes it")


@cache
def _function() -> Callable[[bytes, int, ctypes.Array, int], int]:
    """The C function of include/gristpebble.h."""
    path = _library()
    try:
        function = ctypes.CDLL(str(path)).gristpebble_listing
    except AttributeError:
        raise OSError(f"{path} has no function gristpebble_listing") from None
    function.argtypes = [ctypes.c_char_p, ctypes.c_size_t, ctypes.POINTER(ctypes.c_char), ctypes.c_size_t]
    function.restype = ctypes.c_uint64
    return function


def listing(records: bytes | bytearray | memoryview) -> bytes:
    """The listing of the day that these records make; raises `Refusal` at the first refusal.

    Bytes after close are not looked at. Several threads may call it at once.
    """
    # Both are this call's own and never null: a copy of the records, and the buffer lent to the library.
    taken = memoryview(records).tobytes()
    out = ctypes.create_string_buffer(LISTING_BYTES)
    result = _function()(taken, len(taken), out, LISTING_BYTES)
    if number := result >> 32:
        raise Refusal(number)
    return out[:result]
