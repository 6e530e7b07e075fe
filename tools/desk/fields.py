"""What the body of each kind of record holds, field by field, in the record's order.

One description serves every module: bytes, sheets and reports go by it. Keys are those of the program's structs. A new kind of
record is one more entry of KINDS.
"""

from dataclasses import dataclass
from enum import IntEnum

from desk import measures


class Code(IntEnum):
    """The codes, by their numbers in a record."""

    TRIP = 1
    MWOF = 2
    MXON = 3
    SYNC = 4
    MXOF = 5
    DESY = 6
    FAIL = 7


CODES = tuple(Code.__members__)
HEATS = ("hot", "warm", "cold")
LAG = {Code.MWOF: 120, Code.MXON: 120, Code.MXOF: 120, Code.DESY: 120}  # seconds (P.11.9)


def acting(instruction):
    """The second at which an instruction acts if it is kept."""
    return instruction["effective"] + LAG.get(instruction["code"], 0)


@dataclass(frozen=True)
class Field:
    """A figure, or a list of `count` figures; `width` bytes each."""

    key: str
    measure: measures.Measure
    count: int | None = None
    width: int = 4
    signed: bool = False


@dataclass(frozen=True)
class Table:
    """Fields together: one table or, with names, one table for each name in turn."""

    key: str
    fields: tuple
    names: tuple[str, ...] = ()


@dataclass(frozen=True)
class Triggers:
    """A list of `count` soak or dwell triggers; in the record all levels come first, then all minutes."""

    key: str
    count: int


TRIGGER = (Field("level", measures.LEVEL), Field("minutes", measures.MINUTES))


def ramp(rates, breaks):
    return (Field("rates", measures.RATE, rates), Field("breaks", measures.LEVEL, breaks))


COLUMN = (Field("block", measures.LEVEL), *ramp(3, 2), Triggers("soaks", 2))

UNIT = (
    Field("capacity", measures.LEVEL),
    Field("maximum", measures.LEVEL),
    Field("msg", measures.LEVEL),
    Field("hot", measures.MINUTES),
    Field("warm", measures.MINUTES),
    Table("columns", COLUMN, HEATS),
    Table("up", ramp(5, 4)),
    Triggers("dwells", 3),
    Table("down", ramp(5, 4)),
    Table("deload", ramp(2, 1)),
)

OPENING = (
    Field("level", measures.GRAINS),
    Field("target", measures.LEVEL),
    Field("heat", measures.Named("heat", HEATS)),
    Field("off", measures.SECONDS),
)

INSTRUCTION = (
    Field("effective", measures.EFFECTIVE),
    Field("issue", measures.ISSUE, signed=True),
    Field("code", measures.Named("code", CODES), width=1),
    Field("level", measures.LEVEL),
    Field("up", measures.RATE),
    Field("down", measures.RATE),
)


@dataclass(frozen=True)
class Kind:
    name: str
    fields: tuple


KINDS = {1: Kind("unit", UNIT), 2: Kind("opening", OPENING), 3: Kind("instruction", INSTRUCTION), 4: Kind("close", ())}
NUMBERS = {kind.name: number for number, kind in KINDS.items()}
