"""A day as the desk holds it: what was typed or read, before the program has seen it."""

from dataclasses import dataclass, field, replace

from desk import records
from desk.clock import Clock


@dataclass
class Day:
    """One unit and one Trading Day.

    `after` says how many instructions were entered before the opening. `rest` has bytes that follow the records as they are, in
    place of close: what a customer sent and no sheet can say.
    """

    name: str
    clock: Clock
    unit: dict | None = None
    unit_name: str = ""
    opening: dict | None = None
    after: int = 0
    instructions: list[dict] = field(default_factory=list)
    rest: bytes | None = None

    def records(self) -> bytes:
        """The records, one after the other, as the program takes them."""
        entered = [records.encode("instruction", value) for value in self.instructions]
        parts = [records.encode("unit", self.unit)] if self.unit is not None else []
        parts += entered[: self.after]
        parts += [records.encode("opening", self.opening)] if self.opening is not None else []
        parts += entered[self.after :]
        parts.append(records.encode("close", {}) if self.rest is None else self.rest)
        return b"".join(parts)


def of_bytes(day: Day, data: bytes, let_in: int) -> Day:
    """A day with what its bytes say, of which the first `let_in` records were let in."""
    found = replace(day, unit=None, opening=None, after=0, instructions=[])
    end, closed = 0, False
    for record in records.split(data)[:let_in]:
        if record.kind == "close":
            closed = True
            break
        end = records.end(record)
        if record.kind == "unit":
            found.unit = record.value
        elif record.kind == "opening":
            found.opening, found.after = record.value, len(found.instructions)
        else:
            found.instructions.append(record.value)
    found.rest = None if closed and len(data) == end + 1 else data[end:]
    return found
