"""Records as bytes, and what they say.

A record is one byte of kind, then a body whose length the kind fixes. Its value is a dictionary by the keys of `fields`, numbers
as the record has them: kW, kW a minute, minutes, seconds, the opening's level in grains.
"""

from dataclasses import dataclass

from desk.fields import KINDS, NUMBERS, TRIGGER, Table, Triggers


MOST = 100


@dataclass(frozen=True)
class Record:
    """A record that stands whole in the bytes: where, its kind, what it says."""

    start: int
    kind: str
    value: dict


def leaves(fields):
    """The fields of a body one by one, in its order: path of keys and places, and the field."""
    for entry in fields:
        if isinstance(entry, Table) and entry.names:
            for name in entry.names:
                yield from (((entry.key, name, *path), leaf) for path, leaf in leaves(entry.fields))
        elif isinstance(entry, Table):
            yield from (((entry.key, *path), leaf) for path, leaf in leaves(entry.fields))
        elif isinstance(entry, Triggers):
            for leaf in TRIGGER:
                yield from (((entry.key, place, leaf.key), leaf) for place in range(entry.count))
        elif entry.count is None:
            yield (entry.key,), entry
        else:
            yield from (((entry.key, place), entry) for place in range(entry.count))


def blank(fields):
    """A value of these fields, every figure 0."""
    value = {}
    for entry in fields:
        if isinstance(entry, Table) and entry.names:
            value[entry.key] = {name: blank(entry.fields) for name in entry.names}
        elif isinstance(entry, Table):
            value[entry.key] = blank(entry.fields)
        elif isinstance(entry, Triggers):
            value[entry.key] = [blank(TRIGGER) for _ in range(entry.count)]
        else:
            value[entry.key] = 0 if entry.count is None else [0] * entry.count
    return value


def length(kind: int) -> int:
    """Bytes of a record of this kind, with the byte of its kind."""
    return 1 + sum(leaf.width for _, leaf in leaves(KINDS[kind].fields))


def numbers(kind: str, value: dict) -> list[int]:
    """The figures of a value, in the record's order."""
    found = []
    for path, _ in leaves(KINDS[NUMBERS[kind]].fields):
        here = value
        for step in path:
            here = here[step]
        found.append(here)
    return found


def encode(kind: str, value: dict) -> bytes:
    """A record's bytes."""
    number = NUMBERS[kind]
    out = bytearray([number])
    for figure, (_, leaf) in zip(numbers(kind, value), leaves(KINDS[number].fields), strict=True):
        out += figure.to_bytes(leaf.width, "big", signed=leaf.signed)
    return bytes(out)


def decode(data: bytes, start: int) -> Record | None:
    """The record that begins at a place; None if its kind is unknown or the bytes are too few."""
    kind = data[start] if start < len(data) else None
    if kind not in KINDS or len(data) < start + length(kind):
        return None
    value, at = blank(KINDS[kind].fields), start + 1
    for path, leaf in leaves(KINDS[kind].fields):
        here = value
        for step in path[:-1]:
            here = here[step]
        here[path[-1]] = int.from_bytes(data[at : at + leaf.width], "big", signed=leaf.signed)
        at += leaf.width
    return Record(start, KINDS[kind].name, value)


def split(data: bytes) -> list[Record]:
    """The records that stand whole one after the other, up to close, or to one that is unknown or cut short. Far fewer than
    MOST are let in, so no more are looked for."""
    found, at = [], 0
    while len(found) < MOST and (record := decode(data, at)):
        found.append(record)
        at += length(NUMBERS[record.kind])
        if record.kind == "close":
            break
    return found


def end(record: Record) -> int:
    """The place after a record."""
    return record.start + length(NUMBERS[record.kind])
