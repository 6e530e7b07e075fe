"""Fates, the rules behind them, and refusals, in words."""

from decimal import Decimal

from desk.audit import carried
from desk.fields import HEATS, KINDS, Code, acting
from desk.measures import GRAINS_IN_KW, plain

FATES = {
    0: "acts",
    1: "superseded",
    2: "merged or outranked",
    3: "repeated",
    4: "voided by FAIL",
    5: "FAIL",
    6: "overtaken",
    7: "no effect",
    8: "after the day's end",
}
HAS_ACTING = (0, 6, 7, 8)  # the fates of those that step 3 left, which have an acting time


def mw(kw):
    """A level of whole kW in MW."""
    return f"{plain(Decimal(kw) / 1000)} MW"


def order(instruction):
    """An instruction in short: its code, with its level if it is an MWOF."""
    name = code_name(instruction["code"])
    return f"{name} {mw(instruction['level'])}" if name == "MWOF" else name


def code_name(code):
    """A code's name; its number if it has none."""
    return Code(code).name if code in list(Code) else f"code {code}"


def together(instructions, fates, place):
    """Places of the instructions for the same effective time that step 1 left."""
    same = instructions[place]["effective"]
    return [i for i, one in enumerate(instructions) if one["effective"] == same and fates[i] != 1]


def rule(instructions, listing, place, unit):
    """The rule behind an instruction's fate, in a sentence."""
    fates, one = listing.fates, instructions[place]
    fate = fates[place]
    if fate == 0:
        return effect(one, carried(one, instructions), unit)
    if fate == 7:
        return without_effect(one, at_0(listing, acting(one)))
    return SENTENCES[fate](instructions, fates, place) if fate in SENTENCES else f"Fate {fate}."


def effect(instruction, mwof, unit):
    """What an instruction that acts sets going (Table 7), with the MWOF that it is or carries."""
    name = code_name(instruction["code"])
    level = mwof["level"] if mwof else 0
    beside = f", with the level of the MWOF beside it ({mw(level)})" if mwof else ""
    if name == "MWOF":
        cut = ", which is its capacity" if level > unit["capacity"] else ""
        return f"Goes to {mw(min(level, unit['capacity']))}{cut}."
    if name == "SYNC":
        target = min(max(level, unit["msg"]), unit["capacity"])
        return f"Synchronises and goes to {mw(target)}: the larger of its level and Minimum Stable Generation, at most capacity{beside}."
    return {
        "DESY": f"Goes down to 0 and desynchronises{', with the rates of the MWOF beside it' if mwof else ''}.",
        "TRIP": "Is at 0 from this second on.",
        "MXON": f"Goes to the short-term maximum, {mw(unit['maximum'])}; maximised from here on.",
        "MXOF": "Ends maximisation: back to the target of the last MWOF or SYNC that acted, or the opening's.",
    }[name]


def at_0(listing, second):
    """Whether the level just before a second is 0."""
    before = next((segment for segment in listing.segments if segment[0] < second <= segment[1]), listing.segments[0])
    return before[2] == before[3] == 0 or (second == before[1] and before[3] == 0)


def without_effect(instruction, at_0):
    """Why an instruction changes nothing as the unit stands (Table 7)."""
    return {
        "TRIP": "The unit is at 0 already.",
        "MWOF": "The unit is at 0, and 0 is asked for.",
        "MXON": "The unit is at 0." if at_0 else "The unit is maximised already.",
        "SYNC": "The unit is above 0, so it is synchronised already.",
        "MXOF": "The unit is not maximised.",
        "DESY": "The unit is at 0 already.",
    }.get(code_name(instruction["code"]), "It changes nothing as the unit stands.")


def superseded(instructions, fates, place):
    # Those that step 1 left all have the latest issue time.
    latest = next(iter(together(instructions, fates, place)), None)
    which = f"instruction {latest + 1} ({order(instructions[latest])})" if latest is not None else "another one"
    return f"For the same effective time {which} was issued later (P.12)."


def outranked(instructions, fates, place):
    used = next((i for i in together(instructions, fates, place) if fates[i] != 2), None)
    if used is None:
        return "Another instruction of this effective time and issue time is used."
    mine, theirs = instructions[place], instructions[used]
    return f"Instruction {used + 1} ({order(theirs)}) of the same times is used{preferred(mine, theirs, instructions)}."


def preferred(mine, theirs, instructions):
    """Why one instruction is used and not another of the same times."""
    if mine["code"] == theirs["code"] and mine["level"] == theirs["level"]:
        return ": it was entered earlier"
    if mine["code"] == theirs["code"]:
        return ": its level is larger"
    best = carried(theirs, instructions)
    if best is None or best is theirs:
        return ": it ranks higher"
    if best is mine:
        return ", with the rates of this one" if theirs["code"] == Code.DESY else ", with the level and the rates of this one"
    which = f"the MWOF that it carries ({mw(best['level'])})"
    if mine["code"] != Code.MWOF:
        return f": {which} ranks higher"
    return f": {which} {'was entered earlier' if best['level'] == mine['level'] else 'has the larger level'}"


def repeated(instructions, fates, place):
    return f"The last one kept before it is {code_name(instructions[place]['code'])} too."


def voided(instructions, fates, place):
    return "A FAIL came at most 3,600 s after the latest SYNC kept: that SYNC and all kept after it are void."


def failed(instructions, fates, place):
    return "A FAIL sets no course going; it voids a SYNC of at most 3,600 s before it and all kept after that."


def overtaken(instructions, fates, place):
    mine = instructions[place]
    later = (i for i, one in enumerate(instructions) if fates[i] in HAS_ACTING and one["effective"] > mine["effective"])
    by = next((i for i in later if acting(instructions[i]) <= acting(mine)), None)
    which = f"Instruction {by + 1} ({order(instructions[by])})" if by is not None else "A later one"
    return f"{which} has a later effective time and acts no later than this one."


def too_late(instructions, fates, place):
    return "It would act at the day's end or after it."


SENTENCES = {1: superseded, 2: outranked, 3: repeated, 4: voided, 5: failed, 6: overtaken, 8: too_late}


def refused(refusal, clock):
    """A refusal in words: its number, the reason, and which record it was."""
    return f"refusal {refusal.number}, {refusal.words}: {which(refusal, clock)}"


def which(refusal, clock):
    """Which record was refused."""
    record, place = refusal.record, f"record {refusal.place}"
    if record is None and not refusal.bytes:
        return f"{place} is missing, the day is not closed"
    if record is None and refusal.bytes[0] in KINDS:
        return f"{place}, {a(KINDS[refusal.bytes[0]].name)} cut short after {len(refusal.bytes)} bytes"
    if record is None:
        return f"{place}, of kind {refusal.bytes[0]}"
    if record.kind == "instruction":
        return f"{place}, an instruction ({order(record.value)}, effective {clock.text(record.value['effective'])})"
    return f"{place}, {a(record.kind)}"


def a(name):
    return name if name == "close" else f"{'an' if name[0] in 'aeio' else 'a'} {name}"


def closing(state):
    """The closing state in a sentence."""
    off = f", off for {state.off:,} s" if state.level == 0 else ""
    level = plain(round(Decimal(state.level) / GRAINS_IN_KW / 1000, 6))
    return f"At the day's end {level} MW, target {mw(state.target)}, {HEATS[state.heat - 1]}{off}."


def faults(audit):
    """What the audit found wrong, in words: nothing, by the proof."""
    rows = [(row, f"off by {float(row.difference)} kW, allowed {float(row.allowed)}") for row in audit.faults]
    return [f"half-hours {row.first} to {row.last}: {said}" for row, said in rows] + audit.speed_faults + audit.sum_faults
