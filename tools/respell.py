#!/usr/bin/env python3
"""Brings the names of the repository's own definitions and lemmas to the spelling of today's Rattle, after port.py: words in snake case.

    respell.py [ROOT]

It goes by text: the names that specs/ and proofs/ declare, wherever they stand as a whole word in specs/, proofs/, contracts, must-fail edits,
and between backticks in comments and documents. Names of src/ keep their spelling, and so do names that Rattle makes.
"""
import pathlib
import re
import sys

ROOT = pathlib.Path(sys.argv[1] if len(sys.argv) > 1 else pathlib.Path(__file__).resolve().parents[1])
CRATES = ROOT / "crates"
DECLARED = re.compile(
    r"\s*(?:unfoldable |abbrev )?(?:pub )?(?:unfoldable |abbrev )?(?:pub )?([a-z][^\s:{}()]*)\s+(?:[({].*[)}] )*:(?:\s|$)")
NOT_DECLARED = ("let ", "use ", "module ", "record ", "where ")

# Two names that would become one: the lemma gets `_lem`.
APART = {
    "half-hours": "half_hours_lem", "words-of": "words_of_lem", "all_digits": "all_digits_lem", "all-digits": "all_digits_lem",
    "is-decimal": "is_decimal_lem", "printed-kw": "printed_kw_lem", "close-taken": "close_taken_lem", "unit-ranges": "unit_ranges_lem",
    "unit-answer": "unit_answer_lem", "opening-answer": "opening_answer_lem", "instruction-answer": "instruction_answer_lem",
    "taken-with": "taken_with_lem", "last-of": "last_of_lem", "goes_on": "goes_on_lem", "goes-on": "goes_on_lem",
    "after-rest": "after_rest_lem", "rest-run": "rest_run_lem", "first_one": "first_one_lem", "first-one": "first_one_lem",
    "or-else": "or_else_lem", "check-one": "check_one_lem", "opening-read": "opening_read_lem",
    "instruction-read": "instruction_read_lem", "unit-read": "unit_read_lem", "next-stop": "next_stop_lem",
    "step_from": "step_from_lem", "step-from": "step_from_lem", "time-at": "time_at_lem",
}
CAMEL = re.compile(r"[a-z0-9][A-Z]")


def snake(name):
    if name in APART:
        return APART[name]
    name = name.replace("getD", "get_or")
    name = re.sub(r"([a-z0-9])([A-Z])", r"\1_\2", name)
    name = re.sub(r"([A-Z])([A-Z][a-z])", r"\1_\2", name)
    return name.lower().replace("-", "_")


def declared():
    names = set()
    for path in [*CRATES.glob("*/specs/*.antt"), *CRATES.glob("*/proofs/*.antt")]:
        for line in path.read_text().splitlines():
            found = DECLARED.match(line)
            if found and not line.lstrip().startswith(NOT_DECLARED):
                names.add(found[1])
    return names


# Names of fields and functions in src/, which stay.
def kept():
    names = set()
    for path in CRATES.glob("*/src/*.rt"):
        text = re.sub(r"//.*", "", path.read_text())
        text = re.sub(r"ghost use [^;]*;", "", text)
        text = re.sub(r"^\s+(requires|ensures)\b.*$", "", text, flags=re.M)
        names |= set(re.findall(r"[A-Za-z_]\w*", text))
    return names


KEPT = kept()
NAMES = {n: snake(n) for n in declared() - KEPT if snake(n) != n and (CAMEL.search(n) or "-" in n or n in APART)}
WORD = re.compile(r"[^\s(){}\[\].,;:`\"]+")
TICKED = re.compile(r"`[^`]*`")


def words(text):
    return WORD.sub(lambda m: NAMES.get(m[0], m[0]), text)


def ticked(text):
    return TICKED.sub(lambda m: words(m[0]), text)


# A line in which a comment may follow the code.
def line_of(text, mark):
    code, sep, comment = text.partition(mark)
    return words(code) + sep + ticked(comment) if sep else words(code)


def antt(text):
    return "\n".join(ticked(l) if l.lstrip().startswith("--") else line_of(l, " -- ") for l in text.split("\n"))


# The proof of the function f is `f_spec`.
def proof(text):
    return re.sub(r"\b[a-z]\w*(?:-\w+)*-spec\b", lambda m: m[0].replace("-", "_"), antt(text))


# Contracts and imports of a source; its code stays.
def source(text):
    out, ghost = [], False
    for line in text.split("\n"):
        bare = line.strip()
        if bare.startswith("ghost use"):
            ghost = True
        if ghost or re.match(r"(requires|ensures)\b", bare):
            out.append(words(line))
        else:
            out.append(ticked(line) if bare.startswith("//") else line)
        if ghost and bare.endswith(";"):
            ghost = False
    return "\n".join(out)


# An edit's texts, in spelling alone: names in snake case, projections tight.
def projection(m):
    if re.search(r" [-+*/<≤∷] ", m[1]):
        return f"({m[1]}.{m[2]})"
    return f"{m[1]}.{m[2]}" if " " not in m[1] else f"({m[1]}).{m[2]}"


def edit(text):
    if "file: specs/" not in text and "file: proofs/" not in text:
        return text
    out = []
    for line in text.split("\n"):
        if line.startswith(("old:", "new:")):
            line = WORD.sub(lambda m: snake(m[0]) if CAMEL.search(m[0]) and m[0][0].islower() and m[0] not in KEPT else m[0], line)
            line = re.sub(r"\(([^()]*) \.(\w+)\)", projection, line)
        out.append(line)
    return "\n".join(out)


def rewrite(paths, turn):
    for path in paths:
        old = path.read_text()
        new = turn(old)
        if new != old:
            path.write_text(new)


rewrite([*CRATES.glob("*/specs/**/*.antt"), *CRATES.glob("*/proofs/*.antt")], antt)
rewrite(CRATES.glob("*/proofs/*/**/*.antt"), proof)
rewrite(CRATES.glob("*/src/*.rt"), source)
rewrite(CRATES.glob("*/must-fail/*.edit"), edit)
rewrite([ROOT / "README.md", *(ROOT / "docs").glob("*.md"), *(ROOT / "include").glob("*.h"), ROOT / "tests" / "README.md"], ticked)
print(f"{len(NAMES)} names")
