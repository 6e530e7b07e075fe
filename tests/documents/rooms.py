#!/usr/bin/env python3
"""What must be believed stands apart from what is only worked with.

- Every file of specs/ says in its first line which it is: `-- Believed: document 01, SECTION.` or `-- Working.`
- A believed file stands in a crate without `_`, and uses no working one.
- No file of specs/ and no contract cites a file of proofs/; the contracts of the public calls cite believed definitions alone.
- Each claim has a file of at most 60 lines.
- README, "Where to read", lists the believed files, every one of them once, with its lines (blank and `use` lines aside) and their sum.

    rooms.py [ROOT] [--list]     --list prints the table for the README, in its order
"""
import pathlib
import re
import sys

WORDS = [a for a in sys.argv[1:] if not a.startswith("--")]
ROOT = pathlib.Path(WORDS[0] if WORDS else pathlib.Path(__file__).resolve().parents[2])
CRATES = ROOT / "crates"
OURS = {path.name for path in CRATES.iterdir()}
# What a reader can be asked to believe. A request that adds definitions may have to raise it, and then says so in docs/CHANGES.md.
MOST = 1600
# A claim is to be read at one sitting, in a file of its own.
CLAIMS = {"Demand1", "Demand2", "Demand3", "Demand3Whole", "Exported"}
CLAIM_LINES = 60
# The calls of the library and of the programs: what they promise rests on believed definitions alone.
CALLS = {"day_step": ["step"], "day_take": ["take", "take_front"], "listing_print": ["list"], "gristpebble": ["listing", "gristpebble_listing"],
         "gristpebble_c": ["gristpebble_listing"], "listing_program": ["print"], "day_close": ["find"]}
USE = re.compile(r"^\s*(?:ghost )?use Rattle\.(\w+)\.(specs|proofs)\.([\w.-]+?)(?:\.\{([^}]*)\})?;?$")

passed, failures = 0, []


def expect(holds, message):
    global passed
    if holds:
        passed += 1
    else:
        failures.append(message)


def short(path):
    return str(path.relative_to(CRATES))


def kind_of(path):
    first = path.read_text().split("\n", 1)[0]
    if re.match(r"-- Believed: document 01, \S", first):
        return "believed"
    return "working" if first.startswith("-- Working. ") else None


def uses(path):
    """The crates and modules that a file's `use` lines name: (crate, folder, module, names)."""
    for line in path.read_text().split("\n"):
        m = USE.match(line)
        if m and m[1] in OURS:
            yield m[1], m[2], m[3], [n.strip() for n in (m[4] or "").split(",")]


def lines_of(path):
    return sum(1 for line in path.read_text().split("\n") if line.strip() and not line.startswith("use "))


specs = sorted(p for p in CRATES.glob("*/specs/*.antt") if p.name != "Lib.antt")
kinds = {p: kind_of(p) for p in specs}
for path, kind in kinds.items():
    expect(kind, f"{short(path)}: the first line says neither `-- Believed: document 01, SECTION.` nor `-- Working.`")
    if kind == "believed":
        expect("_" not in path.relative_to(CRATES).parts[0], f"{short(path)}: believed, in a crate that holds code")
    for crate, folder, module, _ in uses(path):
        expect(folder == "specs", f"{short(path)}: cites {crate}/proofs/{module}")
        if kind == "believed" and folder == "specs" and not module.startswith("declared"):
            used = CRATES / crate / "specs" / f"{module}.antt"
            expect(kinds.get(used) == "believed", f"{short(path)}: believed, and uses {crate}/specs/{module}, which is not")

for path in sorted(CRATES.glob("*/src/*.rt")):
    for crate, folder, module, _ in uses(path):
        expect(folder == "specs", f"{short(path)}: a contract cites {crate}/proofs/{module}")

for crate, functions in CALLS.items():
    path = CRATES / crate / "src" / "lib.rt"
    text = path.read_text()
    home = {n: (c, m) for c, _, m, ns in uses(path) for n in ns}
    for function in functions:
        m = re.search(rf"pub (?:extern \"C\" )?fn {function}\b.*?\n\{{", text, re.S)
        expect(m, f"{short(path)}: no public function {function}")
        clauses = re.findall(r"ensures (?:\w+ )?\{(.*)\}", m[0]) if m else []
        expect(clauses, f"{short(path)}: {function} has no ensures")
        for name in re.findall(r"[\w·-]+", " ".join(clauses)):
            if name in home and not home[name][1].startswith("declared"):
                c, module = home[name]
                expect(kinds.get(CRATES / c / "specs" / f"{module}.antt") == "believed", f"{short(path)}: the contract of {function} cites {name}, which is not believed")

believed = [p for p, k in kinds.items() if k == "believed"]
total = sum(map(lines_of, believed))
for claim in sorted(CLAIMS):
    path = CRATES / "claims" / "specs" / f"{claim}.antt"
    expect(kinds.get(path) == "believed" and lines_of(path) <= CLAIM_LINES, f"{short(path)}: no claim of at most {CLAIM_LINES} lines")
expect(total < MOST, f"what must be believed has {total} lines, {MOST} or more")
section = re.search(r"^## Where to read\n(.*?)^## ", (ROOT / "README.md").read_text(), re.S | re.M)
rows = re.findall(r"^\| `crates/([\w/]+\.antt)` \|.*\| (\d+) \|$", section[1] if section else "", re.M)
expect(sorted(f for f, _ in rows) == sorted(map(short, believed)), "README, Where to read: not the list of believed files: "
       + ", ".join(sorted(set(f for f, _ in rows) ^ set(map(short, believed)))))
for file, lines in rows:
    path = CRATES / file
    expect(path.exists() and int(lines) == lines_of(path), f"README, Where to read: {file} has {lines_of(path) if path.exists() else 'no'} lines")
expect(section and f"{total:,} lines" in section[1], f"README, Where to read: the sum, {total:,} lines, is not there")

if "--list" in sys.argv:
    for path in believed:
        section = re.match(r"-- Believed: document 01, (.*?)\.(?: |$)", path.read_text().split("\n", 1)[0])[1]
        print(f"| `crates/{short(path)}` | {section} | {lines_of(path)} |")
    print(total)
for failure in failures:
    print(failure)
print(f"rooms: {passed} passed, {len(failures)} failed")
sys.exit(1 if failures else 0)
