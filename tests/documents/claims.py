#!/usr/bin/env python3
"""Every name in backquotes of docs/CLAIMS.md stands in the sources, and in a file that its row names.

A name is a definition, a theorem, a record or a field of one (`Made.stored`), a function (`day_step::step`), a type or a field of one, a
constant, an edit that must be refused, a crate, or a file; anything that is no single name stands in a source word for word. A row's last column lists files as `crate/folder/Module`; each name of the row that is defined
in the crates must be defined in one of them.

    claims.py [ROOT]
"""
import collections
import pathlib
import re
import sys

ROOT = pathlib.Path(sys.argv[1] if len(sys.argv) > 1 else pathlib.Path(__file__).resolve().parents[2])
CRATES = ROOT / "crates"

homes = collections.defaultdict(set)  # name -> the files that define it, as crate/folder/Module


def module_of(path):
    rel = path.relative_to(CRATES).with_suffix("")
    return "/".join(rel.parts)


for path in sorted(CRATES.rglob("*.antt")):
    if {"must-fail", "out"} & set(path.relative_to(CRATES).parts):
        continue
    home, record = module_of(path), None
    for line in path.read_text().split("\n"):
        m = re.match(r"(\s*)(?:unfoldable |abbrev )*(?:pub )?(record |data )?([^\s:(){}]+)(?: [({].*?)? :(?: |$)", line)
        if not m or m[3] in ("let", "where", "use"):
            continue
        homes[m[3]].add(home)
        if m[2]:
            record = m[3] if m[2] == "record " else None
        elif record and m[1]:
            homes[f"{record}.{m[3]}"].add(home)
        elif not m[1]:
            record = None
for path in sorted(CRATES.glob("*/src/*.rt")):
    crate, home = path.relative_to(CRATES).parts[0], module_of(path)
    for name in re.findall(r"^\s*(?:pub )?(?:extern \"C\" )?(?:fn|struct|enum|const) (\w+)", path.read_text(), re.M):
        homes[name].add(home)
        homes[f"{crate}::{name}"].add(home)
    for field in re.findall(r"^    pub (\w+):", path.read_text(), re.M):
        homes[field].add(home)
    for variant in re.findall(r"^    ([A-Z]\w+)(?:\(\w+\))?,$", path.read_text(), re.M):
        homes[variant].add(home)
for path in sorted(CRATES.glob("*/must-fail/*.edit")):
    homes[path.stem].add(f"{path.relative_to(CRATES).parts[0]}/must-fail")
crates = {p.name for p in CRATES.iterdir()}

passed, failures = 0, []


def expect(holds, message):
    global passed
    if holds:
        passed += 1
    else:
        failures.append(f"docs/CLAIMS.md: {message}")


everything = "\n".join(p.read_text() for p in sorted(CRATES.rglob("*")) if p.suffix in (".rt", ".antt") and "out" not in p.relative_to(CRATES).parts)


def known(name):
    if re.fullmatch(r"[\w.:/·-]+", name) and not re.fullmatch(r"requires|ensures|Level::\w+", name):
        return name in homes or name in crates or (ROOT / name).exists() or any((CRATES / f"{name}{s}").exists() for s in ("", ".antt", ".rt"))
    return name in everything


for number, line in enumerate((ROOT / "docs" / "CLAIMS.md").read_text().split("\n"), 1):
    names = re.findall(r"`([^`]+)`", line)
    cells = [c.strip() for c in line.strip("|").split("|")] if line.startswith("|") else []
    files = {f.strip() for f in cells[-1].split(",")} if len(cells) == 4 and "/" in cells[-1] and not cells[-1].startswith("every ") else None
    for name in names:
        bare = re.sub(r"(<.*>|\(.*\)|!)$", "", name)
        expect(known(bare), f"line {number}: `{name}` is not in the sources")
        if files and bare in homes:
            expect(homes[bare] & files, f"line {number}: `{name}` is defined in {', '.join(sorted(homes[bare]))}, which the row does not name")
    for file in files or ():
        expect((CRATES / f"{file}.antt").exists() or (CRATES / f"{file}.rt").exists() or (CRATES / file).is_dir(), f"line {number}: there is no {file}")

for failure in failures:
    print(failure)
print(f"claims: {passed} passed, {len(failures)} failed")
sys.exit(1 if failures else 0)
