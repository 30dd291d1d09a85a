#!/usr/bin/env python3
"""Counts the places that a design pass looks at, in crates/*/src: tools/places.py [--list]. What it finds are candidates: docs/DESIGN-PASS.md says what became of them."""
import collections
import pathlib
import re
import subprocess
import sys
import tempfile

ROOT = pathlib.Path(__file__).resolve().parent.parent
FILES = sorted((ROOT / "crates").glob("*/src/**/*.rt"))


def lines(pattern):
    """The lines of all sources that a pattern finds."""
    return [
        f"{path.relative_to(ROOT)}:{number}: {line.strip()}"
        for path in FILES
        for number, line in enumerate(path.read_text().splitlines(), 1)
        if re.search(pattern, line) and not line.strip().startswith("//")
    ]


def functions():
    """Each function: its file, name and parameters."""
    for path in FILES:
        for found in re.finditer(r"fn (\w+)(?:<[^(]*>)?\(([^)]*)\)", path.read_text()):
            parameters = [p for p in found[2].split(",") if p.strip()]
            yield f"{path.relative_to(ROOT)}: {found[1]}", found[1], parameters


def constants():
    """Constants that stand in more than one file with the same value."""
    places = collections.defaultdict(list)
    for line in lines(r"^(pub )?const \w+: \w+ ="):
        value = re.search(r"const \w+: (\w+ = .*);", line)
        if value:
            places[value[1]].append(line)
    return [line for found in places.values() if len(found) > 1 for line in found]


def repeated_facts():
    """Facts that three functions or more require."""
    facts = collections.Counter()
    for path in FILES:
        for found in re.finditer(r"requires [a-z_]* ?\{(.*)\}$", path.read_text(), re.M):
            facts[found[1].strip()] += 1
    return [f"{count} times: {fact}" for fact, count in facts.most_common() if count >= 3]


def twins():
    """Pairs of places with six or more lines in common or of the same shape, as the command `duplicates` finds them in copies named .rs."""
    with tempfile.TemporaryDirectory() as folder:
        for path in FILES:
            copy = pathlib.Path(folder) / path.relative_to(ROOT).with_suffix(".rs")
            copy.parent.mkdir(parents=True, exist_ok=True)
            copy.write_text(path.read_text())
        call = ["duplicates", "--repo", folder, "--most", "200", "--seconds", "60"]
        said = subprocess.run(call, capture_output=True, text=True, check=True)
    return [line for line in said.stdout.splitlines() if re.match(r"D\d+ ", line)]


POINTS = [
    ("1 own enums", lambda: lines(r"^\s*(pub(\(crate\))? )?enum ")),
    ("1 bare numbers for kinds and refusals", lambda: lines(r"-> \(?u8\b|\bnumber: u8")),
    ("1 a flag as a field", lambda: lines(r"^\s*(pub )?\w+: bool,$")),
    ("1 results in results", lambda: lines(r"Result<(Result|Option)<")),
    ("1 arms that hand on", lambda: lines(r"Err\((\w+)\) => (return )?Err\(\1|None => (return )?(None|Err\()|Err\(_\) => (return )?(None|Err\()|\) = .* else \{$")),
    ("2 twins", twins),
    ("2 the same constant", constants),
    ("3 counted loops", lambda: lines(r"^\s*for \w+ in [^\[]*\.\.")),
    ("3 while and loop", lambda: lines(r"^\s*(while .*|loop )\{")),
    ("4 printing, conversion, comparison", lambda: lines(r"impl.* (fmt::Display|From<.*>|TryFrom<.*>|PartialEq|Ord) for|fn (same|equal|holds)\b")),
    ("5 facts that three functions require", repeated_facts),
    ("5 six parameters or more", lambda: [place for place, _, parameters in functions() if len(parameters) >= 6]),
    ("6 a table with a place and a width", lambda: [place for place, _, p in functions() if any("base: usize" in x or "width: usize" in x for x in p)]),
    ("6 arrays of a fixed size in a body", lambda: lines(r"let mut \w+ = \[.*; \d+\];")),
    ("7 switches on a step, tables of functions", lambda: lines(r"\bfn\(|match \w*step")),
]


def main():
    for name, find in POINTS:
        found = find()
        print(f"{len(found):4} {name}")
        if "--list" in sys.argv:
            for place in found:
                print(f"       {place}")


main()
