#!/usr/bin/env python3
"""Spells the names that this repository's specs/ and proofs/ declare in snake case, in every text that cites them.

usage: respell.py [FOLDER]      FOLDER has crates/, and is the current one where it is left out

A name is turned where it has a dash or a hump: `poly-at` becomes `poly_at`, `toneOf` becomes `tone_of`. Types and modules, which begin with a
capital, keep it. Goals, which Rattle names, stay; so does a name in a file that imports it from a library. Two names that would fall together are
printed, and the later one gets `_lem`. Then members.py writes ghost members by the parameter's name.
"""

import glob
import os
import re
import sys

import members

WORD = r"[^\s(){}\[\].;,@\"«»]+"
ALIAS = re.compile(r" as (" + WORD + r")(?=[,}])")
USE = re.compile(r"\buse ([^\s;{]+?)\.?(\{[^}]*\})")
WORDS_OF_ANTT = set("where let in elim use pub abbrev unfoldable record data open module unfolding infixl infixr infix".split())


def own_crates(top):
    lines = open(os.path.join(top, "crates.txt")).read().splitlines()
    return {line.split(":")[0].split()[0] for line in lines if ":" in line and not line.startswith("#")}


def turned(name):
    words = re.sub(r"(?<=[a-z0-9])[A-Z]", lambda m: "_" + m[0].lower(), name) if not name[:1].isupper() else name
    return words.replace("-", "_")


def has_letters(name):
    return re.fullmatch(r"[A-Za-z][\w'-]*", name) is not None


def declared_in(text, is_answers):
    """The names that a text declares, but for goals and local ones."""
    found = set()
    for line in text.splitlines():
        m = re.match(r"^( *)((?:abbrev |unfoldable |pub |data |record )*)(.+?) : ", line)
        if not m or line.lstrip().startswith("--"):
            continue
        if is_answers and (" : goal." in line or re.search(r"\b(invariant|decreases)-", line)):
            continue
        names = re.split(r" [({]", m[3])[0].split()
        if any(n in WORDS_OF_ANTT or not re.fullmatch(WORD, n) for n in names):
            continue
        # a case of a definition never has a colon, so these are signatures, fields and constructors
        found.update(names)
    return found


def imported(text, own):
    """The names that a text imports from libraries."""
    found = set()
    for path, items in USE.findall(text):
        steps = path.split(".")
        if steps[0] == "Rattle" and len(steps) > 1 and steps[1] in own:
            continue
        for item in items.strip("{}").split(","):
            found.add(item.split(" as ")[0].strip())
    return found


def antt_files(top):
    return sorted(glob.glob(os.path.join(top, "crates/*/specs/**/*.antt"), recursive=True) + glob.glob(os.path.join(top, "crates/*/proofs/**/*.antt"), recursive=True))


def sources(top):
    return sorted(glob.glob(os.path.join(top, "crates/*/src/**/*.rt"), recursive=True))


def table_of(top, own):
    names = set()
    for path in antt_files(top):
        text = open(path).read()
        names |= declared_in(text, path.endswith(("/Answers.antt", "/Invariants.antt")))
    every = set(names)
    table = {}
    for path in antt_files(top) + sources(top):
        names.update(ALIAS.findall(open(path).read()))
    for name in sorted(names):
        if not has_letters(name) or turned(name) == name:
            continue
        new = turned(name)
        if new in every or new in table.values():
            print(f"respell: {name} and {new} fall together")
            new += "_lem"
        table[name] = new
    return table


def respelled(text, table):
    """A text with the names turned, but in strings."""
    return re.sub(r'("[^"\n]*")|(?<![^\s(){}\[\].;,@"])(' + WORD + r")", lambda m: m[1] or table.get(m[2], m[2]), text)


GHOST = re.compile(r"(?m)^\s*ghost use [^;]*;|(?:requires|ensures|invariant|decreases)\*?(?: \w+)? \{|ghost \w+(?::| =) \{|^\s*//.*$")


def respelled_source(text, table):
    """A source with the names of its clauses, imports and comments turned."""
    out, at = [], 0
    for m in GHOST.finditer(text):
        if m.start() < at:
            continue
        end = members.end_of_clause(text, m.end() - 1) if text[m.end() - 1] == "{" else m.end()
        out.append(text[at : m.start()])
        out.append(respelled(text[m.start() : end], table))
        at = end
    out.append(text[at:])
    return "".join(out)


def main(argv):
    top = argv[0] if argv else "."
    own = own_crates(top)
    table = table_of(top, own)
    changed = 0
    edits = sorted(glob.glob(os.path.join(top, "crates/*/must-fail/*.edit")))
    for path in antt_files(top) + sources(top) + edits:
        text = open(path).read()
        here = {k: v for k, v in table.items() if k not in imported(text, own)}
        kept = sorted(set(table) - set(here))
        if kept:
            print(f"respell: {os.path.relpath(path, top)} keeps {', '.join(kept)}, which a library has too")
        new = respelled_source(text, here) if path.endswith(".rt") else respelled(text, here)
        if new != text:
            changed += 1
            open(path, "w").write(new)
    print(f"respell: {len(table)} names in {changed} files")
    members.main(argv)


if __name__ == "__main__":
    main(sys.argv[1:])
