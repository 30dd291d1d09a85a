#!/usr/bin/env python3
"""Writes the ghost members of a bound by the parameter's name in the clauses of generic functions: `ops` becomes `F.ops`.

usage: members.py [FOLDER]      FOLDER has crates/, and is the current one where it is left out
"""

import glob
import os
import re
import sys

MEMBERS = {
    "Members": "ops",
    "Field": "ops|member|order|number|tag",
    "Quadratic": "ops|member|order|number|tag|linear|constant",
}
HEADER = re.compile(r"\bfn \w+<[^>(]*\b(\w+): (Field|Quadratic|Members)\b")
CLAUSE = re.compile(r"\b(?:requires|ensures)\*?(?: \w+)? \{")


def end_of_clause(text, start):
    depth = 0
    for i in range(start, len(text)):
        depth += (text[i] == "{") - (text[i] == "}")
        if depth == 0:
            return i + 1
    return len(text)


def turned_header(text, start, name, bound):
    """The clauses of one function, from its header to its body."""
    out, at = [], start
    body = re.compile(r"^\s*\{|;\s*$", re.M).search(text, start)
    stop = body.start() if body else len(text)
    for m in CLAUSE.finditer(text, start):
        if m.start() >= stop:
            break
        end = end_of_clause(text, m.end() - 1)
        body = re.compile(r"^\s*\{", re.M).search(text, end)
        stop = body.start() if body else len(text)
        clause = text[m.end() : end]
        clause = re.sub(rf"(?<![\w.\-])({MEMBERS[bound]})(?![\w\-])", rf"{name}.\1", clause)
        out += [text[at : m.end()], clause]
        at = end
    return "".join(out), at


def turned(text):
    out, at = [], 0
    for m in HEADER.finditer(text):
        if m.start() < at:
            continue
        out.append(text[at : m.start()])
        part, at = turned_header(text, m.start(), m[1], m[2])
        out.append(part)
    return "".join(out) + text[at:]


def main(argv):
    top = argv[0] if argv else "."
    changed = 0
    for path in sorted(glob.glob(os.path.join(top, "crates/*/src/**/*.rt"), recursive=True)):
        text = open(path).read()
        new = turned(text)
        if new != text:
            changed += 1
            open(path, "w").write(new)
    print(f"members: {changed} files")


if __name__ == "__main__":
    main(sys.argv[1:])
