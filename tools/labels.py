#!/usr/bin/env python3
"""Spells Rattle's own labels in proof files: a name of the source keeps its underscores, and so does a word of Rattle's, as `write_frame-requires`.

usage: labels.py [CRATE ..]      in the repository; every crate where none is named
"""

import glob
import os
import re
import sys

import respell

WORDS = {"in_default", "in_ok", "in_err", "nonzero_div", "nonzero_rem", "slice_bounds", "offset_bounds", "type_inv", "invariant_of", "from_residual"}
WORDS |= {f"overflow_{w}" for w in "add sub mul shl shr cast step neg".split()}


def identifiers(folder):
    found = set(WORDS)
    for path in glob.glob(os.path.join(folder, "src/**/*.rt"), recursive=True):
        found |= {w for w in re.findall(r"\b[a-z]\w*_\w+\b", open(path).read())}
    return {w.replace("_", "-"): w for w in found if "_" in w.strip("_")}


def turned(token, names):
    """The longest names first, each between dashes."""
    parts = token.split("-")
    out, i = [], 0
    while i < len(parts):
        for j in range(len(parts), i + 1, -1):
            whole = "-".join(parts[i:j])
            low = whole[:1].lower() + whole[1:]
            if low in names:
                out.append(whole[:1] + names[low][1:])
                i = j
                break
        else:
            out.append(parts[i])
            i += 1
    return "-".join(out)


def main(argv):
    own = respell.own_crates(".")
    for crate in argv or sorted(own):
        names = identifiers(f"crates/{crate}")
        for path in sorted(glob.glob(f"crates/{crate}/proofs/**/*.antt", recursive=True)):
            if not path.endswith(("/Answers.antt", "/Invariants.antt", "/Proof.antt")):
                continue
            text = open(path).read()
            kept = respell.imported(text, own)
            turn = lambda m: m[1] if m[1] in kept else turned(m[1], names)
            new = re.sub(r"(?<![^\s(){}\[\].;,@\"])(" + respell.WORD + r")", turn, text)
            if new != text:
                open(path, "w").write(new)
                print(f"labels: {path}")


if __name__ == "__main__":
    main(sys.argv[1:])
