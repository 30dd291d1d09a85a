#!/usr/bin/env python3
"""Runs the code of each must-fail edit, before any proof, until a test or a program answers wrongly: tools/edits_by_run.py [CRATE | CRATE/EDIT]..

Prints for each edit what noticed it, and its words. It is no part of the gate. A run takes half a minute, so for two at a time start it twice with different crates."""
import pathlib
import re
import shutil
import subprocess
import sys
import tempfile

ROOT = pathlib.Path(__file__).resolve().parent.parent

# For each crate the test crates and programs that reach its functions, nearest and shortest first.
NEAREST = {
    "fields": "card_tests link_tests",
    "tones": "field_tests",
    "nibbles": "field_tests",
    "pairs": "field_tests",
    "towers": "field_tests",
    "tables": "frame_tests gcd_tests",
    "polynomials": "frame_tests gcd_tests",
    "frames": "frame_tests gcd_tests",
    "elimination": "frame_tests",
    "scan": "frame_tests",
    "framing": "frame_tests link_tests",
    "judging": "offer_tests",
    "design": "design_tests frame_tests offer_tests link_tests script_run",
    "link": "link_tests",
    "cards": "card_tests design_tests",
    "history": "script_run",
    "random": "link_tests",
    "walkthrough": "tonelink",
    "scripts": "script_tests script_run",
    "script_runner": "script_run",
    "test_support": "frame_tests offer_tests",
    "trial_support": "link_tests",
}


def copy(folder):
    """Copies what `rt try` reads, so that the repository itself stays as it is."""
    shutil.copy(ROOT / "crates.txt", folder)
    for crate in (ROOT / "crates").iterdir():
        for part in ("src", "specs"):
            if (crate / part).is_dir():
                shutil.copytree(crate / part, folder / "crates" / crate.name / part)


def edited(path, folder):
    """The file that an edit changes, and its text after the change. Each old text has to stand there once."""
    lines = path.read_text().splitlines()
    named = [line.removeprefix("file: ") for line in lines if line.startswith("file: ")]
    file = folder / "crates" / path.parent.parent.name / named[0]
    text = file.read_text()
    pairs = [line for line in lines if line.startswith(("old: ", "new: "))]
    for old, new in zip(pairs[::2], pairs[1::2]):
        if text.count(old[5:]) != 1:
            sys.exit(f"{path}: an old text does not stand once")
        text = text.replace(old[5:], new[5:])
    return file, text


def run(crate, folder):
    """Runs a test crate or a program as compiled with checks; the interpreter, which is slower and does the same, gets one step."""
    is_program = (ROOT / "crates" / crate / "src/main.rt").exists()
    given, words = (ROOT / "crates" / crate / name for name in ("stdin", "args"))
    call = ["rt", "try", "--steps", "1"] + ([] if is_program else ["--test"])
    call += ["--", *words.read_text().split()] if words.exists() else []
    how = {"input": given.read_bytes() if given.exists() else b"", "capture_output": True}
    said = subprocess.run(call, cwd=folder / "crates" / crate, **how)
    out, notes = (it.decode(errors="replace") for it in (said.stdout, said.stderr))
    return is_program, out, notes


def failed_test(out):
    """The first failed assertion with its words, else the first run that stopped at a failed check. A test at its time limit shows nothing."""
    stopped = None
    for name, words in re.findall(r"^test (\S+) \.\.\. FAILED\n((?:    .*\n?)*)", out, re.M):
        words = "; ".join(line.strip() for line in words.splitlines())
        fault = re.search(r"fault kind=.*?(?=, called from|;|$)", words)
        if not fault and "limit" not in words:
            return f"{name}: {words}"
        if fault and not stopped:
            stopped = f"{name}: stopped, {fault[0]}"
    return stopped


def differing_line(crate, out):
    """The first line in which a program's output differs from the stored one."""
    wanted = (ROOT / "crates" / crate / "stdout").read_text().splitlines()
    for number, (has, want) in enumerate(zip(out.splitlines() + [""], wanted + [""]), 1):
        if has != want:
            return f"line {number}: {has!r} in place of {want!r}"
    return None


def notice(crate, folder):
    """What a run shows, and if it has no answer, the reason: an error of the compiler or a run past its limits."""
    is_program, out, notes = run(crate, folder)
    fault = re.search(r"^checked: (fault kind=.*?)(?=, called from|$)", notes, re.M)
    found = None
    if "\ntest result:" in out + notes:
        found = failed_test(out + notes)
    elif not is_program or not re.search(r"^run=(ended|fault) ", notes, re.M):
        return None, f" ({crate}: {notes.strip()[-200:]})"
    elif fault:
        found = f"stopped, {fault[1]}"
    else:
        found = differing_line(crate, out)
    return (f"{crate} {found}" if found else None), ""


def noticed(path, folder):
    """The first notice of an edit."""
    file, text = edited(path, folder)
    before, words, doubts = file.read_text(), None, ""
    file.write_text(text)
    for crate in NEAREST.get(path.parent.parent.name, "").split():
        words, doubt = notice(crate, folder)
        doubts += doubt
        if words:
            break
    file.write_text(before)
    return words or "NOT NOTICED" + doubts


def main():
    with tempfile.TemporaryDirectory() as made:
        folder = pathlib.Path(made)
        copy(folder)
        for path in sorted(ROOT.glob("crates/*/must-fail/*.edit")):
            crate = path.parent.parent.name
            if len(sys.argv) == 1 or {crate, f"{crate}/{path.stem}"} & set(sys.argv[1:]):
                print(f"{crate}/{path.stem}: {noticed(path, folder)}", flush=True)


main()
