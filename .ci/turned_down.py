#!/usr/bin/env python3
"""Calls that the compiler must turn down in the calling code: service on a subsystem that is not opened, additions to one that is.

Each edit of crates/NAME/turned-down (file, old, new, and the error that must come) is made in a copy of the repository, where
the crate must then no longer compile. `rt must-fail` takes edits that reach the prover; these do not get that far.
It prints a line for each edit, and ends with status 0 where each is turned down and the crates compile without the edits.

    .ci/turned_down.py          (under a minute: `rt try` compiles with no proof)
"""
import pathlib
import re
import shutil
import subprocess
import sys
import tempfile

ROOT = pathlib.Path(__file__).resolve().parent.parent


def compile_crate(copy, crate):
    run = subprocess.run(["rt", "try"], cwd=copy / "crates" / crate, stdin=subprocess.DEVNULL, stdout=subprocess.PIPE,
                         stderr=subprocess.STDOUT, text=True)
    return run.returncode, run.stdout


def read_edit(path):
    fields = dict(line.split(": ", 1) for line in path.read_text().splitlines() if ": " in line)
    return fields["file"], fields["old"], fields["new"], fields["error"]


def turned_down(copy, crate, edit):
    file, old, new, error = read_edit(edit)
    source = copy / "crates" / crate / file
    text = source.read_text()
    if text.count(old) != 1:
        return f"BAD EDIT: its old text stands {text.count(old)} times in {file}"
    source.write_text(text.replace(old, new))
    status, said = compile_crate(copy, crate)
    source.write_text(text)
    at = [line for line in said.splitlines() if f"error[{error}]" in line and re.match(rf"(\./)?{re.escape(file)}:", line)]
    if status == 0 or not at:
        return "NOT TURNED DOWN by " + error
    return "turned down: " + at[0][at[0].index("error["):].split(": help:")[0]


def main():
    edits = sorted(ROOT.glob("crates/*/turned-down/*.edit"))
    good = bool(edits)
    with tempfile.TemporaryDirectory() as name:
        copy = pathlib.Path(name)
        shutil.copytree(ROOT / "crates", copy / "crates", ignore=shutil.ignore_patterns("out"))
        shutil.copy(ROOT / "crates.txt", copy)
        for crate in sorted({edit.parent.parent.name for edit in edits}):
            status, said = compile_crate(copy, crate)
            if status != 0:
                print(f"{crate}: does not compile as it stands\n{said[-2000:]}")
                good = False
        for edit in edits:
            crate = edit.parent.parent.name
            result = turned_down(copy, crate, edit)
            print(f"{crate}/{edit.stem}: {result}")
            good = good and result.startswith("turned down: ")
    sys.exit(0 if good else 1)


main()
