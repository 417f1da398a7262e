#!/usr/bin/env python3
"""Plants one bug at a time in a copy of this repository and asks the prover.

    tools/planted/try.py COPY [N...]     all bugs of bugs.py, or those with these numbers
    tools/planted/try.py COPY NAME...    those of the named crates

COPY is made from this repository if it is not there (with the folders out/, so that what is proved is not proved again).
Each bug is one replacement in one file of one crate, or some that belong together. `rt check` checks that crate alone: what a crate promises to the
crates above it stays the same. Prints 'refused' with the first error, 'PASSED', or that the bug is no Rattle.
What a check wrote is in COPY/out/planted/. RT in the environment names another rt.
Exit status: 0 if every bug tried was refused.
"""
import os
import pathlib
import re
import shutil
import subprocess
import sys
import time

sys.dont_write_bytecode = True
from bugs import BUGS

HERE = pathlib.Path(__file__).resolve().parent.parent.parent
RT = os.environ.get("RT", "rt")


def first_error(output):
    """The first error of a check: its place and its message, cut."""
    lines = output.splitlines()
    for i, line in enumerate(lines):
        if re.search(r"\berror\b|it is not proved|no proof", line):
            return " / ".join(x.strip() for x in lines[i:i + 3] if x.strip())[:600]
    return " / ".join(lines[-3:])[:600]


def planted(folder, file, old, new):
    """Plants the bug and gives the texts of its files as they were."""
    olds, news = ((old,), (new,)) if isinstance(old, str) else (old, new)
    files = (file,) * len(olds) if isinstance(file, str) else file
    before = {}
    for name, o, n in zip(files, olds, news):
        path = folder / name
        text = path.read_text()
        before.setdefault(path, text)
        if text.count(o) != 1:
            restored(before)
            sys.exit(f"{path}: the text to replace stands there {text.count(o)} times: {o!r}")
        path.write_text(text.replace(o, n))
    return before


def restored(before):
    for path, text in before.items():
        path.write_text(text)


def attempt(copy, number, bug, logs):
    crate, file, old, new, meaning = bug
    before = planted(copy / "crates" / crate, file, old, new)
    start = time.time()
    try:
        run = subprocess.run([RT, "check"], cwd=copy / "crates" / crate, capture_output=True, text=True)
    finally:
        restored(before)
    output = run.stdout + run.stderr
    (logs / f"{number:02}.log").write_text(output)
    refused = run.returncode == 1 and "\nlogic=not-proved" in output
    outcome = "refused" if refused else "PASSED" if run.returncode == 0 else "DID NOT REACH THE PROVER"
    print(f"{number:2} {crate}/{file if isinstance(file, str) else ' '.join(dict.fromkeys(file))}: {meaning}: {outcome} ({time.time() - start:.0f} s)")
    if run.returncode != 0:
        print("     " + first_error(output))
    sys.stdout.flush()
    return refused


def main():
    if len(sys.argv) < 2:
        sys.exit(__doc__)
    copy = pathlib.Path(sys.argv[1]).resolve()
    if not copy.exists():
        shutil.copytree(HERE, copy, symlinks=True)
    logs = copy / "out" / "planted"
    logs.mkdir(parents=True, exist_ok=True)
    asked = sys.argv[2:]
    tried = [(n, b) for n, b in enumerate(BUGS, 1) if not asked or str(n) in asked or b[0] in asked]
    refused = sum([attempt(copy, n, b, logs) for n, b in tried])
    print(f"{len(tried)} tried, {refused} refused, {len(tried) - refused} not")
    return 0 if refused == len(tried) else 1


if __name__ == "__main__":
    sys.exit(main())
