#!/usr/bin/env python3
"""Tries the wrong bodies of `bench/wrong/NAME/` for the crates that are named, or for all: the prover must refuse each.

They stand beside those of the crates' own `must-fail/` folders, which the gate tries. Who changes a crate's contracts runs
this for it; before a release it is run for all. It works on a copy of the crates, in which they are put into `must-fail/`.
"""

import pathlib
import shutil
import subprocess
import sys
import tempfile

HOME = pathlib.Path(__file__).resolve().parent.parent
KEPT = HOME / "bench" / "wrong"


def main():
    names = sys.argv[1:] or sorted(folder.name for folder in KEPT.iterdir() if folder.is_dir())
    with tempfile.TemporaryDirectory() as room:
        copy = pathlib.Path(room) / "repository"
        subprocess.run(["git", "clone", "-q", str(HOME), str(copy)], check=True)
        for name in names:
            folder = copy / "crates" / name / "must-fail"
            folder.mkdir(exist_ok=True)
            for edit in sorted((KEPT / name).glob("*.edit")):
                shutil.copy(edit, folder)
        # `rt ci` begins with what earlier runs on this machine have proved; one that can't be tried is no failure to it.
        done = subprocess.run(["rt", "ci", *names], cwd=copy, capture_output=True, text=True)
    lines = [line for line in done.stdout.splitlines() if "must-fail" in line]
    print("\n".join(done.stdout.splitlines() if done.returncode else lines))
    sys.exit(done.returncode or any("BAD EDIT" in line for line in lines))


if __name__ == "__main__":
    main()
