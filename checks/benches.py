#!/usr/bin/env python3
"""Looks that each script of bench/ still runs to its end, over the smallest amounts; what it prints then is no measurement.

    checks/benches.py [--no-proofs] [NAME ..]

A script that builds a program of its own over the crates ends here once that is proved (`BENCH_ONLY_PROVES`), which takes minutes
for each and begins with what is built of the crates; with --no-proofs these are left out. NAMEs are those of the scripts, without
`.py`. A script of bench/ that has no line here fails this check. Needs the toolchain, the built program (`./zope check` builds it),
Python's jinja2, and what the scripts name themselves.
"""

import os
import subprocess
import sys
import time

from served import HOME

# The words of each script: those that build nothing of their own, those that do, and those that aren't run, since they are the
# gate itself or parts of others.
OVER_THE_PROGRAM = [
    ("backup", "--transactions 20 --size 100 --day 5 --rounds 1"), ("pack", "--records 10201 --rounds 1"), ("check", "--records 1000 --few 100 --rounds 1 --sparse-records 3000 --sparse-bytes 1000000"),
    ("children", "--children 50 --folders 4 --rounds 1"), ("commits", "--part opening --records 1000 --rounds 1"),
    ("dump", "--records 1000 --rounds 1"), ("linear", ""), ("listing", "--rounds 1"), ("pages", "--pages 100 --rounds 1"),
    ("replay", "--transactions 20 --size 100 --requests 3 --rounds 1"), ("serving", "0.1"),
    ("underway", "--sites text"), ("undo_parts", "--parts 3 6 --transactions 2 --rounds 1"),
]
OVER_CRATES = [
    ("append", ""), ("commits", "--part commits"), ("forms", ""), ("http", ""), ("index", ""), ("names", ""), ("parse", ""), ("paths", ""), ("records", ""),
    ("render", ""), ("shape", ""), ("store", ""), ("undo", "--transactions 10 100"), ("workers", ""),
]
NOT_RUN = {"gate", "wrong", "programs", "waitress_site"}


def ends_well(name, words, surroundings):
    began = time.monotonic()
    done = subprocess.run([sys.executable, HOME / "bench" / f"{name}.py", *words.split()], env=surroundings, capture_output=True, text=True, check=False)
    print(f"benches: {name} {words} ended {'well' if done.returncode == 0 else 'WRONG'} after {time.monotonic() - began:.0f} s", flush=True)
    if done.returncode:
        print(done.stdout[-3000:] + done.stderr[-3000:])
    return done.returncode == 0


def main():
    chosen = [word for word in sys.argv[1:] if word != "--no-proofs"]
    there = {file.stem for file in (HOME / "bench").glob("*.py")}
    known = {name for name, _ in OVER_THE_PROGRAM + OVER_CRATES} | NOT_RUN
    assert there == known, f"bench/ and the lines here differ in {there ^ known}"
    for name in NOT_RUN:
        compile((HOME / "bench" / f"{name}.py").read_text(), name, "exec")
    wrong = 0
    for runs, surroundings in ((OVER_THE_PROGRAM, os.environ), (OVER_CRATES, os.environ | {"BENCH_ONLY_PROVES": "1"})):
        if runs is OVER_CRATES and "--no-proofs" in sys.argv:
            continue
        for name, words in runs:
            wrong += (not chosen or name in chosen) and not ends_well(name, words, surroundings)
    return 1 if wrong else 0


if __name__ == "__main__":
    sys.exit(main())
