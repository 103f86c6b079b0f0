#!/usr/bin/env python3
"""Runs the gate of a revision from nothing in a clone of its own, and prints what each crate costs.

    bench/gate.py [REVISION [CRATE..]]

With crates it is these and those below them alone, where the kit's gate takes crates.

Ten times a second it looks at the processor time of each process that proves. A row of the table is a crate: the minutes of
one processor for its proof and its program, and for its wrong bodies; the tests of a crate, and a crate whose name ends in
`_cases` or `_tests`, are counted among the cases. Behind them stand the sums, what the whole run took of the processors
(with what the programs took, the linking, and the last tenth of a second of each process), and the time by the clock. All
else on the machine should stand still.
"""

import collections
import os
import pathlib
import resource
import subprocess
import sys
import tempfile
import threading
import time

HOME = pathlib.Path(__file__).resolve().parent.parent
TICKS = os.sysconf("SC_CLK_TCK")


def kind_of(crate, words, folder):
    """What a prover's time is counted as, by its words and the folder that it works in."""
    if "rt-edit" in folder:
        return "wrong"
    return "cases" if b"--test" in words or crate.endswith(("_cases", "_tests")) else "proof"


def prover(process, session):
    """What a process of the session proves: its crate, what that is counted as, and its seconds; none for others."""
    try:
        words = (process / "cmdline").read_bytes().split(b"\0")
        if pathlib.Path(words[0].decode()).name != "rattle" or b"--crate-name" not in words:
            return None
        stat = (process / "stat").read_text().rsplit(")", 1)[1].split()
        if int(stat[3]) != session:
            return None
        crate = words[words.index(b"--crate-name") + 1].decode()
        # Its own time: its workers are processes of their own here, so what it says of those that ended would count twice.
        seconds = sum(int(ticks) for ticks in stat[11:13]) / TICKS
        return (process.name, stat[19]), (crate, kind_of(crate, words, os.readlink(process / "cwd"))), seconds
    except (OSError, IndexError):
        return None


def watch(session, ended, spent):
    """Keeps the seconds of each prover of a session until the run has ended."""
    while not ended.is_set():
        for process in pathlib.Path("/proc").iterdir():
            found = process.name.isdigit() and prover(process, session)
            if found:
                spent[found[0]] = found[1:]
        time.sleep(0.1)


def words_of(crates):
    """The gate from nothing. A kit whose gate keeps nothing between runs has no word for that, and takes no crates."""
    told = subprocess.run(["rt", "help"], stdout=subprocess.PIPE, stderr=subprocess.STDOUT, text=True, check=False).stdout
    keeps = "--anew" in told
    return ["rt", "ci", *(["--anew", *crates] if keeps else [])]


def run(clone, crates):
    """The run's status, its provers by process, its time by the clock and that of all processors, in seconds."""
    began, spent, ended = time.monotonic(), {}, threading.Event()
    with subprocess.Popen(words_of(crates), cwd=clone, start_new_session=True) as gate:
        watcher = threading.Thread(target=watch, args=(gate.pid, ended, spent))
        watcher.start()
        status = gate.wait()
    took = time.monotonic() - began
    ended.set()
    watcher.join()
    used = resource.getrusage(resource.RUSAGE_CHILDREN)
    return status, spent, took, used.ru_utime + used.ru_stime


def main():
    revision = sys.argv[1] if len(sys.argv) > 1 else "HEAD"
    with tempfile.TemporaryDirectory() as made:
        clone = pathlib.Path(made) / "clone"
        subprocess.run(["git", "clone", "-q", HOME, clone], check=True)
        subprocess.run(["git", "checkout", "-q", revision], cwd=clone, check=True)
        status, spent, took, used = run(clone, sys.argv[2:])
    rows, sums = collections.defaultdict(collections.Counter), collections.Counter()
    for (crate, kind), seconds in spent.values():
        rows[crate][kind] += seconds / 60
        sums[kind] += seconds / 60
    print("| crate | proof | cases | wrong bodies |\n|---|---|---|---|")
    for crate, row in [*sorted(rows.items()), ("all", sums)]:
        print(f"| {crate} | {row['proof']:.1f} | {row['cases']:.1f} | {row['wrong']:.1f} |")
    print(f"status {status}; {used / 60:.1f} processor minutes, {took / 60:.1f} minutes by the clock on {os.cpu_count()} processors")


main()
