#!/usr/bin/env python3
"""Durable commits beside SQLite's, and the opening of a large file beside SQLite's own check of one.

    bench/commits.py [--folder FOLDER] [--records N] [--rounds N] [--part commits|opening]

`commits`: the program of bench/store commits 8-byte values to 1,000 objects in a file of the system, 100 in a round, a hundred
rounds. SQLite, as this Python has it, then writes the same values under the same ids, a transaction each, with `synchronous=FULL`,
once with a write-ahead log and once with a rollback journal, in as many rounds of a new file each. `opening`: a file of N records
(5,000,000) of 158 bytes each, of as many objects, is opened by a server for no connection, and read by `zope check`; beside it are
`sha1sum` of the file, and `PRAGMA integrity_check` over a table of the same values. Both lie in FOLDER (/var/tmp), on a real disk.
Needs the toolchain for `commits`, the built program for `opening`, and Debian's package `sqlite3`.
"""

import argparse
import pathlib
import sqlite3
import statistics
import subprocess
import tempfile
import time

from check import write_file
from programs import lines_of, numbers_in, scratch
from replay import BUILT, timed
from store import file_system

OBJECTS, COMMITS = 1000, 100


def commits_of_ours(folder):
    """The microseconds of each round, and of the bare loop's rounds."""
    with tempfile.TemporaryDirectory() as made:
        program = scratch(pathlib.Path(made), "store", ["zbase", "zdisk", "evaluator", "fs_store"])
        numbers = numbers_in(lines_of(program, True, ["files", folder]))
    return numbers["file", COMMITS], numbers["bare", COMMITS]


def commits_of_sqlite(folder, mode, rounds):
    """The microseconds of so many rounds of SQLite with that journal."""
    times = []
    for number in range(rounds):
        file = pathlib.Path(folder) / f"{mode}-{number}.db"
        base = sqlite3.connect(file, isolation_level=None)
        base.execute(f"PRAGMA journal_mode={mode}")
        base.execute("PRAGMA synchronous=FULL")
        base.execute("CREATE TABLE objects (oid INTEGER PRIMARY KEY, value BLOB)")
        base.execute("BEGIN")
        base.executemany("INSERT INTO objects VALUES (?, ?)", ((oid, oid.to_bytes(8, "big")) for oid in range(OBJECTS)))
        base.execute("COMMIT")
        began = time.perf_counter()
        for commit in range(COMMITS):
            oid = (number * COMMITS + commit) % OBJECTS
            base.execute("UPDATE objects SET value = ? WHERE oid = ?", ((oid + commit).to_bytes(8, "big"), oid))
        times.append(1e6 * (time.perf_counter() - began))
        base.close()
        for made in pathlib.Path(folder).glob(file.name + "*"):
            made.unlink()
    return times


def print_commits(folder):
    device, kind = file_system(folder)
    ours, bare = commits_of_ours(folder)
    rates = {"zope": ours, "write and sync, twice": bare}
    for mode, name in (("wal", "SQLite, write-ahead log"), ("delete", "SQLite, rollback journal")):
        rates[name] = commits_of_sqlite(folder, mode, len(ours))
    print(f"commits a second on {device} ({kind}), by the middle one of {len(ours)} rounds of {COMMITS}:")
    print("| what | a second | ours to it | wanted |\n|---|---|---|---|")
    own = COMMITS / statistics.median(ours) * 1e6
    for name, micros in rates.items():
        rate = COMMITS / statistics.median(micros) * 1e6
        print(f"| {name} | {rate:.0f} | {own / rate:.2f} | {'1.00' if name.startswith('SQLite') else ''} |")


def fill_sqlite(file, records, size):
    base = sqlite3.connect(file, isolation_level=None)
    base.execute("PRAGMA synchronous=OFF")
    base.execute("CREATE TABLE objects (oid INTEGER PRIMARY KEY, value BLOB)")
    base.execute("BEGIN")
    base.executemany("INSERT INTO objects VALUES (?, ?)", ((oid, b"d" * size) for oid in range(records)))
    base.execute("COMMIT")
    base.close()


def print_opening(folder, records, rounds, size=158):
    file, table = folder / "large.fs", folder / "large.db"
    end = write_file(file, range(records), size)
    fill_sqlite(table, records, size)
    tape = folder / "tape"
    runs = {
        "opened by a server": [BUILT, "serve", file, "--port", "0", "--connections", "0", "--record", tape],
        "`zope check`": [BUILT, "check", file],
        "`sha1sum`": ["sha1sum", file],
        "`PRAGMA integrity_check`": ["sqlite3", table, "PRAGMA integrity_check"],
    }
    print(f"{end} bytes, {records} records; SQLite's file has {table.stat().st_size} bytes:")
    print("| what | seconds | most memory, MB |\n|---|---|---|")
    for name, words in runs.items():
        best = None
        for _ in range(rounds):
            run = timed(words, out=subprocess.DEVNULL)
            tape.unlink(missing_ok=True)
            best = run if best is None else (min(best[0], run[0]), min(best[1], run[1]))
        print(f"| {name} | {best[0]:.2f} | {best[1] / 1e6:.1f} |", flush=True)


def main():
    options = argparse.ArgumentParser(description=__doc__.splitlines()[0])
    options.add_argument("--folder", default="/var/tmp", help="where the files are made, on a real disk")
    options.add_argument("--records", type=int, default=5_000_000)
    options.add_argument("--rounds", type=int, default=3, help="how often the large file is opened")
    options.add_argument("--part", choices=("commits", "opening"))
    given = options.parse_args()
    with tempfile.TemporaryDirectory(dir=given.folder) as name:
        if given.part != "opening":
            print_commits(name)
        if given.part != "commits":
            print_opening(pathlib.Path(name), given.records, given.rounds)


if __name__ == "__main__":
    main()
