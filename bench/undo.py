#!/usr/bin/env python3
"""Looks at what the last transaction of a file did, and at its log, over files of 1,000 and of 1,000,000 transactions.

An undo asks for the one, and the list of what can be undone for the other. Each transaction edits one of 100 documents. The
looks are those of a store over a file of the system, in a program of their own, `looks/`, so that opening the file is no part
of them. Beside the log, the file is read once by `sha1sum`.
"""

import argparse
import pathlib
import subprocess
import tempfile

from programs import least, lines_of, scratch
from replay import timed, write_site

# How many looks at a transaction the program measures at once.
LOOKS = 1_000


def main():
    options = argparse.ArgumentParser(description=__doc__)
    options.add_argument("--transactions", type=int, nargs=2, default=(1_000, 1_000_000))
    options.add_argument("--size", type=int, default=50, help="bytes of a document's source")
    given = options.parse_args()
    looks, logs = [], []
    with tempfile.TemporaryDirectory() as made:
        at = pathlib.Path(made)
        (at / "repository").mkdir()
        program = scratch(at / "repository", "looks", ["zbase", "zdisk", "evaluator", "fs_store"])
        for count in given.transactions:
            site = at / "site.fs"
            write_site(site, count, given.size)
            read = min(timed(["sha1sum", site], out=subprocess.DEVNULL)[0] for _ in range(3))
            seconds = least(lines_of(program, True, [str(site)]))
            looks.append(seconds["transaction", count] / LOOKS)
            logs.append(seconds["log", count])
            print(f"{count} transactions, {site.stat().st_size} bytes: the last one {looks[-1] * 1e6:.1f} us, the log {logs[-1] * 1e3:.2f} ms, {logs[-1] / read:.2f} times sha1sum")
    print(f"ratio: the last transaction {looks[1] / looks[0]:.2f}, the log {logs[1] / logs[0]:.0f}")


if __name__ == "__main__":
    main()
