#!/usr/bin/env python3
"""Dumps a file of 1,000,000 records to a file beside `xxd -p` of it to a file.

The records stand a thousand to a transaction, and one to a transaction. Needs Debian's package `time`.
"""

import argparse
import pathlib
import subprocess
import tempfile

from check import write_file
from replay import BUILT, build, peak, timed


def printed_to(path, command):
    """The seconds of a run to a file."""
    with open(path, "wb") as out:
        return timed(command, out=out)[0]


def main():
    words = argparse.ArgumentParser(description=__doc__)
    words.add_argument("--records", type=int, default=1_000_000)
    words.add_argument("--size", type=int, default=158)
    words.add_argument("--rounds", type=int, default=5)
    given = words.parse_args()
    build()
    with tempfile.TemporaryDirectory() as made:
        made = pathlib.Path(made)
        for together in (1000, 1):
            path, printed = made / "site.fs", made / "printed"
            end = write_file(path, range(given.records), given.size, together)
            other = min(printed_to(printed, ["xxd", "-p", path]) for _ in range(given.rounds))
            seconds = min(printed_to(printed, [BUILT, "dump", path]) for _ in range(given.rounds))
            memory = peak([BUILT, "dump", path])
            # counted by another program, so that this process stays small
            lines = int(subprocess.run(["wc", "-l", printed], stdout=subprocess.PIPE, check=True).stdout.split()[0])
            assert lines == 2 + given.records + -(-given.records // together), lines
            print(f"{end} bytes, {together} records to a transaction: dump {seconds:.2f} s, xxd -p {other:.2f} s, ratio {seconds / other:.2f}, memory {memory} bytes, {memory / end:.2f} times the file")


if __name__ == "__main__":
    main()
