#!/usr/bin/env python3
"""Replays a schedule that packs in its middle, beside both halves and the pack by themselves.

The halves ask for pages of a site of 100 documents, which transactions edited in turn. The first half alone is replayed over the
file, a copy of the file is packed by the command, and the second half alone is replayed over what that left. What is compared is
processor time, that of the program and that which the system spends for it, since a pack of a file waits for the disk's sync.
"""

import argparse
import pathlib
import resource
import shutil
import subprocess
import tempfile

from replay import BUILT, build, processor_seconds, schedule, write_site

FIRST = 0x0331620000000000


def packed_seconds(site, at):
    """The processor seconds of a pack of a file at that transaction."""
    before = resource.getrusage(resource.RUSAGE_CHILDREN)
    subprocess.run([BUILT, "pack", site, f"{at:016x}"], stdout=subprocess.DEVNULL, check=True)
    after = resource.getrusage(resource.RUSAGE_CHILDREN)
    return after.ru_utime + after.ru_stime - before.ru_utime - before.ru_stime


def main():
    options = argparse.ArgumentParser(description=__doc__)
    options.add_argument("--transactions", type=int, default=10_000)
    options.add_argument("--size", type=int, default=5_000, help="bytes of a document's source")
    options.add_argument("--requests", type=int, default=1_000, help="in each half")
    options.add_argument("--rounds", type=int, default=5)
    given = options.parse_args()
    build()
    with tempfile.TemporaryDirectory() as folder_name:
        at = pathlib.Path(folder_name)
        site, copy = at / "site.fs", at / "copy.fs"
        write_site(site, given.transactions, given.size)
        time = FIRST + given.transactions // 2
        half = schedule(given.requests)
        body = half.removeprefix(b"zope schedule 1\n").removesuffix(b"end\n")
        (at / "half").write_bytes(half)
        (at / "whole").write_bytes(b"zope schedule 1\n" + body + f"pack {time:016x}\n".encode() + body + b"end\n")
        wholes, parts = [], []
        for _ in range(given.rounds):
            wholes.append(processor_seconds(site, at / "whole", at / "report"))
            shutil.copyfile(site, copy)
            first = processor_seconds(site, at / "half", at / "report")
            packing = packed_seconds(copy, time)
            parts.append((first, packing, processor_seconds(copy, at / "half", at / "report")))
            copy.unlink()
        first, packing, second = (min(column) for column in zip(*parts))
        print(f"{given.transactions} transactions of {given.size} bytes, {given.requests} requests in each half, best of {given.rounds}")
        print(f"first half {first:.2f} s, pack {packing:.2f} s, second half {second:.2f} s, together {first + packing + second:.2f} s")
        print(f"with the pack in the middle {min(wholes):.2f} s, ratio {min(wholes) / (first + packing + second):.2f}")


if __name__ == "__main__":
    main()
