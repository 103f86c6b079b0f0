#!/usr/bin/env python3
"""Shows that a replay takes time in proportion to what it reads.

Each row doubles the one before it: the file by the size of its documents' sources, the file by the number of small
transactions, the schedule by its requests, and an input that is written one byte at a time. The peer of the last
one is `cat`, fed in the same way.
"""

import os
import pathlib
import subprocess
import tempfile
import time

from replay import PROGRAM, build, schedule, write_site


def replayed(file, lines):
    """The best of three times of a replay, in seconds."""
    times = []
    for _ in range(3):
        began = time.monotonic()
        with open(lines, "rb") as given:
            subprocess.run([PROGRAM, "replay", file], stdin=given, stdout=subprocess.DEVNULL, check=True)
        times.append(time.monotonic() - began)
    return min(times)


def fed_by_bytes(words, text):
    """The seconds that a program takes over an input that is written one byte at a time."""
    child = subprocess.Popen(words, stdin=subprocess.PIPE, stdout=subprocess.DEVNULL)
    began = time.monotonic()
    for at in range(len(text)):
        os.write(child.stdin.fileno(), text[at : at + 1])
    child.stdin.close()
    child.wait()
    return time.monotonic() - began


def main():
    build()
    with tempfile.TemporaryDirectory() as folder:
        file, lines = pathlib.Path(folder) / "site.fs", pathlib.Path(folder) / "site.schedule"
        lines.write_bytes(schedule(4))
        for transactions, size in ((2_500, 20_000), (5_000, 20_000), (10_000, 20_000), (100_000, 200), (200_000, 200), (400_000, 200)):
            write_site(file, transactions, size)
            print(f"{transactions} transactions of {size} bytes, {file.stat().st_size} bytes: {replayed(file, lines):.2f} s")
        write_site(file, 10, 200)
        for requests in (20_000, 40_000, 80_000):
            lines.write_bytes(schedule(requests))
            print(f"{requests} requests: {replayed(file, lines):.2f} s")
        for length in (250_000, 500_000, 1_000_000):
            text = b"zope schedule 1\nrequest 0 %d\n%s\nend\n" % (length, b"a" * length)
            ours = fed_by_bytes([PROGRAM, "replay", file], text)
            peer = fed_by_bytes(["cat"], text)
            print(f"an input of {len(text)} bytes, one at a time: {ours:.2f} s, cat {peer:.2f} s, ratio {ours / peer:.2f}")


if __name__ == "__main__":
    main()
