#!/usr/bin/env python3
"""Commits to stores of 1,000 and of 1,000,000 objects, loads from them, commits to a file of the system, and loads from one.

All run in one program, `store/`. The stores are over disks in memory, and their rounds are in turn. The file lies in
a folder of a real disk, and beside it a bare loop writes and syncs the same bytes at the same places of another file.
Loads from a file are of few objects, whose records are kept, and of many, which are read each time.
"""

import argparse
import pathlib
import statistics
import subprocess
import tempfile

from programs import lines_of, numbers_in, scratch

# How many commits to a disk in memory the program measures at once.
COMMITS = 10_000


def file_system(folder):
    """The device that a folder lies on and the kind of its file system, as `df` says."""
    told = subprocess.run(["df", "--output=source,fstype", folder], capture_output=True, text=True, check=True)
    device, kind = told.stdout.splitlines()[1].split()
    if kind in ("tmpfs", "ramfs"):
        raise SystemExit(f"{folder} lies in memory ({kind}): name a folder of a real disk by --folder")
    return device, kind


def print_commits(numbers, kind, order):
    small, large = (min(numbers[kind, size]) / COMMITS for size in (1_000, 1_000_000))
    print(f"a commit, {order}: {small:.2f} us at 1,000 objects, {large:.2f} us at 1,000,000, ratio {large / small:.2f}")


def print_loads(numbers):
    for size in (1_000, 1_000_000):
        (most,) = numbers["load", size]
        assert most <= 2
        print(f"a load of the newest revision, {size} objects: at most {most} device calls")


def print_file(numbers, device, kind):
    """By the middle round of each: where others use the disk, the best round is one that met a quiet moment."""
    ((size, stored),) = ((size, micros) for (name, size), micros in numbers.items() if name == "file")
    bare = numbers["bare", size]
    ours, peer = (size / statistics.median(micros) * 1e6 for micros in (stored, bare))
    print(f"a file on {device} ({kind}): {ours:.0f} commits a second, the bare loop {peer:.0f}, ratio {ours / peer:.2f}")
    turns = statistics.median(plain / micros for micros, plain in zip(stored, bare))
    print(f"the middle ratio of two rounds in turn {turns:.2f}, the ratio of the best rounds {min(bare) / min(stored):.2f}")


def print_kept(numbers):
    """The middle ratio of two rounds in turn, and that of the best ones."""
    ((size, kept),) = ((size, micros) for (name, size), micros in numbers.items() if name == "kept")
    read = numbers["read", size]
    best, plain = (min(micros) / size for micros in (kept, read))
    middle = statistics.median(ours / theirs for ours, theirs in zip(kept, read))
    print(f"a load from a file: {best:.3f} us where it is kept, {plain:.3f} us where it is read, ratio {best / plain:.3f}, the middle of two in turn {middle:.3f}")


def main():
    options = argparse.ArgumentParser(description=__doc__)
    options.add_argument("--folder", default="/var/tmp", help="where the files are made, on a real disk")
    given = options.parse_args()
    with tempfile.TemporaryDirectory() as made, tempfile.TemporaryDirectory(dir=given.folder) as folder:
        device, kind = file_system(folder)
        program = scratch(pathlib.Path(made), "store", ["zbase", "zdisk", "evaluator", "fs_store"])
        numbers = numbers_in(lines_of(program, True, ["memory"]) + lines_of(program, True, ["files", folder]))
    print_commits(numbers, "turn", "objects in turn")
    print_commits(numbers, "spread", "1,000 objects spread over the store")
    print_commits(numbers, "random", "objects in random order")
    print_loads(numbers)
    print_file(numbers, device, kind)
    print_kept(numbers)


if __name__ == "__main__":
    main()
