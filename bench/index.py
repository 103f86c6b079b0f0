#!/usr/bin/env python3
"""Measures the index of newest places: its memory, and what a commit takes by it.

A program of its own, `index/`, puts a million objects into an index and ends; what it had of memory more than with none is the index.
The ids rise, come in random order, lie far from 0, are one in five, or are alone among 65,536. Then the program `store/` commits to
stores of 1,000 and of 1,000,000 objects, and makes a million objects by a commit each; of each of these the least time of three runs is
taken, so that what comes between one of them doesn't count. Beside each number stands what is wanted. Needs Debian's package `time`.
"""

import pathlib
import statistics
import tempfile

from check import beside
from programs import lines_of, numbers_in, scratch
from replay import peak
from store import COMMITS

OBJECTS = 1 << 20
# The order of ids, and the bytes an object that are wanted at most.
ORDERS = {"rising": 10, "random": 10, "far": 10, "fifth": 50, "apart": 40}
# What is wanted of a commit at a million objects to one at a thousand, and of the longest single one to the middle one.
RATIOS, LONGEST = {"turn": 1.2, "spread": 1.2, "random": 1.5}, 50


def print_memory(made):
    program = scratch(made, "index", ["zbase", "fs_index"])
    lines_of(program, False, ["rising", "0"])
    built = program / "out" / "index"
    for order, wanted in ORDERS.items():
        bytes_each = (peak([built, order, str(OBJECTS)]) - peak([built, order, "0"])) / OBJECTS
        print(f"{order} ids, {OBJECTS} objects: {beside(bytes_each, wanted, '{:.1f}')} bytes an object")


def print_commits(numbers):
    for order, wanted in RATIOS.items():
        small, large = (min(numbers[order, size]) / COMMITS for size in (1_000, 1_000_000))
        print(f"a commit, objects {order}: {small:.2f} us at 1,000 objects, {large:.2f} us at 1,000,000, ratio {beside(large / small, wanted, '{:.2f}')}")


def print_longest(lines):
    """The lines of the commits that make objects: the number of each, and its nanoseconds, once for each run."""
    runs = numbers_in(lines)
    times = [min(nanos) for (kind, _), nanos in runs.items() if kind == "made"]
    middle = statistics.median(times)
    print(f"{len(times)} commits that make an object: the middle one {middle / 1000:.2f} us, the longest {max(times) / 1000:.2f} us, "
          f"ratio {beside(max(times) / middle, LONGEST, '{:.1f}')}")


def main():
    with tempfile.TemporaryDirectory() as made:
        print_memory(pathlib.Path(made))
    with tempfile.TemporaryDirectory() as made:
        program = scratch(pathlib.Path(made), "store", ["zbase", "zdisk", "evaluator", "fs_store"])
        print_commits(numbers_in(lines_of(program, True, ["memory"])))
        print_longest(lines_of(program, True, ["making"]))


if __name__ == "__main__":
    main()
