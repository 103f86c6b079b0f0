#!/usr/bin/env python3
"""Finds the last name of a folder of 1,000 and of 10,000 children a thousand times, by a stack of names.

`client`: the folder is the client of a stack without layers. `layers`: the same below sixteen layers without names. Each is
timed ten times in turn, and the least time is taken.
"""

from programs import best_of


def main():
    best = best_of("names", ["zbase", "zobject", "zknown", "acquisition", "permissions", "evaluator", "namespace"], keeps_memory=True)
    for kind in ("client", "layers"):
        few, many = best[kind, 1_000], best[kind, 10_000]
        print(f"{kind}: 1,000 children {few * 1e3:.2f} us, 10,000 children {many * 1e3:.2f} us, ratio {many / few:.2f} (wanted: at most 12)")


main()
