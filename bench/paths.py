#!/usr/bin/env python3
"""Reaches 16 and 64 objects one through the other, each with 64 containers, by `acquisition`.

`shared`: all have the same containers. `apart`: each has its own, so that the wrapper grows to 4,097 objects. The ways of
16 are the four quarters of the one of 64, so that both go through the same objects. All are gone a hundred times, in twenty
rounds in turn, and the least time of each is taken.
"""

from programs import best_of


def main():
    best = best_of("paths", ["zbase", "zobject", "zknown", "acquisition"], keeps_memory=True)
    for kind in ("shared", "apart"):
        few, many = best[kind, 16] / 4, best[kind, 64]
        print(f"{kind}: 16 objects {few * 1e4:.1f} us, 64 objects {many * 1e4:.1f} us, ratio {many / few:.2f} (wanted: at most 6)")


main()
