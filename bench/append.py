#!/usr/bin/env python3
"""Appends 1,000,000 records of 100 bytes by the writer of transactions, and as many bytes in plain pieces.

Both run in one program, `append/`, five times in turn: all records in one transaction, and each in its own.
"""

from programs import best_of


def main():
    best = {kind: (size, seconds) for (kind, size), seconds in best_of("append", ["zbase", "fs_record"]).items()}
    for kind, what in (("one", "one transaction of a million records"), ("each", "a million transactions of one record")):
        size, seconds = best[kind]
        plain_size, plain = best[kind + "-plain"]
        assert abs(size - plain_size) <= 31
        print(f"{what}: {size} bytes in {seconds:.3f} s, {plain_size} plain bytes in {plain:.3f} s, ratio {seconds / plain:.2f}")


main()
