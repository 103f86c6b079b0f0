#!/usr/bin/env python3
"""Steps sixteen workers over a small history 1,000 and 100,000 times, by `txn_core`, in the program `workers/`."""

from programs import best_of


def main():
    best = best_of("workers", ["zbase", "zdisk", "evaluator", "fs_store", "txn_core"], keeps_memory=True)
    few, many = best["steps", 1000] / 1000, best["steps", 100000] / 100000
    print(f"a step of 1,000: {few * 1e6:.2f} us, of 100,000: {many * 1e6:.2f} us, ratio {many / few:.2f}")


main()
