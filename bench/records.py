#!/usr/bin/env python3
"""Decodes records of about a million bytes by `zcodec`, and copies their bytes and texts.

Both run in one program, `records/`, a hundred times in turn: a folder of 10,000 children, and of half and a quarter of
them, by rising names and in an order that looks random, a document of a hundred long properties, and a user folder of 1,000 users.
"""

from programs import best_of


def main():
    best = best_of("records", ["zbase", "zobject", "zcodec"], keeps_memory=True)
    decoded = {key: seconds for key, seconds in best.items() if not key[0].endswith("-copy")}
    for (kind, size), seconds in decoded.items():
        copied = best[kind + "-copy", size]
        print(f"{kind}: {size} bytes decoded in {seconds * 1e3:.3f} ms, copied in {copied * 1e3:.3f} ms, ratio {seconds / copied:.2f}")
    for order in ("children", "mixed"):
        quarter, half, whole = sorted(seconds for (kind, _), seconds in decoded.items() if kind == order)
        print(f"{order}: twice as many take {half / quarter:.2f} and {whole / half:.2f} times as long")


main()
