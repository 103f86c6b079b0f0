#!/usr/bin/env python3
"""Reads 100,000 messages of 400 bytes in pieces of 1,460 beside `httparse` over the same heads, and a head of 16,384
bytes byte by byte beside the same in one piece, and beside bytes that are only pushed to a list and looked at.

All run in one program, `http_reading/`, twenty times in turn.
"""

from programs import best_of


def main():
    best = best_of("http_reading", ["zbase", "http_in", "httparse"], keeps_memory=True)
    for ours, other in (("read", "parsed"), ("bytes", "whole"), ("bytes", "pushed"), ("chunks", "whole")):
        (size,) = {size for kind, size in best if kind == ours}
        one, two = best[ours, size], best[other, size]
        print(f"{ours}, {size} bytes: {one * 1e3:.2f} ms, {other} {two * 1e3:.2f} ms, ratio {one / two:.2f}")


main()
