#!/usr/bin/env python3
"""Reads the fields of forms of 26,000 and of 260,000 names of three letters, in the program `forms/`.

The names come in their order, in an order that looks random, in that order with one of them twice, or a thousand of them
again and again. Beside it the names alone are put into an ordered map.
"""

import pathlib
import tempfile

from programs import lines_of, numbers_in, scratch


def main():
    with tempfile.TemporaryDirectory() as made:
        numbers = numbers_in(lines_of(scratch(pathlib.Path(made), "forms", ["zbase", "http_in", "form_fields"]), True))
    for order in ("rising", "scattered", "again", "repeated"):
        for kind in ("", "-map"):
            few, many = (min(numbers[order + kind, size]) / 1000 for size in (104_000, 1_040_000))
            print(f"{order}{kind}: 26,000 names in {few:.2f} ms, 260,000 in {many:.2f} ms, ratio {many / few:.1f}")


main()
