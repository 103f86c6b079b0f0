#!/usr/bin/env python3
"""Shapes texts of 1,000,000 bytes by each mark of a `dtml-var`, and copies them, in the program `shape/`."""

from programs import best_of

KINDS = ("words", "page", "letters")
MARKS = ("none", "html_quote", "url_quote", "newline_to_br", "lower", "upper", "capitalize", "size")


def print_escapes(kind, times):
    """What `url_quote` takes beside its library, and a copy in pieces of eight bytes, from the times of each."""
    copied = times["-copy"]
    for what, name in (("", "escapes by percent_encoding alone"), ("-text", "the same and a copy of them"), ("-shape", "url_quote"), ("-pieces", "a copy in pieces of eight bytes")):
        print(f"{kind}, {name}: {times[what]:.3f} ms, a copy {copied:.3f} ms, ratio {times[what] / copied:.2f}")
    more, alone = ((times["-shape"] - times[what]) / copied for what in ("-text", ""))
    print(f"{kind}, url_quote takes {more:.2f} copies more than the escapes and a copy of them (wanted: at most 6), and {alone:.2f} more than the escapes")


def main():
    best = {kind: seconds * 1000 for (kind, _), seconds in best_of("shape", ["zbase", "dtml_format", "percent_encoding"], True).items()}
    for kind in KINDS:
        for mark in MARKS:
            name = f"{mark}-{kind}"
            shaped, copied, by_signs = best[name], best[name + "-copy"], best[name + "-signs"]
            print(f"{kind}, {mark}: {shaped:.3f} ms, a copy {copied:.3f} ms, ratio {shaped / copied:.2f}; a copy sign by sign {by_signs:.3f} ms, ratio {shaped / by_signs:.2f}")
        print_escapes(kind, {what: best[f"escapes-{kind}{what}"] for what in ("", "-text", "-shape", "-pieces", "-copy")})


main()
