#!/usr/bin/env python3
"""Parses templates of 262,144 bytes and of a quarter of that, by `dtml_parse`, in the program `parse/`, and by Jinja2.

    bench/parse.py [KIND ..]

It also counts the instructions of a parse, by valgrind. Jinja2's own lexer and parser (`Environment.parse`, which compiles nothing)
read the quarter in its spelling, with as many tags, blocks and words, in the same run: the least of three parses, seconds of the
processor. All kinds where none is named. Needs the toolchain, Python's jinja2 and Debian's package `valgrind`.
"""

import os
import pathlib
import re
import subprocess
import sys
import tempfile
import time

import jinja2

from programs import KEEPING, least, lines_of, scratch

KINDS = ("tags", "blocks", "entities", "bindings", "text", "arms", "sum", "names")
QUARTER, WHOLE = 65536, 262144

# The front, a piece and the end of each kind: as the program has them, and as Jinja2 spells them.
SPELLED = {
    "tags": (("", '<dtml-var a html_quote missing="none" size=20 etc=...>', ""), ("", '{{ a|default("none")|truncate(20, True, "...")|e }}', "")),
    "blocks": (("", '<dtml-if a>b<dtml-elif "c == 1">d<dtml-else>e</dtml-if>', ""), ("", "{% if a %}b{% elif c == 1 %}d{% else %}e{% endif %}", "")),
    "entities": (("", "&dtml-a;", ""), ("", "{{ a|e }}", "")),
    "bindings": (("", '<dtml-let a=b c=d e="f"></dtml-let>', ""), ("", "{% with a=b, c=d, e=f %}{% endwith %}", "")),
    "text": (("", "almost <dtml &dtml-a ", ""), ("", "almost { dtml } dtml-a", "")),
    "arms": (("<dtml-if a>", "<dtml-elif b>c", "</dtml-if>"), ("{% if a %}", "{% elif b %}c", "{% endif %}")),
    "sum": (('<dtml-var "a', " + b", '">'), ("{{ a", " + b", " }}")),
    "names": (("<dtml-let", " a100000=b", "></dtml-let>"), ("{% with z=z", ", a{}=b", " %}{% endwith %}")),
}


def instructions(program, kind, quarters, times):
    """How many instructions a run takes that parses a source of so many quarters so many times."""
    words = ["valgrind", "--tool=cachegrind", "--cache-sim=no", "--cachegrind-out-file=/dev/null", "out/parse", kind, str(quarters), str(times)]
    done = subprocess.run(words, cwd=program, capture_output=True, text=True, env=os.environ | KEEPING)
    if done.returncode:
        raise SystemExit(done.stderr)
    return int(re.search(r"I +refs: +([\d,]+)", done.stderr)[1].replace(",", ""))


def of_one_parse(program, kind, quarters):
    """How many instructions one parse takes."""
    return instructions(program, kind, quarters, 1) - instructions(program, kind, quarters, 0)


def print_times(kind, best, caches):
    """Prints the best times of a kind: of a quarter and the whole, and of the whole and four quarters."""
    quarter, whole = best[caches, QUARTER] * 1000, best[caches, WHOLE] * 1000
    one, four = best[caches + "-one", WHOLE] * 1000, best[caches + "-four", WHOLE] * 1000
    print(f"{kind}, {caches}: a quarter {quarter:.3f} ms, the whole {whole:.3f} ms, ratio to four times the quarter {whole / quarter / 4:.3f}")
    print(f"{kind}, {caches}: four quarters {four:.3f} ms, the whole {one:.3f} ms, ratio {one / four:.3f}")


def for_jinja(kind):
    """A quarter of a kind in Jinja2's spelling: with as many pieces as the program's has."""
    (front, piece, end), (start, part, close) = SPELLED[kind]
    pieces = (QUARTER - len(front) - len(end)) // len(piece)
    return start + "".join(part.format(100_000 + number) if kind == "names" else part for number in range(pieces)) + close


def time_of_jinja(kind):
    """The least seconds of the processor that Jinja2's lexer and parser take for a quarter."""
    surroundings, source, took = jinja2.Environment(), for_jinja(kind), []
    for _ in range(3):
        began = time.process_time()
        surroundings.parse(source)
        took.append(time.process_time() - began)
    return min(took)


def print_beside_jinja(kind, ours):
    theirs = time_of_jinja(kind)
    print(f"{kind}: a quarter {ours * 1000:.3f} ms, Jinja2 {theirs * 1000:.1f} ms, {theirs / ours:.0f} times as fast (wanted: at least 10)", flush=True)


def main():
    with tempfile.TemporaryDirectory() as made:
        program = scratch(pathlib.Path(made), "parse", ["zbase", "dtml_parse"])
        for kind in sys.argv[1:] or KINDS:
            best = least([line for _ in range(3) for line in lines_of(program, True, [kind])])
            for caches in ("warm", "cold"):
                print_times(kind, best, caches)
            # the other kinds are none that Jinja2 reads in seconds, or hasn't been seen to
            if kind in ("tags", "blocks", "bindings", "text", "arms"):
                print_beside_jinja(kind, best["warm", QUARTER])
            quarter, whole = (of_one_parse(program, kind, quarters) for quarters in (1, 4))
            print(f"{kind}: {quarter} instructions for a quarter, {whole} for the whole, ratio to four times the quarter {whole / quarter / 4:.3f}")


main()
