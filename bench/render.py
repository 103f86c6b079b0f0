#!/usr/bin/env python3
"""Renders a page of 100 and of 1,000 documents, of each of which five names are shown, and the same by Jinja2.

The documents are objects of a folder, each of which the user must be granted; Jinja2 has objects of a class, and no one to
ask. Twenty pages are timed twenty times, in turn, and the least time is taken. That both have the same text is looked at.
Jinja2 runs in this interpreter, before and behind the program.
"""

import pathlib
import tempfile
import time

import jinja2

from programs import lines_of, numbers_in, scratch

USES = "zbase zobject zknown acquisition permissions evaluator namespace dtml_lex dtml_parse dtml_values dtml_render".split()
PAGE = (
    "{% for item in items %}<tr><td>{{ item.id }}</td><td>{{ item.title }}</td><td>{{ item.colour }}</td>"
    "<td>{{ item.size }}</td><td>{{ item.place }}</td></tr>\n{% endfor %}"
)
PAGES = 20
ROUNDS = 20


class Document:
    def __init__(self, number):
        self.id = f"document{number:05}"
        self.title = f"Title {number:05}"
        self.colour = f"colour{number:05}"
        self.size = f"size{number:05}"
        self.place = f"place{number:05}"


def timed(template, items):
    """The least time of a page in microseconds, and how long it is."""
    best = None
    for _ in range(ROUNDS):
        began = time.perf_counter()
        for _ in range(PAGES):
            text = template.render(items=items)
        took = (time.perf_counter() - began) / PAGES * 1e6
        best = took if best is None else min(best, took)
    return best, len(text)


def main():
    template = jinja2.Environment().from_string(PAGE)
    sites = {count: [Document(number) for number in range(1, count + 1)] for count in (100, 1_000)}
    before = {count: timed(template, items) for count, items in sites.items()}
    with tempfile.TemporaryDirectory() as made:
        numbers = numbers_in(lines_of(scratch(pathlib.Path(made), "render", USES), True))
    behind = {count: timed(template, items) for count, items in sites.items()}
    ours = {count: min(numbers["render", count]) / PAGES for count in sites}
    for count in sites:
        jinja = min(before[count][0], behind[count][0])
        assert set(numbers["bytes", count]) == {before[count][1]}, "the two pages differ in length"
        print(f"{count} items: {ours[count]:.1f} us, Jinja2 {jinja:.1f} us, ratio {ours[count] / jinja:.2f} (wanted of 1,000: at most 1)")
    print(f"1,000 items to 100: {ours[1_000] / ours[100]:.1f} (wanted: at most 12)")


main()
