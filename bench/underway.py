#!/usr/bin/env python3
"""Measures the memory of sixteen pages on their way at their limits, each of another worker.

A page lists the documents of a folder and stands before its last one when the schedule ends. What it holds is the facts that it was
given, their objects, and what it has made so far. One site is at the limit of a page's bytes (64 MiB of values), one at that of its
tags (10,000), one at that of its text (1 MiB). Each is measured with one page and with sixteen, beside a run without any.
"""

import argparse
import multiprocessing
import pathlib
import tempfile

from pages import folder, page
from replay import PROGRAM, Writer, build, timed

WORKERS = 16
ROW = b"<dtml-in objectValues><dtml-var text></dtml-in>"
FIRST = 10
SITES = {
    # how many documents, the bytes of each one's source, and of the text that is shown of it
    "bytes": (255, 262_000, 1),
    "tags": (9_990, 1, 1),
    "text": (104, 1, 9_999),
}


def write_site(path, documents, source, shown):
    children, objects = [], []
    for number in range(documents):
        name, oid = b"document%05d" % number, FIRST + 1 + number
        objects.append((oid, page(b"D", name, FIRST, b"x" * source, [(b"text", b"t" * shown)])))
        children.append((name, oid))
    objects.append((FIRST, folder(b"of", 0, children)))
    objects.append((1, page(b"M", b"rows", 0, ROW)))
    objects.append((0, folder(b"", 0, [(b"rows", 1), (b"of", FIRST)])))
    with open(path, "wb") as out:
        Writer(out).transaction(0x0331620000000000, b"", b"init", sorted(objects))


def schedule(pages, asks):
    """So many pages, each of a worker of its own and one object short of its end."""
    message = b"GET /of/rows HTTP/1.0\r\n\r\n"
    lines = [b"zope schedule 1\n"]
    for worker in range(pages):
        lines.append(b"request %d %d\n%s\n" % (worker, len(message), message) + b"step %d\n" % worker * asks)
    return b"".join([*lines, b"end\n"])


def most_memory(at, site, pages, asks):
    lines = at / "schedule"
    lines.write_bytes(schedule(pages, asks))
    with open(lines, "rb") as given, open(at / "report", "wb") as out:
        _, memory = timed([PROGRAM, "replay", site], given, out)
    # The report ends with the file's history: it is read by lines.
    with open(at / "report", "rb") as report:
        fetches = 0
        for line in report:
            assert not line.startswith(b"HTTP/1.1"), "a page came to its end"
            fetches += line.startswith(b"fetch ")
    assert fetches >= pages * (asks - 2), "a page didn't come so far"
    return memory


def main():
    options = argparse.ArgumentParser(description=__doc__)
    options.add_argument("--sites", nargs="+", default=list(SITES), choices=list(SITES))
    given = options.parse_args()
    build()
    with tempfile.TemporaryDirectory() as made:
        at = pathlib.Path(made)
        for name in given.sites:
            documents, source, shown = SITES[name]
            site = at / f"{name}.fs"
            # In a process of its own: a child's greatest memory counts what its parent had when it was started.
            writer = multiprocessing.Process(target=write_site, args=(site, documents, source, shown))
            writer.start()
            writer.join()
            # The root, the folder and the method come first; the last document isn't fetched.
            asks = 3 + documents - 1
            none, one, all_ = (most_memory(at, site, pages, asks) for pages in (0, 1, WORKERS))
            mib = 1 << 20
            print(f"at the limit of {name}: file {site.stat().st_size / mib:.0f} MiB; without pages {none / mib:.0f} MiB, one page {(one - none) / mib:.1f} more, sixteen {(all_ - none) / mib:.1f} more")


if __name__ == "__main__":
    main()
