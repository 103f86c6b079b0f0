#!/usr/bin/env python3
"""Packs a file of 200 MB with a million records, of which half stay, beside `cp` and `sha1sum` of it.

A root folder has 100 folders with 100 documents each, which transactions edit, ten in each, one after another. The pack is at the
transaction in the middle, so that each document's newest record up to then stays, and all later ones. What is compared is
processor time, that of the program and that which the system spends for it, since a pack waits for the disk's sync and `cp`
doesn't. Each run packs a copy of its own, with its pages in the system's cache.
"""

import argparse
import pathlib
import subprocess
import sys
import tempfile

from backup import least, run
from replay import BUILT, Writer, be, build, document, folder, text

FIRST = 0x0331620000000000
FOLDERS, DOCUMENTS, TOGETHER = 100, 100, 10
NAMES = [b"page%02d" % number for number in range(DOCUMENTS)]


def part(name, children):
    """The record of a folder in the root."""
    listed = b"".join(text(child) + be(oid, 8) for child, oid in children)
    return b"Z1F" + text(name) + be(0, 8) + text(b"") + be(0, 6) + be(len(children), 2) + listed


def oid_of(number):
    """The id of a document, of all of them."""
    return FOLDERS + 1 + number


def made():
    """The records of the first transaction: the root, its folders, and their documents."""
    yield 0, folder([(b"part%02d" % number, number + 1) for number in range(FOLDERS)])
    for number in range(FOLDERS):
        first = number * DOCUMENTS
        yield number + 1, part(b"part%02d" % number, [(name, oid_of(first + at)) for at, name in enumerate(NAMES)])
    for number in range(FOLDERS * DOCUMENTS):
        yield oid_of(number), text_of(number, 0, 100)


def text_of(number, revision, size):
    """A document's record at a revision."""
    source = (b"revision %d " % revision) * (size // 10)
    return document(NAMES[number % DOCUMENTS], source[:size], number // DOCUMENTS + 1)


def write_site(out, records, size):
    """The site, edited until it has so many records. The id of the transaction in the middle, and its length."""
    writer = Writer(out)
    writer.transaction(FIRST, b"", b"init", list(made()))
    transactions = (records - FOLDERS * (DOCUMENTS + 1) - 1) // TOGETHER
    for number in range(1, transactions + 1):
        edited = [(number * TOGETHER + at) % (FOLDERS * DOCUMENTS) for at in range(TOGETHER)]
        writer.transaction(FIRST + number, b"admin", b"/edits", [(oid_of(one), text_of(one, number, size)) for one in edited])
    return FIRST + transactions // 2, writer.place


def main():
    words = argparse.ArgumentParser(description=__doc__)
    words.add_argument("--records", type=int, default=1_000_000)
    words.add_argument("--size", type=int, default=100)
    words.add_argument("--rounds", type=int, default=3)
    words.add_argument("--folder", help="where the files stand (else the system's place for such)")
    given = words.parse_args()
    build()
    with tempfile.TemporaryDirectory(dir=given.folder) as room:
        home = pathlib.Path(room).resolve()
        site, copy = home / "site.fs", home / "copy.fs"
        with open(site, "wb") as out:
            middle, size = write_site(out, given.records, given.size)
        ours, theirs = [], []
        for _ in range(given.rounds):
            copied, digest = run(["cp", site, copy]), run(["sha1sum", site])
            theirs.append((copied[0] + digest[0], 0))
            ours.append(run([BUILT, "pack", copy, f"{middle:016x}"], "packed"))
            left = copy.stat().st_size
        checked = subprocess.run([BUILT, "check", copy], stdout=subprocess.PIPE, text=True, check=False)
        if checked.returncode:
            sys.exit(f"the packed file doesn't open: {checked.stdout}")
    (seconds, memory), other = least(ours), least(theirs)[0]
    print(f"pack: {size} bytes, {given.records} records, {left} bytes left, {seconds:.2f} s, cp and sha1sum {other:.2f} s, ratio {seconds / other:.2f}, memory {memory}")


if __name__ == "__main__":
    main()
