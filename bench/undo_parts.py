#!/usr/bin/env python3
"""Undoes transactions of 100, 200, 400 and 800 parts each.

An undo asks for its transaction and for each of its objects, one in each evaluation, so what it costs tells whether it goes on
where it stopped. Each transaction writes documents of its own; a cost is a replay's seconds of the processor, the least of so
many runs, without those of a run that has no request, by the number of transactions. The report's line for each fetch, and for
each object that goes back, is part of it.
"""

import argparse
import pathlib
import tempfile

from children import head, listed
from replay import Writer, be, build, processor_seconds, text

FIRST_ID, FIRST_DOCUMENT = 0x0331620000000000, 1
UNDO_CHANGES = 12


def root():
    """A root in which anyone may undo."""
    setting = be(UNDO_CHANGES, 1) + be(0, 1) + listed([text(b"Anonymous")])
    return b"Z2F" + text(b"") + be(0, 8) + text(b"Site") + listed([setting]) + be(0, 6)


def document(oid, said):
    source = b"%s of %d" % (said, oid)
    return head(b"D", b"document%d" % oid) + be(len(source), 4) + source + be(0, 2)


def write_site(path, transactions, parts):
    """Each of these transactions writes so many documents of its own anew."""
    with open(path, "wb") as out:
        writer = Writer(out)
        every = [(oid, document(oid, b"first text")) for oid in range(FIRST_DOCUMENT, FIRST_DOCUMENT + transactions * parts)]
        writer.transaction(FIRST_ID, b"", b"init", [(0, root()), *every])
        for number in range(transactions):
            of_it = FIRST_DOCUMENT + number * parts
            again = [(oid, document(oid, b"second text")) for oid in range(of_it, of_it + parts)]
            writer.transaction(FIRST_ID + 1 + number, b"", b"edits", again)


def schedule(transactions, parts):
    """An undo of each transaction, with the steps that it takes: one for each fact, and some to begin, to vote and to end."""
    lines = [b"zope schedule 1\n"]
    for number in range(transactions):
        body = b"tid=%016x" % (FIRST_ID + 1 + number)
        message = b"POST /manage_undo_transactions HTTP/1.0\r\nContent-Length: %d\r\n\r\n%s" % (len(body), body)
        lines.append(b"request 0 %d\n%s\n" % (len(message), message) + b"step 0\n" * (parts + 6))
    lines.append(b"end\n")
    return b"".join(lines)


def seconds(site, lines, undone, rounds):
    """The least seconds of the processor that a replay takes, which undoes so many transactions."""
    took = [processor_seconds(site, lines, site.with_suffix(".report")) for _ in range(rounds)]
    shown = site.with_suffix(".report").read_bytes()
    assert shown.count(b"reply 0 commit ") == undone, "a transaction wasn't undone"
    return min(took)


def main():
    options = argparse.ArgumentParser(description=__doc__)
    options.add_argument("--parts", type=int, nargs="+", default=(100, 200, 400, 800))
    options.add_argument("--transactions", type=int, default=10)
    options.add_argument("--rounds", type=int, default=7)
    given = options.parse_args()
    build()
    first = None
    with tempfile.TemporaryDirectory() as made:
        site, lines = pathlib.Path(made) / "site.fs", pathlib.Path(made) / "schedule"
        for parts in given.parts:
            write_site(site, given.transactions, parts)
            costs = []
            for undone in (0, given.transactions):
                lines.write_bytes(schedule(undone, parts))
                costs.append(seconds(site, lines, undone, given.rounds))
            cost = (costs[1] - costs[0]) / given.transactions
            first = first or cost / parts
            print(f"{parts} parts: {cost * 1000:.2f} ms an undo, {cost / parts * 1e6:.1f} us a part, {cost / parts / first:.2f} times the first row's")


if __name__ == "__main__":
    main()
