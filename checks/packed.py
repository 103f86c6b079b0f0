#!/usr/bin/env python3
"""Packs random sites by the built program, and compares each packed file with the one before.

    checks/packed.py [SITES [SEED]]

A site has nine objects: folders whose children change, and methods whose sources do; some objects come to be reachable by no
folder, and some again. Each is packed at one of its transactions, or before or behind all. By the dumps of both files: at every
transaction from the pack on, each object that the pack keeps (by the rule in docs/packs.py) has the same value; the transactions
behind the pack are the same ones; and what the pack prints is what the dump's end says. `check` opens the packed file, and a replay
of requests over it gives the replies that it gives over the old one.
"""

import pathlib
import random
import subprocess
import sys
import tempfile

from served import HOME, PROGRAM, zope

sys.path.insert(0, str(HOME / "docs"))
import packs  # noqa: E402
from packs import Transaction, number  # noqa: E402

FIRST, OBJECTS = 0x0331620000000000, 9
LINKS = {}
packs.links_of = lambda value: ([], False) if value is None else (LINKS[value], False)


def text(given):
    return len(given).to_bytes(2, "big") + given


def folder(oid, parent, children):
    name = b"" if oid == 0 else b"o%d" % oid
    value = b"Z2F" + text(name) + number(parent) + text(b"T") + bytes(6) + len(children).to_bytes(2, "big")
    value += b"".join(text(b"o%d" % child) + number(child) for child in children)
    LINKS[value] = [parent, *children]
    return value


def method(oid, parent, source):
    value = b"Z2M" + text(b"o%d" % oid) + number(parent) + text(b"") + bytes(6) + len(source).to_bytes(4, "big") + source + bytes(2)
    LINKS[value] = [parent]
    return value


def site_of(chance):
    """Transactions over a root, two folders and six methods, of which a folder lists other ones each time that it is written."""
    def one(oid, at):
        if oid == 0:
            return folder(0, 0, sorted(chance.sample(range(1, OBJECTS), chance.randrange(1, OBJECTS))))
        if oid < 3:
            return folder(oid, 0, sorted(chance.sample(range(3, OBJECTS), chance.randrange(4))))
        return method(oid, chance.choice([0, 1, 2]), b"revision %d of %d" % (at, oid))

    made = [Transaction(FIRST, [(oid, one(oid, 0)) for oid in range(OBJECTS)])]
    for at in range(1, chance.randrange(2, 12)):
        oids = chance.sample(range(OBJECTS), chance.randrange(1, 4))
        made.append(Transaction(FIRST + at, [(oid, packs.Back() if chance.random() < 0.2 else one(oid, at)) for oid in oids], user=b"admin"))
    return made


def history_of(dump):
    """The transactions of a dump, each with the values that it gives."""
    found = []
    for line in dump.decode().splitlines():
        words = line.split()
        if words[0] == "transaction":
            found.append((int(words[1], 16), words[2:5], []))
        elif words[0] == "record":
            found[-1][2].append((int(words[1], 16), words[2]))
    return found


def values_at(history, tid, oid):
    given = [value for at, _, records in history if at <= tid for of, value in records if of == oid]
    return given[-1] if given else "none"


def replies(file, home):
    """What a replay of some requests over the file answers, line by line, without the history at its end."""
    lines = [b"zope schedule 1\n"]
    for path in (b"/", b"/o3", b"/o1/o4", b"/o8", b"/o2/o5"):
        message = b"GET " + path + b" HTTP/1.0\r\n\r\n"
        lines.append(b"request 0 %d\n%s\n" % (len(message), message) + b"step 0\n" * 12)
    (home / "schedule").write_bytes(b"".join(lines) + b"end\n")
    with open(home / "schedule", "rb") as given:
        said = subprocess.run([PROGRAM, "replay", file], stdin=given, stdout=subprocess.PIPE, check=True).stdout
    return said[said.index(b"\n", said.index(b"open")) : said.rindex(b"\nhistory ")]


def compare(seed, home):
    chance = random.Random(seed)
    transactions = site_of(chance)
    time = FIRST + chance.randrange(-1, len(transactions) + 1)
    content, history = packs.file_of(transactions)
    old, new = home / "old.fs", home / "new.fs"
    old.write_bytes(content)
    new.write_bytes(content)
    said = zope("pack", new, f"{time:016x}").decode().split()
    before, behind = history_of(zope("dump", old)), history_of(zope("dump", new))
    kept = packs.kept(history, time)
    for tid in [time, *[at for at, _, _ in before if at > time]]:
        for oid in kept:
            assert values_at(before, tid, oid) == values_at(behind, tid, oid), f"seed {seed}: object {oid} at {tid:x}"
    assert [one for one in before if one[0] > time] == [one for one in behind if one[0] > time], f"seed {seed}: later transactions"
    floor = max([at for at, _, _ in before if at <= time], default=0)
    assert said == ["packed", f"{floor:016x}", str(len(behind))], f"seed {seed}: {said}"
    numbers = dict(line.split() for line in zope("check", new).decode().splitlines())
    assert int(numbers["transactions"]) == len(behind) and int(numbers["torn"]) == 0, f"seed {seed}: {numbers}"
    assert new.stat().st_size == len(packs.file_of(packs.packed(history, time, kept))[0]), f"seed {seed}: its length"
    assert replies(old, home) == replies(new, home), f"seed {seed}: replies"
    assert not (home / "new.fs.pack").exists()
    return len(content) - new.stat().st_size


def main():
    sites = int(sys.argv[1]) if len(sys.argv) > 1 else 200
    first = int(sys.argv[2]) if len(sys.argv) > 2 else random.randrange(2**32)
    with tempfile.TemporaryDirectory() as made:
        home = pathlib.Path(made)
        smaller = sum(compare(first + at, home) > 0 for at in range(sites))
    print(f"packed: {sites} sites from the seed {first}, {smaller} of them smaller behind their pack; values, transactions and replies are the same")


if __name__ == "__main__":
    main()
