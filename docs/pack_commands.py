#!/usr/bin/env python3
"""Writes the cases of `zope pack`: data/packs.cases of zope_cases.

    python3 docs/pack_commands.py > crates/zope_cases/data/packs.cases

What is wanted is worked out by the rule of a pack, which stands in `docs/packs.py`, over the objects of a new site: their records
are those that the cases of backups have, and to which objects a record leads stands here once more. A call of the shelf or of a
disk that fails is a refusal, and what it leaves is what was written before. Nothing here runs or reads the product.
"""

import packs
from backup_cases import EDIT, SITE
from packs import PACKED, Transaction, floor_of, packed, put_hex

FIRST = 0x0331620000000000
LATER = 0x0331620000000002


# ---- a site

def read(content):
    """The transactions of a file without back pointers: its id, its texts, and its records."""
    at, found = 0, []
    while at < len(content):
        size = int.from_bytes(content[at + 8 : at + 16], "big")
        lengths = [int.from_bytes(content[at + 17 + 2 * n : at + 19 + 2 * n], "big") for n in range(3)]
        texts, place = [], at + 23
        for length in lengths:
            texts.append(content[place : place + length])
            place += length
        records, end = [], at + size
        while place < end:
            length = int.from_bytes(content[place + 34 : place + 42], "big")
            records.append((int.from_bytes(content[place : place + 8], "big"), content[place + 42 : place + 42 + length]))
            place += 42 + length
        found.append(Transaction(int.from_bytes(content[at : at + 8], "big"), records, content[at + 16], *texts))
        at += size + 8
    return found


[INIT] = read(SITE[4:])
[EDIT_OF_BACKUPS] = read(EDIT)
ROOT, USERS, METHOD = (value for _, value in INIT.records)


def method(source):
    """The record of the method, with another source: its length and it stand before the proxy roles, of which there are none."""
    return METHOD[:-68] + len(source).to_bytes(4, "big") + source + b"\0\0"


NEW_METHOD, LAST_METHOD = method(b"x"), method(b"y")
# the first version has no proxy roles
OLDER = b"Z1" + METHOD[2:-2]
INIT_OLDER = INIT.with_records([(0, ROOT), (1, USERS), (2, OLDER)], INIT.status)
EDITED = EDIT_OF_BACKUPS.with_records([(2, NEW_METHOD)], EDIT_OF_BACKUPS.status)
ENTRY = b"\0\x0aindex_html" + packs.number(2)
EMPTIED = ROOT.replace(b"\0\x02" + b"\0\x09acl_users", b"\0\x01" + b"\0\x09acl_users").replace(ENTRY, b"")
BAD = METHOD[:-1]

# to which objects a record leads: the folder that holds the object, and what it holds
LINKS = {ROOT: [0, 1, 2], EMPTIED: [0, 1], USERS: [0], METHOD: [0], OLDER: [0], NEW_METHOD: [0], LAST_METHOD: [0]}


def links_of(value):
    if value is None:
        return [], False
    return (LINKS[value], False) if value in LINKS else ([], True)


packs.links_of = links_of

TWICE = Transaction(LATER, [(2, LAST_METHOD)], EDITED.status, *EDITED.texts)
SITES = {
    "init": [INIT],
    "edits": [INIT, EDITED, TWICE],
    "edits of an older site": [INIT_OLDER, EDITED, TWICE],
    "emptied": [INIT, EDITED, Transaction(LATER, [(0, EMPTIED)])],
    "unread": [INIT, Transaction(LATER, [(2, BAD)])],
    "unread_since": [INIT, EDITED, Transaction(LATER, [(1, BAD)])],
    "nothing": [],
}


# ---- cases

PIECES, CASES = [], []


def piece(content):
    """The name of a piece of these bytes, which is written once."""
    if content not in PIECES:
        PIECES.append(content)
    return f"packed{PIECES.index(content)}"


def stand(key, name, content):
    CASES.append(f"{key} {name}")
    if content:
        CASES.append(f"  use {piece(content)}")


def put(title, words, files, status, output, left, failing=()):
    CASES.append(f"\ncase {title}\nwords {words}")
    for name, content in files.items():
        stand("file", name, content)
    CASES.extend(f"failing {one}" for one in failing)
    CASES.append(f"status {status}\noutput")
    CASES.extend(f"  | {line}" for line in output)
    for name, content in left.items():
        stand("left", name, content)


def left_of(transactions, time):
    """The packed file, its floor, and how many transactions it has; or the least object that can't be read."""
    _, history = packs.file_of(transactions)
    found = packs.kept(history, time)
    unread = packs.broken(history, time, found)
    if unread is not None:
        return unread
    left = packed(history, time, found)
    content, _ = packs.file_of(left)
    return content, max(floor_of(left), floor_of(transactions)), len(left)


def put_pack(title, transactions, time, torn=b""):
    content, _ = packs.file_of(transactions)
    came = left_of(transactions, time)
    words = f"pack site.fs {time:016x}"
    if isinstance(came, int):
        return put(title, words, {"site.fs": content + torn}, 13, [f"unreadable {came:016x}"], {"site.fs": content + torn})
    file, floor, count = came
    put(title, words, {"site.fs": content + torn}, 0, [f"packed {floor:016x} {count}"], {"site.fs": file})
    return file


def put_times():
    for name, transactions in SITES.items():
        for when, time in ("before all", FIRST - 1), ("at the first", FIRST), ("at the second", EDITED.tid), ("at the last", LATER), ("behind all", 2**64 - 1):
            put_pack(f"{name}: {when}", transactions, time)


def put_others():
    edits = SITES["edits"]
    put_pack("a torn rest goes", edits, EDITED.tid, EDIT[:20])
    once = read(put_pack("a pack that is packed again: once", edits, EDITED.tid)[4:])
    put_pack("a pack that is packed again: at the same time", once, EDITED.tid)
    put_pack("a pack that is packed again: before its floor", once, FIRST)
    put_pack("a pack that is packed again: later", once, LATER)
    content, _ = packs.file_of(edits)
    words = f"pack site.fs {LATER:016x}"
    put("there is no such file", words, {"other.fs": content}, 8, ["missing site.fs"], {"other.fs": content})
    put("a file without its magic", words, {"site.fs": b"FS20" + content[4:]}, 3, ["damaged 9 at 0"], {"site.fs": b"FS20" + content[4:]})
    put("the packed file's name is taken", words, {"site.fs": content, "site.fs.pack": EDIT}, 11, ["exists site.fs.pack"], {"site.fs": content, "site.fs.pack": EDIT})
    unread, _ = packs.file_of(SITES["unread"])
    put("what can't be read is told before a name that is taken", words, {"site.fs": unread, "site.fs.pack": EDIT}, 13, [f"unreadable {2:016x}"], {"site.fs": unread, "site.fs.pack": EDIT})
    put("other files stay, in their order behind", words, {"a": EDIT, "site.fs": content, "b": EDIT}, 0, [f"packed {LATER:016x} 2"], {"a": EDIT, "b": EDIT, "site.fs": left_of(edits, LATER)[0]})
    for title, given in ("the id is short", "site.fs 331620000000001"), ("the id has capitals", "site.fs 033162000000000A"), ("there is no id", "site.fs"), ("there is a word too many", "site.fs 0331620000000001 more"):
        put(title, f"pack {given}", {"site.fs": content}, 2, ["usage"], {"site.fs": content})


def put_faults():
    """Each call of the shelf that opens, makes or replaces a file, and each of the new file's disk: its magic, one write for each transaction that stays, and a sync."""
    edits = SITES["edits"]
    content, _ = packs.file_of(edits)
    file, floor, count = left_of(edits, EDITED.tid)
    words, output = f"pack site.fs {EDITED.tid:016x}", [f"packed {floor:016x} {count}"]
    left = read(file[4:])
    fronts = [b""] + [packs.file_of(left[:n])[0] for n in range(len(left))]
    for number, behind in (1, {}), (2, {}), (3, {"site.fs.pack": file}):
        put(f"call {number} of the shelf fails", words, {"site.fs": content}, 5, ["disk fault"], {"site.fs": content, **behind}, [f"opening {number}"])
    put("no fourth call of the shelf is made", words, {"site.fs": content}, 0, output, {"site.fs": file}, ["opening 4"])
    for number, front in enumerate(fronts, 1):
        put(f"write {number} of the new file fails", words, {"site.fs": content}, 5, ["disk fault"], {"site.fs": content, "site.fs.pack": front}, [f"new {number}"])
    put("the new file isn't synced", words, {"site.fs": content}, 5, ["disk fault"], {"site.fs": content, "site.fs.pack": b""}, [f"new {len(fronts) + 1}"])
    put("no further call of the new file is made", words, {"site.fs": content}, 0, output, {"site.fs": file}, [f"new {len(fronts) + 2}"])
    put("the first call of the file fails", words, {"site.fs": content}, 5, ["disk fault"], {"site.fs": content}, ["disk 1"])
    put("the output fails", words, {"site.fs": content}, 6, [], {"site.fs": file}, ["output 1"])


def main():
    put_times()
    put_others()
    put_faults()
    print("# Written by docs/pack_commands.py.")
    for number, content in enumerate(PIECES):
        print(f"\npiece packed{number}")
        put_hex(content)
    print("\n".join(CASES))


if __name__ == "__main__":
    main()
