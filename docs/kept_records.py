#!/usr/bin/env python3
"""Writes the cases of loads of records that are kept: data/kept.cases of store_cases.

    python3 docs/kept_records.py > crates/store_cases/data/kept.cases

What is wanted is written by the rules of `docs/reopenings.py`, which count each device call: a record that was loaded is kept
while it is its object's newest, and costs none as long as the load's transaction isn't earlier; of 256 objects and 16 MiB those
that were used last are kept, and no value above 1 MiB. A store that is opened again has kept none. Nothing here runs or reads
the product.
"""

from reopenings import SEEDS, data, put_failing, put_plain, run
from stops import FIRST, TWO, Disk, number, opening, put_lines, put_piece, read_file

VOTE = "vote 3 9 write 1 new by bob"
OTHER = "vote 3 9 write 2 other by bob"
MOST = 2**20
# of which long values are made
STEP = 1024


def packed(records):
    """The one transaction of a file that a pack has left."""
    body = b"".join(records)
    length = 23 + len(body)
    return number(6) + number(length) + b"p" + bytes(6) + body + number(length)


def put_counted(title, content, script):
    disk = Disk(content, {})
    opening(disk, [])
    first = disk.calls
    whole = Disk(content, {})
    run(whole, script)
    put_plain(title, content, script, whole.calls - first)


def put_behind(title, script, failing, seed):
    """A script whose call of that number behind the opening fails."""
    first = Disk(TWO, {})
    opening(first, [])
    disk = Disk(TWO, {first.calls + failing: (False, seed)})
    answers = run(disk, script)
    print(f"case {title}, seed {seed}\nfailing behind {failing} {seed}\nfile\n  use two")
    put_lines("script", script)
    put_lines("answers", answers)
    _, last, count = read_file(disk.content)
    print(f"again opened {last} {count}\ncalls {disk.calls - first.calls}\n")


def plain():
    put_counted("a record is loaded twice, and the second time without a call", TWO, ["open", "load 1 7", "load 1 7"])
    put_counted("it is loaded at a later time", TWO, ["open", "load 1 7", "load 1 9"])
    put_counted("an earlier one is read, and isn't kept in its place", TWO, ["open", "load 1 7", "load 1 5", "load 1 5", "load 1 7"])
    put_counted("an earlier one alone isn't kept", TWO, ["open", "load 1 6", "load 1 6"])
    put_counted("two objects are loaded by turns", TWO, ["open", "load 1 7", "load 2 7", "load 1 7", "load 2 7"])
    put_counted("an object without a record costs nothing", TWO, ["open", "load 9 7", "load 9 7"])
    put_counted("a finished record is another than the one that is kept", TWO, ["open", "load 1 7", VOTE, "finish", "load 1 9", "load 1 9", "load 1 7"])
    put_counted("the records of other objects stay behind a finish", TWO, ["open", "load 1 7", OTHER, "finish", "load 1 9", "load 2 9"])
    put_counted("a voted record isn't loaded before it is finished", TWO, ["open", "load 1 7", VOTE, "load 1 9", "finish", "load 1 9"])
    put_counted("an abort leaves what is kept", TWO, ["open", "load 1 7", VOTE, "abort", "load 1 7", "load 1 9"])
    put_counted("a vote that rests on what is kept reads nothing for it", TWO, ["open", "load 1 7", OTHER + " read 1 7", "finish", "load 1 9"])
    put_counted("the store is closed and opened again", TWO, ["open", "load 1 7", "close", "open", "load 1 7", "load 1 7"])
    undone = TWO + b"".join(
        number(tid) + number(length := 23 + len(body)) + b" " + bytes(6) + body + number(length)
        for tid, body in ((9, data(1, 9, 4 + len(FIRST) + 26, len(TWO), 30)),)
    )
    put_counted("a record that means an earlier one's value is kept with it", undone, ["open", "load 1 9", "load 1 9", "load 1 7", "load 1 9"])
    none = b"FS21" + packed([data(1, 6, 0, 4, b"left"), data(2, 6, 0, 4, 0)])
    put_counted("behind a pack each object has one record, and one of them means none", none, ["open", *["load 1 6", "load 2 6", "load 1 5"] * 2])


def failing():
    THEN = ["load 1 9", "load 1 9", "load 1 7"]
    for seed in SEEDS:
        put_behind("a vote whose write fails: the file is opened again, and nothing is kept", ["open", "load 1 7", VOTE, "load 1 7", "load 1 7"], 3, seed)
        put_behind("a finish whose write fails", ["open", "load 1 7", VOTE, "finish", *THEN], 5, seed)
        put_behind("a finish whose sync fails", ["open", "load 1 7", VOTE, "finish", *THEN], 6, seed)
        put_behind("an abort whose cut fails", ["open", "load 1 7", VOTE, "abort", *THEN], 5, seed)
    put_behind("a load whose first read fails keeps nothing", ["open", "load 1 7", "load 1 7", "load 1 7"], 1, 0)
    put_behind("a load whose read of the value fails keeps nothing", ["open", "load 1 7", "load 1 7", "load 1 7"], 2, 0)
    for seed in SEEDS:
        put_failing("each device call of loads fails in turn", TWO, ["open", "load 1 7", "load 1 5", "load 1 7", "load 2 7", "load 1 9", "load 2 7"], seed, 0)


# ---- many objects, and long values


def put_file(oids, size):
    """One transaction, with a record for each object, whose value is a byte over and over."""
    whole, rest = divmod(size, STEP)
    length = 23 + len(oids) * (42 + size)
    print("file\n  hex 46533231")
    print(f"  hex {(number(5) + number(length)).hex()} 20 000000000000")
    for oid in oids:
        print(f"  hex {(number(oid) + number(5) + number(0) + number(4) + number(0, 2) + number(size)).hex()}")
        put_value(whole, rest)
    print(f"  hex {number(length).hex()}")


def put_value(whole, rest):
    if whole:
        print(f"  repeat {whole} step")
    if rest:
        print(f"  hex {'61' * rest}")


def put_many(title, oids, size, asked):
    """Loads of these objects one after another."""
    print(f"case {title}\nlimit {2**30}")
    put_file(oids, size)
    put_lines("script", ["open", *(f"load {oid} 5" for oid in asked)])
    print("answers\n  | opened 5 1")
    kept, calls = {}, 0
    for oid in asked:
        place = 4 + 23 + oids.index(oid) * (42 + size)
        if oid in kept:
            kept[oid] = kept.pop(oid)
        else:
            calls += 2
            if size <= MOST:
                while len(kept) == min(256, 2**24 // size):
                    del kept[next(iter(kept))]
                kept[oid] = place
        print('  | loaded "\\')
        put_value(*divmod(size, STEP))
        print(f'  | " 5 {place}')
    print(f"calls {calls}\n")


def many():
    oids = range(1, 258)
    put_many("256 objects are kept", oids, 1, [*oids[:256], *oids[:256]])
    put_many("of 257 objects the one that was used longest ago isn't kept", oids, 1, [*oids, 257, 2, 1, 2])
    put_many("one that is used again stays", oids, 1, [*oids[:256], 1, 257, 1, 2])
    put_many("a value of 1 MiB is kept", range(1, 2), MOST, [1, 1])
    put_many("a longer value isn't", range(1, 2), MOST + 1, [1, 1])
    put_many("16 MiB are kept", range(1, 17), MOST, [*range(1, 17), 1, 16])
    put_many("of more those that were used last", range(1, 18), MOST, [*range(1, 18), 17, 2, 1])


def main():
    print("# Loads of records that are kept. `docs/kept_records.py` has written these cases from the rules.\n")
    put_piece("two", TWO)
    put_piece("step", b"a" * STEP)
    plain()
    failing()
    many()


if __name__ == "__main__":
    main()
