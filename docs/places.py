#!/usr/bin/env python3
"""Writes the cases of places: back pointers to every byte of a file, a transaction that is torn at each byte, long transactions
and objects with ids that are far apart: data/places.cases of file_cases.

    python3 docs/places.py > crates/file_cases/data/places.cases

What is wanted is written by the rules of the FileStorage format notes: a previous place is that of the object's last record
before the transaction, a back pointer is 0 or the place of a record of the object before the transaction, and records of a
transaction that was undone in the old manner are none. Nothing here runs or reads the product.
"""

import contextlib
import io

MAGIC = b"FS21"
SPACE, PACKED, UNDONE = 0x20, 0x70, 0x75
BAD_BACK = 5
FAR = 65_536


def number(n):
    return n.to_bytes(8, "big")


def head(oid, tid, prev, start, length):
    return number(oid) + number(tid) + number(prev) + number(start) + b"\0\0" + number(length)


def data(oid, tid, prev, start, value):
    return head(oid, tid, prev, start, len(value)) + value


def back(oid, tid, prev, start, place):
    return head(oid, tid, prev, start, 0) + number(place)


def transaction(tid, status, records):
    area = b"".join(records)
    length = number(23 + len(area))
    return number(tid) + length + bytes([status]) + bytes(6) + area + length


# ---- how cases are spelled

def put_hex(content, indent="  "):
    for at in range(0, len(content), 64):
        print(f"{indent}hex {content[at:at + 64].hex()}")


PIECES = []


def put_piece(name, content):
    """A piece of the file; all stand before the first case."""
    PIECES.append((name, content))


def put_file(parts):
    print("file")
    for part in parts:
        if isinstance(part, bytes):
            put_hex(part)
        else:
            print(f"  {part}")


def put_damage(kind, place):
    print(f"scan damaged {kind} {place}")
    print(f"check damaged {kind} {place}")


def put_opened(end, torn, newest, last, transactions, objects):
    greatest = f"{max(newest):016x}" if newest else "none"
    print(f"scan end {end} torn {torn} greatest {greatest} last {last:016x} packed {0:016x} transactions {transactions}")
    print("rows")
    for oid in sorted(newest):
        print(f"  | {oid:016x} {newest[oid]}")
    print(f"check transactions {transactions} objects {objects} last {last:016x} end {end} torn {torn}")


# ---- back pointers to every place

class Pointed:
    """Two records of object 1 in one transaction, between them one of object 2 whose value is spelled as a record of object 1,
    and a transaction that was undone and has a record of object 1, too. Behind them stands the back pointer."""

    def __init__(self):
        self.first = len(MAGIC) + 23
        looks = data(1, 1, 0, len(MAGIC), b"z")
        records = [data(1, 1, 0, len(MAGIC), b"aa"), data(2, 1, 0, len(MAGIC), looks), data(1, 1, 0, len(MAGIC), b"b")]
        self.other = self.first + len(records[0])
        self.second = self.other + len(records[1])
        begun = MAGIC + transaction(1, SPACE, records)
        self.undone = len(begun)
        self.content = begun + transaction(2, UNDONE, [data(1, 2, self.second, self.undone, b"u")])

    def pointing(self, place):
        """The transaction behind it: object 1 points back to the place, and object 3 has a value."""
        start = len(self.content)
        return transaction(3, SPACE, [back(1, 3, self.second, start, place), data(3, 3, 0, start, b"c")])

    def put_case(self, place):
        start = len(self.content)
        content = self.pointing(place)
        print(f"case a back pointer to the byte {place}")
        put_file(["use pointed", content])
        if place in (0, self.first, self.second):
            newest = {1: start + 23, 2: self.other, 3: start + 23 + 50}
            put_opened(start + len(content), 0, newest, 3, 2, 2 if place == 0 else 3)
        else:
            put_damage(BAD_BACK, start)
        print()


def put_pointed():
    pointed = Pointed()
    put_piece("pointed", pointed.content)
    behind = len(pointed.content) + len(pointed.pointing(0))
    for place in range(0, behind + 2):
        pointed.put_case(place)
    for place in (2**48 - 1, 2**48, 2**63, 2**64 - 1):
        pointed.put_case(place)


# ---- a transaction that is torn at each byte

def put_torn():
    start = len(MAGIC)
    first = MAGIC + transaction(1, SPACE, [data(0, 1, 0, start, b"one"), data(7, 1, 0, start, b"two")])
    newest = {0: start + 23, 7: start + 23 + 45}
    behind = len(first)
    records = [data(7, 2, newest[7], behind, b"three"), back(0, 2, newest[0], behind, newest[0]), data(8, 2, 0, behind, b"8")]
    last = transaction(2, SPACE, records)
    put_piece("whole_before", first)
    put_piece("torn_last", last)
    for size in range(len(last)):
        print(f"case a transaction of {len(last)} bytes that is torn behind {size}")
        put_file(["use whole_before", last[:size]])
        put_opened(behind, size, newest, 1, 1, 2)
        print()
    print("case the same transaction whole")
    put_file(["use whole_before torn_last"])
    put_opened(behind + len(last), 0, {7: behind + 23, 0: behind + 23 + 47, 8: behind + 23 + 47 + 50}, 2, 2, 3)
    print()


# ---- long transactions, and objects that are far apart

def put_long():
    count, start = 200_000, len(MAGIC)
    one = data(5, 1, 0, start, b"v")
    length = number(23 + count * len(one))
    put_piece("one_record", one)
    print(f"case a transaction of {count:,} records, all of one object: the last one counts")
    put_file([MAGIC + number(1) + length + bytes([SPACE]) + bytes(6), f"repeat {count} one_record", length])
    end = start + 23 + count * len(one) + 8
    put_opened(end, 0, {5: start + 23 + (count - 1) * len(one)}, 1, 1, 1)
    print()
    print(f"case a back pointer to one in the middle of {count:,} records of a transaction")
    put_file([MAGIC + number(1) + length + bytes([SPACE]) + bytes(6), f"repeat {count} one_record", length,
              transaction(2, SPACE, [back(5, 2, start + 23 + (count - 1) * len(one), end, start + 23 + (count // 2 - 1) * len(one))])])
    put_opened(end + 23 + 50 + 8, 0, {5: end + 23}, 2, 2, 1)
    print()
    wrong = start + 23 + 100_000 * len(one) + 1
    print(f"case a back pointer to a byte within one of {count:,} records of a transaction")
    put_file([MAGIC + number(1) + length + bytes([SPACE]) + bytes(6), f"repeat {count} one_record", length,
              transaction(2, SPACE, [back(5, 2, start + 23 + (count - 1) * len(one), end, wrong)])])
    put_damage(BAD_BACK, end)
    print()


def put_far():
    ids = [2**64 - 1, 0, 2**64 - FAR, 2**64 - FAR - 1] + [n * FAR for n in range(1, 40)] + [n * FAR + FAR - 1 for n in range(40)] + list(range(1, 40))
    start, at = len(MAGIC), len(MAGIC) + 23
    newest, records = {}, []
    for oid in ids:
        newest[oid] = at
        records.append(data(oid, 1, 0, start, b"v"))
        at += 43
    content = MAGIC + transaction(1, SPACE, records)
    print("case ids that lie 65,536 apart, on both sides of it, one after another, 0 and the last one")
    put_file([content])
    put_opened(len(content), 0, newest, 1, 1, len(newest))
    print()
    behind = len(content)
    again, place = [], behind + 23
    for oid in ids:
        again.append(back(oid, 2, newest[oid], behind, newest[oid]))
    second = transaction(2, PACKED, again)
    newest = {oid: behind + 23 + 50 * index for index, oid in enumerate(ids)}
    print("case each of them points back")
    put_file([content, second])
    print(f"scan end {behind + len(second)} torn 0 greatest {2**64 - 1:016x} last {2:016x} packed {2:016x} transactions 2")
    print("rows")
    for oid in sorted(newest):
        print(f"  | {oid:016x} {newest[oid]}")
    print(f"check transactions 2 objects {len(newest)} last {2:016x} end {behind + len(second)} torn 0")
    print()


def put_revisions():
    count, at, prev, content = 900, len(MAGIC), 0, MAGIC
    for tid in range(1, count + 1):
        one = transaction(tid, SPACE, [data(3, tid, prev, at, b"%d" % tid)])
        prev, at, content = at + 23, at + len(one), content + one
    print(f"case {count:,} revisions of one object")
    put_file([content])
    put_opened(at, 0, {3: prev}, count, count, 1)
    print()
    print("case the next one leaves the last one out: damage of a previous place")
    earlier = prev - 23
    put_file([content, transaction(count + 1, SPACE, [data(3, count + 1, len(MAGIC) + 23, at, b"x")])])
    put_damage(4, at)
    print()


def main():
    cases = io.StringIO()
    with contextlib.redirect_stdout(cases):
        put_pointed()
        put_torn()
        put_long()
        put_far()
        put_revisions()
    print("# Written by docs/places.py.")
    print()
    for name, content in PIECES:
        print(f"piece {name}")
        put_hex(content)
        print()
    print(cases.getvalue().rstrip())


if __name__ == "__main__":
    main()
