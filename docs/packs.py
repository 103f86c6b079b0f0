#!/usr/bin/env python3
"""Writes the cases of packs: files that are planned and packed at each of their times: data/packs.cases of pack_cases.

    python3 docs/packs.py > crates/pack_cases/data/packs.cases

What is wanted is written by the rule. Kept are the root, each object that is written behind the pack, and with an object those
to which its value at the pack and its later ones lead. Up to the pack the last record of each object that is kept stays; a
transaction without records is left out but for the last one up to the pack; later transactions stay whole. Packed ones have the
status `p`, and every value is written in full, none as back pointer 0. In these cases a value leads to the objects whose ids are
its bytes, and spells no object where one of them is `x`. Nothing here runs or reads the product.
"""

MAGIC = b"FS21"
SPACE, PACKED, UNDONE = 0x20, 0x70, 0x75
NO_OBJECT = ord("x")
BAD_MAGIC = 9
MOST = 2**64 - 1


def number(n):
    return n.to_bytes(8, "big")


class Transaction:
    """Its records are pairs of an object and its value: bytes, none, or the number of an earlier record to point back to."""

    def __init__(self, tid, records, status=SPACE, user=b"", description=b"", extension=b""):
        self.tid, self.records, self.status = tid, records, status
        self.texts = (user, description, extension)

    def with_records(self, records, status):
        return Transaction(self.tid, records, status, *self.texts)


class Back:
    """A back pointer to the last record of the object before."""


class File:
    """The bytes of transactions one behind another."""

    def __init__(self):
        self.content = bytearray(MAGIC)
        self.places, self.values = {}, {}

    def add(self, transaction):
        start = len(self.content)
        user, description, extension = transaction.texts
        texts = user + description + extension
        place, area, placed, meant = start + 23 + len(texts), b"", {}, []
        for oid, value in transaction.records:
            body, length = self.body(oid, value)
            head = number(oid) + number(transaction.tid) + number(self.places.get(oid, 0)) + number(start) + b"\0\0" + number(length)
            area += head + body
            placed[oid] = place
            meant.append((oid, self.values.get(oid) if isinstance(value, Back) else value))
            place += len(head) + len(body)
        length = number(23 + len(texts) + len(area))
        lengths = b"".join(len(text).to_bytes(2, "big") for text in transaction.texts)
        self.content += number(transaction.tid) + length + bytes([transaction.status]) + lengths + texts + area + length
        if transaction.status != UNDONE:
            self.places.update(placed)
            self.values.update(meant)
        return meant

    def body(self, oid, value):
        if isinstance(value, Back):
            return number(self.places[oid]), 0
        return (value, len(value)) if value is not None else (number(0), 0)


def file_of(transactions):
    """The bytes of a file, and its history: the transactions that count, with the values that their records mean."""
    file, history = File(), []
    for transaction in transactions:
        meant = file.add(transaction)
        if transaction.status != UNDONE:
            history.append(transaction.with_records(meant, transaction.status))
    return bytes(file.content), history


# ---- the rule

def links_of(value):
    """To which objects a value leads, and whether it is bytes that spell no object."""
    if value is None:
        return [], False
    return ([], True) if NO_OBJECT in value else (list(value), False)


def values_from(history, time, oid):
    """The object's value at the pack, and those that later transactions give it."""
    now, later = None, []
    for transaction in history:
        for of, value in transaction.records:
            if of == oid and transaction.tid <= time:
                now = value
            elif of == oid:
                later.append(value)
    return [now] + later


def kept(history, time):
    found = {0} | {oid for transaction in history if transaction.tid > time for oid, _ in transaction.records}
    while True:
        more = {led for oid in found for value in values_from(history, time, oid) for led in links_of(value)[0]}
        if more <= found:
            return found
        found |= more


def broken(history, time, found):
    """The least object that is kept and can't be read, if there is one."""
    unread = [oid for oid in found if any(links_of(value)[1] for value in values_from(history, time, oid))]
    return min(unread) if unread else None


def packed(history, time, found):
    front = [transaction for transaction in history if transaction.tid <= time]
    last = {oid: (at, number) for at, transaction in enumerate(front) for number, (oid, _) in enumerate(transaction.records)}
    left = []
    for at, transaction in enumerate(front):
        stay = [record for number, record in enumerate(transaction.records) if record[0] in found and last[record[0]] == (at, number)]
        if stay or at == len(front) - 1:
            left.append(transaction.with_records(stay, PACKED))
    return left + [transaction for transaction in history if transaction.tid > time]


def floor_of(transactions):
    return max([transaction.tid for transaction in transactions if transaction.status == PACKED], default=0)


# ---- how cases are spelled

def put_hex(content, indent="  "):
    for at in range(0, len(content), 64):
        print(f"{indent}hex {content[at:at + 64].hex()}")


PIECES = []


def piece(name, transactions, torn=b""):
    content, history = file_of(transactions)
    PIECES.append((name, content + torn))
    return name, history


def put_case(title, file, time, limit=MOST):
    name, history = file
    print(f"case {title}")
    print("file")
    print(f"  use {name}")
    print(f"before {time:016x}")
    if limit != MOST:
        print(f"limit {limit}")
    found = kept(history, time)
    unread = broken(history, time, found)
    left = packed(history, time, found)
    content = file_of(left)[0]
    if unread is not None:
        print(f"plan unreadable {unread:016x}")
    elif len(content) > limit:
        print(f"plan full {len(content)} {limit}")
    else:
        print(f"plan size {len(content)}")
        print(f"packed end {len(content)} floor {floor_of(left):016x} transactions {len(left)}")
        print("written")
        put_hex(content)
    print()


# ---- the files

def worked():
    """The root leads to 1 and 2; 1 is written twice in one transaction, 3 isn't reachable, 4 is written last."""
    return [
        Transaction(5, [(0, b"\1\2"), (1, b"\1"), (2, b"\2")], user=b"me", description=b"first"),
        Transaction(6, [(2, b"\2\2")]),
        Transaction(7, [(1, b"\7"), (1, b"\1\1")], extension=b"ext"),
        Transaction(8, [(3, b"\3")]),
        Transaction(9, [(2, Back()), (4, None)], description=b"last"),
    ]


def calls_of_pass(transactions):
    """How often a pass over a file of less than 64 KiB calls its disk: for the file's length at each transaction and at the end, once
    for its bytes, once for the records of each transaction, and for each record that points back three times: whose record that is, and
    then its head and its value."""
    back = sum(isinstance(value, Back) for transaction in transactions for _, value in transaction.records)
    return len(transactions) + 1 + 1 + sum(bool(transaction.records) for transaction in transactions) + 3 * back


def put_faults(transactions, file):
    """Each call of a pack's disks fails, and then one that isn't made any more. A plan goes over the file twice, and asks in between for
    its length, and of each object that is kept for the head and the value of its last record up to the pack, once. What is planned is
    written by one more pass, and by a call for the packed file's first bytes, one for each transaction that stays and a sync."""
    name, history = file
    time = 8
    found = kept(history, time)
    left = packed(history, time, found)
    size = len(file_of(left)[0])
    read = {oid for transaction in history if transaction.tid <= time for oid, _ in transaction.records if oid in found}
    one_pass = calls_of_pass(transactions)
    planned = 2 * one_pass + 1 + 2 * len(read)
    all_of = f"plan size {size}\npacked end {size} floor {floor_of(left):016x} transactions {len(left)}"
    calls = [("from", call, "plan from" if call <= planned else f"plan size {size}\npacked from") for call in range(1, planned + one_pass + 1)]
    calls += [("from", len(calls) + 1, all_of)]
    calls += [("to", call, f"plan size {size}\npacked to") for call in range(1, len(left) + 3)] + [("to", len(left) + 3, all_of)]
    for kind, call, came in calls:
        print(f"case call {call} of the disk fails, {kind}")
        print(f"file\n  use {name}")
        print(f"before {time:016x}\nfailing {kind} {call}\n{came}\n")


def each_time(title, file, times):
    for time in times:
        put_case(f"{title}, packed at {time}", file, time)


def main():
    cases = [
        ("the five transactions", piece("worked", worked()), (0, 4, 5, 6, 7, 8, 9, 10, MOST)),
        ("no transaction", piece("empty", []), (0, 1, MOST)),
        ("a transaction without records", piece("bare", [Transaction(3, [])]), (2, 3)),
        ("a root that isn't there", piece("rootless", [Transaction(3, [(1, b"\1")]), Transaction(4, [(2, b"\2")])]), (2, 3, 4)),
        ("only a later transaction reaches an object", piece("reached", [
            Transaction(1, [(0, b"\0"), (5, b"\6"), (6, b"\6"), (7, b"\7")]), Transaction(2, [(0, b"\5")])]), (1, 2)),
        ("only an older revision reaches an object", piece("older", [
            Transaction(1, [(0, b"\5"), (5, b"\5")]), Transaction(2, [(0, b"\0")]), Transaction(3, [(5, None)])]), (1, 2, 3)),
        ("objects that lead to one another", piece("cycle", [
            Transaction(1, [(0, b"\1"), (1, b"\2"), (2, b"\1\0"), (3, b"\4"), (4, b"\3")])]), (0, 1)),
        ("two later records of one object", piece("twice", [
            Transaction(1, [(0, b"\0"), (8, b"\x08"), (9, b"\x09")]), Transaction(2, [(0, b"\x08"), (0, b"\x09")])]), (1, 2)),
        ("objects that spell none", piece("broken", [
            Transaction(1, [(0, b"\1\2"), (1, b"x"), (2, b"x"), (3, b"x")]), Transaction(2, [(1, b"\1")]),
            Transaction(3, [(4, b"x")]), Transaction(4, [(4, b"\4"), (2, None)])]), (0, 1, 2, 3, 4)),
        ("undone and packed transactions, and a torn rest", piece("mixed", [
            Transaction(1, [(0, b"\1"), (1, b"\1")], PACKED), Transaction(2, [(9, b"\x09")], UNDONE),
            Transaction(3, [(1, Back())]), Transaction(4, [(1, Back()), (2, b"\2")]), Transaction(5, [(6, b"\6")], UNDONE)],
            torn=number(6) + number(500) + b" \0\0"), (0, 1, 2, 3, 4, 5)),
        ("a packed file", piece("again", [
            Transaction(2, [(0, b"\1")], PACKED), Transaction(3, [(1, b"\1")], PACKED), Transaction(4, [(1, b"\1\1")])]), (1, 2, 3, 4)),
        ("back pointers that become values", piece("grows", [
            Transaction(1, [(0, b"\0" * 70)]), Transaction(2, [(0, Back())]), Transaction(3, [(0, Back())])]), (0, 1, 2, 3)),
    ]
    print("# Written by docs/packs.py.\n")
    for name, content in PIECES:
        print(f"piece {name}")
        put_hex(content)
        print()
    for title, file, times in cases:
        each_time(title, file, times)
    put_faults(worked(), cases[0][1])
    print("case a file without its magic")
    print("file\n  | FS20\\")
    print(f"before {8:016x}\nplan damaged {BAD_MAGIC} 0\n")
    worked_file = cases[0][1]
    for limit in (0, 398, 399, 400):
        put_case(f"a limit of {limit}", worked_file, 8, limit)
    # the same pack with one part told wrongly, each by itself
    for wrong in ("plan size 398", f"packed end 399 floor {8:016x} transactions 4", "written\n  use worked"):
        print(f"case what is compared differs: {wrong.split()[0]}")
        print("file\n  use worked")
        print(f"before {8:016x}\n{wrong}\ndiffers\n")


if __name__ == "__main__":
    main()
