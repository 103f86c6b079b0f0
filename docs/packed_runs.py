#!/usr/bin/env python3
"""Writes the cases of schedules with packs, of requests that are run one by one, and of runs that numbers draw: data/packs.cases of
replay_cases, and data/sections.cases, data/serial.cases and data/gen.cases of zope_cases.

    python3 docs/packed_runs.py replay > crates/replay_cases/data/packs.cases
    python3 docs/packed_runs.py zope > crates/zope_cases/data/sections.cases
    python3 docs/packed_runs.py serial > crates/zope_cases/data/serial.cases
    python3 docs/packed_runs.py gen > crates/zope_cases/data/gen.cases

The reports are worked out by the model of a run that `stopped_runs.py` has, and the rule of a pack, which stands in `packs.py`. A
pack is refused while a worker has a request. Else it asks for the file's bytes, which opens a stale store again first and then is one
read; nothing else that it does meets an armed entry. A hit prints `packfault`, or `stop` and what follows a stop, without a line for
a lost request. What is planned is refused as `packs.py` says; what is done prints the history before it, and then what is left, over
which the run goes on: with the entries that are armed, their calls counted as far as they were, and the last stamp.

`serial` runs each request to its reply where it stands, and passes over steps, stops and failures.

Nothing here runs or reads the product.
"""

import itertools
import re
import sys
from collections import Counter

import packs
import site_runs as runs
import stopped_runs
from packs import MOST, PACKED, UNDONE, Back, Transaction, file_of, kept, packed
from site_runs import ADMIN, FILES, OBJECTS, Play, case, get, post, site
from stopped_runs import T0, Disk, Pieces, Run, Store, cells, copy, hex16, item_bytes, new, put_bytes, put_hex, read, steps, transaction_at
from stops import Hit
from undone import LIST, done, undo

# ---- a run with packs


def transactions_of(content):
    """The transactions of a file that count, with their values in full."""
    at, found = 4, []
    while at < len(content):
        status = content[at + 16]
        if status != UNDONE:
            tid, texts, records = transaction_at(content, at)
            found.append(Transaction(tid, [(oid, data) for oid, _, data in records], status, *texts))
        at += int.from_bytes(content[at + 8 : at + 16], "big") + 8
    return found


class BadLine(Exception):
    """The run comes to a line that can't be run."""


class Packing(Run):
    """A run whose schedule has packs, too."""

    # the requests that are messages, where it isn't all of them
    takes = None

    def __init__(self, *words):
        super().__init__(*words)
        # how long files that were asked for would have been, and how many entries wait at the end
        self.needs, self.waiting, self.bad = set(), 0, None

    def item(self, item):
        if item[0] == "pack":
            return self.pack(item[1])
        if item[0] == "request" and (item[1] in self.workers or self.takes and not self.takes.fullmatch(item[2])):
            raise BadLine
        return super().item(item)

    def pack(self, time):
        if self.workers:
            return b"pack busy\n"
        try:
            self.store.refresh()
            self.disk.read()
        except Hit:
            return self.restart([]) if self.disk.stopped else b"packfault\n"
        history = transactions_of(self.disk.content)
        found = kept(history, time)
        unread = packs.broken(history, time, found)
        if unread is not None:
            return f"pack unreadable {hex16(unread)}\n".encode()
        left = packed(history, time, found)
        content, _ = file_of(left)
        self.needs.add(len(content))
        if len(content) > self.limit:
            return f"pack full {len(content)} {self.limit}\n".encode()
        floor = max([self.store.known.floor] + [transaction.tid for transaction in history if transaction.tid <= time])
        printed = self.history()
        self.go_on(content)
        assert (self.store.known.floor, len(self.store.known.transactions)) == (floor, len(left))
        return printed + f"packed {hex16(floor)} {len(left)}\n".encode()

    def go_on(self, content):
        """Goes on over another disk, on which nothing is hit until it has what is armed on this one."""
        disk, before = Disk(content), self.disk
        self.store = Store(disk, self.limit)
        disk.queue, disk.left = before.queue, before.left
        self.disk = disk

    def refuse(self, w, worker, kind, *told):
        if kind == "full":
            self.needs.add(told[0])
        return super().refuse(w, worker, kind, *told)

    def end(self):
        self.waiting = len(self.disk.queue)
        return super().end()

    def go(self, items):
        self.blocks = [b"zope report 1\n" + self.opened]
        for at, item in enumerate(items):
            try:
                self.blocks.append(self.item(item))
            except BadLine:
                # the first line is 1, and each item is one
                self.bad = at + 2
                return self
        self.blocks.append(self.end())
        return self


class Alone(Packing):
    """A run of each request by itself."""

    def item(self, item):
        if item[0] in ("step", "stop", "fail"):
            return b""
        printed = super().item(item)
        while self.workers:
            printed += self.step(item[1])
        return printed


# ---- cases over cells


class CellPacking(Packing):
    takes = re.compile(rb"log|(read|new|part) [0-9a-f]{16}|copy [0-9a-f]{16} [0-9a-f]{16}")


class CellAlone(Alone, CellPacking):
    pass


# ---- what stands several times


def atoms_of(block):
    """The parts of a report's block: a history's first lines, its transactions, and what stands behind them."""
    return [part for part in re.split(rb"(?m)^(?=transaction |packed |end$)", block) if part] if b"history " in block else [block]


def groups_of(items):
    """The lines of a schedule, a request with the steps of its worker behind it as one."""
    groups = []
    for item in items:
        if item[0] == "step" and groups and groups[-1][0][:2] == ("request", item[1]):
            groups[-1].append(item)
        else:
            groups.append([item])
    return [b"".join(map(item_bytes, group)) for group in groups]


def named(atom):
    """The beginning of a name for what stands several times."""
    words = atom.decode().split()
    if words[0] == "reply":
        tid = f"_{int(words[3], 16) - T0}" if words[2] != "none" else ""
        return f"{words[2]}{tid}_by_{words[1]}"
    if words[0] == "request":
        cells_named = "_".join(str(int(word, 16) - (T0 if words[3] == "part" else 0)) for word in words[4:] if len(word) == 16)
        return f"{words[3]}_{cells_named}_by_{words[1]}".replace("__", "_")
    return f"{words[0]}_{int(words[1], 16) - T0}" if words[0] in ("transaction", "pack") else words[0]


class Shared:
    """What stands several times, with its name."""

    def __init__(self, rows, least=40):
        counts = Counter(atom for row in rows for atom in row)
        self.names, taken = {}, Counter()
        # what stands most often comes first, since a name is looked for from the front
        for atom, count in counts.most_common():
            if count > 1 and len(atom) >= least:
                name = named(atom)
                taken[name] += 1
                self.names[atom] = f"{name}_{'abcdefghijklmnopqrstuvwxyz'[taken[name] - 1]}" if taken[name] <= 26 else f"{name}_{taken[name]}"

    def put(self):
        """Writes the pieces, and then no cases."""
        for atom, name in self.names.items():
            print(f"piece {name}")
            put_bytes(atom)
            print()
        return (lambda: None,)

    def put_blocks(self, blocks):
        for shared, run in itertools.groupby(blocks, lambda block: block in self.names):
            if shared:
                print("  use " + " ".join(self.names[block] for block in run))
            else:
                put_bytes(b"".join(run))


SHARED = None


class Rows(Pieces):
    def put_blocks(self, blocks):
        SHARED.put_blocks(blocks)


class Table(stopped_runs.Table):
    """Cases of runs with packs over one file."""

    pieces = Rows

    # what was written of disks: the bytes of transactions, each once
    written = {}

    def __init__(self, name, file, alone=False):
        super().__init__("replay", name, CELLS[file], file)
        self.alone = alone

    def run(self, limit):
        return (CellAlone if self.alone else CellPacking)(self.content, cells, limit)

    def add(self, title, items, limit=100_000):
        return super().add(title, list(items), limit)

    def rows(self):
        given = [(*groups_of(items), b"end\n") for _, items, *_ in self.cases]
        return given, [tuple(atom for block in blocks for atom in atoms_of(block)) for *_, blocks, _ in self.cases]

    def put_disks(self):
        for *_, run in self.cases:
            for part in () if run.bad else parts_of(run.disk.content):
                if part not in self.written:
                    self.written[part] = f"stands_{len(self.written)}"
                    print(f"piece {self.written[part]}")
                    put_hex(part)
                    print()

    def put_status(self, run):
        print(f"status line {run.bad}" if run.bad else "status done")

    def put_disk(self, run):
        if not run.bad:
            print("disk\n  use magic" + "".join(" " + self.written[part] for part in parts_of(run.disk.content)))

    def put_given(self, limit):
        print(("alone\n" if self.alone else "") + (f"limit {limit}\n" if limit != 100_000 else "") + "file")


def parts_of(content):
    """The bytes of each transaction of a file."""
    at, found = 4, []
    while at < len(content):
        size = int.from_bytes(content[at + 8 : at + 16], "big") + 8
        found.append(content[at : at + size])
        at += size
    return found


# ---- files of cells

def cells_file(transactions, torn=b""):
    return file_of(transactions)[0] + torn


# the first object leads to 1 and 2; nothing leads to 7
FIRST = Transaction(T0, [(0, b"\1\2"), (1, b"a"), (2, b"b"), (7, b"z")])
CELLS = {
    "linked": cells_file([FIRST]),
    # back pointers, objects without a value, two records of one object, texts, one that leads to another one later
    "grown": cells_file([
        FIRST, Transaction(T0 + 2, [(1, b"aa"), (8, b"\2")], user=b"jo", description=b"/two", extension=b"}q."),
        Transaction(T0 + 4, [(1, Back()), (2, b"c"), (2, b"d"), (7, None)]), Transaction(T0 + 6, [], description=b"bare"),
        Transaction(T0 + 8, [(0, b"\1\2\x08"), (9, b"\7")])]),
    # 2, 3 and 9 spell none, and nothing leads to 9
    "broken": cells_file([Transaction(T0, [(0, b"\1\2\3"), (1, b"a"), (2, b"x"), (3, b"bx"), (9, b"x")])]),
    "empty": cells_file([]),
    # the second transaction alone is packed
    "packed_before": cells_file([
        Transaction(T0, [(0, b"\1"), (1, b"a"), (7, b"z")]), Transaction(T0 + 2, [(1, b"aa")], PACKED), Transaction(T0 + 4, [(1, b"aaa")])]),
    # transactions that were undone in the old manner don't count, and a rest is torn
    "undone": cells_file([
        Transaction(T0, [(0, b"\1\2"), (1, b"a")]), Transaction(T0 + 2, [(1, b"gone")], UNDONE), Transaction(T0 + 4, [(2, b"b"), (7, b"z")]),
        Transaction(T0 + 6, [(9, b"gone")], UNDONE)], torn=b"\3\x31\x62 torn"),
    # what is copied leads to 43, since it ends with a plus
    "plus": cells_file([Transaction(T0, [(0, b"\1"), (1, b"a"), (43, b"q")])]),
    # values that become longer when they are written in full
    "pointing": cells_file([Transaction(T0, [(0, b"\0" * 70)])] + [Transaction(T0 + n, [(0, Back())]) for n in range(1, 6)]),
}

# ---- what is run over cells


def log(w):
    return ("request", w, b"log")


def part(w, tid):
    return ("request", w, f"part {hex16(tid)}".encode())


def pack(time):
    return ("pack", time)


def whole(request):
    """A request with all of its steps."""
    writes = request[2].split()[0] in (b"copy", b"new")
    return [request] + steps(request[1], 5 if writes else 3)


def each(*requests):
    return sum(map(whole, requests), [])


def when(time):
    """The words for a time."""
    return {0: "0", T0: "T0", MOST: "the last id"}.get(time, f"T0 {'+' if time > T0 else '-'} {abs(time - T0)}")


WRITES = each(copy(0, 1, 1), new(1, 2), copy(0, 7, 2))
TIMES = (0, T0 - 1, T0, T0 + 1, T0 + 2, T0 + 4, T0 + 8, T0 + 20, T0 + 21, MOST)


def looks(*tids):
    return each(read(3, 0), read(3, 1), read(3, 2), read(3, 7), log(3), *(part(3, tid) for tid in tids))


def at_each_time(file):
    """A pack at each time, behind three commits and before more; the clock leaves a gap behind what the file has."""
    table = Table(f"{file}_once", file)
    for time in TIMES:
        items = [("clock", T0 + 20)] + WRITES + [pack(time)] + looks(T0 + 20, T0 + 21) + each(new(2, 1), copy(0, 1, 1), log(3))
        run = table.add(f"{file}: a pack at {when(time)} behind three commits, and more behind it", items)
        assert b"pack" in b"".join(run.blocks)
    for time in (T0 - 1, T0, T0 + 4, MOST):
        table.add(f"{file}: a pack at {when(time)} is all", [pack(time)])
        table.add(f"{file}: a pack at {when(time)} before three commits", [pack(time)] + WRITES + looks(T0))
    return table


def two_times(file):
    """Two packs, at all pairs of times, with commits between them and behind them."""
    table = Table(f"{file}_twice", file)
    for first in (T0 - 1, T0 + 4, T0 + 9, MOST):
        for second in (0, T0 + 4, T0 + 10, T0 + 11, MOST):
            for between in ([], each(copy(0, 1, 2), new(1, 1)))[file == "grown" :]:
                said = "and commits between them" if between else "one directly behind the other"
                items = each(copy(0, 1, 1), new(0, 2)) + [pack(first)] + between + [pack(second)] + each(new(1, 2), read(0, 1))
                table.add(f"{file}: packs at {when(first)} and {when(second)}, {said}", items)
    return table


def busy():
    """A pack at each place of a run of workers of which one or more have a request at most places."""
    table = Table("busy", "linked")
    two = [copy(0, 1, 2), copy(1, 2, 1)] + sum([steps(w, 1) for _ in range(7) for w in (0, 1)], []) + steps(1, 5)
    for at in range(len(two) + 1):
        run = table.add(f"a pack behind line {at + 1} of two workers that conflict", two[:at] + [pack(T0)] + two[at:] + each(copy(0, 1, 1)))
        assert (b"pack busy" in b"".join(run.blocks)) == bool(0 < at <= 18)
    one = whole(copy(2, 1, 1))
    for at in range(len(one) + 1):
        table.add(f"a pack behind line {at + 1} of a worker's commit", one[:at] + [pack(T0 + 1)] + one[at:] + each(read(0, 1)))
    reads = whole(read(15, 1))
    for at in range(len(reads) + 1):
        table.add(f"a pack behind line {at + 1} of a look by another worker", each(copy(0, 1, 1)) + reads[:at] + [pack(T0 + 1)] + reads[at:] + each(read(0, 1)))
    many = stopped_runs.conflicting()
    packs_between = sum([[item, pack(T0 + n)] for n, item in enumerate(many)], [])
    table.add("a pack behind each line of workers that conflict", packs_between + [pack(MOST)])
    table.add("a pack before two requests that conflict, between them and behind them", [pack(T0)] + two + [pack(T0 + 1)] + two + [pack(T0 + 2)])
    for time in (T0, T0 + 1, MOST):
        items = [copy(0, 1, 1)] + steps(0, 3) + [copy(1, 1, 1), read(2, 1)] + steps(1, 3) + steps(2, 1) + steps(0, 1) + [pack(time)] + steps(1, 1) + steps(0, 1)
        items += [pack(time)] + steps(1, 1) + steps(2, 1) + [pack(time)] + steps(2, 1) + steps(1, 5) + [pack(time)] + each(copy(0, 1, 1))
        table.add(f"packs at {when(time)} while a vote is out, while a vote waits for it, and behind all", items)
    table.add("a pack that is busy at the end", whole(copy(0, 1, 1)) + [read(0, 1), pack(T0), copy(1, 1, 1)] + steps(1, 4) + [pack(T0)])
    for sort in ("stop", "fail"):
        table.add(f"a busy pack meets no {sort}", [(sort, 1, 1), copy(0, 1, 1)] + steps(0, 1) + [pack(T0)] + steps(0, 4) + [pack(T0)] + each(copy(0, 1, 1)))
    return table


def until_unhit(table, title, items, seeds=(1, 5), sorts=("stop", "fail"), behind=()):
    """An entry that is armed where the items have `None`, with each count until it is met no more."""
    at = items.index(None)
    for sort in sorts:
        for seed in seeds:
            for n in range(1, 1000):
                run = table.add(f"{sort} {n} {seed}: {title}", items[:at] + [(sort, n, seed), *behind] + items[at + 1 :])
                assert not run.bad, (title, run.bad)
                if run.waiting == 1 + len(behind):
                    break


def stops():
    """A stop and a failure at each call around a pack."""
    table = Table("around", "linked")
    for time in (T0 + 1, MOST):
        items = [None] + each(copy(0, 1, 1)) + [pack(time)] + each(copy(0, 1, 1), read(1, 1))
        until_unhit(table, f"a commit, a pack at {when(time)}, a commit and a look", items, seeds=(0, 5) if time == T0 + 1 else (5,))
    items = each(copy(0, 1, 1)) + [None] + [pack(T0 + 1)] + each(copy(0, 1, 1), read(1, 1))
    until_unhit(table, "directly before a pack", items, seeds=(77,))
    items = each(copy(0, 1, 1), new(0, 1)) + [None] + [pack(T0 + 1), pack(T0 + 2)] + each(new(0, 1)) + [pack(T0 + 3)] + each(read(0, 1))
    until_unhit(table, "three packs", items, seeds=(5,))
    items = [None] + [pack(T0)] * 4 + each(read(0, 1))
    until_unhit(table, "four packs at one time", items, seeds=(1,))
    return table


def second_entries():
    """A second entry at each call of the openings behind a stop in a pack, and at what is behind them."""
    table = Table("second", "linked")
    for first in (0, 1):
        for sort in ("stop", "fail"):
            for m in range(1, 100):
                items = each(copy(0, 1, 1)) + [("stop", 1, first), (sort, m, 1), pack(T0 + 1)] + each(read(0, 1)) + [pack(T0 + 1)] + each(copy(0, 1, 1))
                run = table.add(f"stop 1 {first} in a pack, and then {sort} {m} 1", items)
                if run.waiting:
                    break
    for sort in ("stop", "fail"):
        for m in range(1, 100):
            items = each(copy(0, 1, 1)) + [("fail", 1, 5), (sort, m, 5), pack(T0 + 1), pack(T0 + 1)] + each(copy(0, 1, 1))
            run = table.add(f"fail 1 5 in a pack, and then {sort} {m} 5", items)
            if run.waiting:
                break
    arms = [("stop", 1, 0), ("fail", 1, 1), ("stop", 2, 1), ("fail", 2, 0), ("fail", 1, 0), ("stop", 1, 5)]
    table.add("stops and failures in turn, in packs and openings", each(copy(0, 1, 1)) + arms + [pack(T0)] * 4 + each(copy(0, 1, 1)) + [pack(MOST)])
    for n in (1, 2, 3, 4, 5):
        arms = [("fail", n, 1)] * 4
        table.add(f"four entries fail {n} 1 over packs and commits", arms + (each(copy(0, 1, 1)) + [pack(MOST)]) * 4)
        arms = [("stop", n, 1)] * 4
        table.add(f"four entries stop {n} 1 over packs and commits", arms + (each(copy(0, 1, 1)) + [pack(MOST)]) * 4)
    for n in (1, 3, 7, 1000):
        items = each(copy(0, 1, 1)) + [("fail", n, 0), ("stop", 2, 5), pack(T0 + 1)] + each(copy(0, 1, 1)) + [pack(T0 + 1)]
        items += each(read(0, 1), copy(1, 1, 1)) + [pack(T0 + 2)]
        table.add(f"entries that wait over a pack: fail {n} 0 and stop 2 5", items)
    return table


def stale():
    """A pack behind a vote or a finish that failed: the store is opened again, and the outcome known."""
    table = Table("stale", "linked")
    for call, what in ((1, "a vote's write"), (2, "a vote's sync"), (3, "a finish's write"), (4, "a finish's sync")):
        for seed in (0, 1, 5):
            before = [copy(0, 1, 1)] + steps(0, 3) + [("fail", call, seed)] + steps(0, 2)
            for time in (T0, T0 + 1):
                run = table.add(f"{what} failed with seed {seed}: a pack at {when(time)}", before + [pack(time)] + each(read(1, 1), log(1), copy(0, 1, 1)))
                assert call < 3 or b"unknown 0" in b"".join(run.blocks)
            items = before + [None] + [pack(T0 + 1)] + each(read(1, 1)) + [pack(T0 + 1)]
            if seed == (0, 5, 1, 5)[call - 1]:
                until_unhit(table, f"{what} failed with seed {seed}, a pack, a look and a pack", items, seeds=(seed,))
    for seed in (0, 1, 5):
        items = [copy(0, 1, 1)] + steps(0, 3) + [("fail", 4, seed)] + steps(0, 2) + [("fail", 2, 0), pack(T0 + 1), pack(T0 + 1)] + each(copy(1, 1, 1))
        table.add(f"an unknown outcome with seed {seed}, a pack whose opening fails, and one that settles it", items)
        items = [copy(0, 1, 1), copy(1, 1, 2)] + steps(0, 4) + steps(1, 3) + [("fail", 2, seed)] + steps(0, 1) + [pack(T0 + 1)] + steps(1, 8) + [pack(T0 + 1)]
        table.add(f"an unknown outcome with seed {seed} while another worker has a request", items)
        unknown = [copy(0, 1, 1)] + steps(0, 4) + [("fail", 2, seed)] + steps(0, 1)
        table.add(f"an unknown outcome with seed {seed} and a pack are the last lines", unknown + [pack(T0 + 1)])
        table.add(f"an unknown outcome with seed {seed} is settled by a look before a pack", unknown + each(read(0, 1)) + [pack(T0 + 1)])
    return table


def conflicts():
    """Entries among workers that conflict, with packs among them and behind them."""
    table = Table("among", "linked")
    four = [copy(0, 1, 2), copy(1, 2, 1), new(2, 2)] + sum([steps(w, 1) for _ in range(12) for w in range(3)], [])
    items = [None] + four[:9] + [pack(T0)] + four[9:] + [pack(T0 + 2)] + four + [pack(T0 + 3)]
    until_unhit(table, "packs among three workers that conflict, and behind them", items, seeds=(5,))
    return table


def limits():
    """Files that may have as many bytes as a vote or a pack asks for, and one less."""
    table = Table("limit", "linked")
    put_limits(table, "commits, packs at T0 + 2 and T0 + 3", each(copy(0, 1, 1), copy(0, 1, 1)) + [pack(T0 + 2)] + each(copy(0, 1, 1)) + [pack(T0 + 3)] + each(new(0, 1)))
    put_limits(table, "commits between packs", each(copy(0, 1, 1)) + [pack(T0)] + each(copy(0, 1, 1), copy(0, 1, 2)) + [pack(MOST)] + each(copy(0, 1, 1)))
    put_limits(table, "a pack directly", [pack(T0)])
    put_limits(table, "a pack before all", [pack(0)] + each(copy(0, 1, 1)))
    items = each(copy(0, 1, 1), copy(0, 1, 1), copy(0, 1, 1)) + [pack(T0 + 2)] + each(copy(0, 1, 1))
    table.add("a vote for which there is no room before a pack, and is behind it", items, limit=len(CELLS["linked"]) + 2 * 76)
    for sort in ("stop", "fail"):
        table.add(f"a file that is too long for a pack, and {sort} 2 1", [(sort, 2, 1), pack(T0), pack(T0)] + each(read(0, 1)) + [pack(T0)], limit=20)
    tables = [table]
    for file in ("pointing", "grown", "broken", "empty", "packed_before", "undone"):
        table = Table(f"{file}_limit", file)
        for time in (T0 - 1, T0 + 2):
            put_limits(table, f"{file}: a pack at {when(time)} and a commit", [pack(time)] + each(copy(0, 1, 1)))
        tables.append(table)
    return tables


def put_limits(table, title, items):
    """The items under each limit that they meet, and under that less one, until there is none that wasn't tried."""
    tried, ahead = set(), {100_000, 0}
    while ahead:
        limit = min(ahead)
        tried.add(limit)
        run = table.add(f"limit {limit}: {title}", items, limit)
        ahead |= {limit for need in run.needs for limit in (need - 1, need)}
        ahead -= tried


def unreadable():
    """Objects that spell none."""
    table = Table("unread", "broken")
    for time in (T0 - 1, T0, T0 + 1, T0 + 2, T0 + 3, MOST):
        for title, requests in (
            ("two that can't be read", []),
            ("of which the first is written again", [copy(0, 1, 2)]),
            ("which are both written again", [copy(0, 1, 2), copy(1, 1, 3)]),
            ("of which the second is written again", [copy(0, 1, 3)]),
            ("and one that is copied to the first object", [copy(0, 2, 1)]),
            ("which are written again, and what nothing leads to is copied", [copy(0, 1, 2), copy(0, 1, 3), new(0, 9)]),
            ("and to which nothing leads any more", [copy(0, 1, 0)]),
            ("and to which nothing leads, but one is written behind that", [copy(0, 1, 0), copy(0, 2, 2), copy(0, 1, 2)]),
        ):
            table.add(f"a pack at {when(time)} of objects, {title}", each(*requests) + [pack(time)] + each(read(0, 2), copy(0, 1, 1)))
    items = [pack(T0)] + each(copy(0, 1, 2), copy(0, 1, 3)) + [pack(T0), pack(T0 + 1), pack(T0 + 2)] + each(read(0, 9))
    table.add("packs at each time while objects are written again", items)
    items = [None] + [pack(T0), pack(T0)] + each(copy(0, 1, 2), copy(0, 1, 3)) + [pack(T0 + 2), pack(T0 + 2)]
    until_unhit(table, "packs that can't read, and then can", items, seeds=(1,))
    return table


def ends():
    """What is the last line, and what goes on."""
    table = Table("ends", "linked")
    done = each(copy(0, 1, 1))
    table.add("an entry waits at the end behind a pack", done + [("stop", 3, 1), pack(T0 + 1)])
    table.add("an entry waits at the end, and a vote is out behind a pack", done + [pack(T0 + 1), copy(0, 1, 1)] + steps(0, 4) + [("stop", 1, 1)])
    table.add("a pack behind a restart", done + [copy(0, 1, 1)] + steps(0, 4) + [("stop", 1, 1)] + steps(0, 1) + [pack(T0 + 1)] + each(read(0, 1), log(0)))
    items = done + [pack(T0 + 1)] + done + [("stop", 1, 0)] + each(read(0, 1)) + each(read(0, 1), log(0))
    table.add("a restart behind a pack holds what was committed before it and behind it", items)
    table.add("the clock's last stamp counts behind a pack", [("clock", T0 + 50), pack(T0)] + done + [pack(T0 + 50)] + done)
    table.add("a stamp behind a pack", done + [pack(T0 + 1), ("clock", T0 + 9)] + done + [pack(T0 + 9), ("clock", T0)] + done)
    items = each(new(0, 1), new(0, 1)) + [pack(T0 + 2)] + each(read(0, 9), new(0, 2), read(0, 8)) + [pack(T0 + 2)] + each(new(0, 1))
    table.add("the id of an object to which nothing leads is given again behind a pack", items)
    items = each(copy(0, 1, 1), copy(0, 1, 2)) + [pack(T0 + 1)] + each(log(0), part(0, T0), part(0, T0 + 1), part(0, T0 + 2))
    table.add("the log and the parts of what was packed", items + each(copy(0, 1, 1), log(0), part(0, T0 + 3), part(0, T0 + 1)))
    table.add("idle steps around packs", steps(3, 1) + [pack(T0)] + steps(3, 2) + [pack(T0)] + steps(15, 1))
    table.add("each worker looks behind a pack", done + [pack(T0 + 1)] + each(*(read(w, 1) for w in range(16))))
    table.add("many packs", (done + [pack(MOST)]) * 12)
    table.add("many packs before all", (done + [pack(T0 - 1)]) * 6)
    table.add("a request that is no message behind a pack", done + [pack(T0 + 1), ("request", 0, b"writes 1")])
    table.add("a request for a taken worker behind a pack", done + [pack(T0 + 1), read(0, 1), pack(T0), read(0, 1)])
    items = each(read(0, 1)) + [("stop", 1, 1), pack(T0), read(0, 1), read(1, 1), read(1, 1)]
    table.add("a request for a taken worker behind a pack that a stop cut off", items)
    plus = Table("leads", "plus")
    for time in (T0, T0 + 1, T0 + 2):
        plus.add(f"a pack at {when(time)}: what is copied leads to one more object", done + [pack(time)] + each(read(0, 43)))
        items = each(copy(0, 43, 1), copy(0, 2, 0)) + [pack(time)] + each(read(0, 1), read(0, 43))
        plus.add(f"a pack at {when(time)}: what a first object leads to is written over", items)
    return [table, plus]


def alone():
    """Requests that are run one by one."""
    tables = []
    mixed = [("clock", T0 + 20), copy(0, 1, 1), ("step", 0), copy(0, 1, 1), new(1, 2), ("stop", 1, 0), read(15, 1), pack(T0 + 20), ("fail", 1, 1), log(0)]
    mixed += [part(0, T0 + 21), ("step", 9), copy(3, 7, 1), pack(T0 + 21), read(3, 7), new(3, 1)]
    for file in CELLS:
        table = Table(f"{file}_alone", file, alone=True)
        for time in (0, T0, T0 + 2, T0 + 9, MOST):
            table.add(f"{file}, one by one: a pack at {when(time)}", [copy(0, 1, 1), copy(1, 1, 2), pack(time), read(0, 1), new(0, 2), log(0), part(0, T0 + 9)])
        table.add(f"{file}, one by one: steps, stops, failures, clocks and packs", mixed)
        tables.append(table)
    table = Table("alone", "linked", alone=True)
    four = stopped_runs.conflicting()
    run = table.add("workers that would conflict are run one by one", four)
    assert b"conflict" not in b"".join(run.blocks) and b"busy" not in b"".join(run.blocks)
    table.add("only steps, stops and failures", steps(0, 3) + [("stop", 1, 0), ("fail", 1, 0), ("stop", 2**64 - 1, 1)] + steps(15, 2))
    table.add("nothing", [])
    table.add("one worker's requests, without steps", [copy(4, 1, 1)] * 6 + [read(4, 1)])
    table.add("a request that is no message", [copy(0, 1, 1), ("request", 0, b"write"), copy(0, 1, 1)])
    table.add("a request that is no message is the first line", [("request", 15, b"")])
    items = [("step", 0), ("stop", 1, 1), pack(T0), copy(0, 1, 1), ("fail", 1, 1), ("request", 0, b"read 1")]
    table.add("a request that is no message counts by all lines before it", items)
    put_limits(table, "one by one", [copy(0, 1, 1), new(0, 1), pack(T0 + 1), copy(0, 1, 1), pack(MOST), copy(0, 1, 1)])
    for at in range(0, 22, 3):
        items = four[:at] + [pack(T0 + 1)] + four[at:]
        table.add(f"workers one by one, and a pack behind line {at + 1}", items + [pack(T0 + 2), log(0)])
    return tables + [table]


class Large:
    """Packs of a file that is longer than what an opening reads at once, since its texts are long: its bytes are asked for by one call all
    the same. What is compared ends before the first transaction that is printed."""

    USER = DESCRIPTION = 40_000
    TEXTS = b"u" * (USER + DESCRIPTION)
    CONTENT = cells_file([Transaction(T0, [(0, b"\1"), (1, b"a")], user=TEXTS[:USER], description=TEXTS[USER:])])

    def put(self):
        front, behind = self.CONTENT.split(self.TEXTS)
        print("piece letter\n  | u\\\n\npiece large")
        put_hex(front)
        print(f"  repeat {len(self.TEXTS)} letter")
        put_hex(behind)
        print()
        return (self.put_cases,)

    def put_cases(self):
        for entries in [("fail", 1, 0)], [("fail", 2, 0)], [("stop", 2, 0)], *([("stop", 1, 0), ("fail", m, 1)] for m in range(1, 7)):
            items = entries + [pack(T0)]
            run = CellPacking(self.CONTENT, cells, 100_000).go(items)
            said = ", ".join(" ".join(map(str, entry)) for entry in entries)
            print(f"case a pack of a large file: {said}\nfile\n  use large\ninput\n  | zope schedule 1")
            put_bytes(b"".join(map(item_bytes, items)) + b"end\n")
            printed = b"".join(run.blocks)
            print("status done\noutput begins")
            put_bytes(printed[: printed.index(b"transaction ")])
            print()


WHO = "`docs/packed_runs.py` has written these cases from the rules."


def put_cells():
    tables = [at_each_time(file) for file in CELLS] + [two_times("linked"), two_times("grown")]
    tables += [busy(), stops(), second_entries(), stale(), conflicts(), *limits(), unreadable(), *ends(), *alone()]
    global SHARED
    SHARED = Shared([row for table in tables for rows in table.rows() for row in rows])
    head = "# Packs within runs of cells: at each time, while workers have requests, with a stop and a failure at each device call around them,\n"
    head += "# under each limit, and of objects that spell none; and requests that are run one by one.\n# "
    stopped_runs.put_file(head + WHO, [("magic", b"FS21"), *CELLS.items()], [SHARED, *tables, Large()])
    for what in ("output\n  | zope report 1\n  | open 0331620000000000 1\n  | history 1", "disk\n  use linked"):
        print(f"case what is compared differs: {what.split()[0]}\nfile\n  use linked\ninput\n  | zope schedule 1\n  | pack {hex16(T0)}\n  | end\n{what}\ndiffers\n")



# ---- cases over sites


def site_links(value):
    """An object of a site leads to the folder that holds it and to what it holds."""
    if value is None:
        return [], False
    if value not in OBJECTS:
        return [], True
    return [OBJECTS[value]["parent"]] + [oid for _, oid in OBJECTS[value].get("children", [])], False


class Sections(Play):
    model = Packing

    def pack(self, n):
        """A pack so many ids behind the first one of the files."""
        return self.put(pack(T0 + n))

    def edit(self, source="x", w=0):
        return self.whole(w, "POST", "/index_html/manage_edit", form={"data": source}, by=ADMIN)

    def send_edit(self, w=0):
        return self.send(w, runs.EDIT).through(w)


class Single(Sections):
    model = Alone


def over(file="old_site", limit=runs.NO_LIMIT, single=False):
    return (Single if single else Sections)(FILES[file], limit)


def said(play, *texts, at=-1):
    """The last block of a run has these texts."""
    for text in texts:
        assert text.encode() in play.run.blocks[at], (text, play.run.blocks[at])
    return play


def put_rows():
    play = over().put(("clock", T0)).send_edit().send_edit()
    assert len(play.run.disk.content) == 691
    said(play.pack(2), "history 3\n", f"packed {hex16(T0 + 2)} 2\n")
    assert len(play.run.disk.content) == 413
    said(get(play, LIST, ADMIN), "200 OK", "Content-Length: 0\r\n")
    said(undo(play, 2), "400 Bad Request", f"no such transaction: {hex16(T0 + 2)}\n")
    case("two edits and a pack at the second: the log is empty, there is nothing to undo, and the page is there", said(get(play, "/index_html"), "\r\n\r\nx"), "old_site")

    play = over().put(("clock", T0)).send_edit().send_edit()
    said(play.ask(0, "GET", "/").pack(2), "pack busy\n").through(0)
    said(play.put(("stop", 1, 0)).pack(2), f"stop\nrestart {hex16(T0 + 2)} 3\n")
    said(play.put(("fail", 1, 0)).pack(2), "packfault\n")
    case("a pack while a worker has a request, one that is stopped, and one that fails", said(play.pack(2), f"packed {hex16(T0 + 2)} 2\n"), "old_site")


# times, by how far they are behind the first id: before all, those of a few transactions, between two, behind all
FEW = (-T0, -1, 0, 1, 2, 3, 5, MOST - T0)


def put_times():
    for n in FEW:
        play = over().put(("clock", T0)).edit("one").edit("two").pack(n)
        get(get(undo(play, 2), "/index_html"), LIST, ADMIN)
        case(f"a pack at {when(T0 + n)} behind two edits, the last of which is undone", undo(play, 1), "old_site")
    for n in (0, 1, 2, 3, 4):
        play = over("tree")
        done(post(play, "/manage_addDTMLDocument", {"id": "new", "file": "new"}))
        done(post(play, "/manage_delObjects", {"ids": ["new", "d", "f"]}))
        play.pack(n)
        get(get(undo(play, 2), "/d"), "/new")
        get(done(post(play, "/manage_addDTMLDocument", {"id": "again", "file": "again"})), "/again")
        case(f"a pack at {when(T0 + n)} behind objects that are added and deleted, and an undo of that", get(play, LIST, ADMIN), "tree")
    for n in (1, 2, 3, 4, 5):
        play = over("tree")
        done(post(play, "/d/manage_edit", {"data": "x"}))
        done(undo(done(undo(play, 1)), 2))
        play.pack(n)
        undo(undo(play, 3), 4)
        case(f"a pack at {when(T0 + n)} behind an undo that is undone, and more undos", get(get(play, "/d"), LIST, ADMIN), "tree")


def put_again():
    play = over("tree")
    for name in ("one", "two"):
        done(post(play, "/manage_addDTMLDocument", {"id": name}))
        done(post(play, "/manage_delObjects", {"ids": [name]}))
    before = play.run.store.known.greatest()
    play.pack(4)
    assert play.run.store.known.greatest() < before - 1
    case("ids of objects that a pack dropped are given again", get(done(post(play, "/manage_addDTMLDocument", {"id": "three", "file": "3"})), "/three"), "tree")
    for first in (-1, 1, 2):
        for second in (0, 1, 3, 4):
            play = over().put(("clock", T0)).edit("one").edit("two").pack(first).edit("three").pack(second)
            case(f"packs at {when(T0 + first)} and at {when(T0 + second)}", get(undo(play, 3), LIST, ADMIN), "old_site")
    play = over().edit("one").pack(1).edit("two").pack(2).edit("three").pack(3).edit("four")
    case("a pack behind each of three edits, and a fourth one that is undone", get(done(undo(play, 4)), "/index_html"), "old_site")
    play = over().pack(0)
    case("a pack of a new site at its only transaction", get(get(play, "/"), LIST, ADMIN), "old_site")


def put_unread():
    bad = runs.spell(runs.INIT[2])[:-1]
    assert bad not in OBJECTS
    first = transactions_of(FILES["old_site"])
    FILES["unread"] = file_of(first + [Transaction(T0 + 1, [(2, bad)])])[0]
    FILES["both_unread"] = file_of(first + [Transaction(T0 + 1, [(2, bad), (1, b"Z2")])])[0]
    FILES["unread_elsewhere"] = file_of(first + [Transaction(T0 + 1, [(9, bad)])])[0]
    for file, least in (("unread", 2), ("both_unread", 1)):
        for n in (-1, 0, 1, 2):
            said(over(file).pack(n), f"pack unreadable {hex16(least)}\n")
        play = over(file).pack(1)
        undo(play, 1)
        for n in (0, 1, 2, 3):
            play.pack(n)
        case(f"{file}: packs before and behind an undo", get(play, "/index_html"), file)
    play = over("unread_elsewhere").pack(-1).pack(0)
    said(play.pack(1), "packed ").pack(1)
    case("what can't be read and nothing leads to is in the way while it is written behind the pack, and goes with it else", play, "unread_elsewhere")


def put_limited():
    for limit in (690, 691):
        play = over(limit=limit).put(("clock", T0)).edit().edit()
        assert (b"spent 0 full 691 690\n" in play.printed()) == (limit == 690)
        play.edit()
        play.pack(1 if limit == 690 else 2).edit().edit()
        case(f"edits under a limit of {limit}, which are refused before a pack and not behind it", play, "old_site", f" --limit {limit}")
    for limit in (411, 412, 413):
        play = over(limit=limit).edit().pack(0)
        case(f"a pack under a limit of {limit}", play.pack(1).edit(), "old_site", f" --limit {limit}")


def put_busy():
    for at in range(9):
        play = over().put(("clock", T0)).pack(0)
        play.send(0, runs.EDIT).step(0, at).pack(1).through(0)
        case(f"a pack behind {at} steps of an edit", get(said(play.pack(1), "packed"), LIST, ADMIN), "old_site")
    play = over().send(0, runs.EDIT).send(1, runs.EDIT).to(0, "computed").pack(0).to(1, "computed").step(0).pack(0).step(1).pack(0).step(0).pack(0).step(1).pack(0)
    case("packs while two edits conflict", get(play.through(1).pack(1).send_edit(), LIST, ADMIN), "old_site")
    play = over().ask(3, "GET", "/").step(3, 1).edit().pack(1).through(3)
    case("a pack while a page is read at an older snapshot", play.pack(1), "old_site")


def put_hits():
    def to_vote():
        return over().put(("clock", T0)).send(0, runs.EDIT).to(0, "computed")

    for sort in ("stop", "fail"):
        for n in range(1, 100):
            play = to_vote().put((sort, n, 5)).through(0).pack(1)
            get(play, "/index_html").pack(2)
            case(f"{sort} {n} 5 before a vote, a pack, a look and a pack", play, "old_site")
            if play.run.waiting:
                break
    for call in (3, 4):
        for seed in (0, 1, 5):
            play = to_vote().put(("fail", call, seed)).through(0)
            case(f"an outcome that is unknown is settled by a pack, fail {call} {seed}", get(play.pack(1), LIST, ADMIN), "old_site")
    for m in range(1, 7):
        play = over().edit().put(("stop", 1, 1)).put(("stop", m, 1)).pack(1)
        case(f"a pack stops, and stop {m} 1 behind it", get(play.pack(1), "/index_html").edit(), "old_site")


def put_packed_before():
    play = over().edit("one").edit("two").pack(1).edit("three")
    FILES["packed"] = play.end().run.disk.content
    for n in (0, 1, 2, 3):
        play = over("packed").pack(n)
        case(f"a file that was packed is packed at {when(T0 + n)}", get(undo(play, 3), LIST, ADMIN), "packed")


def draws(x):
    """Numbers that are drawn one behind another."""
    while True:
        x = (x * 6364136223846793005 + 1442695040888963407) % 2**64
        yield x >> 33


def drawn(seed, rounds, workers=4):
    """Rounds of requests for pages, edits and new documents, with steps in an order that is drawn and then in turns; a pack stands among
    the steps of each round and behind it."""
    drawing, items = draws(seed), [("clock", T0)]
    for n in range(rounds):
        for w in range(workers):
            id = f"d{n * workers + w + 1}"
            items.append(("request", w, (
                b"GET / HTTP/1.0\r\n\r\n", b"GET /index_html HTTP/1.0\r\n\r\n", runs.EDIT,
                runs.request("POST", "/manage_addDTMLDocument", form={"id": id, "file": "f"}, by=ADMIN))[next(drawing) % 4]))
        items += [("step", next(drawing) % workers) for _ in range(20)] + [pack(T0 + n)]
        items += [("step", w) for _ in range(24) for w in range(workers)] + [pack(T0 + 2 * n)]
    return items


def put_drawn(single=False):
    for seed in (1, 2):
        play = over(single=single)
        for item in drawn(seed, 4):
            play.put(item)
        assert single or b"pack busy" in play.printed() and b"conflict" in play.printed()
        assert not play.run.workers and b"packed" in play.printed()
        case(f"rounds of requests that are drawn from {seed}, with packs", play, "old_site", command="serial" if single else "replay")


def put_site_cases():
    """The cases of runs, with the transactions of their histories that stand several times in pieces."""
    for name in set(FILES) - {file for _, _, file, *_ in runs.CASES} - {"new_site"}:
        del FILES[name]
    atoms = Counter(atom for _, play, *_ in runs.CASES for block in play.run.blocks for atom in atoms_of(block) if atom.startswith(b"transaction "))
    further = Shared([[atom] * (count if count > 1 else 0) for atom, count in atoms.items()])
    runs.put_all({name: atom for atom, name in further.names.items()})


def put_sites():
    packs.links_of = site_links
    put_rows()
    put_times()
    put_again()
    put_unread()
    put_limited()
    put_busy()
    put_hits()
    put_packed_before()
    put_drawn()
    print("# Packs within runs over sites: at each time, twice, while workers have requests, under a limit, with stops and failures, and of")
    print(f"# objects that can't be read. {WHO}\n")
    put_site_cases()


# ---- requests of sites that are run one by one


def plain(title, words, status, output, files=("old_site",), given=("end",)):
    """A case whose output is what it says."""
    print(f"case {title}\nwords {words}")
    for file in files:
        print(f"file site.fs\n  use {file}")
    print("input\n  | zope schedule 1")
    for item in given:
        put_bytes(item if isinstance(item, bytes) else item.encode() + b"\n")
    print(f"status {status}\noutput")
    put_bytes(output)
    print()


def put_serial_rows():
    given = [("clock", T0), ("request", 0, runs.EDIT), *steps(0, 7), ("request", 0, runs.EDIT), *steps(0, 7)]
    play, single = over(), over(single=True)
    for item in given:
        play.put(item)
        single.put(item)
    case("two edits one by one", single, "old_site", command="serial")
    assert play.end().printed() == single.printed()

    def begin(play):
        return play.put(("clock", T0)).send(0, runs.EDIT)

    play = begin(over())
    for _ in range(4):
        play.to(0, "computed").send(1, runs.EDIT).through(1).step(0)
    assert b"givenup 0" in play.printed()
    single = over(single=True)
    for item in play.given:
        single.put(item)
    assert [f"reply {w} commit {hex16(T0 + n)}".encode() in single.printed() for n, w in ((1, 0), (2, 1), (3, 1), (4, 1), (5, 1))] == [True] * 5
    assert b"conflict" not in single.printed()
    case("an edit that would be given up is the first of five", single, "old_site", command="serial")


def put_serial():
    packs.links_of = site_links
    put_serial_rows()
    for n in FEW:
        play = over(single=True).put(("clock", T0)).send(0, runs.EDIT).send(1, runs.EDIT).pack(n).ask(2, "GET", LIST, by=ADMIN)
        undo(play, 2)
        case(f"a pack at {when(T0 + n)}, one by one", get(play, "/index_html"), "old_site", command="serial")
    play = over(single=True).step(0, 3).put(("stop", 1, 0)).send(4, runs.EDIT).put(("fail", 1, 0)).put(("clock", T0 + 9)).step(4)
    play.send(15, runs.EDIT).pack(9).put(("stop", 1, 1)).pack(9)
    case("steps, stops and failures are passed over, clocks and packs aren't", play, "old_site", command="serial")
    play = over(single=True).ask(0, "GET", "/").ask(0, "HEAD", "/").ask(1, "GET", "/no").ask(2, "POST", "/manage_edit", form={"title": "T"}).ask(0, "GET", "/")
    case("pages and refusals one by one, of one worker without its steps", play, "old_site", command="serial")
    play = over("tree", single=True)
    for path, form in (("/manage_addDTMLDocument", {"id": "n"}), ("/manage_addDTMLDocument", {"id": "n"}), ("/manage_delObjects", {"ids": ["n", "g"]})):
        play.ask(0, "POST", path, form=form, by=ADMIN).ask(1, "POST", path, form=form, by=ADMIN)
    case("calls of two workers one by one: the second finds what the first did", play.pack(3).ask(0, "GET", LIST, by=ADMIN), "tree", command="serial")
    case("nothing", over(single=True), "old_site", command="serial")
    case("a pack alone", over(single=True).pack(0), "old_site", command="serial")
    for limit in (551, 552):
        play = over(limit=limit, single=True).put(("clock", T0)).send(0, runs.EDIT).pack(1).send(0, runs.EDIT)
        case(f"an edit under a limit of {limit}, one by one", play, "old_site", f" --limit {limit}", "serial")
    case("a pack under a limit of 400, one by one", over(limit=400, single=True).pack(0), "old_site", " --limit 400", "serial")
    FILES["unread"] = file_of(transactions_of(FILES["old_site"]) + [Transaction(T0 + 1, [(1, b"Z2")])])[0]
    case("a pack of what can't be read, one by one", over("unread", single=True).pack(0).pack(1), "unread", command="serial")
    put_drawn(single=True)
    print(f"# Requests that are run one by one over sites. {WHO}\n")
    put_site_cases()
    edits = over(single=True).put(("clock", T0)).send(0, runs.EDIT)
    before = [item_bytes(item) for item in edits.given]
    cut = b"request 3 16\nGET / HTTP/1.0\r\n\n"
    number = len(before) + 2
    plain("a request that is no message", "serial site.fs", 4, edits.printed() + b"bad line %d\n" % number, given=[*before, cut, "end"])
    given = [*before, "step 0", "stop 1 0", "fail 1 1", f"pack {hex16(T0)}", cut, "end"]
    output = edits.pack(0).printed() + b"bad line %d\n" % (number + 4)
    plain("a request that is no message, behind steps, stops and a pack", "serial site.fs", 4, output, given=given)
    for title, given, line in (
        ("a step of no worker", ["step 16", "end"], 2),
        ("a stop at no call", ["step 0", "stop 0 0", "end"], 3),
        ("a pack with a short id", ["pack 033162000000000", "end"], 2),
        ("no end", ["step 0"], 3),
        ("a line behind the end", ["end", "step 0"], 3),
        ("a line of no schedule", ["serial", "end"], 2),
    ):
        plain(f"{title}, in a schedule that is run one by one", "serial site.fs", 4, b"bad line %d\n" % line, given=given)
    for title, words in (
        ("no file", "serial"),
        ("a word too many", "serial site.fs more"),
        ("a limit that is none", "serial site.fs --limit x"),
        ("a limit that is too great", f"serial site.fs --limit {2**48}"),
        ("a limit without its number", "serial site.fs --limit"),
        ("a flag of another command", "serial site.fs --full"),
    ):
        plain(f"{title}, in the words of serial", words, 2, b"usage\n")
    plain("a file that isn't there, one by one", "serial other.fs", 8, b"missing other.fs\n")
    print("case a file without its magic, one by one\nwords serial site.fs\nfile site.fs\n  | FS20\\\ninput\n  | zope schedule 1\n  | end")
    print("status 3\noutput\n  | damaged 9 at 0\n")
    for key, value in (("status", "status 1"), ("output", "output\n  | zope report 1")):
        print(f"case what is compared of a run one by one differs: {key}\nwords serial site.fs\nfile site.fs\n  use old_site")
        print(f"input\n  | zope schedule 1\n  | end\n{value}\ndiffers\n")


# ---- runs that a number draws


def added(number):
    """The manager adds a document whose id has the number."""
    body = b"id=d%d&file=f" % number
    return runs.EDIT.replace(b"/index_html/manage_edit", b"/manage_addDTMLDocument").replace(b": 6\r\n\r\ndata=x", b": %d\r\n\r\n" % len(body) + body)


def drawn_run(seed):
    """Twenty rounds: eight workers are given a request each, one of them goes ahead, and then they take turns."""
    drawing = draws(seed)
    for n in range(20):
        for w in range(8):
            kinds = b"GET / HTTP/1.0\r\n\r\n", b"GET /index_html HTTP/1.0\r\n\r\n", runs.EDIT, added(8 * n + w + 1)
            yield "request", w, kinds[next(drawing) % 4]
        yield from [("step", next(drawing) % 8)] * 100
        yield from [("step", w) for _ in range(80) for w in range(8)]


def heads(block):
    """The lines that a step printed, without a reply's bytes and what follows them."""
    for line in block.split(b"\n"):
        yield line.split()
        if line.startswith(b"reply "):
            return


def put_drawn_runs():
    print("# Runs that numbers draw, over a new site: how many lines their reports have of each kind, as the model of a run has them.\n")
    for seed in [*range(1, 21), 0, 2**64 - 1]:
        play = over("new_site")
        for item in drawn_run(seed):
            play.put(item)
        assert not play.run.workers
        rows = [row for block in play.run.blocks for row in heads(block) if row]
        counts = Counter("reads" if row[2:3] == [b"read"] and row[0] == b"reply" else "commits" if row[2:3] == [b"commit"] and row[0] == b"reply" else row[0].decode() for row in rows)
        lines = [f"requests {sum(item[0] == 'request' for item in play.given)}"]
        lines += [f"{word} {counts[key]}" for word, key in (("reads", "reads"), ("commits", "commits"), ("conflicts", "conflict"), ("givenup", "givenup"))]
        lines += [f"last {hex16(play.run.store.known.transactions[-1][0])}"]
        print(f"case the run that {seed} draws\nwords gen {seed}\nstatus 0\noutput")
        print("\n".join(f"  | {line}" for line in lines) + "\n")
    for title, words in (("no number", "gen"), ("no number but a word", "gen x"), ("a number that is too great", f"gen {2**64}"), ("a number and a word", "gen 1 2"), ("a limit", "gen 1 --limit 9")):
        print(f"case {title}, in the words of gen\nwords {words}\nstatus 2\noutput\n  | usage\n")
    print("case what is compared of a drawn run differs\nwords gen 1\nstatus 0\noutput\n  | requests 161\ndiffers\n")


def main(what):
    modes = {"replay": put_cells, "zope": put_sites, "serial": put_serial, "gen": put_drawn_runs}
    if what not in modes:
        sys.exit(__doc__)
    modes[what]()


if __name__ == "__main__":
    main(*sys.argv[1:])
