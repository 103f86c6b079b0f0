#!/usr/bin/env python3
"""Writes the cases of schedules that stop the disk or let it fail: data/stops.cases and data/faults.cases of replay_cases,
and data/stops.cases of zope_cases.

    python3 docs/stopped_runs.py replay stops > crates/replay_cases/data/stops.cases
    python3 docs/stopped_runs.py replay faults > crates/replay_cases/data/faults.cases
    python3 docs/stopped_runs.py zope stops > crates/zope_cases/data/stops.cases

The reports are worked out by a small model of a run: the formats (`FORMATS.md`), what a disk in memory is left with by an
armed entry and its seed (`stops.py`), the table of a worker's steps, and the device calls of a store:

- An opening syncs, looks at the length twice, and goes over the file by pieces of 65,536 bytes: one is read where bytes aren't in
  the one before that are looked at, which are the magic, and of each transaction its head, the first 50 bytes of each record, and
  its second length; of one that was undone in the old manner no records. Of each back pointer the id is read that stands where it
  points. A torn rest is cut off, which is synced; of one that has a head the status is read before that.
- Loading an object reads the head of its newest record, and of each one before it up to the transaction that is asked for,
  and then that record's data. An object without a record takes no call.
- A vote writes its record and syncs, a finish writes the status and syncs, an abort cuts the record off and syncs. A vote that
  meets a conflict reads the head of the object's newest record instead.
- A store that failed in one of these is opened again by the next call, but for a vote that finds another one out.

A restore, of which an entry has the transaction that the object goes back to, is written as a back pointer to where the data
stands. What a look at a transaction or the log costs isn't told here, nor what a restore reads: nothing is armed there.

Nothing here runs or reads the product.
"""

import sys

from stops import Disk as NumberedDisk, Hit, chosen, number, record, transaction


class Disk(NumberedDisk):
    """A disk whose armed entries stand in a queue, of which the first alone is counted."""

    def __init__(self, content):
        super().__init__(content, {})
        self.queue, self.left = [], 0

    def arm(self, stops, calls, seed):
        if not self.queue:
            self.left = calls
        self.queue.append((stops, calls, seed))

    def disarm(self):
        self.queue = []

    def _next(self):
        self.queue.pop(0)
        if self.queue:
            self.left = self.queue[0][1]

    def after_stop(self):
        self.content = self.synced = self.image
        self.stopped = False
        if self.queue:
            self.left = self.queue[0][1]

    def _call(self, kind, new):
        self.calls += 1
        if self.stopped:
            raise Hit
        if self.queue:
            self.left -= 1
            if self.left == 0:
                stops, _, seed = self.queue[0]
                if stops:
                    self.image, self.stopped = chosen(seed, self.synced, new), True
                elif kind != "read":
                    self.content = chosen(seed, self.synced if kind == "sync" else self.content, new)
                self._next()
                raise Hit
        self.content = new
        if kind == "sync":
            self.synced = new


# ---- the store


class Known:
    """What a file says: where it ends, its floor, and its transactions, each an id, its texts, and the object, place and data
    of its records."""

    def __init__(self):
        self.end, self.floor, self.transactions = 4, 0, []

    def last(self):
        return self.transactions[-1][0] if self.transactions else 0

    def newest(self, oid):
        return next(((tid, place) for tid, place, _ in self.revisions(oid)), None)

    def revisions(self, oid):
        """The object's records, newest first, of a transaction the last one."""
        found = [(tid, [(place, data) for o, place, data in records if o == oid]) for tid, _, records in reversed(self.transactions)]
        return [(tid, *of[-1]) for tid, of in found if of]

    def greatest(self):
        return max((o for _, _, records in self.transactions for o, _, _ in records), default=-1)

    def unpacked(self, at):
        """The transactions that can be undone, of those up to an id."""
        return [t for t in self.transactions if self.floor < t[0] <= at]

    def told(self, ask, at):
        """What is told of the log, or of a transaction: each of its objects with its value behind the transaction, and the
        transaction of its value before it."""
        if ask == ("log",):
            return [(tid, *texts[:2]) for tid, texts, _ in self.unpacked(at)]
        for tid, _, records in self.unpacked(at):
            if ask == ("transaction", tid):
                last = {oid: (oid, data) for oid, _, data in records}
                return [(oid, data, next((t for t, _, _ in self.revisions(oid) if t < tid), 0)) for oid, data in last.values()]
        return None


def home(content, place):
    """Where the data stands that the record at a place means, 0 for none."""
    if place == 0 or any(content[place + 34 : place + 42]):
        return place
    return home(content, int.from_bytes(content[place + 42 : place + 50], "big"))


def data_at(content, place):
    return content[place + 42 :][: int.from_bytes(content[place + 34 : place + 42], "big")] if place else None


def transaction_at(content, place):
    head = content[place : place + 23]
    length = int.from_bytes(head[8:16], "big")
    sizes = [int.from_bytes(head[at : at + 2], "big") for at in (17, 19, 21)]
    texts, at = [], place + 23
    for size in sizes:
        texts.append(content[at : at + size])
        at += size
    records = []
    while at < place + length:
        size = int.from_bytes(content[at + 34 : at + 42], "big")
        assert content[at + 32 : at + 34] == bytes(2)
        records.append((int.from_bytes(content[at : at + 8], "big"), at, data_at(content, home(content, at))))
        at += 42 + (size or 8)
    assert at == place + length and content[at : at + 8] == head[8:16]
    return int.from_bytes(head[:8], "big"), texts, records


class ReadAhead:
    """What is looked at of a disk's file, by pieces that are read."""

    def __init__(self, disk):
        self.disk, self.begin, self.end = disk, 0, 0

    def show(self, at, size):
        if not (self.begin <= at and at + size <= self.end):
            self.disk.read()
            self.begin, self.end = at, min(at + 65536, len(self.disk.content))

    def show_transaction(self, place, length):
        """Of one that counts: its records, by their heads, and its second length."""
        content = self.disk.content
        at = place + 23 + sum(int.from_bytes(content[place + n : place + n + 2], "big") for n in (17, 19, 21))
        while at < place + length:
            self.show(at, min(50, place + length - at))
            size = int.from_bytes(content[at + 34 : at + 42], "big")
            if size == 0 and any(content[at + 42 : at + 50]):
                self.disk.read()
            at += 42 + (size or 8)
        self.show(at, 8)


def opening(disk):
    known = Known()
    disk.sync()
    for _ in range(2):
        disk.read()
    content, pieces = disk.content, ReadAhead(disk)
    pieces.show(0, 4)
    assert content[:4] == b"FS21"
    while True:
        left = len(content) - known.end
        pieces.show(known.end, min(23, left))
        if left < 23:
            break
        length = int.from_bytes(content[known.end + 8 : known.end + 16], "big")
        status = content[known.end + 16]
        if status in b"c\0" or length + 8 > left:
            break
        if status == ord("u"):
            pieces.show(known.end + length, 8)
            known.end += length + 8
            continue
        pieces.show_transaction(known.end, length)
        assert status in b" p"
        found = transaction_at(content, known.end)
        assert found[0] > known.last()
        known.floor = found[0] if status == ord("p") else known.floor
        known.transactions.append(found)
        known.end += length + 8
    if left:
        if left >= 23:
            disk.read()
            if content[known.end + 16] not in b"c\0":
                disk.write(known.end + 16, b"c")
                disk.sync()
        disk.cut(known.end)
        disk.sync()
    return known


class Refused(Exception):
    """A vote is refused: these are the words of the step's line."""


class Store:
    def __init__(self, disk, limit):
        self.disk, self.limit = disk, limit
        self.known = opening(disk)
        self.out, self.stale = None, False
        # where the record stands that was read last of an object, while it is its newest; these files have few objects, and short ones
        self.recent = {}

    def refresh(self):
        if self.stale:
            self.recent = {}
            self.known = opening(self.disk)
            self.stale = False

    def load(self, oid, at):
        self.refresh()
        revisions = list(self.known.revisions(oid))
        for tid, place, data in revisions:
            if place == revisions[0][1] == self.recent.get(oid) and tid <= at:
                return data, tid, place
            self.disk.read()
            if tid <= at:
                self.disk.read()
                if place == revisions[0][1]:
                    self.recent[oid] = place
                return data, tid, place
        return None, 0, 0

    def home(self, oid, serial):
        """Where the data stands that an object had in a transaction, 0 for none."""
        return home(self.disk.content, next((place for tid, place, _ in self.known.revisions(oid) if tid == serial), 0))

    def vote(self, holder, change, reads, now):
        user, description, entries = change
        if self.out:
            raise Refused("busy", self.out[0])
        self.refresh()
        try:
            for oid, serial, place in reads:
                newest = self.known.newest(oid)
                if newest and newest[1] != place:
                    self.disk.read()
                    raise Refused("conflict", oid, serial, newest[0])
            last, end = self.known.last(), self.known.end
            tid = now if now > last else last + 1
            records, fresh = [], self.known.greatest() + 1
            for oid, data in sorted((fresh if oid is None else oid, data) for oid, data in entries):
                newest = self.known.newest(oid)
                before = newest[1] if newest else 0
                if isinstance(data, tuple):
                    records.append(record(oid, tid, before, end, b"") + number(self.home(oid, *data)))
                else:
                    records.append(record(oid, tid, before, end, data(fresh) if callable(data) else data))
            piece = described(tid, b"c", user, description, records)
            if end + len(piece) > self.limit:
                raise Refused("full", end + len(piece), self.limit)
            self.disk.write(end, piece)
            self.disk.sync()
        except Hit:
            self.stale = True
            raise
        self.out = (holder, tid)
        return tid

    def finish(self):
        self.out = None
        try:
            self.disk.write(self.known.end + 16, b" ")
            self.disk.sync()
        except Hit:
            self.stale = True
            raise
        found = transaction_at(self.disk.content, self.known.end)
        self.known.transactions.append(found)
        self.known.end += int.from_bytes(self.disk.content[self.known.end + 8 :][:8], "big") + 8

    def abort(self):
        self.out = None
        try:
            self.disk.cut(self.known.end)
            self.disk.sync()
        except Hit:
            self.stale = True


def described(tid, status, user, description, records):
    length = 23 + len(user) + len(description) + sum(map(len, records))
    texts = number(len(user), 2) + number(len(description), 2) + number(0, 2) + user + description
    return number(tid) + number(length) + status + texts + b"".join(records) + number(length)


# ---- what requests mean

PHRASES = {
    200: "OK",
    400: "Bad Request",
    401: "Unauthorized",
    404: "Not Found",
    500: "Internal Server Error",
    503: "Service Unavailable",
}


def hex16(n):
    return f"{n:016x}"


def reply(status, body, mark, kind="plain", head_only=False):
    lines = [f"HTTP/1.1 {status} {PHRASES[status]}"]
    lines += ['WWW-Authenticate: basic realm="Zope"'] if status == 401 else []
    lines += [f"Content-Type: text/{kind}; charset=utf-8", f"Content-Length: {len(body)}", f"X-Transaction: {mark}"]
    lines += ["Connection: close", "", ""]
    return "\r\n".join(lines).encode() + (b"" if head_only else body)


def cells(request, known):
    """The evaluator of cells: what is asked for; or a reply's status, body, type and the lines behind it; or a change's user,
    description and entries, of which each new object's name is None."""
    words = request.split()
    asks = {b"log": lambda: ("log",), b"part": lambda: ("transaction", int(words[1], 16))}
    ask = asks.get(words[0], lambda: int(words[1], 16))()
    if ask not in known:
        return "need", ask
    value = known[ask]
    if words[0] in (b"log", b"part"):
        return "answer", 200, (b"none" if value is None else b"%d" % len(value)) + b"\n", "plain", []
    if words[0] == b"read":
        return "answer", 200, (b"none" if value is None else value.hex().encode()) + b"\n", "plain", []
    data = (value or b"") + b"+"
    return "change", b"", b"", [(int(words[2], 16) if words[0] == b"copy" else None, data)]


# the setting by which anyone is granted `Change DTML Documents`
SETTINGS = number(1, 2) + number(6, 1) + number(0, 1) + number(1, 2) + number(9, 2) + b"Anonymous"
DOCUMENT = b"Z2D" + number(1, 2) + b"a" + number(0) + number(0, 2) + SETTINGS + number(0, 2) * 2


def document(source):
    return DOCUMENT + number(len(source), 4) + source + number(0, 2)


def pages(request, known):
    """A site in which anyone may edit the document `a`: its page, and the edit of it."""
    for oid in (0, 1):
        if oid not in known:
            return "need", oid
    source = known[1][len(DOCUMENT) + 4 : -2]
    if request.startswith(b"GET"):
        return "answer", 200, source, "html", [("shown", 1, "Anonymous")]
    return "change", b"", b"/a/manage_edit", [(1, document(request.partition(b"data=")[2]))]


# ---- a run


class Worker:
    def __init__(self, request):
        self.request, self.clashes = request, []
        self.anew()

    def anew(self):
        self.state, self.known, self.reads, self.change = "fresh", {}, [], None


class Run:
    def __init__(self, content, evaluator, limit):
        self.evaluator, self.limit = evaluator, limit
        self.disk = Disk(content)
        self.store = Store(self.disk, limit)
        self.workers, self.now = {}, 0
        self.blocks = []
        self.opened = self.numbers("open")

    def numbers(self, word):
        known = self.store.known
        return f"{word} {hex16(known.last())} {len(known.transactions)}\n".encode()

    def end_none(self, w, line, status, body):
        del self.workers[w]
        came = reply(status, body.encode() + b"\n", "none")
        return f"{line}\nreply {w} none {len(came)}\n".encode() + came + b"\n"

    def begin(self, w, worker):
        self.store.refresh()
        worker.snapshot, worker.state = self.store.known.last(), "active"
        return f"begin {w} {hex16(worker.snapshot)}\n".encode()

    def turn(self, w, worker):
        came = self.evaluator(worker.request, worker.known)
        if came[0] == "need" and isinstance(came[1], tuple):
            self.store.refresh()
            worker.known[came[1]] = self.store.known.told(came[1], worker.snapshot)
            return " ".join(["fetch", str(w), came[1][0], *map(hex16, came[1][1:])]).encode() + b"\n"
        if came[0] == "need":
            value, serial, place = self.store.load(came[1], worker.snapshot)
            worker.known[came[1]] = value
            worker.reads.append((came[1], serial, place))
            return f"fetch {w} object {hex16(came[1])}\n".encode()
        if came[0] == "change":
            worker.change, worker.state = came[1:], "computed"
            return f"computed {w}\n".encode()
        del self.workers[w]
        tid = hex16(worker.snapshot)
        _, status, text, kind, behind, *head_only = came
        body = reply(status, text, f"read {tid}", kind, *head_only)
        lines = "".join(f"{word} {w} {hex16(oid)} {what}\n" for word, oid, what in behind)
        return f"reply {w} read {tid} {len(body)}\n".encode() + body + b"\n" + lines.encode()

    def vote(self, w, worker):
        try:
            worker.tid = self.store.vote(w, worker.change, worker.reads, self.now)
        except Refused as refused:
            return self.refuse(w, worker, *refused.args)
        worker.state = "pending"
        return f"vote {w} {hex16(worker.tid)}\n".encode()

    def refuse(self, w, worker, kind, *told):
        if kind == "busy":
            return f"busy {w} {told[0]}\n".encode()
        if kind == "full":
            return self.end_none(w, f"spent {w} full {told[0]} {told[1]}", 503, f"full: {told[0]} of {told[1]}")
        clash = " ".join(map(hex16, told))
        worker.clashes.append(clash)
        line = f"conflict {w} {clash}"
        if len(worker.clashes) < 4:
            worker.anew()
            return f"{line}\n".encode()
        given_up = f"givenup {w} {' '.join(worker.clashes)}"
        return self.end_none(w, f"{line}\n{given_up}", 503, f"conflict: {hex16(told[0])}")

    def finish(self, w, worker):
        tid = hex16(worker.tid)
        try:
            self.store.finish()
        except Hit:
            return self.end_none(w, f"unknown {w} {tid}", 500, f"unknown outcome: {tid}")
        del self.workers[w]
        came = reply(200, b"done\n", f"commit {tid}")
        return f"reply {w} commit {tid} {len(came)}\n".encode() + came + b"\n"

    def step(self, w):
        worker = self.workers.get(w)
        if worker is None:
            return f"idle {w}\n".encode()
        lost = sorted(self.workers)
        steps = {"fresh": self.begin, "active": self.turn, "computed": self.vote, "pending": self.finish}
        try:
            printed = steps[worker.state](w, worker)
        except Hit:
            printed = self.end_none(w, f"diskfault {w}", 503, "disk fault")
        if self.disk.stopped:
            return self.restart(lost)
        return printed

    def restart(self, lost):
        printed = "stop\n" + "".join(f"lost {w}\n" for w in lost)
        self.workers = {}
        self.disk.after_stop()
        while True:
            try:
                self.store = Store(self.disk, self.limit)
                return printed.encode() + self.numbers("restart")
            except Hit:
                if self.disk.stopped:
                    printed += "stop\n"
                    self.disk.after_stop()
                else:
                    printed += "openfault\n"

    def item(self, item):
        kind = item[0]
        if kind == "step":
            return self.step(item[1])
        if kind == "request":
            assert item[1] not in self.workers
            self.workers[item[1]] = Worker(item[2])
        elif kind == "clock":
            self.now = item[1]
        else:
            self.disk.arm(kind == "stop", item[1], item[2])
        return b""

    def end(self):
        self.disk.disarm()
        if self.store.out:
            self.store.abort()
        self.store.refresh()
        return "".join(f"lost {w}\n" for w in sorted(self.workers)).encode() + self.history() + b"end\n"

    def history(self):
        known = self.store.known
        printed = f"history {len(known.transactions)}\n" + (f"floor {hex16(known.floor)}\n" if known.floor else "")
        for tid, texts, records in known.transactions:
            said = " ".join(text.hex() or "-" for text in texts)
            printed += f"transaction {hex16(tid)} {said} {len(records)}\n"
            printed += "".join(f"record {hex16(oid)} {'none' if data is None else data.hex()}\n" for oid, _, data in records)
        return printed.encode()

    def go(self, items):
        self.blocks = [b"zope report 1\n" + self.opened]
        for item in items:
            self.blocks.append(self.item(item))
        self.blocks.append(self.end())
        return self


def item_bytes(item):
    if item[0] == "request":
        return f"request {item[1]} {len(item[2])}\n".encode() + item[2] + b"\n"
    if item[0] in ("clock", "pack"):
        return f"{item[0]} {hex16(item[1])}\n".encode()
    return (" ".join(map(str, item)) + "\n").encode()


# ---- files of cases


def put_bytes(content):
    """The lines of a text."""
    *lines, last = content.split(b"\n")
    for line in lines:
        text = line.decode("ascii").replace("\\", "\\\\").replace("\r", "\\r")
        print(f"  | {text}" if text else "  |")
    if last:
        print("  | " + last.decode("ascii").replace("\\", "\\\\").replace("\r", "\\r") + "\\")


def put_hex(content):
    for at in range(0, len(content), 48):
        print(f"  hex {content[at : at + 48].hex()}")


class Pieces:
    """Rows of blocks. What a row shares with the first one at its beginning, and with others at its end, stands in pieces."""

    def __init__(self, name, rows):
        self.name, self.rows = name, rows
        self.names = {}
        self.fronts = {row: self.front_of(row) for row in rows}

    def front_of(self, row):
        same = 0
        while same < min(len(row), len(self.rows[0])) - 1 and row[same] == self.rows[0][same]:
            same += 1
        return same

    def shared_ends(self):
        """The ends that several rows share, and behind which these differ."""
        before = {}
        for row in self.rows:
            rest = row[self.fronts[row] :]
            for at in range(len(rest)):
                before.setdefault(rest[at:], []).append(rest[at - 1] if at else None)
        return sorted((run for run, found in before.items() if len(found) > 1 and (None in found or len(set(found)) > 1)), key=len)

    def put(self):
        """Writes the pieces."""
        fronts = sorted({front for front in self.fronts.values() if front})
        for at, front in enumerate(fronts):
            before = fronts[at - 1] if at else 0
            print(f"piece {self.name}_to_{front}")
            if before:
                print(f"  use {self.name}_to_{before}")
            self.put_blocks(self.rows[0][before:front])
            print()
        for at, run in enumerate(self.shared_ends()):
            print(f"piece {self.name}_from_{at}")
            self.put_end(run)
            self.names[run] = f"{self.name}_from_{at}"
            print()

    def put_blocks(self, blocks):
        put_bytes(b"".join(blocks))

    def put_end(self, rest):
        at = next((at for at in range(len(rest)) if rest[at:] in self.names), len(rest))
        self.put_blocks(rest[:at])
        if at < len(rest):
            print(f"  use {self.names[rest[at:]]}")

    def put_row(self, row):
        if self.fronts[row]:
            print(f"  use {self.name}_to_{self.fronts[row]}")
        self.put_end(row[self.fronts[row] :])


class Table:
    """Cases over one file."""

    pieces = Pieces

    def __init__(self, program, name, content, shared_file):
        self.program, self.name, self.content, self.file = program, name, content, shared_file
        self.evaluator = pages if program == "zope" else cells
        self.cases = []

    def run(self, limit):
        return Run(self.content, self.evaluator, limit)

    def add(self, title, items, limit=100_000):
        run = self.run(limit).go(items)
        self.cases.append((title, items, limit, tuple(run.blocks), run))
        return run

    def rows(self):
        """The lines of each case's schedule, and the blocks of its report."""
        return [tuple(map(item_bytes, items)) + (b"end\n",) for _, items, *_ in self.cases], [blocks for *_, blocks, _ in self.cases]

    def put(self):
        given, printed = self.rows()
        inputs = self.pieces(f"{self.name}_given", given)
        inputs.put()
        outputs = self.pieces(self.name, printed)
        outputs.put()
        self.disks = []
        if self.program == "replay":
            self.put_disks()
        return self.put_cases, inputs, outputs

    def put_disks(self):
        """Writes what is on the disks at the end."""
        for *_, run in self.cases:
            if run.disk.content not in self.disks:
                self.disks.append(run.disk.content)
        for at, content in enumerate(self.disks):
            print(f"piece {self.name}_disk_{at}\n  use {self.file}")
            assert content[: len(self.content)] == self.content
            put_hex(content[len(self.content) :])
            print()

    def put_disk(self, run):
        if self.program == "replay":
            print(f"disk\n  use {self.name}_disk_{self.disks.index(run.disk.content)}")

    def put_status(self, run):
        print("status 0" if self.program == "zope" else "status done")

    def put_given(self, limit):
        if self.program == "zope":
            print(f"words replay site.fs --limit {limit}\nfile site.fs")
        else:
            print(f"limit {limit}\nfile")

    def put_cases(self, inputs, outputs):
        for (title, _, limit, _, run), row, blocks in zip(self.cases, inputs.rows, outputs.rows):
            print(f"case {title}")
            self.put_given(limit)
            print(f"  use {self.file}\ninput\n  | zope schedule 1")
            inputs.put_row(row)
            self.put_status(run)
            print("output")
            outputs.put_row(blocks)
            self.put_disk(run)
            print()


def put_file(head, pieces, tables):
    print(head)
    print()
    for name, content in pieces:
        print(f"piece {name}")
        put_hex(content)
        print()
    put = [table.put() for table in tables]
    for table, *rest in put:
        table(*rest)


# ---- what is run

T0 = 0x0331620000000000
CELLS = b"FS21" + transaction(T0, b" ", b"", [record(1, T0, 0, 4, b"a"), record(2, T0, 0, 4, b"b")])
FOLDER = b"Z2F" + number(0, 2) + number(0) + number(0, 2) * 4 + number(1, 2) + number(1, 2) + b"a" + number(1)
SITE = b"FS21" + transaction(T0, b" ", b"", [record(0, T0, 0, 4, FOLDER), record(1, T0, 0, 4, document(b"hello"))])


def copy(w, a, b):
    return ("request", w, f"copy {hex16(a)} {hex16(b)}".encode())


def read(w, a):
    return ("request", w, f"read {hex16(a)}".encode())


def new(w, a):
    return ("request", w, f"new {hex16(a)}".encode())


def edit(w, source):
    body = b"data=" + source
    return ("request", w, b"POST /a/manage_edit HTTP/1.0\r\nContent-Length: %d\r\n\r\n%s" % (len(body), body))


def get(w):
    return ("request", w, b"GET /a HTTP/1.0\r\n\r\n")


def steps(w, times):
    return [("step", w)] * times


class Words:
    """One request that writes, one that writes less, one that reads, and how many steps lie before the vote of one."""

    def __init__(self, program):
        if program == "zope":
            self.content, self.file, self.before = SITE, "editable", 4
            self.write = lambda w: edit(w, b"hi")
            self.less = lambda w: edit(w, b"")
            self.read = get
        else:
            self.content, self.file, self.before = CELLS, "cells", 3
            self.write = lambda w: copy(w, 1, 1)
            self.less = lambda w: copy(w, 2, 1)
            self.read = lambda w: read(w, 1)

    def to_vote(self, w):
        return [self.write(w)] + steps(w, self.before)

    def whole(self, request, w):
        return [request] + steps(w, self.before + 2)

    def look(self, w):
        return [self.read(w)] + steps(w, self.before)


def single_stops(program):
    """A stop at each call of a vote and a finish, and at the call behind them."""
    words = Words(program)
    table = Table(program, "one", words.content, words.file)
    ends = steps(0, 2)
    for seed in (0, 1, 5):
        for n in range(1, 6):
            items = words.to_vote(0) + [("stop", n, seed)] + ends
            run = table.add(f"stop {n} {seed} before a vote", items)
            assert (b"restart" in b"".join(run.blocks)) == (n < 5)
            assert seed == 5 or n > 4 or run.store.known.last() == (T0 if seed == 0 or n < 3 else T0 + 1)
        for n in range(1, 8):
            table.add(f"stop {n} {seed} before a vote, and a look behind it", words.to_vote(0) + [("stop", n, seed)] + ends + words.look(0))
    return table


def second_stops(program):
    """A second stop at each call of the opening behind the first."""
    words = Words(program)
    table = Table(program, "two", words.content, words.file)
    for seed in (0, 1, 5):
        for m in range(1, 41):
            arms = [("stop", 4, seed), ("stop", m, 1)]
            run = table.add(f"stop 4 {seed} and stop {m} 1", words.to_vote(0) + arms + steps(0, 2))
            printed = b"".join(run.blocks)
            restarts = [line for line in printed.split(b"\n") if line.startswith(b"restart")]
            assert len(restarts) == 1 and restarts[0].split()[1:] in ([b"%016x" % T0, b"1"], [b"%016x" % (T0 + 1), b"2"])
            assert printed.count(b"unknown") == 0 and run.store.known.last() == (T0 if seed == 0 else int(restarts[0].split()[1], 16))
            if printed.count(b"stop\n") == 2:
                behind = words.whole(words.less(0), 0) + words.look(0)
                more = table.add(f"stop 4 {seed} and stop {m} 1, and a write behind them", words.to_vote(0) + arms + steps(0, 2) + behind)
                assert b"".join(more.blocks).count(b"reply 0 commit") == 1
    return table


def failures(program):
    """A failure at each call of a vote and a finish."""
    words = Words(program)
    table = Table(program, "fail", words.content, words.file)
    for seed in (0, 1, 5):
        for n in range(1, 6):
            items = words.to_vote(0) + [("fail", n, seed)] + steps(0, 2)
            run = table.add(f"fail {n} {seed} before a vote", items + words.look(0))
            printed = b"".join(run.blocks)
            assert (b"diskfault 0" in printed) == (n in (1, 2, 5)) and (b"unknown 0" in printed) == (n in (3, 4))
            table.add(f"fail {n} {seed} before a vote, and nothing behind it", items)
    return table


def conflicting():
    """Four workers that conflict, and six more behind them."""
    items = [copy(0, 1, 2), copy(1, 2, 1), copy(2, 1, 1), new(3, 2)]
    for _ in range(16):
        items += [("step", w) for w in range(4)]
    items += [copy(4, 1, 1), copy(5, 1, 2), read(6, 3), copy(7, 2, 3), copy(8, 2, 2), new(9, 1)]
    for _ in range(16):
        items += [("step", w) for w in (5, 4, 6, 7, 9, 8)]
    return items


def four_workers():
    table = Table("replay", "four", CELLS, "cells")
    calm = table.add("workers that conflict, and a stop that is never reached", [("stop", 1000, 0)] + conflicting())
    printed = b"".join(calm.blocks)
    assert printed.count(b"conflict") >= 3 and printed.count(b"busy") >= 3 and printed.count(b"reply") == 10 and calm.disk.calls > 50
    for seed in (0, 1, 5, 77):
        for n in range(1, 51):
            run = table.add(f"stop {n} {seed} among workers that conflict", [("stop", n, seed)] + conflicting())
            assert b"restart" in b"".join(run.blocks)
    return table


def undecided_openings(table, words):
    """The first call of the opening behind a finish that failed is its sync: what that leaves decides the outcome."""
    outcomes = set()
    for call, part in ((3, "write"), (4, "sync")):
        for first in (1, 3):
            for then in (0, 1, 3, 5):
                arms = [("fail", call, first), ("fail", 1, then)]
                title = f"a finish whose {part} fails with seed {first}, and the sync of the opening behind it with seed {then}"
                run = table.add(title, words.to_vote(0) + arms + steps(0, 2) + words.look(1) + words.look(2))
                printed = b"".join(run.blocks)
                assert b"unknown 0" in printed and b"diskfault 1" in printed and b"reply 2 read" in printed
                outcomes.add((call, first, then, run.store.known.last() == T0 + 1))
    assert {(3, 1, 0, False), (3, 1, 1, True), (4, 1, 0, False), (4, 1, 1, True)} <= outcomes


def mixed(program):
    """Entries in a queue, votes of others, and ends."""
    words = Words(program)
    table = Table(program, "mixed", words.content, words.file)
    vote = words.to_vote(0) + steps(0, 1)
    other = words.to_vote(1)
    for m in range(1, 8):
        arms = [("stop", 2, 1), ("fail", m, 0)]
        table.add(f"an opening that fails at its call {m}", words.to_vote(0) + arms + steps(0, 2) + words.look(2))
    arms = [("stop", 1, 1), ("fail", 1, 0), ("stop", 1, 1), ("fail", 3, 1), ("stop", 2, 0)]
    table.add("an opening that fails and stops, in turn", words.to_vote(0) + arms + steps(0, 2) + words.look(2))
    for seed in (0, 1, 5):
        table.add(f"a vote is out when another worker's load stops, seed {seed}", vote + [words.read(1), ("stop", 1, seed)] + steps(1, 2) + steps(0, 1) + words.look(2))
        table.add(f"a vote is out when another worker's load fails, seed {seed}", vote + [words.read(1), ("fail", 1, seed)] + steps(1, 2) + steps(0, 1) + words.look(2))
        table.add(f"an end with an undecided transaction, seed {seed}", vote + [("fail", 1, seed)] + steps(0, 1))
        table.add(f"an end with an undecided transaction and a request, seed {seed}", vote + [("fail", 2, seed), words.write(1)] + steps(0, 1))
        table.add(f"another worker's vote settles an undecided transaction, seed {seed}", words.to_vote(0) + other + steps(0, 1) + [("fail", 2, seed)] + steps(0, 1) + steps(1, 8))
        table.add(f"another worker's load settles an undecided transaction, seed {seed}", vote + [words.read(1)] + steps(1, 1) + [("fail", 1, seed)] + steps(0, 1) + steps(1, words.before - 1))
        table.add(f"an undecided transaction is opened twice, seed {seed}", vote + [("fail", 2, seed), ("fail", 3, 0)] + steps(0, 1) + words.look(1) + words.look(2))
        table.add(f"an undecided transaction and a stop in its opening, seed {seed}", vote + [("fail", 1, seed), ("stop", 5, seed)] + steps(0, 1) + words.look(1) + words.look(2))
        table.add(f"two failures one behind the other, seed {seed}", words.to_vote(0) + [("fail", 1, seed), ("fail", 1, 1)] + steps(0, 1) + words.whole(words.write(1), 1) + words.whole(words.less(2), 2))
    undecided_openings(table, words)
    table.add("an entry that is never reached", words.to_vote(0) + [("stop", 5, 0)] + steps(0, 2))
    table.add("an entry behind one that is never reached", [("fail", 1000, 0), ("stop", 1, 0)] + words.whole(words.write(0), 0) + words.look(0))
    table.add("an entry at the greatest number", [("stop", 2**64 - 1, 2**64 - 1)] + words.whole(words.write(0), 0))
    table.add("an entry at each of a worker's requests", sum(([("fail", 1, 1)] + words.whole(words.write(0), 0) for _ in range(3)), []) + words.whole(words.less(0), 0))
    table.add("an entry that waits begins to count when the one before it was hit", [("fail", 3, 0), ("fail", 3, 0)] + words.whole(words.write(0), 0) + words.whole(words.write(1), 1) + words.look(2))
    table.add("a vote that is out at the end of a run in which an entry waits", vote + [("stop", 1, 0), words.write(1)])
    table.add("steps of workers without a request meet nothing", [("stop", 1, 0)] + steps(3, 3) + steps(15, 1))
    table.add("a vote that waits for another one meets nothing", words.to_vote(0) + other + steps(0, 1) + [("stop", 1, 0)] + steps(1, 2))
    table.add("a conflict stops", words.to_vote(0) + other + steps(0, 2) + [("stop", 1, 1)] + steps(1, 2) + words.look(2))
    table.add("a conflict fails", words.to_vote(0) + other + steps(0, 2) + [("fail", 1, 1)] + steps(1, 2) + words.look(2))
    table.add("a full file meets nothing", words.to_vote(0) + [("stop", 1, 0)] + steps(0, 2), limit=len(words.content))
    table.add("a later clock counts behind a restart", words.to_vote(0) + [("clock", T0 + 77), ("stop", 4, 1)] + steps(0, 2) + words.whole(words.less(0), 0))
    return table


WHO = "`docs/stopped_runs.py` has written these cases from the rules."


def main(program, what):
    if (program, what) == ("replay", "stops"):
        head = "# A stop at each device call of a vote and a finish, a second one at each call of the opening behind it, and one at each of\n# the first calls of workers that conflict. "
        put_file(head + WHO, [("cells", CELLS)], [single_stops(program), second_stops(program), four_workers()])
    elif (program, what) == ("replay", "faults"):
        head = "# Device calls that fail, entries that stand in a queue, votes of others, and ends of runs. "
        put_file(head + WHO, [("cells", CELLS)], [failures(program), mixed(program)])
    elif (program, what) == ("zope", "stops"):
        head = "# Edits that a stop or a failure meets, at each device call. "
        put_file(head + WHO, [], [single_stops(program), second_stops(program), failures(program), mixed(program)])
    else:
        sys.exit(__doc__)


if __name__ == "__main__":
    main(*sys.argv[1:])
