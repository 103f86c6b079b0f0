#!/usr/bin/env python3
"""Writes the cases of a store that goes on behind a failure: data/reopenings.cases of store_cases.

    python3 docs/reopenings.py > crates/store_cases/data/reopenings.cases

The bytes and the answers are worked out from the rules of `docs/stops.py` and three more. A call over a store whose disk
failed in a vote, a finish or an abort opens the file again first; what is opened decides whether the transaction of a
finish that failed counts. A load gives what the object's last record up to a transaction means. What is put back is a back
pointer to the record that has the data, 0 for none. Nothing here runs or reads the product.
"""

from stops import TWO, Disk, Hit, number, opening, put_disk, put_lines, put_piece, read_file, transaction

SEEDS = (0, 1, 5)


# ---- files


def data(oid, tid, previous, start, body):
    """A data record: of a value, or of a back pointer."""
    value, behind = (body, body) if isinstance(body, bytes) else (b"", number(body))
    return b"".join(map(number, (oid, tid, previous, start))) + number(0, 2) + number(len(value)) + behind


def numbers(content, place, count):
    return [int.from_bytes(content[at : at + 8], "big") for at in range(place, place + 8 * count, 8)]


def records(content, end):
    """Each data record up to the end: its transaction, its object, its place, and its value or back pointer."""
    place, found = 4, []
    while place < end:
        tid, length = numbers(content, place, 2)
        texts = [int.from_bytes(content[at : at + 2], "big") for at in (place + 17, place + 19, place + 21)]
        at = place + 23 + sum(texts)
        while at < place + length:
            (oid,) = numbers(content, at, 1)
            (size,) = numbers(content, at + 34, 1)
            body = content[at + 42 : at + 42 + size] if size else numbers(content, at + 42, 1)[0]
            found.append((tid, oid, at, body))
            at += 42 + (size or 8)
        place += length + 8
    return found


def last_record(content, end, oid, upto):
    """The object's last record up to a transaction, or none."""
    found = [entry for entry in records(content, end) if entry[1] == oid and entry[0] <= upto]
    return found[-1] if found else None


def with_data(content, end, entry):
    """The record that has the data that this one means, or none."""
    places = {other[2]: other for other in records(content, end)}
    while entry is not None and not isinstance(entry[3], bytes):
        entry = places.get(entry[3])
    return entry


# ---- a store


class Recent:
    """The records that were loaded last, by their objects: where each stands, and its value's length."""

    MOST_RECORDS, MOST_BYTES, MOST_VALUE = 256, 2**24, 2**20

    def __init__(self):
        # the one that was used last stands last
        self.kept = {}

    def has(self, oid, place):
        """Whether the object's record at this place is kept. What is kept of the object is used by that."""
        if oid not in self.kept:
            return False
        self.kept[oid] = self.kept.pop(oid)
        return self.kept[oid][0] == place

    def keep(self, oid, place, length):
        if length > self.MOST_VALUE:
            return
        self.kept.pop(oid, None)
        while len(self.kept) >= self.MOST_RECORDS or sum(size for _, size in self.kept.values()) > self.MOST_BYTES - length:
            del self.kept[next(iter(self.kept))]
        self.kept[oid] = (place, length)


class Store:
    """A store over a disk, which is opened again by the next call once the disk has failed in a vote, a finish or an abort."""

    def __init__(self, disk, answers):
        self.disk, self.answers, self.stale, self.voted, self.recent = disk, answers, False, None, Recent()
        self.end = opening(disk, answers)
        if self.end is not None:
            self.know()

    def know(self):
        self.end, self.last, self.count = read_file(self.disk.content)
        self.chains = {}
        for entry in records(self.disk.content, self.end):
            self.chains.setdefault(entry[1], []).append(entry)
        self.places = {entry[2]: entry for chain in self.chains.values() for entry in chain}

    def refresh(self):
        """Whether the store is open."""
        if self.stale:
            self.recent = Recent()
            end = opening(self.disk, [])
            if end is None:
                return False
            self.know()
            self.stale = False
        return True

    def find(self, oid, upto):
        """The object's last record up to a transaction, or none: a read for the head of each later one, and one for its own."""
        for entry in reversed(self.chains.get(oid, [])):
            self.disk.read()
            if entry[0] <= upto:
                return entry
        return None

    def follow(self, entry):
        """The value that a record means: a read for each back pointer, for the head to which it leads, and for the value."""
        self.disk.read()
        while not isinstance(entry[3], bytes):
            entry = self.places.get(entry[3])
            if entry is None:
                return None
            self.disk.read()
            self.disk.read()
        return entry[3]

    def load(self, oid, upto):
        try:
            if not self.refresh():
                raise Hit
            newest = self.chains.get(oid, [None])[-1]
            if newest is not None and self.recent.has(oid, newest[2]) and newest[0] <= upto:
                entry, value = newest, self.meant(newest)
            else:
                entry = self.find(oid, upto)
                if entry is None:
                    return "loaded none 0 0"
                value = self.follow(entry)
                if entry == newest:
                    self.recent.keep(oid, entry[2], len(value or b""))
            shown = "none" if value is None else '"' + value.decode() + '"'
            return f"loaded {shown} {entry[0]} {entry[2]}"
        except Hit:
            return "unread disk"

    def meant(self, entry):
        entry = with_data(self.disk.content, self.end, entry)
        return None if entry is None else entry[3]

    def record_of(self, tid, change):
        """The one data record of a vote: `write OID VALUE` or `restore OID TID`."""
        word, oid, what = change[0], int(change[1]), change[2]
        before = last_record(self.disk.content, self.end, oid, self.last)
        if word == "write":
            body = what.encode()
        else:
            entry = None
            if int(what):
                self.disk.read()
                entry = with_data(self.disk.content, self.end, last_record(self.disk.content, self.end, oid, int(what)))
            body = entry[2] if entry else 0
        return data(oid, tid, before[2] if before else 0, self.end, body)

    def vote(self, stamp, change, user):
        try:
            if not self.refresh():
                raise Hit
            tid = stamp if stamp > self.last else self.last + 1
            piece = transaction(tid, b"c", user, [self.record_of(tid, change)])
        except Hit:
            return "refused disk"
        try:
            self.disk.write(self.end, piece)
            self.disk.sync()
        except Hit:
            self.stale = True
            return "refused disk"
        self.voted = (tid, len(piece))
        return f"voted {tid}"

    def finish(self):
        if self.voted is None:
            return "stale"
        (tid, size), self.voted = self.voted, None
        try:
            self.disk.write(self.end + 16, b" ")
            self.disk.sync()
        except Hit:
            self.stale = True
            return f"unknown {tid}"
        self.know()
        return f"finished {tid}"

    def abort(self):
        if self.voted is None:
            return "stale"
        self.voted = None
        try:
            self.disk.cut(self.end)
            self.disk.sync()
        except Hit:
            self.stale = True
            return "not aborted"
        return "aborted"

    def answer(self, line):
        words = line.split()
        if words[0] == "load":
            return self.load(int(words[1]), int(words[2]))
        if words[0] == "vote":
            return self.vote(int(words[2]), words[3:6], words[7].encode())
        if words[0] == "finish":
            return self.finish()
        if words[0] == "abort":
            return self.abort()
        assert line == "last"
        return "stale" if self.stale else f"last {self.last} {self.count}"


def run(disk, script):
    assert script[0] == "open"
    answers = []
    store = Store(disk, answers)
    for line in script[1:]:
        if line == "close":
            answers.append("closed")
        elif line == "open":
            store = Store(disk, answers)
        else:
            answers.append("not open" if store.end is None else store.answer(line))
    return answers


# ---- the cases


def put_group(answers, content):
    put_lines("answers", answers)
    put_disk("disk", content)
    _, last, count = read_file(content)
    print(f"again opened {last} {count}")


def put_failing(title, content, script, seed, before, before_seed=None):
    """Each call behind the one that fails anyway fails in turn: so many behind an opening of the file, 0 for none."""
    print(f"case {title}, seed {seed}")
    first = 0
    fixed = {}
    if before:
        before_seed = seed if before_seed is None else before_seed
        print(f"failing behind {before} {before_seed}")
        opened = Disk(content, {})
        opening(opened, [])
        first = opened.calls + before
        fixed = {first: (False, before_seed)}
    print(f"failing each {seed}")
    put_disk("file", content)
    put_lines("script", script)
    whole = Disk(content, fixed)
    answers = run(whole, script)
    groups, last = 0, None
    for call in range(first + 1, whole.calls + 1):
        disk = Disk(content, {**fixed, call: (False, seed)})
        came = (run(disk, script), disk.content)
        if came != last:
            put_group(*came)
            groups += 1
        last = came
    if (answers, whole.content) != last:
        put_group(answers, whole.content)
        groups += 1
    print(f"groups {groups}\n")


def put_plain(title, content, script, calls=None):
    print(f"case {title}")
    put_disk("file", content)
    put_lines("script", script)
    disk = Disk(content, {})
    put_group(run(disk, script), disk.content)
    if calls is not None:
        print(f"calls {calls}")
    print()
    return disk.content


VOTE = "vote 3 9 write 1 new by bob"
# what the store still does
THEN = ["load 1 9", "vote 4 20 write 2 later by eve", "finish", "load 2 20", "last"]
# an undo of 7, a redo of it, an undo of that, an undo of all
UNDOS = ["vote 3 9 restore 1 5 by bob", "finish", "vote 3 10 restore 1 7 by bob", "finish", "vote 3 11 restore 1 9 by bob", "finish"]


def main():
    print("# A store goes on behind a failure of its disk. `docs/reopenings.py` has written these cases from the rules.\n")
    put_piece("two", TWO)
    for seed in SEEDS:
        put_failing("each device call of a vote and its finish fails in turn, and the store goes on", TWO, ["open", VOTE, "finish", *THEN], seed, 0)
        put_failing("each device call of a vote and its abort fails in turn, and the store goes on", TWO, ["open", VOTE, "abort", *THEN], seed, 0)
        put_failing("each device call behind a finish whose write failed fails in turn", TWO, ["open", VOTE, "finish", "load 1 9", *THEN], seed, 3)
        put_failing("each device call behind a finish whose sync failed fails in turn", TWO, ["open", VOTE, "finish", "load 1 9", *THEN], seed, 4)
        put_failing("each device call behind an abort whose cut failed fails in turn", TWO, ["open", VOTE, "abort", "load 1 9", *THEN], seed, 3)
    # the first of these calls is the sync of the opening, and what it leaves decides the outcome
    for before, part in ((3, "write"), (4, "sync")):
        for before_seed in (1, 3):
            for seed in (0, 1, 5):
                title = f"each device call behind a finish whose {part} failed with seed {before_seed} fails in turn"
                put_failing(title, TWO, ["open", VOTE, "finish", "load 1 9", "load 1 9", "last"], seed, before, before_seed)
    undone = put_plain("an undo, its redo and an undo of that point to the records that have the data", TWO, ["open", *UNDOS, "load 1 9", "load 1 10", "load 1 11", "last"])
    put_plain("a load of what was put back three times follows one back pointer", undone, ["open", "load 1 11"], 4)
    put_plain("a restore to none looks for nothing", TWO, ["open", "vote 3 9 restore 1 0 by bob", "finish"], 4)
    put_plain("a restore of a record that says none points to none", TWO, ["open", "vote 3 9 restore 1 0 by bob", "finish", "vote 3 10 write 1 d by bob", "finish", "vote 3 11 restore 1 9 by bob", "finish", "load 1 11"])


if __name__ == "__main__":
    main()
