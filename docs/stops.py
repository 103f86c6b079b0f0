#!/usr/bin/env python3
"""Writes the cases of stops and failures at every device call of a store: data/stops.cases of store_cases.

    python3 docs/stops.py > crates/store_cases/data/stops.cases

The bytes are worked out from two rules alone: what a disk in memory is left with by an armed entry and its seed, and what
a storage file is. Nothing here runs or reads the product.

An entry of seed S chooses between two contents, byte by byte and for the length: 0 takes the old one, 1 the new one, any
other the new one where the top bit of (S xor PLACE) * 0x9e3779b97f4a7c15 is 1, the place of the length being 2^64 - 1; a
byte past the end of the content that it is taken from is 0. A stop chooses between what was synced last and what is there
with the call's effect, a failed write or cut between what was there and what is there with its effect, and a failed sync
between what was synced last and what is there. A failed read changes nothing.
"""

LAST = 2**64 - 1
SEEDS = (0, 1, 5, 4, 77, LAST)


def takes_new(seed, place):
    if seed < 2:
        return seed == 1
    return ((seed ^ place) * 0x9E3779B97F4A7C15 & LAST) >> 63 == 1


def chosen(seed, old, new):
    length = len(new if takes_new(seed, LAST) else old)
    sources = [new if takes_new(seed, place) else old for place in range(length)]
    return bytes(source[place] if place < len(source) else 0 for place, source in enumerate(sources))


class Hit(Exception):
    """The call that was armed came, or the disk is stopped."""


class Disk:
    """A file, what of it was synced last, and what is armed: by the number of a call whether it stops the disk, and a seed."""

    def __init__(self, content, armed):
        self.content, self.synced, self.armed = content, content, armed
        self.calls, self.stopped = 0, False

    def _call(self, kind, new):
        self.calls += 1
        if self.stopped:
            raise Hit
        if self.calls in self.armed:
            stops, seed = self.armed[self.calls]
            if stops:
                self.content, self.stopped = chosen(seed, self.synced, new), True
            elif kind != "read":
                self.content = chosen(seed, self.synced if kind == "sync" else self.content, new)
            raise Hit
        self.content = new
        if kind == "sync":
            self.synced = new

    def read(self):
        self._call("read", self.content)

    def write(self, at, piece):
        self._call("write", self.content[:at] + piece + self.content[at + len(piece) :])

    def cut(self, to):
        self._call("cut", self.content[:to])

    def sync(self):
        self._call("sync", self.content)


# ---- files


def number(n, size=8):
    return n.to_bytes(size, "big")


def record(oid, tid, previous, start, value):
    return b"".join(map(number, (oid, tid, previous, start))) + number(0, 2) + number(len(value)) + value


def transaction(tid, status, user, records):
    length = 23 + len(user) + sum(map(len, records))
    texts = number(len(user), 2) + number(0, 2) + number(0, 2) + user
    return number(tid) + number(length) + status + texts + b"".join(records) + number(length)


def read_file(content):
    """Where the file ends, its last transaction's id and how many it has."""
    assert content[:4] == b"FS21"
    place, last, count = 4, 0, 0
    while len(content) - place >= 23:
        tid, length = (int.from_bytes(content[at : at + 8], "big") for at in (place, place + 8))
        status = content[place + 16 : place + 17]
        if status in b"c\0" or place + length + 8 > len(content):
            break
        assert status in b" p" and tid > last and content[place + length :][:8] == number(length)
        place, last, count = place + length + 8, tid, count + 1
    return place, last, count


FIRST = transaction(5, b" ", b"ann", [record(1, 5, 0, 4, b"first"), record(2, 5, 0, 4, b"z")])
SECOND = transaction(7, b" ", b"ann", [record(1, 7, 30, 4 + len(FIRST), b"c")])
TWO = b"FS21" + FIRST + SECOND
VOTED = transaction(9, b"c", b"bob", [record(1, 9, 4 + len(FIRST) + 26, len(TWO), b"new")])
# the front of a transaction that would count
REST = transaction(9, b" ", b"eve", [record(3, 9, 0, len(TWO), b"lost")])[:60]


# ---- what a store does with its disk


def opening(disk, answers):
    try:
        disk.sync()
        # the length twice, and the bytes of a short file
        for _ in range(3):
            disk.read()
        end, last, count = read_file(disk.content)
        if end < len(disk.content):
            if len(disk.content) - end >= 23:
                disk.read()
                if disk.content[end + 16 : end + 17] not in b"c\0":
                    disk.write(end + 16, b"c")
                    disk.sync()
            disk.cut(end)
            disk.sync()
        answers.append(f"opened {last} {count}")
        return end
    except Hit:
        answers.append("not opened disk")
        return None


def vote(disk, answers, end):
    try:
        disk.write(end, VOTED)
        disk.sync()
        answers.append("voted 9")
        return True
    except Hit:
        answers.append("refused disk")
        return False


def finish(disk, answers, end):
    try:
        disk.write(end + 16, b" ")
        disk.sync()
        answers.append("finished 9")
    except Hit:
        answers.append("unknown 9")


def abort(disk, answers, end):
    try:
        disk.cut(end)
        disk.sync()
        answers.append("aborted")
    except Hit:
        answers.append("not aborted")


def run(disk, ending):
    answers = []
    end = opening(disk, answers)
    if ending is None:
        return answers
    if end is None:
        return answers + ["not open", "not open"]
    if vote(disk, answers, end):
        ending(disk, answers, end)
    else:
        answers.append("stale")
    return answers


# ---- the cases


def put_piece(name, content):
    print(f"piece {name}")
    for at in range(0, len(content), 32):
        print(f"  hex {content[at : at + 32].hex()}")
    print()


def put_disk(key, content):
    print(key)
    rest = content.removeprefix(TWO)
    if rest != content:
        print("  use two")
    for at in range(0, len(rest), 32):
        print(f"  hex {rest[at : at + 32].hex()}")


def put_lines(key, lines):
    print(key)
    for line in lines:
        print(f"  | {line}")


def put_group(answers, content, calls):
    put_lines("answers", answers)
    put_disk("disk", content)
    _, last, count = read_file(content)
    print(f"again opened {last} {count}")
    if calls is not None:
        print(f"calls {calls}")


def put_case(title, stops, seed, content, script, ending):
    print(f"case {title}, seed {seed}")
    print(f"{'stopping' if stops else 'failing'} each {seed}")
    put_disk("file", content)
    put_lines("script", script)
    whole = Disk(content, {})
    answers = run(whole, ending)
    groups, before = 0, None
    for call in range(1, whole.calls + 1):
        disk = Disk(content, {call: (stops, seed)})
        came = (run(disk, ending), disk.content)
        if came != before:
            put_group(*came, 0)
            groups += 1
        before = came
    if (answers, whole.content) != before:
        # a vote, a finish and an abort are two calls each; how many reads an opening makes is no part of the rule
        put_group(answers, whole.content, 4 if ending else None)
        groups += 1
    print(f"groups {groups}\n")


def main():
    print("# Each device call of a store stops the disk, or fails, in turn. `docs/stops.py` has written these cases from the rule\n# that says which bytes are left.\n")
    put_piece("two", TWO)
    kinds = (
        ("an opening that cuts off a torn rest", TWO + REST, ["open"], None),
        ("a vote that is finished", TWO, ["open", "vote 3 9 write 1 new by bob", "finish"], finish),
        ("a vote that is aborted", TWO, ["open", "vote 3 9 write 1 new by bob", "abort"], abort),
    )
    for word, stops in (("stops the disk", True), ("fails", False)):
        for what, content, script, ending in kinds:
            for seed in SEEDS:
                put_case(f"each device call of {what} {word} in turn", stops, seed, content, script, ending)


if __name__ == "__main__":
    main()
