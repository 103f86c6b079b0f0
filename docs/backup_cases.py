#!/usr/bin/env python3
"""Writes the cases of backups in the files of a shelf: data/backups.cases of backup_cases, and data/many.cases, of many
pieces, large files and names that run out, which take a while; and data/backups.cases of zope_cases, of the commands.

    python3 docs/backup_cases.py backups > crates/backup_cases/data/backups.cases
    python3 docs/backup_cases.py many > crates/backup_cases/data/many.cases
    python3 docs/backup_cases.py commands > crates/zope_cases/data/backups.cases

What has to come is worked out by the rules of an index and of what is due, which stand here once more; the digests are
Python's. The files are written so that where each ends, or that it has damage, is known beforehand. Nothing here runs or
reads the product, but for the bytes of a site and of an edit that the cases of `repozo_cases` have.
"""

import hashlib
import os
import re
import sys

NAMES, MOST = 10_000, 100
HOME = os.path.join(os.path.dirname(os.path.abspath(__file__)), "..")


# ---- files

def pieces_of(path, *names):
    """The bytes of pieces that stand in hexadecimal in a file of cases."""
    found, name = {}, None
    for line in open(os.path.join(HOME, path)):
        words = line.split()
        if line.startswith("piece "):
            name = words[1]
            found[name] = b""
        elif words and words[0] == "hex" and name:
            found[name] += bytes.fromhex("".join(words[1:]))
        elif line.startswith("case "):
            break
    return [found[name] for name in names]


SITE, EDIT = pieces_of("crates/repozo_cases/data/backups.cases", "site", "edit")
MAGIC = b"FS21"


def transaction(n, records=b""):
    """The transaction with the id n, without texts."""
    length = (23 + len(records)).to_bytes(8, "big")
    return n.to_bytes(8, "big") + length + b" " + bytes(6) + records + length


def record(n, place, data):
    """A record of object 0 in a transaction that begins there, the first of this object."""
    return bytes(8) + n.to_bytes(8, "big") + bytes(8) + place.to_bytes(8, "big") + bytes(2) + len(data).to_bytes(8, "big") + data


EMPTY = [transaction(n) for n in range(1, 103)]
LARGE = transaction(1, record(1, 4, b"0123456789abcdef" * 8192))
TORN = EDIT[:20]
PIECES = {"site": SITE, "edit": EDIT, "magic": MAGIC, "torn": TORN, "damaged": b"FS20" + SITE[4:], **{f"t{n + 1}": text for n, text in enumerate(EMPTY)}}


class File:
    """Bytes of transactions, where they end, and what damage they have."""

    def __init__(self, content, torn=b"", damage=None):
        self.content, self.end, self.damage = content + torn, len(content), damage


# ---- the rules

ROW = re.compile(rb"(.+) (0|[1-9][0-9]*) (0|[1-9][0-9]*) ([0-9a-f]{32})\n")


def read_index(text):
    """The rows of an index, or the number of the first bad line."""
    rows, at, rest, line = [], 0, text, 1
    while True:
        if rows and rest.startswith(b"end\n"):
            return rows if rest == b"end\n" else line + 1
        match = ROW.match(rest)
        if not match or len(rows) == MOST:
            return line
        name, start, end, md5 = match[1].decode(), int(match[2]), int(match[3]), match[4].decode()
        if start != at or end <= start or end >= 2**64:
            return line
        rows.append((name, start, end, md5))
        at, rest, line = end, rest[match.end():], line + 1


def index_text(rows):
    return b"".join(b"%s %d %d %s\n" % (name.encode(), start, end, md5.encode()) for name, start, end, md5 in rows) + b"end\n"


def digest(content):
    return hashlib.md5(content).hexdigest()


class Refused(Exception):
    pass


class Shelf:
    """Files under their names, of whose calls one may fail: opening a file that is there, making one, and putting one in
    another one's place."""

    def __init__(self, files, opening, new):
        self.files, self.left, self.new = files, opening, new

    def call(self):
        if self.left is not None:
            self.left -= 1
            if self.left == 0:
                raise Refused("disk")

    def open(self, name):
        self.call()
        return self.files[name]

    def fill(self, name, *contents):
        """Makes a file of these, each written by windows, and syncs it. A write that fails leaves what was written before, a sync nothing."""
        self.call()
        writes = [content[at : at + 65536] for content in contents for at in range(0, len(content), 65536)]
        failing = len(writes) + 2 if self.new is None else self.new
        self.files[name] = b"" if failing == len(writes) + 1 else b"".join(writes[: failing - 1])
        if failing <= len(writes) + 1:
            raise Refused("disk")

    def first_free(self, base):
        for n in range(NAMES):
            if f"{base}.{n:04}" not in self.files:
                return f"{base}.{n:04}"
        raise Refused("names spent")


def back_up(shelf, file, known, repo, full):
    index = repo + ".dat"
    if file not in shelf.files:
        raise Refused("missing")
    content = shelf.open(file)
    rows = read_index(shelf.open(index)) if index in shelf.files else 0
    held, whole = [], isinstance(rows, list)
    for row in rows if whole else []:
        if row[0] not in shelf.files:
            whole = False
            break
        held.append(shelf.open(row[0]))
    if known.damage:
        raise Refused(f"damaged {known.damage}")
    if not whole:
        rows = []
    start, end = (rows[-1][2] if rows else 0), known.end
    current = (
        bool(rows) and not full and all(len(text) == row[2] - row[1] for text, row in zip(held, rows)) and b"".join(held) == content[:start]
    )
    if current and start == end:
        return "nothing"
    if not (current and start < end and len(rows) < MOST):
        rows, start = [], 0
    name = shelf.first_free(repo)
    piece = content[start:end]
    shelf.fill(name, piece)
    text = index_text(rows + [(name, start, end, digest(piece))])
    if index not in shelf.files:
        shelf.fill(index, text)
    else:
        new = shelf.first_free(index)
        shelf.fill(new, text)
        shelf.call()
        shelf.files[index] = shelf.files.pop(new)
    return f"more {name} {end - start}" if rows else f"full {name} {end}"


def restore(shelf, repo, out):
    index = repo + ".dat"
    if index not in shelf.files:
        raise Refused("missing")
    rows = read_index(shelf.open(index))
    if not isinstance(rows, list):
        raise Refused(f"bad index {rows}")
    held = []
    for row in rows:
        if row[0] not in shelf.files:
            break
        held.append(shelf.open(row[0]))
    for n, (name, start, end, md5) in enumerate(rows):
        if n >= len(held) or len(held[n]) != end - start or digest(held[n]) != md5:
            raise Refused(f"bad piece {name}")
    if out in shelf.files:
        raise Refused("exists")
    shelf.fill(out, *held)
    return f"restored {sum(map(len, held))}"


# ---- cases

def put_bytes(content):
    """Lines that stand for these bytes."""
    if content and all(b == 10 or 32 <= b < 127 for b in content) and content.endswith(b"\n") and b"\\" not in content:
        for line in content[:-1].decode().split("\n"):
            print(f"  | {line}" if line else "  |")
        return
    rest, names = content, []
    while rest:
        name = next((name for name, text in PIECES.items() if rest.startswith(text)), None)
        if name is None:
            break
        names.append(name)
        rest = rest[len(PIECES[name]):]
    if not rest and names:
        for at in range(0, len(names), 20):
            print("  use " + " ".join(names[at : at + 20]))
        return
    if content == MAGIC + LARGE:
        print("  use magic large_head\n  repeat 8192 unit\n  use large_tail")
        return
    for at in range(0, len(content), 50):
        print(f"  hex {content[at : at + 50].hex()}")


class Case:
    """Steps over files, and what has to come of them."""

    def __init__(self, title):
        self.files, self.known, self.empty = {}, {}, set()
        print(f"\ncase {title}")

    def put(self, name, content):
        known = content if isinstance(content, File) else File(content)
        self.files[name], self.known[name] = known.content, known
        print(f"put {name}")
        put_bytes(known.content)
        return self

    def gone(self, name):
        del self.files[name]
        print(f"gone {name}")
        return self

    def taken(self, base, start, end):
        self.empty |= {f"{base}.{n:04}" for n in range(start, end)}
        self.files.update((name, b"") for name in self.empty)
        print(f"taken {base} {start} {end}")
        return self

    def tell(self, call, wants, disk):
        try:
            if disk:
                raise Refused("disk")
            came = f"did {call()}"
        except Refused as refused:
            came = f"refused {refused}"
        assert wants is None or came.startswith(wants), (came, wants)
        print(came)
        print(f"count {len(self.files)}")
        return self

    def backup(self, wants=None, file="site.fs", repo="R", full=False, opening=None, disk=None, new=None):
        shelf = Shelf(self.files, opening, new)
        print(f"backup {file} {repo}" + " full" * full + failing(opening, disk, new))
        return self.tell(lambda: back_up(shelf, file, self.known.get(file), repo, full), wants, disk)

    def restore(self, wants=None, repo="R", out="out.fs", opening=None, disk=None, new=None):
        """A call of each disk that was there fails: where it is the first or the second, that is of the index."""
        shelf = Shelf(self.files, opening, new)
        print(f"restore {repo} {out}" + failing(opening, disk, new))
        return self.tell(lambda: restore(shelf, repo, out), wants, disk)

    def ends(self, *lacks):
        """The files that stand in the end, but for those whose names alone were taken."""
        for name, content in self.files.items():
            if content or name not in self.empty:
                print(f"look {name}\nleft {name}")
                put_bytes(content)
        for name in lacks:
            assert name not in self.files
            print(f"look {name}\nlacks {name}")


def failing(opening, disk, new):
    return "".join(f" {word} {number}" for word, number in (("opening", opening), ("disk", disk), ("new", new)) if number)


def site(title):
    return Case(title).put("site.fs", SITE)


def both(title):
    """A site, its backup, and an edit behind it."""
    return site(title).backup("did full R.0000 415").put("site.fs", SITE + EDIT)


def put_rows():
    both("a first backup, a further one, and none where nothing came").backup("did more R.0001 137").backup("did nothing").restore("did restored 552").ends()
    case = both("a byte of a piece is another: a restore makes nothing, and the next backup has all of the file").backup("did more R.0001 137")
    changed = bytes([SITE[0] ^ 1]) + SITE[1:]
    case.put("R.0000", changed).restore("refused bad piece R.0000").backup("did full R.0002 552").restore("did restored 552").ends()
    both("all of the file, where that is asked for").backup("did full R.0001 552", full=True).backup("did nothing").restore("did restored 552").ends()
    both("two repositories of one file").backup("did full S.0000 552", repo="S").backup("did more R.0001 137").restore("did restored 552", repo="S").ends()


def put_files():
    Case("a file that isn't there").put("R.dat", b"none\n").backup("refused missing").ends()
    Case("a file without transactions").put("site.fs", MAGIC).backup("did full R.0000 4").restore("did restored 4").ends()
    damaged = File(b"FS20" + SITE[4:], damage="9 0")
    Case("a file with damage").put("site.fs", damaged).backup("refused damaged 9 0").ends()
    both("a file that was damaged between two backups").put("site.fs", damaged).backup("refused damaged 9 0").restore("did restored 415").ends()
    Case("an empty file").put("site.fs", File(b"", damage="9 0")).backup("refused damaged 9 0").ends()
    case = Case("a torn rest isn't backed up").put("site.fs", File(SITE, TORN)).backup("did full R.0000 415").backup("did nothing")
    case.restore("did restored 415").put("site.fs", File(SITE + EDIT, TORN)).backup("did more R.0001 137").restore("did restored 552", out="again.fs").ends()
    two = MAGIC + EMPTY[0] + EMPTY[1]
    between = {
        "was cut": (two, MAGIC + EMPTY[0]), "was packed": (two, MAGIC + EMPTY[1]), "is another one of its length": (two, MAGIC + EMPTY[1] + EMPTY[2]),
        "is a longer one with another beginning": (two, MAGIC + EMPTY[1] + EMPTY[2] + EMPTY[3]),
    }
    for title, (old, new) in between.items():
        case = Case(f"a file that {title} when it is backed up again").put("site.fs", old).backup("did full R.0000 66").put("site.fs", new)
        case.backup(f"did full R.0001 {len(new)}").restore(f"did restored {len(new)}").ends()


def put_pieces():
    for title, content in {
        "short": SITE[:-1], "long": SITE + b"\0", "empty": b"", "another in its last byte": SITE[:-1] + b"\0", "another file": EDIT,
    }.items():
        case = both(f"a piece that is {title}").put("R.0000", content).restore("refused bad piece R.0000").backup("did full R.0001 552")
        case.restore("did restored 552").ends()
    both("a piece that is missing").gone("R.0000").restore("refused bad piece R.0000").backup("did full R.0000 552").restore("did restored 552").ends()
    case = both("the second piece is missing").backup("did more R.0001 137").gone("R.0001").restore("refused bad piece R.0001")
    case.backup("did full R.0001 552").restore("did restored 552").ends()
    case = both("the first piece is another, and the second is missing").backup("did more R.0001 137").gone("R.0001").put("R.0000", EDIT)
    case.restore("refused bad piece R.0000").backup("did full R.0001 552").ends()
    case = both("pieces in each other's place").backup("did more R.0001 137").put("R.0000", EDIT).put("R.0001", SITE)
    case.restore("refused bad piece R.0000").backup("did full R.0002 552").ends()
    rows = [("R.0000", 0, 415, digest(EDIT))]
    case = site("a digest that isn't the piece's: a backup compares bytes, and a restore tells it").put("R.0000", SITE).put("R.dat", index_text(rows))
    case.backup("did nothing").restore("refused bad piece R.0000").backup("did full R.0001 415", full=True).restore("did restored 415").ends()
    rows = [("a b end", 0, 415, digest(SITE)), ("a b end", 415, 830, digest(SITE))]
    Case("one piece twice, under a name with blanks").put("R.dat", index_text(rows)).put("site.fs", SITE).restore("refused bad piece a").ends()


def put_indexes():
    site("no index").restore("refused missing").ends()
    good = index_text([("R.0000", 0, 415, digest(SITE))])
    texts = {
        "an index without a line": b"", "without pieces": b"end\n", "without its end": good[:-4], "whose end lacks its line's": good[:-1],
        "with something behind its end": good + b"x", "with a number that has a zero before it": good.replace(b" 415", b" 0415"),
        "with a digest in upper case": good.replace(digest(SITE).encode(), digest(SITE).upper().encode()),
        "that begins behind the start": good.replace(b" 0 415", b" 1 415"), "with an empty piece": good.replace(b" 0 415", b" 0 0"),
        "without a name": good.replace(b"R.0000", b""), "with a number of more than 64 bits": good.replace(b" 415", b" 18446744073709551616"),
        "with a blank more": good.replace(b" 415", b" 415 "),
    }
    for title, text in texts.items():
        line = read_index(text)
        case = site(f"an index {title}".replace("an index an index", "an index")).put("R.0000", SITE).put("R.dat", text)
        case.restore(f"refused bad index {line}").backup("did full R.0001 415").restore("did restored 415").ends()
    gap = index_text([("R.0000", 0, 415, digest(SITE)), ("R.0001", 416, 553, digest(EDIT))])
    site("a gap between two pieces").put("R.dat", gap).restore("refused bad index 2").backup("did full R.0000 415").ends()
    site("OUT is there").backup("did full").put("out.fs", EDIT).restore("refused exists").ends()
    site("OUT is there, and a piece is bad").backup("did full").put("out.fs", EDIT).put("R.0000", EDIT).restore("refused bad piece R.0000").ends()
    site("OUT is a piece").backup("did full").restore("refused exists", out="R.0000").ends()
    site("OUT is the index").backup("did full").restore("refused exists", out="R.dat").ends()


def put_many():
    Case("a file of three windows").put("site.fs", MAGIC + LARGE).backup("did full R.0000").backup("did nothing").restore("did restored").ends()
    case, content = Case("a hundred pieces, and the file again behind them"), MAGIC
    for n in range(100):
        content += EMPTY[n]
        case.put("site.fs", content).backup(f"did full R.{n:04}" if n == 0 else f"did more R.{n:04} 31")
    case.backup("did nothing").restore("did restored 3104").put("site.fs", content + EMPTY[100]).backup("did full R.0100 3135")
    case.put("site.fs", content + EMPTY[100] + EMPTY[101]).backup("did more R.0101 31").restore("did restored 3166", out="again.fs").ends()


def put_names():
    site("all names of pieces are taken").taken("R", 0, NAMES).backup("refused names spent").ends()
    site("but for the last").taken("R", 0, NAMES - 1).backup("did full R.9999 415").restore("did restored 415").ends()
    site("but for one").taken("R", 0, 37).taken("R", 38, 60).backup("did full R.0037 415").ends()
    damaged = File(b"FS20" + SITE[4:], damage="9 0")
    Case("a file with damage, and no name is left").put("site.fs", damaged).taken("R", 0, NAMES).backup("refused damaged 9 0").ends()
    site("nothing is due, and no name is left").backup("did full R.0000").taken("R", 1, NAMES).backup("did nothing").ends()
    site("all names of indexes are taken: the piece stays, and the index").put("R.dat", b"none\n").taken("R.dat", 0, NAMES).backup("refused names spent").ends()
    site("a first index needs none of them").taken("R.dat", 0, NAMES).backup("did full R.0000 415").ends()
    site("a further index has the first that is free").put("R.dat", b"none\n").taken("R.dat", 0, 3).backup("did full R.0000 415").ends()


def put_faults():
    for n in (1, 2, 3):
        site(f"call {n} of the shelf fails in a first backup").backup("refused disk", opening=n).backup("did full").restore("did restored 415").ends()
    for n in range(1, 7):
        case = both(f"call {n} of the shelf fails in a further one").backup("refused disk", opening=n).restore("did restored 415")
        case.backup("did more").restore("did restored 552", out="again.fs").ends()
    for n in (1, 2):
        case = both(f"call {n} of each disk fails in a further one").backup("refused disk", disk=n).restore("did restored 415")
        case.backup("did more R.0001 137").ends()
        case = both(f"call {n} of each new disk fails in a further one").backup("refused disk", new=n).restore("did restored 415")
        case.backup("did more R.0002 137").restore("did restored 552", out="again.fs").ends()
    for n in (1, 2, 3, 4):
        case = both(f"call {n} of the shelf fails in a restore").backup("did more R.0001 137").restore("refused disk", opening=n)
        case.restore("did restored 552", out="again.fs").ends()
    for n in (1, 2):
        both(f"call {n} of each disk fails in a restore").backup("did more R.0001 137").restore("refused disk", disk=n).restore("did restored 552").ends()
    for n in (1, 2, 3):
        case = both(f"call {n} of the disk of OUT fails").backup("did more R.0001 137").restore("refused disk", new=n)
        case.restore("refused exists").restore("did restored 552", out="again.fs").ends()


def put_differing():
    for title, wrong in {"did": "did full R.0000 414", "count": "count 2", "left": "look R.0000\nleft R.0000\n  use edit", "lacks": "look R.0001\nlacks R.0002"}.items():
        print(f"\ncase the part `{title}` is compared\nput site.fs\n  use site\nbackup site.fs R\n{wrong}\ndiffers")
    print("\ncase the part `refused` is compared\nbackup site.fs R\nrefused disk\ndiffers")


# ---- commands

class Command(Case):
    """One run of the program over files, of which those under numbered names may be empty and many."""

    def __init__(self, title):
        self.title, self.files, self.known, self.taken_names = title, {}, {}, []

    def put(self, name, content):
        self.known[name] = content if isinstance(content, File) else File(content)
        self.files[name] = self.known[name].content
        return self

    def taken(self, base, start, end):
        """Behind all other files."""
        self.taken_names.append(f"taken {base} {start} {end}")
        self.files.update((f"{base}.{n:04}", b"") for n in range(start, end))
        return self

    def run(self, words, status, output=None, opening=None, disk=None, new=None, sink=None):
        """What the program answers; where no output is given, by the rules. Files behind taken names aren't compared."""
        print(f"\ncase {self.title}\nwords " + " ".join(words))
        for name, known in self.known.items():
            print(f"file {name}")
            put_bytes(known.content)
        print("".join(f"{line}\n" for line in self.taken_names), end="")
        print("".join(f"failing {kind} {n}\n" for kind, n in (("opening", opening), ("disk", disk), ("new", new), ("output", sink)) if n), end="")
        if output is None:
            output = self.answer(words, Shelf(self.files, opening, new), disk)
        print(f"status {status}\noutput")
        put_bytes(b"" if sink else output.encode())
        for name, content in self.files.items():
            if self.taken_names and name not in self.known:
                break
            print(f"left {name}")
            put_bytes(content)

    def answer(self, words, shelf, disk):
        at = words.index("--") if "--" in words else len(words)
        full, words = "--full" in words[:at], [word for word in words[:at] if word != "--full"] + words[at + 1 :]
        try:
            if disk:
                raise Refused("disk")
            if words[0] == "restore":
                return restore(shelf, words[1], words[2]) + "\n"
            done = back_up(shelf, words[1], self.known.get(words[1]), words[2], full)
        except Refused as refused:
            return told(refused, words) + "\n"
        if done != "nothing":
            # an index that replaces another stands behind all other files
            self.files[words[2] + ".dat"] = self.files.pop(words[2] + ".dat")
        return done + "\n"


def told(refused, words):
    """The last line that names a refusal."""
    kind, *rest = str(refused).split()
    lines = {
        "missing": f"missing {words[1]}" + ".dat" * (words[0] == "restore"), "exists": f"exists {words[-1]}", "disk": "disk fault",
        "damaged": "damaged {} at {}".format(*rest) if len(rest) == 2 else "", "names": "names spent",
    }
    return lines.get(kind) or str(refused)


def repository(title, *pieces):
    """A site with an edit behind it, and a repository with these pieces."""
    case, at, rows = Command(title).put("site.fs", SITE + EDIT), 0, []
    for n, content in enumerate(pieces):
        rows.append((f"R.{n:04}", at, at + len(content), digest(content)))
        case.put(f"R.{n:04}", content)
        at += len(content)
    return case.put("R.dat", index_text(rows))


BACKUP, RESTORE = ["backup", "site.fs", "R"], ["restore", "R", "out.fs"]


def put_commands():
    Command("a first backup").put("site.fs", SITE).run(BACKUP, 0)
    repository("a further backup", SITE).run(BACKUP, 0)
    repository("nothing is due", SITE, EDIT).run(BACKUP, 0)
    repository("all of the file, where that is asked for behind the words", SITE).run(BACKUP + ["--full"], 0)
    repository("and before them", SITE).run(["backup", "--full", "site.fs", "R"], 0)
    repository("a restore", SITE, EDIT).run(RESTORE, 0)
    changed = bytes([SITE[0] ^ 1]) + SITE[1:]
    repository("a byte of a piece is another: a restore makes nothing", SITE, EDIT).put("R.0000", changed).run(RESTORE, 16)
    Command("a torn rest isn't backed up").put("site.fs", File(SITE, TORN)).run(BACKUP, 0)


def put_refused():
    Command("no file to back up").put("R.dat", b"none\n").run(BACKUP, 8)
    damaged = File(b"FS20" + SITE[4:], damage="9 0")
    Command("a file with damage").put("site.fs", damaged).run(BACKUP, 3)
    Command("no index to restore from").put("site.fs", SITE).run(RESTORE, 8)
    Command("an index with a bad line").put("R.dat", b"none\n").run(RESTORE, 15)
    Command("a backup over an index with a bad line has all of the file").put("site.fs", SITE).put("R.dat", b"none\n").run(BACKUP, 0)
    Command("an index whose second line is bad").put("R.dat", index_text([("R.0000", 0, 415, digest(SITE))])[:-4]).run(RESTORE, 15)
    Command("a piece is missing").put("R.dat", index_text([("R.0000", 0, 415, digest(SITE))])).run(RESTORE, 16)
    repository("the new file is there", SITE).run(["restore", "R", "site.fs"], 11)
    repository("the new file is there, and a piece is bad", SITE).put("R.0000", EDIT).run(["restore", "R", "site.fs"], 16)
    repository("the new file is the index", SITE).run(["restore", "R", "R.dat"], 11)
    Command("all names of pieces are taken").put("site.fs", SITE).taken("R", 0, NAMES).run(BACKUP, 17)
    Command("all names of indexes are taken").put("site.fs", SITE).put("R.dat", b"none\n").taken("R.dat", 0, NAMES).run(BACKUP, 17)
    Command("a file with damage, and no name is left").put("site.fs", damaged).taken("R", 0, NAMES).run(BACKUP, 3)


def put_words():
    for words in (
        ["backup"], ["backup", "site.fs"], ["backup", "site.fs", "R", "x"], ["backup", "site.fs", "R", "--full=1"], ["backup", "site.fs", "R", "--full", "--full"],
        ["backup", "site.fs", "R", "--limit", "1"], ["backup", "R.dat", "R"], ["restore"], ["restore", "R"], ["restore", "R", "out.fs", "x"],
        ["restore", "R", "out.fs", "--full"], ["Backup", "site.fs", "R"],
    ):
        repository("usage: " + " ".join(words), SITE).run(words, 2, "usage\n")
    repository("behind two dashes every word stands", SITE).run(["restore", "--", "R", "--full"], 0)


def put_failing():
    for n in (1, 2, 3):
        Command(f"call {n} of the shelf fails in a first backup").put("site.fs", SITE).run(BACKUP, 5, opening=n)
    for n in range(1, 7):
        repository(f"call {n} of the shelf fails in a further one", SITE).run(BACKUP, 5, opening=n)
    for n in (1, 2):
        repository(f"call {n} of each disk fails in a further one", SITE).run(BACKUP, 5, disk=n)
        repository(f"call {n} of each new disk fails in a further one", SITE).run(BACKUP, 5, new=n)
        repository(f"call {n} of each disk fails in a restore", SITE, EDIT).run(RESTORE, 5, disk=n)
    for n in (1, 2, 3, 4):
        repository(f"call {n} of the shelf fails in a restore", SITE, EDIT).run(RESTORE, 5, opening=n)
    for n in (1, 2, 3):
        repository(f"call {n} of the disk of the new file fails", SITE, EDIT).run(RESTORE, 5, new=n)
    repository("the output fails behind a backup, which stands", SITE).run(BACKUP, 6, sink=1)
    repository("the output fails behind a restore, which stands", SITE).run(RESTORE, 6, sink=1)
    Command("the output fails in a last line").put("site.fs", SITE).run(RESTORE, 6, sink=1)


def main():
    print("# Written by docs/backup_cases.py.\n")
    if sys.argv[1] == "commands":
        # pieces of its other files may have these names
        kept = {f"backed_{name}": PIECES[name] for name in ("site", "edit", "torn")}
        PIECES.clear()
        PIECES.update(kept)
    for name, content in PIECES.items():
        print(f"piece {name}")
        for at in range(0, len(content), 50):
            print(f"  hex {content[at : at + 50].hex()}")
        print()
    if sys.argv[1] != "commands":
        print(f"piece unit\n  | 0123456789abcdef\\\n\npiece large_head\n  hex {LARGE[:-131080].hex()}\n\npiece large_tail\n  hex {LARGE[-8:].hex()}")
    few = (put_rows, put_files, put_pieces, put_indexes, put_faults, put_differing)
    commands = (put_commands, put_refused, put_words, put_failing)
    for put in {"backups": few, "many": (put_many, put_names), "commands": commands}[sys.argv[1]]:
        put()


if __name__ == "__main__":
    main()
