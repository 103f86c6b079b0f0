#!/usr/bin/env python3
"""Backs a file of 200 MB up, whole, beside `cp` and `md5sum` of it; by a day's 1,000 transactions; and restores it.

What is compared is processor time, that of the program and that which the system spends for it, since a backup waits for the
disk's syncs and `cp` doesn't. All runs are of the same file, with its pages in the system's cache.
"""

import argparse
import os
import pathlib
import shutil
import subprocess
import sys
import tempfile

from replay import BUILT, Writer, build, document, folder

FIRST = 0x0331620000000000
NAMES = [b"page%d" % number for number in range(100)]


def edit(writer, number, size):
    """A transaction that edits one of the documents."""
    name = NAMES[number % 100]
    source = (b"revision %d " % number) * (size // 10)
    writer.transaction(FIRST + number, b"admin", b"/" + name + b"/manage_edit", [(number % 100 + 1, document(name, source[:size]))])


def write_site(out, transactions, size):
    """A root folder with 100 documents, which the transactions edit in turn. What writes further ones."""
    writer = Writer(out)
    made = [(0, folder([(name, number + 1) for number, name in enumerate(NAMES)]))]
    made += [(number + 1, document(name, b"new")) for number, name in enumerate(NAMES)]
    writer.transaction(FIRST, b"", b"init", made)
    for number in range(1, transactions):
        edit(writer, number, size)
    return writer


def run(words, wants=None):
    """The processor seconds that a program takes, and its greatest memory in bytes."""
    read, write = os.pipe()
    child = subprocess.Popen(words, stdin=subprocess.DEVNULL, stdout=write, stderr=subprocess.STDOUT)
    os.close(write)
    with open(read, "rb") as lines:
        said = lines.read().decode()
    _, status, usage = os.wait4(child.pid, 0)
    if status or wants and not said.startswith(wants):
        sys.exit(f"{words}: status {os.waitstatus_to_exitcode(status)}, {said}")
    return usage.ru_utime + usage.ru_stime, usage.ru_maxrss * 1024


def least(runs):
    """The least seconds of runs, and the greatest memory."""
    return min(seconds for seconds, _ in runs), max(memory for _, memory in runs)


class Measured:
    def __init__(self, home, given):
        self.home, self.rounds = home, given.rounds
        self.site, self.copy = home / "site.fs", home / "copy"

    def whole(self):
        """A first backup in a repository of its own, each time, beside the copy and the digest."""
        ours, theirs = [], []
        for _ in range(self.rounds):
            folder = pathlib.Path(tempfile.mkdtemp(dir=self.home))
            ours.append(run([BUILT, "backup", self.site, folder / "R"], "full"))
            copied, digest = run(["cp", self.site, self.copy]), run(["md5sum", self.site])
            theirs.append((copied[0] + digest[0], 0))
            self.copy.unlink()
            shutil.rmtree(folder)
        return least(ours), least(theirs)[0]

    def further(self, folder):
        """A backup of what came since, over a fresh copy of a repository each time."""
        ours = []
        for number in range(self.rounds):
            kept = self.home / f"kept{number}"
            shutil.copytree(folder, kept)
            index = kept / "R.dat"
            index.write_bytes(index.read_bytes().replace(bytes(folder), bytes(kept)))
            ours.append(run([BUILT, "backup", self.site, kept / "R"], "more"))
            shutil.rmtree(kept)
        return least(ours)

    def restored(self, folder):
        """A restore under a new name each time, which must be the file."""
        ours = []
        for number in range(self.rounds):
            out = self.home / f"restored{number}"
            ours.append(run([BUILT, "restore", folder / "R", out], "restored"))
            subprocess.run(["cmp", self.site, out], check=True)
            out.unlink()
        return least(ours)


def main():
    words = argparse.ArgumentParser(description=__doc__)
    words.add_argument("--transactions", type=int, default=10_000)
    words.add_argument("--size", type=int, default=20_000)
    words.add_argument("--day", type=int, default=1_000)
    words.add_argument("--rounds", type=int, default=5)
    words.add_argument("--folder", help="where the files stand (else the system's place for such)")
    given = words.parse_args()
    build()
    with tempfile.TemporaryDirectory(dir=given.folder) as made:
        home = pathlib.Path(made).resolve()
        measured, kept = Measured(home, given), home / "repository"
        kept.mkdir()
        with open(measured.site, "wb") as out:
            writer = write_site(out, given.transactions, given.size)
            out.flush()
            size = writer.place
            (seconds, memory), other = measured.whole()
            print(f"full: {size} bytes, {seconds:.2f} s, cp and md5sum {other:.2f} s, ratio {seconds / other:.2f}, memory {memory}", flush=True)
            run([BUILT, "backup", measured.site, kept / "R"], "full")
            for number in range(given.transactions, given.transactions + given.day):
                edit(writer, number, 2_000)
        seconds, memory = measured.further(kept)
        print(f"more: {writer.place - size} bytes of {given.day} transactions behind {size}, {seconds:.2f} s, memory {memory}", flush=True)
        run([BUILT, "backup", measured.site, kept / "R"], "more")
        seconds, memory = measured.restored(kept)
        print(f"restore: {writer.place} bytes of two pieces, {seconds:.2f} s, memory {memory}")


if __name__ == "__main__":
    main()
