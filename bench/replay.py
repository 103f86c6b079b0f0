#!/usr/bin/env python3
"""Replays reading requests over a large file, and compares the time with two of the system's own programs.

The peer is what the work comes to at the least: `sha1sum`, which reads the file once, and `dd`, which writes as
many bytes as the report has. All runs are of the same file, one after another, with its pages in the cache.
"""

import argparse
import os
import pathlib
import resource
import subprocess
import sys
import tempfile
import time

HOME = pathlib.Path(__file__).resolve().parent.parent
PROGRAM = HOME / "zope"
# What it builds and runs: for costs that leave the shell out.
BUILT = HOME / "crates" / "zope_main" / "out" / "zope_main"


def be(number, size):
    return number.to_bytes(size, "big")


def text(value):
    return be(len(value), 2) + value


def folder(children):
    listed = b"".join(text(name) + be(oid, 8) for name, oid in children)
    return b"Z1F" + text(b"") + be(0, 8) + text(b"Site") + be(0, 6) + be(len(children), 2) + listed


def document(name, source, parent=0):
    """The record of a document in a folder: in the root, where none is given."""
    return b"Z1D" + text(name) + be(parent, 8) + text(b"") + be(0, 6) + be(len(source), 4) + source


class Writer:
    """Writes a storage file, and keeps where each object's last record stands."""

    def __init__(self, out):
        self.out = out
        self.place = out.write(b"FS21")
        self.last = {}

    def transaction(self, tid, user, description, records):
        start = self.place
        at = start + 23 + len(user) + len(description)
        inside = []
        placed = {}
        for oid, data in records:
            head = be(oid, 8) + be(tid, 8) + be(self.last.get(oid, 0), 8) + be(start, 8) + be(0, 2) + be(len(data), 8)
            inside += [head, data]
            placed[oid] = at
            at += len(head) + len(data)
        self.last.update(placed)
        length = at - start
        head = be(tid, 8) + be(length, 8) + b" " + be(len(user), 2) + be(len(description), 2) + be(0, 2)
        self.place += self.out.write(b"".join([head, user, description, *inside, be(length, 8)]))


def write_site(path, transactions, size):
    """A root folder with 100 documents, which the transactions edit in turn."""
    names = [b"page%d" % number for number in range(100)]
    with open(path, "wb") as out:
        writer = Writer(out)
        first = 0x0331620000000000
        made = [(0, folder([(name, number + 1) for number, name in enumerate(names)]))]
        made += [(number + 1, document(name, b"new")) for number, name in enumerate(names)]
        writer.transaction(first, b"", b"init", made)
        for number in range(1, transactions):
            name = names[number % 100]
            source = (b"revision %d " % number) * (size // 10)
            path_text = b"/" + name + b"/manage_edit"
            writer.transaction(first + number, b"admin", path_text, [(number % 100 + 1, document(name, source[:size]))])


def schedule(requests):
    lines = [b"zope schedule 1\n"]
    for number in range(requests):
        message = b"GET /page%d HTTP/1.0\r\n\r\n" % (number % 100)
        lines.append(b"request 0 %d\n%s\n" % (len(message), message))
        lines.append(b"step 0\n" * 4)
    lines.append(b"end\n")
    return b"".join(lines)


def timed(words, given=None, out=None):
    """The seconds that a program takes, and its greatest memory in bytes."""
    began = time.monotonic()
    child = subprocess.Popen(words, stdin=given, stdout=out, stderr=subprocess.DEVNULL)
    _, status, usage = os.wait4(child.pid, 0)
    seconds = time.monotonic() - began
    if status != 0:
        sys.exit(f"{words[0]} ended with status {os.waitstatus_to_exitcode(status)}")
    return seconds, usage.ru_maxrss * 1024


def peak(words):
    """The greatest memory of a program alone, in bytes. GNU time begins it: of a child of this process the system would count what
    this process itself had when it began it."""
    with tempfile.NamedTemporaryFile() as told:
        subprocess.run(["/usr/bin/time", "-f", "%M", "-o", told.name, *words], stdout=subprocess.DEVNULL, check=True)
        return 1024 * int(told.read())


def processor_seconds(site, lines, report):
    """The seconds of the processor that a replay of a schedule takes, whose report goes to this file."""
    with open(lines, "rb") as given, open(report, "wb") as out:
        child = subprocess.Popen([BUILT, "replay", site], stdin=given, stdout=out)
        _, status, usage = os.wait4(child.pid, 0)
    assert status == 0, "the replay ended otherwise"
    return usage.ru_utime + usage.ru_stime


def run_of(site, lines):
    """A run of the program, which replays a schedule over a site and prints to nowhere."""
    def run():
        with open(lines, "rb") as given, open("/dev/null", "wb") as out:
            return timed([PROGRAM, "replay", site], given, out)

    return run


def least(run, rounds):
    """The least seconds of so many runs, and the greatest memory; each run gives both."""
    runs = [run() for _ in range(rounds)]
    return min(seconds for seconds, _ in runs), max(memory for _, memory in runs)


def build():
    """Builds the program where that is due."""
    with tempfile.TemporaryDirectory() as made:
        subprocess.run([PROGRAM, "init", pathlib.Path(made) / "site.fs", "admin", "secret"], stdout=subprocess.DEVNULL, check=True)


def main():
    options = argparse.ArgumentParser(description=__doc__)
    options.add_argument("--transactions", type=int, default=10_000)
    options.add_argument("--size", type=int, default=20_000, help="bytes of a document's source")
    options.add_argument("--requests", type=int, default=100)
    options.add_argument("--rounds", type=int, default=5)
    given = options.parse_args()
    build()
    with tempfile.TemporaryDirectory() as folder_name:
        at = pathlib.Path(folder_name)
        write_site(at / "site.fs", given.transactions, given.size)
        (at / "site.schedule").write_bytes(schedule(given.requests))
        length = (at / "site.fs").stat().st_size
        ours, peers, most = [], [], 0
        for _ in range(given.rounds):
            with open(at / "site.schedule", "rb") as lines, open(at / "report", "wb") as report:
                seconds, memory = timed([PROGRAM, "replay", at / "site.fs"], lines, report)
            ours.append(seconds)
            most = max(most, memory)
            written = (at / "report").stat().st_size
            (at / "report").unlink()
            read, _ = timed(["sha1sum", at / "site.fs"], out=subprocess.DEVNULL)
            blocks = (written + 65_535) // 65_536
            write, _ = timed(["dd", "if=/dev/zero", f"of={at / 'report'}", "bs=65536", f"count={blocks}"])
            (at / "report").unlink()
            peers.append(read + write)
        print(f"file {length} bytes, {given.transactions} transactions, {given.requests} requests, report {written} bytes")
        print(f"zope replay      {min(ours):.2f} s (best of {given.rounds}; {', '.join(f'{s:.2f}' for s in ours)})")
        print(f"sha1sum and dd   {min(peers):.2f} s (best of {given.rounds}; {', '.join(f'{s:.2f}' for s in peers)})")
        print(f"ratio            {min(ours) / min(peers):.2f}")
        print(f"peak memory      {most} bytes, {most / length:.2f} times the file")


if __name__ == "__main__":
    main()
