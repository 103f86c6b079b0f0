#!/usr/bin/env python3
"""Serves a site whose file has 2 GB, and looks how much memory that takes.

    checks/large.py [BYTES]

Behind a new site's transaction stand as many more as the file needs, each with one object of 250,000 bytes. The server has to give
a page, take an edit, and give the page behind it, within 100 MB. Needs the built program alone, and room for the file twice.
"""

import pathlib
import sys
import tempfile
import time

from served import PASSWORD, USER, Serving, ask, message, new_site

SIZE = int(sys.argv[1]) if len(sys.argv) > 1 else 2 * 2**30
MOST, VALUE = 100 * 10**6, b"\x5a" * 250_000


def transaction(tid, oid, at):
    """A transaction without texts, whose one record is the first of its object; it stands at that place."""
    record = oid.to_bytes(8, "big") + tid.to_bytes(8, "big") + bytes(8) + at.to_bytes(8, "big") + bytes(2) + len(VALUE).to_bytes(8, "big") + VALUE
    length = (23 + len(record)).to_bytes(8, "big")
    return tid.to_bytes(8, "big") + length + b" " + bytes(6) + record + length


def fill(file):
    at, tid = file.stat().st_size, int.from_bytes(file.read_bytes()[4:12], "big")
    with open(file, "ab") as out:
        count = 0
        while at < SIZE:
            count += 1
            written = transaction(tid + count, 2**32 + count, at)
            out.write(written)
            at += len(written)
    return count


def most_memory(process):
    """The most memory that a process has held, in bytes."""
    lines = pathlib.Path(f"/proc/{process.pid}/status").read_text().splitlines()
    return 1024 * next(int(line.split()[1]) for line in lines if line.startswith("VmHWM:"))


def main():
    with tempfile.TemporaryDirectory() as folder:
        file = new_site(folder)
        count = fill(file)
        began = time.monotonic()
        serving = Serving(file, 3, 1, tapped=False, seconds=300)
        opened = time.monotonic() - began
        times = []
        for sent, wanted in (
            (message("GET", "/"), b"Zope"),
            (message("POST", "/index_html/manage_edit", b"title=t&data=changed", user=f"{USER}:{PASSWORD}"), b"done"),
            (message("GET", "/"), b"changed"),
        ):
            if len(times) == 2:
                held = most_memory(serving.process)
            began = time.monotonic()
            came = ask(serving.port, sent)
            times.append(1000 * (time.monotonic() - began))
            assert came.startswith(b"HTTP/1.1 200 ") and wanted in came, came
        serving.process.wait(20)
        assert held <= MOST, f"{held} bytes were held"
        print(f"large: a file of {file.stat().st_size} bytes and {count + 2} transactions served within {held / 10**6:.1f} MB; "
              f"opened in {opened:.1f} s, requests in {', '.join(f'{it:.1f}' for it in times)} ms")


main()
