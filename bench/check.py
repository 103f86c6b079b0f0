#!/usr/bin/env python3
"""Runs `zope check` over files of 10,000 and of 1,000,000 records beside `sha1sum` of them.

Each object has one record; the ids rise, come in random order, or lie 65,536 apart; or they rise in a single
transaction. The cost of a record is the command's time by the number of records; it is also told without the time that
starting the program takes. Then it checks a file of 3 GB and 10,000,000 records that is sparse: all of its data but a byte of each
record are holes in a hundred of them. Beside each ratio and each amount of memory stands what is wanted. Needs Debian's package `time`.
"""

import argparse
import multiprocessing
import pathlib
import random
import struct
import subprocess
import tempfile

from replay import BUILT, build, peak, timed

FIRST = 0x0331620000000000
# What is wanted of the large file: the seconds to those of `sha1sum` at most, and the bytes a record beside the constant ones.
SECONDS = {"rising": 0.8, "random": 1.0, "apart": 1.3}
BYTES = {"rising": 16, "random": 16, "one": 30}
CONSTANT = 4_000_000
SPARSE, HOLES = 300_000_000, 100


def write_file(path, oids, size, together=1000):
    """A file with a record of so many bytes of data for each object, so many to a transaction."""
    data, place = b"d" * size, 4
    with open(path, "wb") as out:
        out.write(b"FS21")
        for number in range(0, len(oids), together):
            tid, part = FIRST + number, oids[number : number + together]
            records = b"".join(struct.pack(">QQQQHQ", oid, tid, 0, place, 0, size) + data for oid in part)
            length = 23 + len(records)
            head = struct.pack(">QQ", tid, length) + b" " + struct.pack(">HHH", 0, 0, 0)
            out.write(head + records + struct.pack(">Q", length))
            place += length + 8
    return place


def write_ordered(path, order, records, size):
    """A file of so many objects whose ids come in this order; in the order `one` they rise in a single transaction."""
    oids = [number << 16 for number in range(records)] if order == "apart" else list(range(records))
    if order == "random":
        random.Random(1).shuffle(oids)
    write_file(path, oids, size, max(records, 1) if order == "one" else 1000)


def write_sparse(path, records, size):
    """A sparse file of so many bytes, with so many objects whose ids rise, a thousand to a transaction. Each has a byte of data; the first
    one of a transaction here and there has a hole of data more."""
    every = max(1, records // 1000 // HOLES)
    starts = range(0, records, 1000)
    hole = (size - 4 - records * 43 - len(starts) * 31) // len(starts[::every])
    assert hole > 0, "so many records are longer than that"
    place = 4
    with open(path, "wb") as out:
        out.write(b"FS21")
        for number, first in enumerate(starts):
            tid, more = FIRST + number, 0 if number % every else hole
            data = [1 + more] + [1] * (min(records, first + 1000) - first - 1)
            records_in = [struct.pack(">QQQQHQ", first + step, tid, 0, place, 0, long) + b"d" for step, long in enumerate(data)]
            length = 23 + sum(map(len, records_in)) + more
            out.write(struct.pack(">QQ", tid, length) + b" " + bytes(6) + records_in[0])
            out.seek(more, 1)
            out.write(b"".join(records_in[1:]) + struct.pack(">Q", length))
            place += length + 8


def by_another(write, *words):
    """Has a process of its own write a file, so that this one stays small."""
    writing = multiprocessing.Process(target=write, args=words)
    writing.start()
    writing.join()
    assert writing.exitcode == 0, "a file wasn't written"


def checked(path, records):
    """The seconds of a check of a file of these numbers."""
    with tempfile.TemporaryFile() as out:
        seconds, _ = timed([BUILT, "check", path], out=out)
        out.seek(0)
        numbers = dict(line.split() for line in out.read().decode().splitlines())
    assert numbers["objects"] == str(records) and numbers["end"] == str(path.stat().st_size) and numbers["torn"] == "0", numbers
    return seconds


def compare(made, order, given):
    """The files with no, with few and with many records, and the least seconds of their checks and of their digests, in turn."""
    files, kept = {}, {}
    for records in (0, given.few, given.records):
        files[records] = made / f"{order}-{records}.fs"
        by_another(write_ordered, files[records], order, records, given.size)
    for _ in range(given.rounds):
        for records, path in files.items():
            # a short run is measured more often, since more may come between
            for _ in range(1 if records == given.records else 20):
                kept.setdefault(records, []).append(checked(path, records))
            kept.setdefault(("sha1sum", records), []).append(timed(["sha1sum", path], out=subprocess.DEVNULL)[0])
    return files, {key: min(runs) for key, runs in kept.items()}


def beside(value, wanted, shown):
    """A number beside the most that is wanted of it, if any."""
    if wanted is None:
        return shown.format(value)
    return f"{shown.format(value)} (wanted: at most {shown.format(wanted)}{'' if value <= wanted else ', MISSED'})"


def print_order(order, files, kept, given):
    started, few, many = kept[0], kept[given.few], kept[given.records]
    print(f"starting the program: {started * 1000:.2f} ms")
    for records, wanted in ((given.few, None), (given.records, SECONDS.get(order))):
        seconds, digest = kept[records], kept["sha1sum", records]
        print(f"{order} ids, {records} records, {files[records].stat().st_size} bytes: {seconds:.4f} s, sha1sum {digest:.4f} s, "
              f"ratio {beside(seconds / digest, wanted, '{:.2f}')}")
    memory, each = peak([BUILT, "check", files[given.records]]), BYTES.get(order)
    print(f"{order} ids: memory {beside(memory, each and each * given.records + CONSTANT, '{:.0f}')} bytes, "
          f"{memory / files[given.records].stat().st_size:.3f} times the file, {(memory - CONSTANT) / given.records:.1f} bytes a record beside {CONSTANT}")
    times = given.few / given.records
    print(f"{order} ids: a record of {given.records} costs {many / few * times:.2f} times one of {given.few}; "
          f"without the start of the program {(many - started) / (few - started) * times:.2f} times")


def print_sparse(path, given):
    by_another(write_sparse, path, given.sparse_records, given.sparse_bytes)
    seconds, memory, told = checked(path, given.sparse_records), peak([BUILT, "check", path]), path.stat()
    print(f"a sparse file, {given.sparse_records} records, {told.st_size} bytes, of which {512 * told.st_blocks} lie on the disk: "
          f"{seconds:.2f} s, memory {beside(memory, SPARSE, '{:.0f}')} bytes")


def main():
    words = argparse.ArgumentParser(description=__doc__)
    words.add_argument("--records", type=int, default=1_000_000)
    words.add_argument("--few", type=int, default=10_000)
    words.add_argument("--size", type=int, default=158)
    words.add_argument("--rounds", type=int, default=15)
    words.add_argument("--sparse-records", type=int, default=10_000_000)
    words.add_argument("--sparse-bytes", type=int, default=3_000_000_000)
    given = words.parse_args()
    build()
    for order in ("rising", "random", "apart", "one"):
        with tempfile.TemporaryDirectory() as made:
            files, kept = compare(pathlib.Path(made), order, given)
            print_order(order, files, kept, given)
    with tempfile.TemporaryDirectory() as made:
        print_sparse(pathlib.Path(made) / "sparse.fs", given)


if __name__ == "__main__":
    main()
