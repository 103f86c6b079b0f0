#!/usr/bin/env python3
"""Adds the last of 10,000 children to folders, renames and deletes one among them, and deletes every tenth by one call, beside
edits of the folders' titles.

An edit of the title reads the folder's record and writes it, once each, and looks at no child. Each schedule has one call for
each folder, so that all meet as many children; a call's cost is its run's seconds of the processor without those of a run that
has no request, by the number of calls. The printing of what a call wrote, the folder's record among it, is part of its cost and
of the edit's. All runs are made once in each round, so that a slow moment meets them alike, and the middle of the rounds'
ratios is taken. With --instructions valgrind counts instructions in place of seconds, once: the same number in each run.
"""

import argparse
import pathlib
import re
import resource
import statistics
import subprocess
import tempfile
from urllib.parse import urlencode

from replay import PROGRAM, Writer, be, build, text

DOCUMENT, FIRST_FOLDER = 1, 2
# Add Folders, Delete objects, Manage properties
GRANTED = (3, 7, 8)


def listed(items):
    return be(len(items), 2) + b"".join(items)


def head(kind, name):
    """The front of a record of an object in the root, without title, settings, local roles and properties."""
    return b"Z2" + kind + text(name) + be(0, 8) + be(0, 8)


def names(count):
    return [b"child%05d" % number for number in range(count)]


def root(folders):
    """A root in which anyone may call."""
    settings = [be(permission, 1) + be(0, 1) + listed([text(b"Anonymous")]) for permission in GRANTED]
    children = [text(b"folder%d" % number) + be(FIRST_FOLDER + number, 8) for number in range(folders)]
    return b"Z2F" + text(b"") + be(0, 8) + text(b"Site") + listed(settings) + be(0, 4) + listed(children)


def write_site(path, folders, children):
    """Folders with so many children, each of which is the same document."""
    inside = listed([text(name) + be(DOCUMENT, 8) for name in names(children)])
    objects = [(0, root(folders)), (DOCUMENT, head(b"D", b"document") + be(5, 4) + b"hello" + be(0, 2))]
    objects += [(FIRST_FOLDER + number, head(b"F", b"folder%d" % number) + inside) for number in range(folders)]
    with open(path, "wb") as out:
        Writer(out).transaction(0x0331620000000000, b"", b"init", objects)


def schedule(folders, call=None, fields=(), facts=2):
    """A call for each folder, which asks for so many objects."""
    lines = [b"zope schedule 1\n"]
    for number in range(folders if call else 0):
        body = urlencode(fields)
        message = f"POST /folder{number}/{call} HTTP/1.0\r\nContent-Length: {len(body)}\r\n\r\n{body}".encode()
        lines.append(b"request 0 %d\n%s\n" % (len(message), message) + b"step 0\n" * (facts + 4))
    lines.append(b"end\n")
    return b"".join(lines)


def commits(site, lines):
    with open(lines, "rb") as given:
        shown = subprocess.run([PROGRAM, "replay", site], stdin=given, stdout=subprocess.PIPE, check=True).stdout
    return shown.count(b"reply 0 commit ")


def seconds_of(site, lines):
    """Seconds of the processor, the system's among them, of a replay."""
    before = resource.getrusage(resource.RUSAGE_CHILDREN)
    with open(lines, "rb") as given:
        subprocess.run([PROGRAM, "replay", site], stdin=given, stdout=subprocess.DEVNULL, check=True)
    after = resource.getrusage(resource.RUSAGE_CHILDREN)
    return after.ru_utime - before.ru_utime + after.ru_stime - before.ru_stime


def instructions_of(site, lines):
    """How many instructions a replay by the program itself takes, in millions, by valgrind."""
    program = pathlib.Path(PROGRAM).parent / "crates/zope_main/out/zope_main"
    with open(lines, "rb") as given:
        words = ["valgrind", "--tool=callgrind", "--callgrind-out-file=/dev/null", program, "replay", site]
        said = subprocess.run(words, stdin=given, stdout=subprocess.DEVNULL, stderr=subprocess.PIPE, text=True, check=True).stderr
    return int(re.search(r"Collected : (\d+)", said).group(1)) / 1e6


def ratios(cost_of, runs, folders):
    """What an edit of the title costs, and each call in edits, in one round over all runs."""
    costs = {title: cost_of(site, lines) for title, (site, lines) in runs.items()}
    opened = costs.pop("none")
    edit = (costs.pop("title") - opened) / folders
    return edit, {title: (cost - opened) / folders / edit for title, cost in costs.items()}


def main():
    options = argparse.ArgumentParser(description=__doc__)
    options.add_argument("--children", type=int, default=10_000)
    options.add_argument("--folders", type=int, default=40)
    options.add_argument("--rounds", type=int, default=21)
    options.add_argument("--instructions", action="store_true")
    given = options.parse_args()
    build()
    tenth = [("ids:list", name.decode()) for name in names(given.children)[::10]]
    # title, children before the call, the call, its fields and how many objects it asks for
    rows = [
        ("none", given.children, None, (), 0),
        ("title", given.children, "manage_edit", [("title", "T")], 2),
        ("adding the last one", given.children - 1, "manage_addFolder", [("id", "last")], 2),
        ("renaming the first", given.children, "manage_renameObject", [("id", "child00000"), ("new_id", "renamed")], 3),
        ("renaming the last", given.children, "manage_renameObject", [("id", f"child{given.children - 1:05}"), ("new_id", "renamed")], 3),
        ("deleting the first", given.children, "manage_delObjects", [("ids", "child00000")], 2),
        ("deleting the last", given.children, "manage_delObjects", [("ids", f"child{given.children - 1:05}")], 2),
        (f"deleting {len(tenth)} by one call", given.children, "manage_delObjects", tenth, 2),
    ]
    with tempfile.TemporaryDirectory() as made:
        at = pathlib.Path(made)
        runs = {}
        for title, children, call, fields, facts in rows:
            site, lines = at / f"{children}.fs", at / f"{len(runs)}.schedule"
            if not site.exists():
                write_site(site, given.folders, children)
            lines.write_bytes(schedule(given.folders, call, fields, facts))
            assert commits(site, lines) == (given.folders if call else 0), f"{title}: a call wasn't answered"
            runs[title] = site, lines
        cost_of = instructions_of if given.instructions else seconds_of
        rounds = [ratios(cost_of, runs, given.folders) for _ in range(1 if given.instructions else given.rounds)]
    edit = statistics.median(edit for edit, _ in rounds)
    what = f"{edit:.2f} million instructions" if given.instructions else f"{edit * 1000:.2f} ms"
    print(f"{given.folders} folders of {given.children} children; an edit of a title: {what}")
    for title in rounds[0][1]:
        found = [calls[title] for _, calls in rounds]
        print(f"{title}: {statistics.median(found):.2f} times an edit of the title, {min(found):.2f} to {max(found):.2f}")


if __name__ == "__main__":
    main()
