#!/usr/bin/env python3
"""Refuses each allocation of a replay, of a served page and of served edits in turn, and looks at what is answered then.

    checks/memory.py [STEP]

A library that is loaded before the C library's (refuse.c, which the script builds) refuses the n-th piece of memory that the program
asks for, and once more that one and all behind it; every STEP-th n is tried (1 where nothing is said). Nothing may change by that but
to want of memory:

- `replay`, of two edits of one document at once and of a page behind them: it ends with 0 or 7. With 7 what was printed is the begin
  of such a report, with `out of memory` behind it. With 0 some requests have a line `memory`, and all other lines are those of a
  replay without these requests, the history included.
- `page`, by one server: the reply is the page, or 503 `out of memory`, or the connection ends without a reply; the page comes when it
  is asked for again, of another server where that one ended, with 7.
- `edits`, two at once, by one server: each is answered as done or 503, or not at all, or the server ends with 7; the file opens, and has
  of each document what was answered last, or of an edit without a reply the text or the one before it.

Where no allocation was refused, want of memory must not come once: the script counts these runs. Needs the built program
(`./zope check` builds it) and Debian's package `gcc`.
"""

import collections
import mmap
import os
import pathlib
import shutil
import struct
import subprocess
import sys
import tempfile
import threading

from served import PASSWORD, PROGRAM, USER, Serving, ask, message, new_site, replies_in, zope

HERE, ADMIN = pathlib.Path(__file__).resolve().parent, f"{USER}:{PASSWORD}"
STARVED, ENDED = b"out of memory\n", "servers ended with status 7"
HEADER, SOURCE = b"<h1>&dtml-title;</h1>", b"<dtml-var header><dtml-in objectIds><p><dtml-var sequence-item></p></dtml-in>"


class Refusing:
    """The library, and the numbers that it shares with this script."""

    def __init__(self, folder):
        self.library, self.shared = folder / "refuse.so", folder / "refuse.numbers"
        subprocess.run(["gcc", "-O2", "-shared", "-fPIC", "-o", self.library, HERE / "refuse.c"], check=True)
        self.shared.write_bytes(bytes(32))
        with open(self.shared, "r+b") as file:
            self.numbers = mmap.mmap(file.fileno(), 32)
        self.number, self.points = 0, None
        self.surroundings = os.environ | {"LD_PRELOAD": str(self.library), "REFUSE": str(self.shared)}

    def asked(self):
        """How many allocations were asked for, and how many of them were refused."""
        return struct.unpack_from("=2Q", self.numbers)

    def start(self):
        """Counts from none, and refuses none."""
        struct.pack_into("=4Q", self.numbers, 0, 0, 0, 0, 0)

    def refuse(self, number, many):
        """Refuses the allocation with that number from now on, counted from 1, and those behind it: so many in all."""
        struct.pack_into("=3Q", self.numbers, 8, 0, self.asked()[0] + number, many)

    def grant(self):
        """Refuses none any more. Behind the run of the number 0 it is known how many there are."""
        if self.number == 0:
            self.points = self.asked()[0]
        struct.pack_into("=2Q", self.numbers, 16, 0, 0)

    def each(self, step):
        """Begins a run for each allocation that is refused, and gives its number: first for 0, in which none is, and then for every
        `step`-th, alone, and once more each with all behind it. Each run grants again when it has its answers."""
        for many in (1, 2**62):
            self.number = 0
            while self.points is None or self.number <= self.points + 2 * step:
                self.start()
                if self.number:
                    self.refuse(self.number, many)
                yield self.number
                self.number += step if self.number else 1


class Tally:
    """What came of the runs of a part."""

    def __init__(self):
        self.came, self.granted = collections.Counter(), 0

    def add(self, refusing, starved, what):
        if refusing.asked()[1] == 0:
            assert not starved, f"want of memory where none was refused: {what}"
            self.granted += 1
            what = "as ever"
        self.came[what] += 1

    def say(self, part, points):
        came = ", ".join(f"{many} {what}" for what, many in sorted(self.came.items()))
        print(f"memory: {part}: {points} allocations, each refused alone and with all behind it: {came}; in {self.granted} runs none was refused, "
              f"and want of memory wasn't answered", flush=True)


def edit(number, text):
    return message("POST", f"/d{number}/manage_edit", b"title=t&data=" + text, user=ADMIN)


def calls(port, path, form):
    came = ask(port, message("POST", path, form, user=ADMIN))
    assert came.endswith(b"done\n"), came


def site_with_documents(folder):
    """A site whose documents show a header and the names in the root."""
    file = new_site(folder)
    setup = Serving(file, 100, tapped=False)
    quoted = SOURCE.replace(b"<", b"%3C").replace(b">", b"%3E").replace(b" ", b"+")
    calls(setup.port, "/manage_addDTMLMethod", b"id=header&file=" + HEADER.replace(b"&", b"%26").replace(b";", b"%3B"))
    for number in range(2):
        calls(setup.port, "/manage_addDTMLDocument", b"id=d%d&title=t&file=%s" % (number, quoted))
    setup.kill()
    setup.tape.unlink()
    setup.before.unlink()
    return file


# --- a replay

REQUESTS = [edit(0, b"one"), edit(0, b"two"), message("GET", "/d1", user=ADMIN)]


def schedule(without=()):
    """Two edits step in turn, and a page behind them; requests of some workers may be left out."""
    lines = [b"zope schedule 1\n"]
    for worker, steps in (((0, 1), 16), ((2,), 8)):
        lines += [b"request %d %d\n%s\n" % (w, len(REQUESTS[w]), REQUESTS[w]) for w in worker if w not in without]
        lines += [b"".join(b"step %d\n" % w for w in worker)] * steps
    return b"".join([*lines, b"end\n"])


def blocks(report):
    """The lines of a report, each with the worker that it is of, or none; what follows a `reply` line goes with it."""
    found, at = [], 0
    while at < len(report):
        end = report.find(b"\n", at) + 1 or len(report)
        words = report[at:end].split()
        if words[0] == b"reply":
            end += int(words[-1]) + 1
        is_step = words[0] in (b"begin", b"fetch", b"computed", b"vote", b"busy", b"conflict", b"idle", b"reply", b"shown", b"memory")
        found.append((int(words[1]) if is_step else None, report[at:end]))
        at = end
    return found


class Replays:
    """Replays without some of the requests, where memory is ample."""

    def __init__(self, file):
        self.file, self.known = file, {}

    def whole(self, starved):
        """The lines of a replay without these workers' requests, but for these workers' own lines."""
        if starved not in self.known:
            report = zope("replay", self.file, input=schedule(starved))
            assert b"\nmemory " not in report and not report.endswith(STARVED)
            self.known[starved] = [line for worker, line in blocks(report) if worker not in starved]
        return self.known[starved]


def look_at_replay(done, replays):
    """What became of a replay in words, and whether memory was wanting."""
    starved = frozenset(worker for worker, line in blocks(done.stdout) if line.startswith(b"memory "))
    lines = [line for worker, line in blocks(done.stdout) if worker not in starved]
    if done.returncode == 0:
        assert lines == replays.whole(starved), done.stdout
        return (f"with {len(starved)} requests ended" if starved else "unchanged"), bool(starved)
    assert done.returncode == 7, done.returncode
    if lines and lines[-1] == STARVED:
        lines.pop()
    whole = b"".join(replays.whole(starved))
    assert whole.startswith(b"".join(lines)), done.stdout
    return "ended with status 7", True


def replay_part(folder, refusing, step):
    file, tally = site_with_documents(folder), Tally()
    replays, kept = Replays(file), file.read_bytes()
    for _ in refusing.each(step):
        done = subprocess.run([PROGRAM, "replay", file], input=schedule(), env=refusing.surroundings, capture_output=True, check=False)
        refusing.grant()
        what, starved = look_at_replay(done, replays)
        tally.add(refusing, starved, what)
    assert file.read_bytes() == kept, "a replay changed its file"
    tally.say("a replay of two edits at once and a page", refusing.points)


# --- a server

class Starving(Serving):
    """A server whose allocations the library counts and refuses."""

    def __init__(self, file, refusing):
        refusing.start()
        file.with_suffix(".tape").unlink(missing_ok=True)
        super().__init__(file, 1_000_000, 2, tapped=False, before=["env", f"LD_PRELOAD={refusing.library}", f"REFUSE={refusing.shared}"])

    def ended(self):
        """Whether it ended by itself, also behind its last reply: with 7 alone, and the line for it or none."""
        if asked(self.port, message("GET", "/")):
            return False
        self.process.wait(5)
        printed = self.process.stdout.read()
        assert self.process.returncode == 7 and printed in (b"", STARVED), (self.process.returncode, printed)
        return True


def asked(port, sent):
    """What comes back; nothing, where the server is gone."""
    try:
        return ask(port, sent)
    except OSError:
        return b""


def is_starved(came):
    return came.startswith(b"HTTP/1.1 503 ") and came.endswith(STARVED)


def page_part(folder, refusing, step):
    file, tally = site_with_documents(folder), Tally()
    asks = message("GET", "/d1", user=ADMIN)
    serving = Starving(file, refusing)
    right = ask(serving.port, asks)
    assert right.startswith(b"HTTP/1.1 200 OK") and b"<p>d1</p>" in right, right
    for _ in refusing.each(step):
        came = asked(serving.port, asks)
        refusing.grant()
        gone = serving.ended()
        assert came == right or is_starved(came) or not came, came
        tally.add(refusing, gone or came != right, ENDED if gone else "replies" if came == right else "replies 503" if came else "connections without a reply")
        if gone:
            serving.kill()
            serving = Starving(file, refusing)
        assert ask(serving.port, asks) == right, "the next page is another"
    serving.kill()
    assert file.read_bytes() == serving.before.read_bytes(), "pages changed the file"
    tally.say("a served page", refusing.points)


class Edit(threading.Thread):
    def __init__(self, port, number, text):
        super().__init__(daemon=True)
        self.port, self.sent, self.came = port, edit(number, text), b""
        self.start()

    def run(self):
        self.came = asked(self.port, self.sent)


def shown_now(file):
    """What the two documents show, by a replay."""
    lines = [b"zope schedule 1\n"]
    for number in range(2):
        sent = message("GET", f"/d{number}")
        lines.append(b"request %d %d\n%s\n" % (number, len(sent), sent) + b"step %d\n" % number * 6)
    shown = replies_in(zope("replay", file, input=b"".join(lines) + b"end\n"))
    return {reply.partition(b"\r\n\r\n")[2] for reply in shown.elements()}


def edits_part(folder, refusing, step):
    file, tally = site_with_documents(folder), Tally()
    serving = Starving(file, refusing)
    stand = [{b"0 before"}, {b"1 before"}]
    for number in range(2):
        assert asked(serving.port, edit(number, b"%d before" % number)).endswith(b"done\n")
    for round_number, number in enumerate(refusing.each(step), 1):
        texts = [b"%d text %d" % (n, round_number) for n in range(2)]
        edits = [Edit(serving.port, n, text.replace(b" ", b"+")) for n, text in enumerate(texts)]
        for it in edits:
            it.join()
        refusing.grant()
        gone = serving.ended()
        for n, it in enumerate(edits):
            is_done = it.came.startswith(b"HTTP/1.1 200 OK") and it.came.endswith(b"done\n")
            assert is_done or is_starved(it.came) or not it.came, it.came
            stand[n] = {texts[n]} if is_done else stand[n] if it.came else stand[n] | {texts[n]}
        starved = any(is_starved(it.came) or not it.came for it in edits)
        without = sum(not it.came for it in edits)
        what = ENDED if gone else f"with {without} edits without a reply" if without else f"with {sum(is_starved(it.came) for it in edits)} edits answered 503"
        tally.add(refusing, starved or gone, what)
        if gone or number % 50 == 0:
            assert b"torn 0\n" in zope("check", file) or gone
            shown = shown_now(file)
            assert len(shown) == 2 and all(shown & texts for texts in stand), (shown, stand)
        if gone:
            serving.kill()
            serving = Starving(file, refusing)
    serving.kill()
    tally.say("two served edits at once", refusing.points)


def main():
    step = int(sys.argv[1]) if len(sys.argv) > 1 else 1
    assert shutil.which("gcc"), "gcc is wanted"
    for part in (replay_part, page_part, edits_part):
        with tempfile.TemporaryDirectory() as folder:
            part(pathlib.Path(folder), Refusing(pathlib.Path(folder)), step)


if __name__ == "__main__":
    main()
