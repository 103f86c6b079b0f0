#!/usr/bin/env python3
"""Kills a server in the midst of edits, and lets its disk fail, again and again, and looks whether each answered edit is there.

    checks/kill.py [TIMES [FAULTY]]

Eight clients edit eight documents of one site, 200 edits in all. In TIMES runs (100 where nothing is said) the server is killed by
SIGKILL once a random number of them was answered; in FAULTY runs (a tenth of TIMES) `strace` lets writes, syncs, cuts and reads of
the site's file fail now and then, and the server is killed when the clients are done. Each time the file has to open, and to hold of
each document the text of the last edit that was answered, or of one behind it whose outcome the client doesn't know; never one that
was answered 503. The tape of a run without faults, with `end` behind its last whole round, has to replay to replies among which is
each that a client got. Needs the built program and, for faults, Debian's package `strace`.
"""

import collections
import pathlib
import random
import shutil
import subprocess
import sys
import tempfile
import threading
import time

from served import PASSWORD, PROGRAM, USER, Serving, ask, message, new_site, replies_in, zope

ADMIN, CLIENTS, EDITS = f"{USER}:{PASSWORD}", 8, 200


class Client(threading.Thread):
    """Edits one document until the server is gone."""

    def __init__(self, number, port, times):
        super().__init__(daemon=True)
        self.number, self.port, self.times = number, port, times
        # the texts that the document may have: the last that was answered, and those behind it of which nothing is known
        self.may_stand, self.replies, self.wrong, self.said = [b""], [], None, collections.Counter()

    def run(self):
        for n in range(self.times):
            text = f"client {self.number} edit {n}".encode()
            self.may_stand.append(text)
            edit = message("POST", f"/d{self.number}/manage_edit", b"title=t&data=" + text.replace(b" ", b"+"), user=ADMIN)
            try:
                came = ask(self.port, edit)
            except OSError:
                return
            if not came:
                return
            body = came.partition(b"\r\n\r\n")[2]
            self.said[body.split(b":")[0].strip().decode()] += 1
            if body == b"done\n":
                self.may_stand = [text]
                self.replies.append(came)
            elif came.startswith(b"HTTP/1.1 503 "):
                self.may_stand.remove(text)
            elif not body.startswith(b"unknown outcome: "):
                self.wrong = came
                return


def whole_rounds(tape):
    """A tape up to the last whole round: what is behind its last line `clock`'s turns may be cut off, so it ends before that."""
    if tape.endswith(b"\nend\n"):
        return tape
    at, good = len(b"zope schedule 1\n"), len(b"zope schedule 1\n")
    while True:
        end = tape.find(b"\n", at)
        if end < 0:
            return tape[:good] + b"end\n"
        words = tape[at:end].split()
        at = end + 1
        if words[0] == b"request":
            at += int(words[2]) + 1
            if at > len(tape):
                return tape[:good] + b"end\n"
        good = at


def site_of_documents(folder):
    """A site with a document for each client."""
    file = new_site(folder)
    setup = Serving(file, CLIENTS, tapped=False)
    for n in range(CLIENTS):
        came = ask(setup.port, message("POST", "/manage_addDTMLDocument", f"id=d{n}&title=t".encode(), user=ADMIN))
        assert came.endswith(b"done\n"), came
    setup.end()
    setup.tape.unlink()
    return file


def documents_now(file):
    """What the documents show, by a schedule of a page for each."""
    lines = [b"zope schedule 1\n"]
    for n in range(CLIENTS):
        asked = message("GET", f"/d{n}")
        lines.append(b"request %d %d\n%s\n" % (n, len(asked), asked) + b"step %d\n" % n * 6)
    shown = replies_in(zope("replay", file.name, cwd=file.parent, input=b"".join(lines) + b"end\n"))
    return [reply.partition(b"\r\n\r\n")[2] for reply in shown.elements()]


def edits_over(serving, kills_behind):
    """Has the clients edit, and kills the server once so many edits were answered, or all clients are done."""
    clients = [Client(n, serving.port, EDITS // CLIENTS) for n in range(CLIENTS)]
    for client in clients:
        client.start()
    while any(client.is_alive() for client in clients) and sum(len(client.replies) for client in clients) < kills_behind:
        time.sleep(0.001)
    lives = serving.process.poll() is None
    serving.kill()
    for client in clients:
        client.join()
    assert lives, f"the server ended by itself: {serving.process.returncode}"
    for client in clients:
        assert client.wrong is None, client.wrong
    return clients


def look_at(file, clients):
    check = subprocess.run([PROGRAM, "check", file.name], cwd=file.parent, capture_output=True, check=False)
    assert check.returncode == 0, check.stdout
    shown = documents_now(file)
    assert len(shown) == CLIENTS, shown
    for client in clients:
        assert any(text in shown for text in client.may_stand), (client.number, client.may_stand, shown)


def killed(folder, rng):
    """Kills a server, and gives how many edits were answered before."""
    file = site_of_documents(folder)
    serving = Serving(file, 100_000, tapped=False)
    behind = rng.randrange(EDITS)
    clients = edits_over(serving, behind)
    look_at(file, clients)
    replayed = replies_in(zope("replay", serving.before.name, cwd=folder, input=whole_rounds(serving.tape.read_bytes())))
    for client in clients:
        for reply in client.replies:
            assert replayed[reply], "an answered edit isn't on the tape"
    return sum(len(client.replies) for client in clients)


def under_faults(file, rng):
    """The words before the program's by which calls on a file fail: each kind from some call on, and then every so many."""
    words = ["strace", "-D", "-f", "-qq", "-o", "/dev/null", "-P", str(file), "-e", "trace=write,pwrite64,fsync,fdatasync,ftruncate,read,pread64"]
    for calls, most, error in (("fsync,fdatasync", 25, "EIO"), ("write,pwrite64", 25, "ENOSPC"), ("ftruncate", 4, "EIO"), ("read,pread64", 400, "EIO")):
        # the opening at the start has to be spared, or no server comes
        first = rng.randrange(200 if calls.startswith("read") else 4, 400 if calls.startswith("read") else 20)
        words += ["-e", f"inject={calls}:error={error}:when={first}+{rng.randrange(most // 2, most) + 1}"]
    return words


def faulty(folder, rng):
    """Lets the disk fail, and gives what was said to the clients."""
    file = site_of_documents(folder)
    serving = Serving(file, 100_000, tapped=False, before=under_faults(file, rng))
    clients = edits_over(serving, EDITS + 1)
    look_at(file, clients)
    return sum((client.said for client in clients), collections.Counter())


def main():
    times = int(sys.argv[1]) if len(sys.argv) > 1 else 100
    rounds = int(sys.argv[2]) if len(sys.argv) > 2 else times // 10
    rng, edits, said = random.Random(20260101), [], collections.Counter()
    for _ in range(times):
        with tempfile.TemporaryDirectory() as folder:
            edits.append(killed(pathlib.Path(folder), rng))
    if times:
        print(f"kill: {times} times, behind {min(edits)} to {max(edits)} answered edits; each file opened and had every one of {sum(edits)}")
    assert shutil.which("strace") or not rounds, "strace is wanted"
    for _ in range(rounds):
        with tempfile.TemporaryDirectory() as folder:
            said += faulty(pathlib.Path(folder), rng)
    if rounds:
        assert said["disk fault"] and said["unknown outcome"], f"no fault of the one kind or the other came: {said}"
        print(f"kill: {rounds} times over a failing disk, {said['done']} edits done, {said['disk fault']} times a disk fault and "
              f"{said['unknown outcome']} times an unknown outcome; the server went on, and nothing that was done is lost")


if __name__ == "__main__":
    main()
