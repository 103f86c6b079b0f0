"""A server of a site on this machine, as the checks here use it: a new site, a server over it, and the replay of its tape.

`Serving` starts `zope serve` over a copy of a site's file. Behind its `tap` every byte that goes through is kept, connection by
connection, so that what clients got can be compared with what a replay of the tape gives. `end` makes the connections that are
left of the plan, without a message, and waits for the server.
"""

import atexit
import base64
import collections
import contextlib
import pathlib
import shutil
import socket
import subprocess
import sys
import threading
import time

HOME = pathlib.Path(__file__).resolve().parent.parent
PROGRAM = HOME / "crates" / "zope_main" / "out" / "zope_main"
sys.path.insert(0, str(HOME / "demo"))

from report import lines_of  # noqa: E402

USER, PASSWORD = "admin", "secret"


def zope(*words, **options):
    """Runs the program with these words, and gives what it printed; it has to end with 0."""
    return subprocess.run([PROGRAM, *map(str, words)], check=True, capture_output=True, **options).stdout


def free_port():
    with socket.socket() as free:
        free.bind(("127.0.0.1", 0))
        return free.getsockname()[1]


def listens(port):
    """Whether a socket of this machine listens on a port; asked of the system, so that no connection is spent."""
    rows = pathlib.Path("/proc/net/tcp").read_text().splitlines()[1:]
    return any(row.split()[1].endswith(f":{port:04X}") and row.split()[3] == "0A" for row in rows)


def wait_for(what, seconds=20.0):
    ends = time.monotonic() + seconds
    while not what():
        if time.monotonic() > ends:
            raise TimeoutError(f"waited {seconds} seconds in vain")
        time.sleep(0.005)


def new_site(folder, name="site.fs"):
    """A new site's file in a folder."""
    file = pathlib.Path(folder) / name
    zope("init", file.name, USER, PASSWORD, cwd=folder)
    return file


def replies_in(report):
    """How often each reply stands in a report, by its bytes."""
    return collections.Counter(reply for _, reply in lines_of(report) if reply is not None)


def message(verb, path, body=None, *headers, user=None):
    """The bytes of a message with a form's body."""
    lines = [f"{verb} {path} HTTP/1.1", "Host: localhost", *headers]
    if user:
        lines.append("Authorization: Basic " + base64.b64encode(user.encode()).decode())
    if body is not None:
        lines += ["Content-Type: application/x-www-form-urlencoded", f"Content-Length: {len(body)}"]
    return "\r\n".join([*lines, "", ""]).encode() + (body or b"")


def ask(port, sent, seconds=20.0):
    """Sends bytes on a connection of its own, and gives all that comes back."""
    with socket.create_connection(("127.0.0.1", port), seconds) as client:
        client.sendall(sent)
        return read_all(client)


def read_all(client):
    got = b""
    while True:
        more = client.recv(65536)
        if not more:
            return got
        got += more


class Tap:
    """A port before the server's, through which each byte goes and is kept."""

    def __init__(self, port):
        self.port, self.kept, self.lock = port, [], threading.Lock()
        self.listener = socket.create_server(("127.0.0.1", 0), backlog=256)
        self.entry = self.listener.getsockname()[1]
        threading.Thread(target=self.accept, daemon=True).start()

    def accept(self):
        with contextlib.suppress(OSError):
            while True:
                client, _ = self.listener.accept()
                threading.Thread(target=self.carry, args=(client,), daemon=True).start()

    def carry(self, client):
        with client, contextlib.suppress(OSError), socket.create_connection(("127.0.0.1", self.port)) as server:
            back = [b""]
            forth = threading.Thread(target=self.pump, args=(client, server, [b""]), daemon=True)
            forth.start()
            self.pump(server, client, back)
            with self.lock:
                self.kept.append(back[0])

    @staticmethod
    def pump(source, target, kept):
        """Carries bytes on until the source ends. A target that is gone doesn't keep it from reading."""
        while True:
            try:
                more = source.recv(65536)
            except OSError:
                more = b""
            kept[0] += more
            with contextlib.suppress(OSError):
                if more:
                    target.sendall(more)
                    continue
                target.shutdown(socket.SHUT_WR)
            if not more:
                return

    def replies(self):
        with self.lock:
            return collections.Counter(reply for reply in self.kept if reply)


class Serving:
    """A server over a file, which it changes; a copy of the file as it was stands beside it. The words `before` stand before the
    program's, as those of a program that starts it."""

    def __init__(self, file, connections=1000, clients=16, tapped=True, seconds=20.0, before=()):
        self.file, self.before, self.tape = file, file.with_suffix(".before"), file.with_suffix(".tape")
        shutil.copyfile(file, self.before)
        self.port, self.connections = free_port(), connections
        self.process = subprocess.Popen(
            [*before, PROGRAM, "serve", file.name, "--port", str(self.port), "--connections", str(connections), "--clients", str(clients),
             "--record", self.tape.name],
            cwd=file.parent, stdout=subprocess.PIPE, stdin=subprocess.DEVNULL)
        atexit.register(self.process.kill)
        wait_for(lambda: self.process.poll() is not None or listens(self.port), seconds)
        assert self.process.poll() is None, f"the server ended: {self.process.stdout.read()}"
        self.tap = Tap(self.port) if tapped else None
        self.entry = self.tap.entry if tapped else self.port

    def end(self):
        """Spends the connections that are left, and gives what the server printed."""
        while self.process.poll() is None:
            with contextlib.suppress(OSError):
                socket.create_connection(("127.0.0.1", self.port), 1).close()
        printed = self.process.stdout.read().decode()
        assert self.process.returncode == 0, (self.process.returncode, printed)
        return printed

    def replayed(self):
        """What a replay of the tape over the file as it was prints."""
        with open(self.tape, "rb") as tape:
            return zope("replay", self.before.name, cwd=self.file.parent, stdin=tape)

    def check_replay(self):
        """The replay gives the very replies that went through the tap, and the history of the file."""
        report = self.replayed()
        came, wanted = self.tap.replies(), replies_in(report)
        assert came == wanted, f"{sum(came.values())} replies came, {sum(wanted.values())} are replayed, {sum((came & wanted).values())} are the same"
        dumped = zope("dump", self.file.name, cwd=self.file.parent)
        assert report.endswith(dumped), "the replay ends in another history than the file's"
        return sum(came.values())

    def kill(self):
        self.process.kill()
        self.process.wait()
