#!/usr/bin/env python3
"""A served site beside nginx and beside a Python server, and edits on a real file beside the bare loop of write and sync.

    bench/serving.py [SECONDS [PART ..]]

By `ab`, a connection for each request, from 1, 4 and 16 clients at once. `pages`: pages without tags, of `zope serve` and of nginx
with a static file of the same bytes and keep-alive off. `tags`: pages with a header, a footer and ten properties, for a user who
logs in, beside waitress with Jinja2 over SQLite (waitress_site.py). `edits`: edits of documents, beside a loop that appends as many
bytes as an edit's transaction has, syncs, writes one byte and syncs, on the same disk, and beside the Python server. `syncs`: the same
edits beside that loop where each sync takes 1 and 4 milliseconds longer, as on usual disks, by a library that is preloaded to both
(slower.c); and edits where each fsync is an fdatasync. `slow`: the longest time of a page beside 900 connections, of which half are
silent and half send a byte a second; and pages, pages with tags and edits beside 1,000 that are silent and 100 that send a byte a
second. Each figure is the best of three runs of SECONDS (5), of edits the middle one; all parts where none is named. Needs the built
program (`./zope check` builds it) and Debian's packages `nginx-light`, `apache2-utils`, `gcc`, `python3-waitress` and `python3-jinja2`.
"""

import contextlib
import os
import pathlib
import re
import resource
import shutil
import socket
import subprocess
import sys
import tempfile
import threading
import time

HERE = pathlib.Path(__file__).resolve().parent
sys.path.insert(0, str(HERE.parent / "checks"))

from served import PASSWORD, USER, Serving, ask, free_port, listens, message, new_site, wait_for  # noqa: E402

ADMIN, PAGE = f"{USER}:{PASSWORD}", b"<html><body><h1>A page without tags</h1>" + b"<p>Some words of it.</p>" * 20 + b"</body></html>"
SECONDS = float(sys.argv[1]) if len(sys.argv) > 1 else 5.0
CLIENTS = (1, 4, 16)
# the system's own, for which Debian's packages are
SYSTEM_PYTHON = shutil.which("python3", path=os.defpath)
HEADER, FOOTER = b"<html><body><h1>&dtml-title;</h1>", b"<p>You are &dtml-AUTHENTICATED_USER;.</p></body></html>"
TAGS = b"<dtml-var header><dl>" + b"".join(b"<dt>p%d</dt><dd>&dtml-p%d;</dd>" % (n, n) for n in range(10)) + b"</dl><dtml-var footer>"


def form(**fields):
    """A form's body."""
    return b"&".join(name.encode() + b"=" + b"".join(b"%%%02x" % byte for byte in text) for name, text in fields.items())


def calls(port, path, **fields):
    came = ask(port, message("POST", path, form(**fields), user=ADMIN))
    assert came.endswith(b"done\n"), came


def by_ab(port, path, clients, count, login):
    """Replies a second that ab gets, and the time within which ninety-nine of a hundred came, in milliseconds."""
    words = ["ab", "-q", *(["-A", ADMIN] if login else []), "-n", str(count), "-c", str(clients), f"http://127.0.0.1:{port}{path}"]
    came = subprocess.run(words, check=True, capture_output=True, text=True).stdout
    assert "Failed requests:        0" in came and "Non-2xx" not in came, came
    return float(re.search(r"Requests per second:\s+([\d.]+)", came)[1]), int(re.search(r"99%\s+(\d+)", came)[1])


def by_seconds(port, path, clients, login):
    """The same, of a run of about SECONDS."""
    rate, _ = by_ab(port, path, clients, max(100, clients), login)
    return by_ab(port, path, clients, max(100, int(rate * SECONDS)) // clients * clients, login)


def best(port, path, clients, login=False):
    return max(by_seconds(port, path, clients, login) for _ in range(3))


def row(what, ours, name, theirs, wanted, hundredth=""):
    print(f"| {what} | {ours:.0f} | {name} {theirs:.0f} | {ours / theirs:.2f} | {wanted} | {hundredth} |", flush=True)


class Nginx:
    def __init__(self, folder):
        self.port = free_port()
        (folder / "index.html").write_bytes(PAGE)
        conf = folder / "nginx.conf"
        conf.write_text(
            f"daemon off; user root; worker_processes 1; pid {folder}/nginx.pid; error_log {folder}/error.log;\n"
            f"events {{ worker_connections 1024; }}\n"
            f"http {{ access_log off; keepalive_timeout 0; server {{ listen 127.0.0.1:{self.port}; root {folder}; }} }}\n")
        self.process = subprocess.Popen(["nginx", "-c", str(conf)], stdout=subprocess.DEVNULL, stderr=subprocess.DEVNULL)
        wait_for(lambda: listens(self.port))


class Waitress:
    def __init__(self, folder):
        self.port = free_port()
        self.process = subprocess.Popen([SYSTEM_PYTHON, str(HERE / "waitress_site.py"), str(self.port), str(folder / "site.db")])
        wait_for(lambda: self.process.poll() is not None or listens(self.port))
        assert self.process.poll() is None, "the Python server doesn't start: its packages are named at the top"


def end(peer):
    peer.process.terminate()
    peer.process.wait()


def pages(folder):
    serving, nginx = Serving(new_site(folder), 10_000_000, tapped=False), Nginx(folder)
    calls(serving.port, "/index_html/manage_edit", data=PAGE)
    for clients in CLIENTS:
        ours, theirs = best(serving.port, "/", clients), best(nginx.port, "/", clients)
        row(f"pages, {clients} at once", ours[0], "nginx", theirs[0], "0.50", f"{ours[1]}, {theirs[1]}")
    end(nginx)
    serving.kill()


def make_page_with_tags(port):
    calls(port, "/manage_addDTMLMethod", id=b"header", file=HEADER)
    calls(port, "/manage_addDTMLMethod", id=b"footer", file=FOOTER)
    calls(port, "/manage_addDTMLDocument", id=b"page", title=b"A page", file=TAGS)
    for n in range(10):
        calls(port, "/page/manage_addProperty", id=b"p%d" % n, value=b"value %d" % n)


def tags(folder):
    serving, peer = Serving(new_site(folder), 10_000_000, tapped=False), Waitress(folder)
    make_page_with_tags(serving.port)
    asked = message("GET", "/page", user=ADMIN)
    bodies = [ask(port, asked.replace(b"1.1\r\n", b"1.0\r\n", 1)).partition(b"\r\n\r\n")[2] for port in (serving.port, peer.port)]
    assert bodies[0] == bodies[1] and b"value 9" in bodies[0] and b"You are admin." in bodies[0], bodies
    for clients in CLIENTS:
        ours, theirs = best(serving.port, "/page", clients, True), best(peer.port, "/page", clients, True)
        row(f"pages with tags, {clients} at once", ours[0], "waitress", theirs[0], "5.00", f"{ours[1]}, {theirs[1]}")
    end(peer)
    serving.kill()


def slow(folder):
    serving = Serving(new_site(folder), 10_000_000, tapped=False)
    calls(serving.port, "/index_html/manage_edit", data=PAGE)
    make_page_with_tags(serving.port)
    make_documents(serving.port, folder)
    longest(serving.port)
    runs = {
        "pages": lambda: by_seconds(serving.port, "/", 4, False),
        "pages with tags": lambda: by_seconds(serving.port, "/page", 4, True),
        "edits": lambda: edits_by(serving.port, 4, folder),
    }
    # turn by turn, since the machine's speed changes
    came = {name: [] for name in runs}
    for _ in range(3):
        alone = {name: run() for name, run in runs.items()}
        with crowd(serving.port, 1000, 100):
            for name, run in runs.items():
                came[name].append((run(), alone[name]))
    for name, pairs in came.items():
        beside, alone = middle_of(pairs)
        row(f"{name} beside 1,100 slow connections, 4 at once", beside[0], "without them", alone[0], "0.90", f"{beside[1]}, {alone[1]}")
    serving.kill()


def middle_of(pairs):
    """Of pairs of a rate and a time each, the one whose ratio of rates is the middle one."""
    return sorted(pairs, key=lambda pair: pair[0][0] / pair[1][0])[len(pairs) // 2]


def longest(port):
    idle = [socket.create_connection(("127.0.0.1", port)) for _ in range(900)]
    came, times = time.monotonic(), []
    while time.monotonic() < came + 15:
        for client in idle[:450]:
            client.sendall(b"G")
        until = time.monotonic() + 1
        while time.monotonic() < until:
            began = time.monotonic()
            assert ask(port, message("GET", "/")).startswith(b"HTTP/1.1 200")
            times.append(1000 * (time.monotonic() - began))
    times.sort()
    print(f"| a page beside 900 slow connections | {len(times)} pages | middle {times[len(times) // 2]:.1f} ms | longest {times[-1]:.1f} ms | 20 ms | |", flush=True)
    for client in idle:
        client.close()


@contextlib.contextmanager
def crowd(port, silent, sending):
    """So many connections that are silent, and so many that send a byte a second; one that is let go comes again."""
    clients, ends = [socket.create_connection(("127.0.0.1", port)) for _ in range(silent + sending)], threading.Event()

    def go_on():
        while not ends.wait(1):
            for at, client in enumerate(clients):
                try:
                    client.setblocking(False)
                    if at >= silent:
                        client.send(b"G")
                    gone = client.recv(1) == b""
                except BlockingIOError:
                    gone = False
                except OSError:
                    gone = True
                if gone:
                    client.close()
                    clients[at] = socket.create_connection(("127.0.0.1", port))

    going = threading.Thread(target=go_on)
    going.start()
    yield
    ends.set()
    going.join()
    for client in clients:
        client.close()


def make_documents(port, folder):
    """Documents to be edited, and the form that edits one; how many bytes an edit's transaction has."""
    file = folder / "site.fs"
    for n in range(max(CLIENTS)):
        calls(port, "/manage_addDTMLDocument", id=b"d%d" % n, title=b"t", file=b"x")
    before = file.stat().st_size
    calls(port, "/d0/manage_edit", title=b"t", data=b"text 0")
    (folder / "body").write_bytes(b"title=t&data=text+0")
    return file.stat().st_size - before


def edits_of(port, clients, count, folder):
    """Edits a second of so many clients, each an ab that edits a document of its own so often, and the longest of their times within
    which ninety-nine of a hundred replies came."""
    words = ["ab", "-q", "-n", str(count), "-c", "1", "-p", str(folder / "body"), "-T", "application/x-www-form-urlencoded", "-A", ADMIN]
    began = time.monotonic()
    runs = [subprocess.Popen([*words, f"http://127.0.0.1:{port}/d{n}/manage_edit"], stdout=subprocess.PIPE, text=True) for n in range(clients)]
    outputs = [run.communicate()[0] for run in runs]
    took = time.monotonic() - began
    assert all("Failed requests:        0" in it and "Non-2xx" not in it for it in outputs), outputs
    return clients * count / took, max(int(re.search(r"99%\s+(\d+)", it)[1]) for it in outputs)


def edits_by(port, clients, folder):
    """The same, in about SECONDS."""
    rate, _ = edits_of(port, clients, max(5, 40 // clients), folder)
    return edits_of(port, clients, max(10, int(rate * SECONDS / clients)), folder)


LOOP = """
import os, sys, time
sync, size, seconds, count = getattr(os, sys.argv[2]), int(sys.argv[3]), float(sys.argv[4]), 0
with open(sys.argv[1], "wb", buffering=0) as file:
    at, ends = 0, time.monotonic() + seconds
    while time.monotonic() < ends:
        file.seek(at)
        file.write(b"1" * size)
        sync(file.fileno())
        file.seek(at + 16)
        file.write(b" ")
        sync(file.fileno())
        at, count = at + size, count + 1
print(count / seconds)
"""


def bare(folder, size, sync, surroundings=()):
    """Loops a second of two writes and two syncs."""
    words = ["env", *surroundings, sys.executable, "-c", LOOP, str(folder / "bare"), sync, str(size), str(SECONDS)]
    return float(subprocess.run(words, check=True, capture_output=True, text=True).stdout), 0


def beside_the_loop(what, serving, folder, size, clients, surroundings=()):
    """Edits beside the loop, turn by turn."""
    pairs = [(edits_by(serving.port, clients, folder), bare(folder, size, "fsync", surroundings)) for _ in range(3)]
    ours, theirs = middle_of(pairs)
    row(what, ours[0], "write and sync, twice", theirs[0], "0.90", ours[1])
    return ours


def edits(folder):
    serving, peer = Serving(new_site(folder), 10_000_000, tapped=False), Waitress(folder)
    size = make_documents(serving.port, folder)
    for clients in CLIENTS:
        ours = beside_the_loop(f"edits, {clients} at once", serving, folder, size, clients)
        theirs = max(edits_by(peer.port, clients, folder) for _ in range(3))
        row(f"edits, {clients} at once", ours[0], "waitress and SQLite", theirs[0], "", f"{ours[1]}, {theirs[1]}")
    row("the loop by fsync", bare(folder, size, "fsync")[0], "by fdatasync", bare(folder, size, "fdatasync")[0], "")
    end(peer)
    serving.kill()


def syncs(folder):
    library = folder / "slower.so"
    subprocess.run(["gcc", "-O2", "-shared", "-fPIC", "-o", library, HERE / "slower.c"], check=True)
    for name, said in (("1 ms longer", ["SLOWER=1000"]), ("4 ms longer", ["SLOWER=4000"]), ("by fdatasync", ["SLOWER_DATA=1"])):
        surroundings = [f"LD_PRELOAD={library}", *said]
        inside = folder / name.replace(" ", "_")
        inside.mkdir()
        serving = Serving(new_site(inside), 10_000_000, tapped=False, before=["env", *surroundings])
        size = make_documents(serving.port, inside)
        for clients in CLIENTS:
            beside_the_loop(f"edits, each sync {name}, {clients} at once", serving, inside, size, clients, surroundings)
        serving.kill()


PARTS = [pages, tags, slow, edits, syncs]


def main():
    most = resource.getrlimit(resource.RLIMIT_NOFILE)[1]
    resource.setrlimit(resource.RLIMIT_NOFILE, (min(most, 4096) if most > 0 else 4096, most))
    print("| what | a second | beside it | share | wanted | 99 of 100 within, ms: ours, theirs |\n|---|---|---|---|---|---|")
    for part in PARTS:
        if len(sys.argv) < 3 or part.__name__ in sys.argv[2:]:
            with tempfile.TemporaryDirectory(dir=HERE.parent) as folder:
                part(pathlib.Path(folder))


if __name__ == "__main__":
    main()
