#!/usr/bin/env python3
"""What docs and code say of the server's connections, a sentence at a time, over real sockets: how many, how long, how much.

    checks/hub.py [WORD ..]

Each part has a name and a server of its own; with WORDs only those parts are run. Takes a minute or two, for a reply that isn't
taken is given up after 30 seconds. Needs the built program alone (`./zope check` builds it), and 4,096 open files.
"""

import contextlib
import pathlib
import resource
import select
import socket
import sys
import tempfile
import threading
import time

from served import PASSWORD, USER, Serving, ask, message, new_site, read_all, wait_for

LARGE = 500_000
ADMIN, PAGE = f"{USER}:{PASSWORD}", message("GET", "/")
MOST_CLIENTS, MOST_MEMORY, PATIENCE = 1024, 256 * 2**20, 30
# beside what connections hold: the program, its index and the page that is made
OWN_MEMORY = 16 * 2**20


def connect(port):
    return socket.create_connection(("127.0.0.1", port), 60)


def narrow(port):
    """A connection into whose buffers, and those of the system before it, goes little of a reply."""
    client = socket.socket()
    client.settimeout(60)
    client.setsockopt(socket.SOL_SOCKET, socket.SO_RCVBUF, 4096)
    client.setsockopt(socket.IPPROTO_TCP, socket.TCP_MAXSEG, 536)
    client.connect(("127.0.0.1", port))
    return client


def is_shut(client):
    """Whether the server has shut a connection on which it had nothing to say."""
    poll = select.poll()
    poll.register(client, select.POLLIN)
    if not poll.poll(0):
        return False
    with contextlib.suppress(ConnectionResetError):
        assert client.recv(1000) == b""
    return True


def page_comes(port, within=5.0):
    began = time.monotonic()
    came = ask(port, PAGE)
    took = time.monotonic() - began
    assert came.startswith(b"HTTP/1.1 200 OK\r\n") and took < within, (took, came[:200])


def rows(port):
    """The system's rows of the sockets at a port of this machine."""
    for table in "tcp", "tcp6":
        for line in pathlib.Path(f"/proc/net/{table}").read_text().splitlines()[1:]:
            words = line.split()
            if words[1].endswith(f":{port:04X}"):
                yield words


def waiting(port):
    """How many connections wait in the listener."""
    return next(int(words[4].split(":")[1], 16) for words in rows(port) if words[3] == "0A")


def sockets_of(process):
    count = 0
    for link in pathlib.Path(f"/proc/{process.pid}/fd").iterdir():
        with contextlib.suppress(FileNotFoundError):
            count += link.readlink().name.startswith("socket:")
    return count


def most_memory(process):
    lines = pathlib.Path(f"/proc/{process.pid}/status").read_text().splitlines()
    return 1024 * next(int(line.split()[1]) for line in lines if line.startswith("VmHWM:"))


def made_large(folder):
    """A site whose start page has half a million bytes, made by a server that is gone."""
    file = new_site(folder)
    serving = Serving(file, 2, tapped=False)
    for path, form in (("/manage_addDTMLMethod", b"id=big&file=" + b"x" * (LARGE // 2)),
                       ("/index_html/manage_edit", b"data=" + b"%3Cdtml-var+big%3E" * 2)):
        assert ask(serving.port, message("POST", path, form, user=ADMIN)).endswith(b"done\n")
    serving.process.wait(20)
    serving.tape.unlink()
    return file


def loopback(folder):
    """It listens on 127.0.0.1 alone."""
    serving = Serving(new_site(folder), 10, tapped=False)
    listening = [words[1] for words in rows(serving.port) if words[3] == "0A"]
    assert listening == [f"0100007F:{serving.port:04X}"], listening
    print(serving.end().strip(), end="; ")


def crowd(folder):
    """1,024 at once are taken, and more wait in the listener."""
    serving = Serving(new_site(folder), 10_000, tapped=False)
    clients, seen, queued = [], 0, 0
    for _ in range(1500):
        clients.append(connect(serving.port))
        if len(clients) % 20 == 0 or len(clients) > MOST_CLIENTS:
            seen, queued = max(seen, sockets_of(serving.process)), max(queued, waiting(serving.port))
    # one is let in before another is let go, and one socket listens
    assert MOST_CLIENTS <= seen <= MOST_CLIENTS + 2, seen
    assert queued > 0, "none waited in the listener"
    page_comes(serving.port)
    print(f"{MOST_CLIENTS} at once and one that comes as another goes, {queued} in the listener", end="; ")
    serving.kill()


def room(folder):
    """Where there is no room, the oldest that is still coming and older than a second gives way."""
    serving = Serving(new_site(folder), 10_000, tapped=False)
    clients = [connect(serving.port) for _ in range(MOST_CLIENTS)]
    wait_for(lambda: sockets_of(serving.process) > MOST_CLIENTS)
    assert not any(map(is_shut, clients)), "one was given up where there was room"
    time.sleep(1.5)
    for _ in range(50):
        page_comes(serving.port)
    shut = [at for at, client in enumerate(clients) if is_shut(client)]
    # those that came in one turn are of one age
    assert shut and max(shut) < 200, shut
    print(f"{len(shut)} of the oldest gave way for 50 pages", end="; ")
    serving.kill()


def memory(folder):
    """What all hold is bounded, and beyond it the oldest that isn't whole is failed."""
    serving = Serving(new_site(folder), 10_000, tapped=False)
    body = b"data=" + b"x" * (2**20 - 5)
    whole = message("POST", "/index_html/manage_edit", body, user=ADMIN)
    clients = []
    for _ in range(300):
        clients.append(connect(serving.port))
        clients[-1].sendall(whole[:-1000])
        if len(clients) % 50 == 0:
            page_comes(serving.port)
    time.sleep(1)
    held, shut = most_memory(serving.process), [at for at, client in enumerate(clients) if is_shut(client)]
    assert shut and max(shut) < 250, shut
    assert held < MOST_MEMORY + OWN_MEMORY, held
    clients[-1].sendall(whole[-1000:])
    assert read_all(clients[-1]).endswith(b"too long: data\n")
    print(f"of 300 MB the oldest {len(shut)} were given up, {held / 2**20:.0f} MB held at most", end="; ")
    serving.kill()


def errors(folder):
    """Errors of a connection about to come, and want of descriptors, never end the server."""
    serving = Serving(new_site(folder), 100_000, tapped=False)
    for _ in range(2000):
        client = connect(serving.port)
        client.setsockopt(socket.SOL_SOCKET, socket.SO_LINGER, b"\1\0\0\0\0\0\0\0")
        client.close()
    page_comes(serving.port)
    has = len(list(pathlib.Path(f"/proc/{serving.process.pid}/fd").iterdir()))
    resource.prlimit(serving.process.pid, resource.RLIMIT_NOFILE, (has + 20, has + 20))
    clients = [connect(serving.port) for _ in range(100)]
    late = []
    asking = threading.Thread(target=lambda: late.append(ask(serving.port, PAGE, 60)))
    asking.start()
    time.sleep(2)
    assert serving.process.poll() is None and not late, "no descriptor was left, and yet a page came"
    assert waiting(serving.port) > 50
    for client in clients:
        client.close()
    asking.join(20)
    assert late and late[0].startswith(b"HTTP/1.1 200 OK"), late
    page_comes(serving.port)
    print("2,000 resets and want of descriptors ended nothing", end="; ")
    serving.kill()


def untaken(folder):
    """A reply that isn't taken in 30 seconds is given up, and holds nobody up; one that is taken slowly comes whole."""
    serving = Serving(made_large(folder), 10_000, tapped=False)
    never, slow = narrow(serving.port), narrow(serving.port)
    began = time.monotonic()
    for client in never, slow:
        client.sendall(PAGE)
    got = b""
    while more := slow.recv(20_000):
        got += more
        time.sleep(0.1 if len(got) < LARGE // 2 else 0)
    took = time.monotonic() - began
    assert len(got.partition(b"\r\n\r\n")[2]) == LARGE, len(got)
    page_comes(serving.port)
    # the page before was large too, so the first is the only one that is left
    wait_for(lambda: sockets_of(serving.process) == 2)
    wait_for(lambda: sockets_of(serving.process) == 1, PATIENCE + 10)
    behind = time.monotonic() - began
    assert PATIENCE - 1 < behind < PATIENCE + 5, behind
    left = b""
    with contextlib.suppress(ConnectionResetError):
        while more := never.recv(65536):
            left += more
    assert len(left) < LARGE, "the reply was taken by the system"
    print(f"a reply taken in {took:.0f} s came whole, one not taken was given up after {behind:.0f} s", end="; ")
    serving.kill()


def drained(folder):
    """What the peer still sends is read away, up to 64 KB or a second, so that it sees its reply."""
    serving = Serving(new_site(folder), 10_000, tapped=False)
    head = b"POST / HTTP/1.1\r\nContent-Length: 9999999\r\n\r\n"
    with connect(serving.port) as client:
        client.sendall(head + b"x" * 10_000)
        time.sleep(0.3)
        for _ in range(5):
            client.sendall(b"x" * 10_000)
        assert read_all(client).endswith(b"body too large\n")
    with connect(serving.port) as client:
        client.sendall(head)
        assert read_all(client).endswith(b"body too large\n")
        began = time.monotonic()
        wait_for(lambda: sockets_of(serving.process) == 1)
        took = time.monotonic() - began
        assert took < 3, took
    with connect(serving.port) as client:
        sent = 0
        with contextlib.suppress(ConnectionResetError, BrokenPipeError):
            client.sendall(head)
            while sent < 64 * 2**20:
                client.sendall(b"x" * 65536)
                sent += 65536
        assert sent < 64 * 2**20, "the server reads on and on"
    page_comes(serving.port)
    print(f"60,000 bytes were read away, a silent peer was left {took:.1f} s behind its reply", end="; ")
    serving.kill()


def last(folder):
    """What a peer hasn't taken yet is sent on when the last round is over, before the program ends."""
    serving = Serving(made_large(folder), 1, tapped=False)
    client = narrow(serving.port)
    client.sendall(PAGE)
    time.sleep(2)
    assert serving.process.poll() is None
    assert len(read_all(client).partition(b"\r\n\r\n")[2]) == LARGE
    assert serving.end() == "served 1 1\n"
    print("the last reply was sent on", end="; ")


PARTS = [loopback, crowd, room, memory, errors, untaken, drained, last]


def main():
    most = resource.getrlimit(resource.RLIMIT_NOFILE)[1]
    resource.setrlimit(resource.RLIMIT_NOFILE, (min(most, 4096) if most > 0 else 4096, most))
    for part in PARTS:
        if len(sys.argv) == 1 or part.__name__ in sys.argv[1:]:
            with tempfile.TemporaryDirectory() as folder:
                print(f"hub: {part.__name__}: ", end="", flush=True)
                part(pathlib.Path(folder))
                print("as it is said")


if __name__ == "__main__":
    main()
