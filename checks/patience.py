#!/usr/bin/env python3
"""Holds connections of a real server open in every way, and looks that none of them holds another up.

    checks/patience.py

Takes two minutes, for the server lets a connection go 30 seconds after it came. Needs the built program alone.
"""

import pathlib
import socket
import tempfile
import time

from served import Serving, ask, message, new_site


def connect(port):
    return socket.create_connection(("127.0.0.1", port), 120)


def timed(port):
    began = time.monotonic()
    came = ask(port, message("GET", "/"))
    assert came.startswith(b"HTTP/1.1 200 OK\r\n"), came
    return time.monotonic() - began


def is_shut(client):
    """Waits until the server shuts a connection, and gives how long that took and what came."""
    began = time.monotonic()
    got = b""
    try:
        while True:
            more = client.recv(65536)
            if not more:
                break
            got += more
    except ConnectionResetError:
        pass
    return time.monotonic() - began, got


def main():
    with tempfile.TemporaryDirectory() as folder:
        serving = Serving(new_site(pathlib.Path(folder)), 3000, tapped=False)
        port = serving.port
        idle = [connect(port) for _ in range(450)]
        drip = [connect(port) for _ in range(450)]
        came = time.monotonic()
        pages = []
        while time.monotonic() < came + 20:
            for client in drip:
                client.sendall(b"G" if time.monotonic() < came + 1 else b"a")
            pages += [timed(port) for _ in range(20)]
            time.sleep(0.5)
        pages.sort()
        print(f"patience: {len(pages)} pages beside 900 slow connections, {1000 * pages[len(pages) // 2]:.1f} ms each, at most {1000 * pages[-1]:.1f} ms")
        waits = [is_shut(client) for client in idle[:5] + drip[:5]]
        behind = time.monotonic() - came
        assert 25 < behind < 40 and not any(got.startswith(b"HTTP/1.1 200") for _, got in waits), (behind, waits)
        print(f"patience: a connection without a message is let go {behind:.0f} seconds behind the first")
        for client in idle + drip:
            client.close()
        many = [connect(port) for _ in range(1200)]
        time.sleep(2)
        assert timed(port) < 5
        print("patience: 1,200 connections at once, and one more has its page")
        for client in many:
            client.close()
        timed(port)
        print("patience:", serving.end().strip())


main()
