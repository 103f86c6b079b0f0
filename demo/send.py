#!/usr/bin/env python3
"""Sends the requests of lines to a server, one behind the other, and prints what each came to.

    demo/send.py PORT < LINES

LINES are those of demo/schedule.py, whose `--help` says more. Workers and steps count for nothing: each request waits for its
reply. Ends with 1 where a reply isn't 200, behind the first such.
"""

import shlex
import socket
import sys

from schedule import Fault, lines_named, message


def requests_in(text):
    """The requests of lines, each with its method, its path and what is sent."""
    for line in text.splitlines():
        match shlex.split(line, comments=line.lstrip().startswith("#")):
            case [_, "GET" | "HEAD" | "POST" as method, path, *rest]:
                yield method, path, message(method, path, rest)
            case ["lines", name]:
                yield from requests_in(lines_named(name))
            case [] | [_, "step", *_] | ["run", *_]:
                pass
            case _:
                raise Fault(f"this can't be sent: {line}")


def ask(port, sent):
    """Sends a message, and gives the reply."""
    with socket.create_connection(("127.0.0.1", port)) as server:
        server.sendall(sent)
        return b"".join(iter(lambda: server.recv(65536), b""))


def main():
    if len(sys.argv) != 2 or not sys.argv[1].isdigit():
        print(__doc__, file=sys.stderr)
        return 2
    try:
        for method, path, sent in requests_in(sys.stdin.read()):
            head, _, body = ask(int(sys.argv[1]), sent).partition(b"\r\n\r\n")
            status = head.partition(b"\r\n")[0].decode().removeprefix("HTTP/1.1 ")
            said = f": {body.decode().strip()}" if not head.partition(b"text/html")[1] and body else ""
            print(f"{method} {path}  {status}{said}")
            if not status.startswith("200 "):
                return 1
    except (Fault, ValueError, OSError) as fault:
        print(f"send.py: {fault}", file=sys.stderr)
        return 1
    return 0


if __name__ == "__main__":
    sys.exit(main())
