#!/usr/bin/env python3
"""Sends a real server what no browser would send, and looks at each reply; the tape has to replay to the same ones.

    checks/hostile.py [COUNT [SEED]]

First the messages of a table, each with its reply, and peers that send byte by byte or go away; then COUNT messages (4,000 where
nothing is said) that are made by chance of right ones: cut, joined, repeated, with bytes of every kind put in, taken away or
changed, with long heads, paths and bodies. Each has to be answered as a whole or refused message, or not at all, within the time
limit, while the server's memory stays as it was. Needs the built program alone (`./zope check` builds it).
"""

import collections
import pathlib
import random
import socket
import sys
import tempfile
import threading
import time
import urllib.parse

from served import PASSWORD, USER, Serving, ask, message, new_site, read_all, replies_in, zope

ADMIN = f"{USER}:{PASSWORD}"


def status_of(reply):
    return int(reply.split(b" ", 2)[1]) if reply.startswith(b"HTTP/1.1 ") else None


def body_of(reply):
    return reply.partition(b"\r\n\r\n")[2]


# what is sent, the status that is wanted, and words that the body has
TABLE = [
    ("a chunked message", b"POST / HTTP/1.1\r\nTransfer-Encoding: chunked\r\n\r\n1\r\na\r\n0\r\n\r\n", 411, b"length required"),
    ("65 header lines", b"GET / HTTP/1.1\r\n" + b"a: b\r\n" * 65 + b"\r\n", 431, b"head too large"),
    ("64 header lines", b"GET / HTTP/1.1\r\n" + b"a: b\r\n" * 64 + b"\r\n", 200, b"Zope"),
    ("a Content-Length of 19 digits", b"POST / HTTP/1.1\r\nContent-Length: 1000000000000000000\r\n\r\n", 400, b"bad head"),
    ("two that differ", b"POST / HTTP/1.1\r\nContent-Length: 1\r\nContent-Length: 2\r\n\r\nab", 400, b"bad head"),
    ("%ff in a path", b"GET /%ff HTTP/1.1\r\n\r\n", 400, b"bad head"),
    ("65 segments", b"GET " + b"/a" * 65 + b" HTTP/1.1\r\n\r\n", 414, b"path too long"),
    ("a multipart body", b"POST / HTTP/1.1\r\nContent-Type: multipart/form-data; boundary=x\r\nContent-Length: 0\r\n\r\n", 415, b"multipart refused"),
    ("a body of more than 1,048,576 bytes", b"POST / HTTP/1.1\r\nContent-Length: 1048577\r\n\r\n" + b"a" * 1048577, 413, b"body too large"),
    ("a method that isn't served", b"DELETE / HTTP/1.1\r\n\r\n", 501, b"method not supported"),
    ("an Authorization that isn't base64", message("GET", "/", None, "Authorization: Basic *"), 400, b"bad credentials"),
    ("a number past 64 bits", message("GET", "/?x:int=9223372036854775808"), 400, b"not a number: x"),
    ("no message", b"hello\r\n\r\n", 400, b"bad head"),
    ("two messages, of which the second has no reply", message("GET", "/") * 2, 200, b"Zope"),
]

# templates that would run away, and the words of the refusal
RUNAWAY = [
    ("tags", "<dtml-in a><dtml-in a><dtml-in a><dtml-in a><dtml-in a><dtml-in a>x</dtml-in></dtml-in></dtml-in></dtml-in></dtml-in></dtml-in>",
     [f"a:list={n}" for n in range(60)], b"runaway: tags"),
    ("renderings", "<dtml-var index_html>", [], b"runaway: renders"),
    ("text", "<dtml-in a><dtml-in a><dtml-var b></dtml-in></dtml-in>", [f"a:list={n}" for n in range(200)] + ["b=" + "b" * 5000], b"runaway: output"),
]


def edit(source):
    return message("POST", "/index_html/manage_edit", f"title=t&data={urllib.parse.quote_plus(source)}".encode(), user=ADMIN)


def in_pieces(port, sent, pause):
    """Sends a message byte by byte."""
    with socket.create_connection(("127.0.0.1", port), 60) as client:
        client.setsockopt(socket.IPPROTO_TCP, socket.TCP_NODELAY, 1)
        for at in range(len(sent)):
            client.sendall(sent[at : at + 1])
            time.sleep(pause)
        return read_all(client)


# what is sent by chance is made of these
SEEDS = [
    message("GET", "/"),
    message("HEAD", "/index_html?a:int=1&b:list=2&b:list=3", None, "Cookie: a=b; c=d"),
    message("POST", "/index_html/manage_edit", b"title=t&data=%3Cdtml-if+a%3E%26dtml-a%3B%3C%2Fdtml-if%3E", user=ADMIN),
    message("POST", "/manage_addDTMLDocument", b"id=d&title=t&file=%3Cdtml-in+a%3E%3Cdtml-var+sequence-item%3E%3C%2Fdtml-in%3E", user=ADMIN),
    message("POST", "/manage_addFolder", b"id=f", user=ADMIN),
    message("GET", "/undoable_transactions", user=ADMIN),
    message("POST", "/acl_users/userFolderAddUser", b"name=n&password=p&roles:list=Editor", user=ADMIN),
    b"GET /d/../f/%41%62?x:list:int=-9223372036854775808 HTTP/1.0\r\nHost: a\r\n\r\n",
]
# what is put into them
PIECES = [b"\r\n", b"\n", b"\r\n\r\n", b"\0", b" ", b"\t", b":", b"%", b"%00", b"%ff", b"%2F", b"/", b"/..", b"?", b"&", b"=", b";", b"HTTP/1.1", b"GET ",
          b"Content-Length: 5\r\n", b"Content-Length: -1\r\n", b"Transfer-Encoding: chunked\r\n", b"<dtml-", b"<dtml-var a", b"</dtml-in>", b"&dtml-",
          b":int=", b":list=", "\u2026\U0001f600".encode(), b"\xc3(", b"\xed\xa0\x80", b"Authorization: Basic !!!\r\n"]


def by_chance(rng):
    """A message that is made of a right one by a few changes."""
    made = bytearray(rng.choice(SEEDS))
    for _ in range(rng.choice((0, 1, 1, 2, 3, 8))):
        at, kind = rng.randrange(len(made) + 1), rng.randrange(9)
        if kind == 0:
            del made[at:]
        elif kind == 1:
            made += rng.choice(SEEDS)
        elif kind == 2:
            made[at:at] = rng.randbytes(rng.choice((1, 2, 16, 300)))
        elif kind == 3:
            del made[at : at + rng.choice((1, 2, 16))]
        elif kind == 4 and at < len(made):
            made[at] = rng.randrange(256)
        elif kind == 5:
            made[at:at] = rng.choice(PIECES) * rng.choice((1, 2, 70, 5000 if rng.random() < 0.05 else 3))
        elif kind == 6:
            made[at:at] = made[max(0, at - rng.randrange(1, 80)) : at]
        else:
            made[at:at] = rng.choice(PIECES)
        made = made or bytearray(b"a")
    return bytes(made)


class Stranger(threading.Thread):
    """Sends messages by chance, each on a connection of its own, and keeps the replies."""

    def __init__(self, port, count, seed):
        super().__init__(daemon=True)
        self.port, self.count, self.rng = port, count, random.Random(seed)
        self.replies, self.longest, self.wrong, self.silent, self.hung_up = collections.Counter(), 0.0, None, 0, 0

    def run(self):
        for _ in range(self.count):
            sent, began = by_chance(self.rng), time.monotonic()
            try:
                with socket.create_connection(("127.0.0.1", self.port), 20) as client:
                    client.sendall(sent)
                    # what isn't whole now never will be
                    client.shutdown(socket.SHUT_WR)
                    came = read_all(client)
            except OSError as error:
                # behind a refused head the server reads 64 KiB away, and then hangs up on who sends more, who may miss his reply
                if len(sent) > 65_536:
                    self.hung_up += 1
                    continue
                self.wrong = self.wrong or (error, sent[:500])
                return
            self.longest = max(self.longest, time.monotonic() - began)
            self.silent += not came
            self.replies[came] += bool(came)
            if came and status_of(came) not in (200, 400, 401, 404, 411, 413, 414, 415, 431, 500, 501, 503):
                self.wrong = (came[:300], sent[:500])


def held_by(process):
    """The memory that a process holds, in bytes."""
    lines = pathlib.Path(f"/proc/{process.pid}/status").read_text().splitlines()
    return 1024 * next(int(line.split()[1]) for line in lines if line.startswith("VmRSS:"))


def strangers(folder, count, seed):
    """Sends so many messages by chance from eight threads to one server, whose tape is then replayed."""
    serving, held = Serving(new_site(folder), 10_000_000, tapped=False), []
    replies, longest, silent, hung_up = collections.Counter(), 0.0, 0, 0
    for part in range(4):
        threads = [Stranger(serving.port, count // 32, f"{seed} {part} {n}") for n in range(8)]
        for thread in threads:
            thread.start()
        for thread in threads:
            thread.join()
            assert thread.wrong is None, thread.wrong
            replies, longest = replies + thread.replies, max(longest, thread.longest)
            silent, hung_up = silent + thread.silent, hung_up + thread.hung_up
        held.append(held_by(serving.process))
    assert serving.process.poll() is None
    assert held[-1] < held[0] + 32 * 2**20, held
    serving.kill()
    with open(serving.tape, "ab") as tape:
        tape.write(b"end\n")
    report = serving.replayed()
    replayed = replies_in(report)
    assert not replies - replayed, f"{replies.total()} replies came, and {replayed.total()} are replayed"
    assert (replayed - replies).total() <= hung_up, f"{(replayed - replies).total()} replies didn't come, of {hung_up} that may be missed"
    assert report.endswith(zope("dump", serving.file.name, cwd=folder)), "the replay ends in another history than the file's"
    statuses = collections.Counter(status_of(reply) for reply in replies.elements())
    return statuses, silent + hung_up, longest, held


def random_part(count, seed):
    statuses, silent, longest = collections.Counter(), 0, 0.0
    # a tape has to stay below what a replay takes
    while count > 0:
        now = min(count, 20_000)
        with tempfile.TemporaryDirectory() as folder:
            more, quiet, slowest, held = strangers(pathlib.Path(folder), now, f"{seed} {count}")
        statuses, silent, longest, count = statuses + more, silent + quiet, max(longest, slowest), count - now
    assert {200, 400, 401, 404, 501} <= set(statuses), statuses
    print(f"hostile: {statuses.total()} replies to messages by chance ({', '.join(f'{many} {code}' for code, many in sorted(statuses.items()))}), "
          f"each replayed; {silent} weren't whole; {longest:.1f} s at most; {held[0] >> 20} MB held, and {held[-1] >> 20} MB at the end")


def table():
    with tempfile.TemporaryDirectory() as folder:
        serving = Serving(new_site(pathlib.Path(folder)), 500)
        count = 0
        for title, sent, status, words in TABLE:
            came = ask(serving.entry, sent)
            assert status_of(came) == status and words in came, (title, came[:300])
            assert came.count(b"HTTP/1.1 ") == 1, (title, came)
            count += 1
        for title, source, fields, words in RUNAWAY:
            assert body_of(ask(serving.entry, edit(source))) == b"done\n", title
            came = ask(serving.entry, message("POST", "/", "&".join(fields).encode()))
            assert status_of(came) == 500 and words in came, (title, came[:300])
            count += 1
        assert body_of(ask(serving.entry, edit("page"))) == b"done\n"
        assert body_of(in_pieces(serving.entry, message("GET", "/"), 0.002)) == b"page", "a head byte by byte"
        for cut in range(0, 20, 3):
            with socket.create_connection(("127.0.0.1", serving.entry)) as client:
                client.sendall(message("GET", "/")[:cut])
        # a peer that goes away before it has its reply
        for _ in range(5):
            with socket.create_connection(("127.0.0.1", serving.port)) as client:
                client.sendall(message("GET", "/"))
                client.setsockopt(socket.SOL_SOCKET, socket.SO_LINGER, b"\1\0\0\0\0\0\0\0")
        assert body_of(ask(serving.entry, message("GET", "/"))) == b"page"
        printed = serving.end().strip()
        came, report = serving.tap.replies(), serving.replayed()
        # those that went away aren't behind the tap
        assert not came - replies_in(report), "a reply isn't replayed"
        print(f"hostile: {count + 1} messages answered as they must be; {printed}; {sum(came.values())} replies, each of them replayed")


def main():
    table()
    random_part(int(sys.argv[1]) if len(sys.argv) > 1 else 4000, sys.argv[2] if len(sys.argv) > 2 else "1")


if __name__ == "__main__":
    main()
