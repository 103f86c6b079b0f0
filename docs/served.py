#!/usr/bin/env python3
"""Writes the cases of a server: data/rounds.cases, data/messages.cases, data/faults.cases and data/differing.cases of serve_cases, and
data/served.cases of zope_cases.

    python3 docs/served.py rounds > crates/serve_cases/data/rounds.cases
    python3 docs/served.py served > crates/zope_cases/data/served.cases

What must come is worked out by a small model of a server: what a file, a disk and a request come to is that of
`stopped_runs.py`, and beside it stand the rules of rounds:

- A round accepts as many connections as it may have, and as are left of all: the first in any case, each further one where one
  waits. Of each one message is read before the next is accepted, in pieces, up to the one with which the message is whole. One
  that ends before, or whose read fails, is closed without a word, and so is no more than a place in the round.
- The messages go to workers 0, 1 and so on. The clock is asked once; its stamp is 0 where it fails or its moment has none. Then
  those that have no reply yet take a step each, turn by turn.
- The tape has a line for each of these, in the form of a schedule. It gets its first line behind the listening, the lines of a round
  in one write, before the replies, and at the end the last line, and is synced. Then each reply is written by one call, and the
  connection is closed.
- A hub, a clock or a disk fails at the call of a number; where the hub listens or accepts, or the tape is written or synced, that
  ends the server, and the connections of the round are closed.

Nothing here runs or reads the product.
"""

import datetime
import re
import sys

from stopped_runs import DOCUMENT, PHRASES, SITE, Disk, Run, hex16, item_bytes, opening, pages, put_bytes, put_hex, reply
from stops import Hit

PHRASES.update({
    400: "Bad Request", 411: "Length Required", 413: "Payload Too Large", 414: "URI Too Long", 415: "Unsupported Media Type",
    431: "Request Header Fields Too Large", 501: "Not Implemented",
})


# ---- texts that are made of others


def bytes_of(part):
    return part if isinstance(part, bytes) else part.bytes


class Text:
    """Bytes made of others, which a piece may hold."""

    def __init__(self, name, *parts):
        self.name, self.parts = name, parts
        self.bytes = b"".join(map(bytes_of, parts))

    def __eq__(self, other):
        return isinstance(other, Text) and self.bytes == other.bytes

    def __hash__(self):
        return hash(self.bytes)


# ---- messages


def page(path=b"/a", verb=b"GET"):
    return b"%s %s HTTP/1.0\r\n\r\n" % (verb, path)


def edit(source):
    body = b"data=" + source
    return b"POST /a/manage_edit HTTP/1.0\r\nContent-Length: %d\r\n\r\n%s" % (len(body), body)


def headed(*lines):
    return b"".join(line + b"\r\n" for line in lines) + b"\r\n"


PAGE, HEAD, ABSENT = page(), page(verb=b"HEAD"), page(b"/b")
EDITS = [edit(b"hi")] + [edit(b"text %d" % n) for n in range(1, 17)]
LONG_EDIT, LONG_HEAD = edit(b"a" * 10000), b"a" * 16384

# the refused messages, in the order of the refusals, and what they are answered
REFUSED = {
    LONG_HEAD: (431, "head too large"),
    headed(b"GET /a HTTP/1.0", *[b"a: b"] * 65): (431, "head too large"),
    headed(b"no message"): (400, "bad head"),
    headed(b"GET a HTTP/1.0"): (400, "bad head"),
    headed(b"GET /%ff HTTP/1.0"): (400, "bad head"),
    headed(b"GET /a HTTP/1.0", b"Content-Length: x"): (400, "bad head"),
    headed(b"GET /a HTTP/1.0", b"Content-Length: 1", b"Content-Length: 2"): (400, "bad head"),
    headed(b"PUT /a HTTP/1.0"): (501, "method not supported"),
    headed(b"GET %s HTTP/1.0" % (b"/a" * 65)): (414, "path too long"),
    headed(b"GET /%s HTTP/1.0" % (b"a" * 8192)): (414, "path too long"),
    headed(b"POST /a HTTP/1.1", b"Transfer-Encoding: chunked"): (411, "length required"),
    headed(b"POST /a HTTP/1.0", b"Content-Length: 1048577"): (413, "body too large"),
    headed(b"POST /a HTTP/1.0", b"Content-Type: multipart/form-data"): (415, "multipart refused"),
}
MESSAGES = [PAGE, HEAD, ABSENT, *EDITS, LONG_EDIT, *REFUSED]


def message_front(given):
    """The message that bytes begin with, or none. No message begins another."""
    return next((message for message in MESSAGES if given.startswith(message)), None)


# ---- a core and its clock


class Core(Run):
    """A run whose disk may stop, and then stays so."""

    def answered(self, w, status, body, kind="plain", sent=None):
        tid = hex16(self.workers.pop(w).snapshot)
        came = reply(status, body, f"read {tid}", kind)
        came = came if sent is None else came[: len(came) - len(body)]
        return f"reply {w} read {tid} {len(came)}\n".encode() + came + b"\n"

    def turn(self, w, worker):
        if worker.request in REFUSED:
            status, body = REFUSED[worker.request]
            return self.answered(w, status, body.encode() + b"\n")
        if worker.request == ABSENT and 0 in worker.known:
            return self.answered(w, 404, b"not found: b\n")
        if worker.request == HEAD and 1 in worker.known:
            return self.answered(w, 200, worker.known[1][len(DOCUMENT) + 4 : -2], "html", sent=b"")
        return super().turn(w, worker)

    def step(self, w):
        worker = self.workers.get(w)
        if worker is None:
            return b""
        steps = {"fresh": self.begin, "active": self.turn, "computed": self.vote, "pending": self.finish}
        try:
            return steps[worker.state](w, worker)
        except Hit:
            return self.end_none(w, f"diskfault {w}", 503, "disk fault")


def reply_in(printed):
    """The bytes of the reply that a step printed, or none."""
    lines = printed.split(b"\n")
    for at, line in enumerate(lines):
        if line.startswith(b"reply "):
            behind = b"\n".join(lines[at + 1 :])
            return behind[: int(line.split()[-1])]
    return None


def stamp(seconds, nanos):
    """The stamp of a moment, 0 where it has none."""
    try:
        moment = datetime.datetime(1970, 1, 1) + datetime.timedelta(seconds=seconds)
    except OverflowError:
        return 0
    high = (((moment.year - 1900) * 12 + moment.month - 1) * 31 + moment.day - 1) * 24 * 60 + moment.hour * 60 + moment.minute
    low = (moment.second * 10**9 + nanos) * 2**32 // (60 * 10**9)
    return high << 32 | low if moment.year >= 1900 and high < 2**32 else 0


# ---- a server


class Refused(Exception):
    """A server ended before its plan was done."""


class Outside:
    """The calls of an object, of which some fail."""

    def __init__(self, failing):
        self.calls, self.failing = 0, failing

    def fails(self):
        self.calls += 1
        return self.calls in self.failing


def armed(disk, entries):
    """Arms these entries, each a number of a call, whether it stops the disk, and a seed."""
    before = 0
    for number, stops, seed in entries:
        disk.arm(stops, number - before, seed)
        before = number
    return disk


class Server:
    def __init__(self, case):
        self.case = case
        self.hub, self.clock = Outside(case.hub), Outside(case.clock)
        self.coming, self.ticks = list(case.connections), list(case.ticks)
        self.core = Core(SITE, pages, case.limit)
        self.opening = self.core.disk.calls
        armed(self.core.disk, case.disk)
        self.tape = armed(Disk(b""), case.tape)
        self.port, self.written, self.replies, self.pieces = None, [], [], []

    def put(self, pieces):
        """Puts a text at the tape's end."""
        try:
            self.tape.write(len(self.tape.content), b"".join(map(bytes_of, pieces)))
        except Hit:
            raise Refused("tape")
        self.pieces += pieces

    def serve(self):
        _, connections, clients = self.case.plan
        if self.hub.fails():
            raise Refused("hub")
        self.port = self.case.plan[0]
        self.put([b"zope schedule 1\n"])
        left, replies = connections, 0
        while left:
            accepted, asked = self.round(min(clients, left))
            if not accepted:
                break
            left, replies = left - accepted, replies + asked
        self.put([b"end\n"])
        try:
            self.tape.sync()
        except Hit:
            raise Refused("tape")
        return connections - left, replies

    def hear(self, held):
        size, given = self.case.reads, 0
        while True:
            message = message_front(held[:given])
            if message or self.hub.fails() or given >= len(held):
                return message
            given += size

    def round(self, most):
        accepted, asked = 0, []
        while accepted < most and (accepted == 0 or self.coming):
            if self.hub.fails():
                raise Refused("hub")
            if not self.coming:
                break
            self.written.append(b"")
            message = self.hear(self.coming.pop(0))
            if message:
                asked.append((len(self.written) - 1, message))
            accepted += 1
        if accepted:
            self.answer(asked)
        return accepted, len(asked)

    def now(self):
        if self.clock.fails():
            return 0
        return stamp(*self.ticks.pop(0)) if self.ticks else stamp(0, 0)

    def answer(self, asked):
        text = []
        for worker, (_, message) in enumerate(asked):
            item = ("request", worker, message)
            self.core.item(item)
            text.append(request_text(worker, message))
        clock = ("clock", self.now())
        self.core.item(clock)
        text.append(item_bytes(clock))
        replies = self.turns(list(range(len(asked))), text)
        self.put(text)
        for worker, (number, _) in enumerate(asked):
            if not self.hub.fails():
                self.written[number] = replies[worker]

    def turns(self, waiting, text):
        replies = {}
        while waiting:
            text.append(turn_text(waiting))
            for worker in waiting:
                came = reply_in(self.core.item(("step", worker)))
                if came is not None:
                    replies[worker] = came
                    self.replies.append(came)
            waiting = [worker for worker in waiting if worker not in replies]
        return replies


def read_schedule(text):
    """The items that a text spells, or none."""
    head, *lines = text.split(b"\n", 1)
    if head != b"zope schedule 1" or not lines:
        return None
    rest, items = lines[0], []
    while rest != b"end\n":
        line, mark, rest = rest.partition(b"\n")
        words = line.split(b" ")
        if not mark or line.decode("latin-1") != line.decode("ascii", "replace"):
            return None
        if words[0] == b"request":
            size = int(words[2])
            items.append(("request", int(words[1]), rest[:size]))
            assert rest[size : size + 1] == b"\n"
            rest = rest[size + 1 :]
        elif words[0] == b"clock":
            items.append(("clock", int(words[1], 16)))
        elif words[0] == b"step" and words[1].isdigit():
            items.append(("step", int(words[1])))
        else:
            return None
    return items


def replayed(text, limit):
    """What a replay of a tape comes to: the replies to its requests, in their order, and the file; none where it has no end."""
    items = read_schedule(text)
    items = read_schedule(text + b"end\n") if items is None else items
    if items is None:
        return None
    run, workers, replies = Core(SITE, pages, limit), [], {}
    for item in items:
        if item[0] == "request":
            if item[1] in run.workers:
                return None
            workers.append(item[1])
        came = reply_in(run.item(item))
        if came is not None:
            replies[next(at for at, worker in enumerate(workers) if worker == item[1] and at not in replies)] = came
    run.end()
    return [replies[at] for at in sorted(replies)], run.disk.content


# ---- a case


class Case:
    def __init__(self, title, connections, plan=None, reads=4096, ticks=(), hub=(), clock=(), tape=(), disk=(), limit=100_000):
        self.title, self.connections, self.reads, self.ticks = title, connections, reads, ticks
        self.plan = plan or (8080, len(connections), 16)
        self.hub, self.clock, self.tape, self.disk, self.limit = hub, clock, tape, disk, limit
        self.server = Server(self)
        try:
            self.answer = "served {} {}".format(*self.server.serve())
        except Refused as refused:
            self.answer = f"refused {refused}"
        self.parts = self.given() + self.come()

    def given(self):
        parts = [("file", [site_text()])]
        if self.limit != 100_000:
            parts.append((f"limit {self.limit}", []))
        parts.append(("plan {} {} {}".format(*self.plan), []))
        if self.reads != 4096:
            parts.append((f"reads {self.reads}", []))
        parts += [("clock {} {}".format(*tick), []) for tick in self.ticks]
        parts += [(f"failing hub {n}", []) for n in self.hub]
        parts += [(f"failing clock {n}", []) for n in self.clock]
        for which, entries in (("tape", self.tape), ("disk", self.disk)):
            for number, stops, seed in entries:
                parts.append((f"{'stopping' if stops else 'failing'} {which} {number} {seed}", []))
        return parts + [("connection", [message_text(held)]) for held in self.connections]

    def come(self):
        server = self.server
        parts = [(self.answer, []), (f"port {server.port or 'none'}", []), (f"accepted {len(server.written)}", [])]
        parts += [("written shut", [reply_text(came)] if came else []) for came in server.written]
        tape, left = settled(server.tape), settled(server.core.disk)
        pieces, rest = fronted(tape, server.pieces)
        whole = self.answer.startswith("served")
        assert server.core.store.out is None and (pieces == server.pieces and not rest or not whole)
        self.check(left)
        parts.append(("left", file_text(left)))
        parts.append(("tape", pieces + [rest] if rest else pieces))
        if whole:
            parts.append(("kept whole", []))
        came = replayed(tape, self.limit)
        if came is None:
            return parts + [("replayed none", [])]
        replies, file = came
        same = b"".join(replies) == b"".join(server.written), file == left
        parts.append(("replayed {} {}".format(*("same" if is_same else "other" for is_same in same)), []))
        if not same[0]:
            parts.append(("replies", [reply_text(one) for one in replies]))
        return parts


    def check(self, left):
        """What was acknowledged stands in the file, whatever failed or stopped, and at most one transaction more."""
        tids = [tid for tid, _, _ in opening(Disk(left)).transactions[1:]]
        said = [int(came.split(b"commit ")[1][:16], 16) for came in self.server.replies if b"commit " in came]
        assert said == sorted(said) and set(said) <= set(tids), (self.title, said, tids)
        assert self.disk or len(tids) == len(said)


def fronted(content, pieces):
    """The first pieces of which bytes are made, and what stands behind these."""
    at = count = 0
    while count < len(pieces) and content[at:].startswith(bytes_of(pieces[count])):
        at, count = at + len(bytes_of(pieces[count])), count + 1
    return pieces[:count], content[at:]


def settled(disk):
    if disk.stopped:
        disk.after_stop()
    return disk.content


# ---- texts by name

NAMES = {PAGE: "page", HEAD: "page_by_head", ABSENT: "page_that_is_absent", EDITS[0]: "edit", LONG_EDIT: "long_edit", LONG_HEAD: "long_head"}
NAMES.update({message: f"edit_{n}" for n, message in enumerate(EDITS[1:], 1)})
NAMES.update({message: f"refused_{n}" for n, message in enumerate(REFUSED) if n})


def site_text():
    return Text("editable", SITE)


def message_text(held):
    return Text(NAMES[held], held) if held in NAMES else held


def request_text(worker, message):
    name = NAMES[message]
    return Text(f"{name}_to_{worker}", f"request {worker} {len(message)}\n".encode(), message_text(message), b"\n")


def turn_text(waiting):
    text = b"".join(b"step %d\n" % worker for worker in waiting)
    if len(waiting) < 2 or waiting != list(range(waiting[0], waiting[-1] + 1)):
        return Text("turn_" + "_".join(map(str, waiting)), text)
    return Text(f"turn_{waiting[0]}_to_{waiting[-1]}", text)


def reply_text(came):
    return Text("reply", came)


def file_text(content):
    """A file's parts: the site's, and each transaction behind it."""
    assert content[: len(SITE)] == SITE
    parts, at = [site_text()], len(SITE)
    while at < len(content):
        length = int.from_bytes(content[at + 8 : at + 16], "big")
        end = at + length + 8 if length < 1000 else len(content)
        parts.append(Text("transaction", content[at:end]))
        at = end
    return parts


# ---- files of cases


class Pieces:
    """What stands more than once has a name."""

    def __init__(self, cases, prefix):
        self.uses, self.names, self.prefix = {}, {}, prefix
        for case in cases:
            for _, value in case:
                for text in value:
                    self.count(text)

    def count(self, text):
        if isinstance(text, Text):
            self.uses[text] = self.uses.get(text, 0) + 1
            if self.uses[text] == 1:
                for part in text.parts:
                    self.count(part)

    def put(self):
        """Writes the pieces."""
        numbers = {}
        for text in sorted((text for text, uses in self.uses.items() if uses > 1), key=lambda text: len(text.parts)):
            name = text.name
            if name in ("reply", "transaction"):
                numbers[name] = numbers.get(name, 0) + 1
                name = f"{name}_{numbers[name]}"
            name = self.prefix + name
            assert name not in self.names.values()
            print(f"piece {name}")
            self.put_value(text.parts)
            print()
            self.names[text] = name

    def put_value(self, value):
        """Writes what a piece or a part holds."""
        at = 0
        while at < len(value):
            text, end = value[at], at
            while end < len(value) and value[end] == text:
                end += 1
            if isinstance(text, Text) and text in self.names:
                print(f"  use {self.names[text]}" if end - at == 1 else f"  repeat {end - at} {self.names[text]}")
            else:
                for one in value[at:end]:
                    self.put_value(one.parts) if isinstance(one, Text) else put_plain(one)
            at = end

    def put_case(self, title, parts):
        print(f"case {title}")
        for key, value in parts:
            print(key)
            self.put_value(value)
        print()


def put_plain(content):
    """Bytes as lines of a text or as digits; many of the same letter stand by their number."""
    for part in filter(None, re.split(b"(a{100,})", content)):
        if len(part) >= 100 and part == b"a" * len(part):
            print(f"  repeat {len(part)} letter")
        elif all(byte in b"\r\n" or 32 <= byte < 127 for byte in part):
            put_bytes(part)
        else:
            put_hex(part)


def put_cases(head, cases, prefix=""):
    print(f"# {head} `docs/served.py` has written these cases from the rules.\n")
    print("piece letter\n  | a\\\n")
    pieces = Pieces([parts for _, parts in cases], prefix)
    pieces.put()
    for title, parts in cases:
        pieces.put_case(title, parts)


def table(cases):
    return [(case.title, case.parts) for case in cases]


# ---- what is run


def minutes(count):
    """The first moments of so many minutes, from that of the site's file on."""
    return tuple((946684800 + 60 * n, 0) for n in range(count))


def rounds():
    crowd = [EDITS[n] if n in (0, 3, 8) else PAGE for n in range(17)]
    for clients in range(1, 17):
        yield Case(f"{clients} clients a round", crowd, (8080, 17, clients), ticks=minutes(-(-17 // clients)))
    yield Case("no connection", [], (1, 3, 16))
    yield Case("no connection is to be served", [PAGE], (65535, 0, 1))
    yield Case("fewer connections than are to be served", [PAGE, EDITS[0], PAGE], (80, 2**64 - 1, 2))
    yield Case("more connections than are to be served", [EDITS[0], PAGE, PAGE, EDITS[1]], (80, 3, 2))
    yield Case("a last round of those that are left", [PAGE] * 5, (80, 4, 3))
    for count in (2, 3, 4, 5, 6, 8, 12, 16):
        yield Case(f"{count} edits of one document at once", EDITS[1 : count + 1], ticks=minutes(1))
    yield Case("16 edits, 4 at once", EDITS[1:17], (8080, 16, 4), ticks=minutes(4))
    yield Case("an edit before 15 readers", EDITS[:1] + [PAGE] * 15 + [PAGE], (8080, 17, 16))
    yield Case("an edit behind 15 readers", [PAGE] * 15 + EDITS[:1] + [PAGE], (8080, 17, 16))
    yield Case("an edit among readers, of the page and of none", [PAGE, ABSENT, EDITS[0], HEAD, PAGE, HEAD, ABSENT], (8080, 7, 5))
    yield Case("16 readers", [PAGE] * 16)
    yield Case("a file that may not grow", [EDITS[0], PAGE, EDITS[0]], (8080, 3, 2), limit=len(SITE))
    yield Case("a file that may grow by one edit", [EDITS[0], EDITS[0], PAGE], (8080, 3, 1), limit=len(SITE) + 130)


def clocks():
    edits = EDITS[1:4]
    first = int((datetime.datetime(1900, 1, 1) - datetime.datetime(1970, 1, 1)).total_seconds())
    last = int((datetime.datetime(9917, 10, 24, 4, 15) - datetime.datetime(1970, 1, 1)).total_seconds())
    for title, ticks in (
        ("a clock that goes back", ((946684920, 0), (946684800, 0), (946684919, 999999999))),
        ("a clock that stands", ((946684860, 5),) * 3),
        ("a clock in a minute", ((946684830, 0), (946684830, 1), (946684859, 999999999))),
        ("a clock before 1970", ((-1, 0), (-946684800, 0), (0, 0))),
        ("a clock before 1900", ((first - 1, 999999999), (first, 0), (first + 60, 0))),
        ("a clock past all stamps", ((last - 60, 0), (last + 3600, 0), (2**63 - 1, 0))),
        ("a clock before all moments", ((-(2**63), 0), (-(2**62), 1), (946684860, 0))),
        ("a clock with one moment", ((946684860, 0),)),
    ):
        yield Case(title, edits, (8080, 3, 1), ticks=ticks)
    for failing in ((1,), (2,), (3,), (1, 3), (1, 2, 3)):
        yield Case(f"a clock that fails in round {' and '.join(map(str, failing))}", edits, (8080, 3, 1), ticks=minutes(3), clock=failing)


def messages():
    for name, message in (("a page", PAGE), ("an edit", EDITS[0])):
        fronts = [message[:n] for n in range(len(message))]
        yield Case(f"messages cut at every byte: {name}", fronts + [message])
        yield Case(f"messages cut at every byte, one a round: {name}", fronts + [message], (8080, len(message) + 1, 1))
    for size in range(1, len(EDITS[0]) + 2):
        yield Case(f"pieces of {size}", [EDITS[0], PAGE, EDITS[0][:-1]], (8080, 3, 2), reads=size)
    for n, message in enumerate(REFUSED):
        yield Case(f"a refused message, number {n}", [message])
        yield Case(f"a refused message and what follows it, number {n}", [message + PAGE, PAGE + message])
    yield Case("a body that comes in many pieces", [LONG_EDIT, PAGE], (8080, 2, 1), reads=1000)
    yield Case("a body that lacks one byte", [LONG_EDIT[:-1], LONG_EDIT], (8080, 2, 2))
    yield Case("a head that is no end and too short to be refused", [LONG_HEAD[:-1], LONG_HEAD + b"a", LONG_HEAD])
    short = [message for message in REFUSED if len(message) < 200]
    yield Case("refused messages in one round", short + [EDITS[0], PAGE])
    yield Case("refused messages in pieces of one byte", short[:3] + [PAGE], reads=1)
    for size in (1, 7, 19, 20, 4096):
        for title, held in (
            ("two pages", PAGE + PAGE), ("an edit and a page", EDITS[0] + PAGE), ("a page and an edit", PAGE + EDITS[0]),
            ("a page and a byte", PAGE + b"\0"), ("an edit and a part of another", EDITS[0] + EDITS[1][:40]),
        ):
            yield Case(f"{title} on one connection, in pieces of {size}", [held, PAGE], (8080, 2, 1), reads=size)


def hub_faults():
    connections = [EDITS[0], PAGE, PAGE[:-1], PAGE, EDITS[1]]
    plan = (8080, 6, 2)
    whole = Case("a hub that doesn't fail", connections, plan, reads=20, ticks=minutes(4))
    yield whole
    for call in range(1, whole.server.hub.calls + 1):
        yield Case(f"call {call} of the hub fails", connections, plan, reads=20, ticks=minutes(4), hub=(call,))
    for calls in ((3, 5), (4, 9), (8, 9), (2, 3)):
        yield Case(f"calls {calls[0]} and {calls[1]} of the hub fail", connections, plan, reads=20, ticks=minutes(4), hub=calls)
    yield Case("a hub that fails to listen, and no connection", [], (8080, 1, 1), hub=(1,))
    yield Case("a hub that fails to accept, and no connection", [], (8080, 1, 1), hub=(2,))


def tape_faults():
    connections, plan = [PAGE, EDITS[0], PAGE, EDITS[1], PAGE[:5]], (8080, 5, 2)
    whole = Case("a tape that doesn't fail", connections, plan)
    for word, stops in (("fails", False), ("stops it", True)):
        for call in range(1, whole.server.tape.calls + 1):
            for seed in (0, 1, 4):
                yield Case(f"call {call} of the tape {word}, seed {seed}", connections, plan, tape=((call, stops, seed),))
    yield Case("a tape that fails without a connection", [], (8080, 1, 1), tape=((2, False, 0),))


def disk_faults():
    connections, plan = [EDITS[1], PAGE, EDITS[2], PAGE], (8080, 4, 3)
    whole = Case("a disk that doesn't fail", connections, plan, ticks=minutes(2))
    yield whole
    calls = whole.server.core.disk.calls - whole.server.opening
    for word, stops in (("fails", False), ("stops it", True)):
        for call in range(1, calls + 1):
            seen = []
            for seed in (0, 1, 5):
                case = Case(f"call {call} of the disk {word}, seed {seed}", connections, plan, ticks=minutes(2), disk=((call, stops, seed),))
                # a read that fails leaves the same with each seed
                if case.come() not in seen:
                    seen.append(case.come())
                    yield case
    for first, second in ((5, 6), (6, 9), (7, 8), (8, 9), (5, 22)):
        arms = ((first, False, 1), (second, False, 0))
        yield Case(f"calls {first} and {second} of the disk fail", connections, plan, ticks=minutes(2), disk=arms)


# ---- the command


class Command:
    """A server by its words: the site's file, its tape, and what is printed."""

    def __init__(self, title, connections, plan, words=None, file=True, tape_there=False, opening=None, output=None, **failing):
        self.title, self.plan, self.connections = title, plan, connections
        self.words = words or "serve site.fs --port {} --connections {} --clients {} --record site.tape".format(*plan)
        self.file, self.tape_there, self.opening, self.output, self.failing = file, tape_there, opening, output, failing
        self.ticks = failing.pop("ticks", ())

    def case(self, limit=2**48 - 1):
        """The run behind the opening, whose calls of the disk count before it."""
        disk, tape, hub = (self.failing.get(kind) for kind in ("disk", "new", "hub"))
        calls = opening_calls()
        return Case("", self.connections, self.plan, ticks=self.ticks, hub=(hub,) if hub else (), clock=self.failing.get("clock", ()),
                    disk=((disk - calls, False, 0),) if disk and disk > calls else (), tape=((tape, False, 0),) if tape else (), limit=limit)

    def given(self):
        parts = [(f"words {self.words}", [])]
        if self.file:
            parts.append(("file site.fs", [site_text()]))
        if self.tape_there:
            parts.append(("file site.tape", [b"kept\n"]))
        parts += [("clock {} {}".format(*tick), []) for tick in self.ticks]
        if self.opening:
            parts.append((f"failing opening {self.opening}", []))
        if self.output:
            parts.append((f"failing output {self.output}", []))
        for kind in ("disk", "new", "hub"):
            if kind in self.failing:
                parts.append((f"failing {kind} {self.failing[kind]}", []))
        parts += [(f"failing clock {n}", []) for n in self.failing.get("clock", ())]
        return parts + [("connection", [message_text(held)]) for held in self.connections]

    def ended(self, status, line, site=True, tape=None, written=()):
        parts = [(f"status {status}", []), ("output", [line.encode() + b"\n"] if line else [])]
        if site:
            parts.append(("left site.fs", site if isinstance(site, list) else [site_text()]))
        if tape is not None:
            parts.append(("left site.tape", tape))
        return self.title, self.given() + parts + [("written", [reply_text(came)] if came else []) for came in written]

    def row(self):
        if not self.file:
            return self.ended(8, "missing site.fs", site=False)
        if self.opening == 1:
            return self.ended(5, "disk fault")
        if self.tape_there:
            return self.ended(11, "exists site.tape", tape=[b"kept\n"])
        if self.opening == 2:
            return self.ended(5, "disk fault")
        disk = self.failing.get("disk")
        if disk and disk <= opening_calls():
            return self.ended(5, "disk fault", tape=[])
        case = self.case()
        server = case.server
        tape, rest = fronted(server.tape.content, server.pieces)
        status, line = {"refused hub": (6, "input fault"), "refused tape": (5, "disk fault")}.get(case.answer, (0, case.answer))
        if self.output and not status:
            status, line = 6, ""
        return self.ended(status, line, file_text(server.core.disk.content), tape + [rest] if rest else tape, server.written)


def opening_calls():
    return Core(SITE, pages, 2**48 - 1).disk.calls


def commands():
    plan = (8080, 2, 2)
    pair = [EDITS[0], PAGE]
    yield Command("an edit and a page share a round, and both have their replies", pair, plan).row()
    yield Command("the same with a tape that fails at the round", pair, plan, new=2).row()
    yield Command("one client a round where none is said", pair, (8080, 2, 1), words="serve site.fs --port 8080 --connections 2 --record site.tape").row()
    yield Command("a read fails behind 10 bytes, and the next connection has its reply", [PAGE[:10], PAGE], (8080, 2, 1), hub=4).row()
    yield Command("a read fails at once, and the next connection has its reply", [EDITS[0], PAGE], (8080, 2, 1), hub=3).row()
    yield Command("no connection is to be served", [PAGE], (0, 0, 1)).row()
    yield Command("fewer connections come than are to be served", pair, (65535, 2**64 - 1, 16)).row()
    yield Command("moments of a clock, of which one fails", EDITS[1:4], (80, 3, 1), ticks=minutes(3), clock=(2,)).row()
    yield Command("words in another order, with signs of equality", pair, plan, words="serve --record=site.tape --clients=2 --connections=2 --port=8080 -- site.fs").row()
    yield Command("the file isn't there, and no record is made", pair, plan, file=False).row()
    yield Command("the record is there, and the file isn't touched", pair, plan, tape_there=True).row()
    yield Command("neither is the file there nor is the record missing", pair, plan, file=False, tape_there=True).row()
    yield Command("the record is the file itself", pair, plan, words="serve site.fs --port 1 --connections 1 --record site.fs").ended(11, "exists site.fs")
    yield Command("the shelf fails when the file is opened", pair, plan, opening=1).row()
    yield Command("the shelf fails when the record is made", pair, plan, opening=2).row()
    yield Command("the output fails", pair, plan, output=1).row()
    whole = Command("", pair, plan).case()
    for call in range(1, opening_calls() + whole.server.core.disk.calls - whole.server.opening + 1):
        yield Command(f"call {call} of the file's disk fails", pair, plan, disk=call).row()
    for call in range(1, whole.server.tape.calls + 1):
        yield Command(f"call {call} of the record's disk fails", pair, plan, new=call).row()
    for call in range(1, whole.server.hub.calls + 1):
        yield Command(f"call {call} of the hub fails", pair, plan, hub=call).row()


def served_words():
    """Words that are none of the program's; damage, and files that aren't sites' alone."""
    good = {"--port": "8080", "--connections": "1", "--clients": "1", "--record": "site.tape"}

    def words(**changes):
        options = {**good, **{f"--{key}": value for key, value in changes.items()}}
        return " ".join(["serve", "site.fs", *(f"{key} {value}" for key, value in options.items() if value is not None)])

    wrong = [
        words(port=None), words(connections=None), words(record=None), words(port="65536"), words(port="-1"), words(port="+80"), words(port="x"),
        words(connections=str(2**64)), words(connections="0" * 21), words(clients="0"), words(clients="17"), words(clients="1.5"), words(limit="5"),
        words() + " --port 80", words() + " more", "serve", "serve --port 80 --connections 1 --record site.tape",
    ]
    for text in wrong:
        yield Command(f"usage: {text}", [PAGE], (8080, 1, 1), words=text).ended(2, "usage")
    for text in (words(port="0", clients="16"), words(port="65535", connections=str(2**64 - 1)), words(port="00000000000000000080", clients="01"), words(clients=None)):
        command = Command(f"words: {text}", [PAGE], (8080, 1, 1), words=text)
        yield command.row()
    for title, damage, line in (("no Data.fs", b"not a file", "damaged 9 at 0"), ("a length that differs", SITE[:-1] + b"\x01", "damaged 7 at 4")):
        command = Command(f"a file with damage: {title}", [PAGE], (8080, 1, 1))
        name, parts = command.ended(3, line, site=[damage], tape=[])
        yield name, [(key, [damage]) if key == "file site.fs" else (key, value) for key, value in parts]


def differing():
    case = Case("", [EDITS[0], PAGE], ticks=minutes(1))
    given, came = len(case.given()), case.come()
    other = {"served": "served 2 1", "port": "port 80", "accepted": "accepted 1", "written": "written open", "kept": "kept 0", "replayed": "replayed same other"}
    for key in ("served", "port", "accepted", "written", "left", "tape", "kept", "replayed"):
        at = next(at for at, part in enumerate(came) if part[0].split()[0] == key)
        name, value = came[at]
        changed = (other[key], value) if key in other else (name, [*value[:-1], b"other\n"])
        yield f"another {key}", case.parts[:given] + [changed, ("differs", [])]
    yield "another text on a connection", case.parts[:given] + [("written shut", [reply_text(case.server.written[1])]), ("differs", [])]
    yield "other replies", case.parts[:given] + [("replies", [reply_text(came) for came in reversed(case.server.written)]), ("differs", [])]


def main(what):
    if what == "rounds":
        put_cases("Rounds of connections, of each size, and the clock of each round.", table([*rounds(), *clocks()]))
    elif what == "messages":
        put_cases("Messages that are cut, in pieces, refused, or followed by others.", table(messages()))
    elif what == "faults":
        put_cases("Calls of the hub, of the tape and of the site's disk that fail.", table([*hub_faults(), *tape_faults(), *disk_faults()]))
    elif what == "served":
        put_cases("A server by the command line: rows, words, what is looked at first, and each call that fails.", [*commands(), *served_words()], "served_")
    elif what == "differing":
        put_cases("What a case compares: each of these differs.", list(differing()))
    else:
        sys.exit(__doc__)


if __name__ == "__main__":
    main(*sys.argv[1:])
