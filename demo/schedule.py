#!/usr/bin/env python3
"""Makes a schedule from lines that a person can write.

    demo/schedule.py [FILE] < LINES > SCHEDULE

LINES has one of these in a line; empty lines and lines that begin with # mean nothing. W is a worker, 0 to 15.

    W GET PATH [as NAME:PASSWORD] [FIELD=VALUE ..]     a request; HEAD and POST likewise; FIELD@FILE has the text of a file,
                        whose path begins in demo/ where it isn't absolute
    W step [COUNT]      so many steps of the worker, one where no count is given
    run W [FACTS]       as many steps as the worker needs for its reply: FACTS + 2 where the request reads, and FACTS + 4
                        where it is a call; without FACTS these are counted by a replay over FILE
    lines NAME          the lines of demo/NAME.lines
    clock HEX           the stamp of the votes behind it, 16 digits
    stop CALL SEED      the machine stops at that device call
    fail CALL SEED      that device call fails

PATH stands as it is sent. A VALUE may stand in quotes, in which \\n is a new line and \\\\ a backslash. Fields go into the query,
and of a POST into its body. Lengths are counted, line ends written. `run` steps that worker alone: where another's vote is
out, it has to be stepped first.
"""

import base64
import pathlib
import re
import shlex
import subprocess
import sys
import urllib.parse

from report import lines_of

HERE = pathlib.Path(__file__).resolve().parent
ZOPE = HERE.parent / "zope"
WORKERS = 16
# a request has its reply after so many steps at most, waits for votes aside
MOST_STEPS = 48_020


class Fault(Exception):
    """Why lines are no schedule."""


def number(text, least=0, most=2**64 - 1):
    """A number in digits within its bounds, without leading zeros."""
    if not re.fullmatch(r"0|[1-9][0-9]*", text) or not least <= int(text) <= most:
        raise Fault(f"{text} is no number from {least} to {most}")
    return int(text)


def worker(text):
    return number(text, 0, WORKERS - 1)


def value(text):
    """A field's value, with its escapes read."""
    return re.sub(r"\\([n\\])", lambda found: "\n" if found[1] == "n" else "\\", text)


def text_of(file):
    try:
        return (HERE / file).read_text(encoding="utf-8")
    except (OSError, ValueError) as error:
        raise Fault(f"{file} can't be read: {error}") from None


def field(word):
    """A field's name and value."""
    found = re.match(r"([^=@]*)([=@])", word)
    if not found:
        raise Fault("a field has the form FIELD=VALUE or FIELD@FILE")
    rest = word[found.end() :]
    return found[1], value(rest) if found[2] == "=" else text_of(rest)


def fields(words):
    """The fields of a form as they are sent."""
    return urllib.parse.urlencode([field(word) for word in words])


def message(method, path, words):
    """One message of HTTP, with its form and its credentials."""
    headers = ["Host: localhost"]
    if words[:1] == ["as"]:
        if len(words) < 2 or ":" not in words[1]:
            raise Fault("behind `as` stands NAME:PASSWORD")
        headers.append("Authorization: Basic " + base64.b64encode(words[1].encode()).decode())
        words = words[2:]
    form = fields(words)
    if form and method == "POST":
        headers += ["Content-Type: application/x-www-form-urlencoded", f"Content-Length: {len(form)}"]
    elif form:
        path, form = path + ("&" if "?" in path else "?") + form, ""
    lines = [f"{method} {path} HTTP/1.1", *headers, "", form]
    return "\r\n".join(lines).encode()


def is_call(path):
    """Whether the last segment of a path may name a call that writes."""
    return path.partition("?")[0].rstrip("/").rpartition("/")[2].startswith(("manage_", "userFolderAddUser"))


def lines_named(name):
    """The lines of that name, which have no lines of others in them."""
    if not re.fullmatch(r"[a-z_]+", name) or not (HERE / f"{name}.lines").exists():
        raise Fault(f"there are no lines {name}")
    text = (HERE / f"{name}.lines").read_text()
    if any(line.split()[:1] == ["lines"] for line in text.splitlines()):
        raise Fault(f"the lines {name} have others in them")
    return text


class Schedule:
    """The items so far, and what each worker was given last."""

    def __init__(self, file=None, program=ZOPE):
        self.items, self.paths, self.file, self.program = [], {}, file, program

    def text(self, more=()):
        return b"zope schedule 1\n" + b"".join([*self.items, *more]) + b"end\n"

    def idle_steps(self, name, more=()):
        """How many steps of that worker meet no request, in a replay of the items and more."""
        words = [str(self.program), "replay", self.file]
        ran = subprocess.run(words, input=self.text(more), stdout=subprocess.PIPE, check=False)
        lines = [words for words, _ in lines_of(ran.stdout)]
        if ran.returncode:
            raise Fault(f"the replay ended with {' '.join(lines[-1]) if lines else 'no line'}")
        return lines.count(["idle", str(name)])

    def steps_needed(self, name):
        """How many steps the worker takes up to its reply, found by a replay with more and more of them."""
        if self.file is None:
            raise Fault("`run` without a number of facts needs FILE, over which they are counted")
        before, steps = self.idle_steps(name), 64
        while True:
            idle = self.idle_steps(name, [f"step {name}\n".encode()] * steps) - before
            if idle > 0:
                return steps - idle
            if steps > MOST_STEPS:
                raise Fault(f"worker {name} has no reply after {steps} steps: it waits for a vote that is out")
            steps *= 4

    def step(self, name, count):
        self.items += [f"step {name}\n".encode()] * count

    def run(self, name, facts=None):
        if name not in self.paths:
            raise Fault(f"worker {name} has no request")
        if facts is None:
            self.step(name, self.steps_needed(name))
        else:
            self.step(name, facts + (4 if is_call(self.paths[name]) else 2))

    def request(self, name, method, path, words):
        sent = message(method, path, words)
        self.paths[name] = path
        self.items.append(f"request {name} {len(sent)}\n".encode() + sent + b"\n")

    def line(self, words):
        """Takes one line."""
        match words:
            case [name, "GET" | "HEAD" | "POST" as method, path, *rest]:
                self.request(worker(name), method, path, rest)
            case [name, "step"]:
                self.step(worker(name), 1)
            case [name, "step", count]:
                self.step(worker(name), number(count, 1))
            case ["run", name]:
                self.run(worker(name))
            case ["run", name, facts]:
                self.run(worker(name), number(facts))
            case ["lines", name]:
                self.lines(lines_named(name))
            case ["clock", stamp] if re.fullmatch(r"[0-9a-f]{16}", stamp):
                self.items.append(f"clock {stamp}\n".encode())
            case ["stop" | "fail" as word, call, seed]:
                self.items.append(f"{word} {number(call, 1)} {number(seed)}\n".encode())
            case _:
                raise Fault("this is none of the lines that there are")


    def lines(self, text):
        """Takes the lines of a text."""
        for at, line in enumerate(text.splitlines(), 1):
            if not line.strip() or line.lstrip().startswith("#"):
                continue
            try:
                self.line(shlex.split(line))
            except (Fault, ValueError) as fault:
                raise Fault(f"line {at}: {fault}") from None


def schedule_of(text, file=None, program=ZOPE):
    """The schedule that lines are."""
    schedule = Schedule(file, program)
    schedule.lines(text)
    return schedule.text()


def main():
    if len(sys.argv) > 2 or sys.argv[1:2] in (["-h"], ["--help"]):
        print(__doc__, file=sys.stderr)
        return 2
    try:
        sys.stdout.buffer.write(schedule_of(sys.stdin.read(), *sys.argv[1:]))
    except Fault as fault:
        print(f"schedule.py: {fault}", file=sys.stderr)
        return 1
    return 0


if __name__ == "__main__":
    sys.exit(main())
