#!/usr/bin/env python3
"""Tests demo/schedule.py, and that it makes the schedules of the demonstrations. Prints what was run.

    demo/check_schedule.py

What lines must come to is written here by docs/FORMATS.md. How many steps `run` finds is compared over a stand-in of the
program, which answers a request for /N after N facts; and over the program itself where it is built.
"""

import os
import pathlib
import subprocess
import sys
import tempfile

from report import lines_of
from schedule import Fault, schedule_of

HERE = pathlib.Path(__file__).resolve().parent
PROGRAM = HERE.parent / "crates" / "zope_main" / "out" / "zope_main"

# title, lines, and the items between the first line and the last
MADE = [
    ("no line", "\n  \n# nothing\n", ""),
    ("a page", "0 GET /", "request 0 35\nGET / HTTP/1.1\r\nHost: localhost\r\n\r\n\n"),
    ("the last worker", "15 HEAD /a", "request 15 37\nHEAD /a HTTP/1.1\r\nHost: localhost\r\n\r\n\n"),
    ("steps", "0 step\n3 step 2", "step 0\nstep 3\nstep 3\n"),
    ("what isn't a request", "clock 0331620000000000\nstop 4 1\nfail 1 0", "clock 0331620000000000\nstop 4 1\nfail 1 0\n"),
    (
        "credentials, of the user `a` with the password `b c`",
        "0 GET / as 'a:b c'",
        "request 0 66\nGET / HTTP/1.1\r\nHost: localhost\r\nAuthorization: Basic YTpiIGM=\r\n\r\n\n",
    ),
    (
        "fields of a query",
        "0 GET /a x=1 'y=a&b'\n0 GET /a?z=2 x=1",
        "request 0 48\nGET /a?x=1&y=a%26b HTTP/1.1\r\nHost: localhost\r\n\r\n\n"
        "request 0 44\nGET /a?z=2&x=1 HTTP/1.1\r\nHost: localhost\r\n\r\n\n",
    ),
    (
        "fields of a body, with an end of line, a backslash and a letter of two bytes",
        r"0 POST /a data='<b>\n\\n' title=é",
        "request 0 138\nPOST /a HTTP/1.1\r\nHost: localhost\r\nContent-Type: application/x-www-form-urlencoded\r\n"
        "Content-Length: 32\r\n\r\ndata=%3Cb%3E%0A%5Cn&title=%C3%A9\n",
    ),
    (
        "a field that has the text of a file",
        "0 GET / a@board/footer.dtml",
        "request 0 143\nGET /?a=%3Cp%3EYou+are+%3Cdtml-var+AUTHENTICATED_USER+html_quote%3E.%3C%2Fp%3E%0A%3C%2Fbody%3E%0A%3C%2Fhtml%3E%0A"
        " HTTP/1.1\r\nHost: localhost\r\n\r\n\n",
    ),
    ("as many steps as a page of three facts needs", "1 GET /a\nrun 1 3", "request 1 36\nGET /a HTTP/1.1\r\nHost: localhost\r\n\r\n\n" + 5 * "step 1\n"),
    (
        "as many steps as a call that asks for one fact needs",
        "1 POST /manage_edit\nrun 1 1",
        "request 1 47\nPOST /manage_edit HTTP/1.1\r\nHost: localhost\r\n\r\n\n" + 5 * "step 1\n",
    ),
    ("steps found over a file, behind another's", "0 GET /2\n0 step\n1 GET /70\nrun 1\nrun 0", None),
]

# title, lines, and a piece of what is told
REFUSED = [
    ("a worker that there isn't", "16 GET /", "line 1: 16 is no number from 0 to 15"),
    ("a leading zero", "\n00 step", "line 2: 00"),
    ("no steps", "0 step 0", "line 1: 0 is no number from 1"),
    ("a seed past 64 bits", "stop 1 18446744073709551616", "line 1: 18446744073709551616"),
    ("a stamp of three digits", "clock 123", "line 1: this is none"),
    ("another method", "0 PUT /", "line 1: this is none"),
    ("a field without a value", "0 GET / a", "line 1: a field has the form"),
    ("a file that there isn't", "0 GET / a@none", "line 1: none can't be read"),
    ("credentials without a password", "0 GET / as a", "line 1: behind `as`"),
    ("an open quote", "0 GET / 'a", "line 1: "),
    ("a run of no request", "run 0 1", "line 1: worker 0 has no request"),
    ("lines that there aren't", "0 step\nlines none", "line 2: there are no lines none"),
    ("lines of another folder", "lines ../site", "line 1: there are no lines ../site"),
    ("lines that have others in them", "lines pages", "line 1: the lines pages have others in them"),
    ("a run over no file", "0 GET /\nrun 0", "line 2: `run` without a number of facts needs FILE"),
]

STAND_IN = r"""#!/usr/bin/env python3
import re, sys
data, left = sys.stdin.buffer.read(), {}
at = data.index(b"\n") + 1
while not data.startswith(b"end\n", at):
    word, name, *more = data[at : data.index(b"\n", at)].decode().split()
    at = data.index(b"\n", at) + 1
    if word == "request":
        left[name] = int(re.match(rb"GET /(\d+)", data[at:])[1]) + 2
        at += int(more[0]) + 1
    elif left.get(name, 0) == 0:
        print("idle", name)
    else:
        left[name] -= 1
        # the bytes of a reply may look like a line
        print("fetch", name, "log") if left[name] else print("reply", name, "none 7\n\nidle " + name)
"""


def told(lines, *more):
    """What lines come to: a schedule, or what is told of them."""
    try:
        return schedule_of(lines, *more)
    except Fault as fault:
        return str(fault)


def made_over_stand_in(folder, lines):
    """A schedule whose steps are counted over the stand-in, and the one that must come."""
    program = pathlib.Path(folder) / "stand-in"
    program.write_text(STAND_IN)
    program.chmod(0o755)
    wanted = ["request 0 36\nGET /2 HTTP/1.1\r\nHost: localhost\r\n\r\n\nstep 0\n", "request 1 37\nGET /70 HTTP/1.1\r\nHost: localhost\r\n\r\n\n"]
    return told(lines, "file", program), wanted[0] + wanted[1] + 72 * "step 1\n" + 3 * "step 0\n"


def new_site(folder):
    """The file of every demonstration."""
    file = os.path.join(folder, "site.fs")
    subprocess.run([PROGRAM, "init", file, "admin", "secret"], check=True, stdout=subprocess.DEVNULL)
    return file


def refusals_in(schedule, file):
    """The replies of a run that aren't a page or what a call did, and what else ended a request."""
    ran = subprocess.run([PROGRAM, "replay", file], input=schedule, stdout=subprocess.PIPE, check=True)
    return [words for words, reply in lines_of(ran.stdout) if words[0] == "reply" and not reply.startswith(b"HTTP/1.1 200")]


def main():
    wrong = 0

    def look(title, came, wanted):
        nonlocal wrong
        wrong += came != wanted
        print(f"{'right' if came == wanted else 'WRONG'}  {title}")
        if came != wanted:
            print(f"  came   {came!r}\n  wanted {wanted!r}")

    with tempfile.TemporaryDirectory() as folder:
        for title, lines, items in MADE:
            came, items = made_over_stand_in(folder, lines) if items is None else (told(lines), items)
            look(title, came, b"zope schedule 1\n" + items.encode() + b"end\n")
        for title, lines, piece in REFUSED:
            came = told(lines)
            look(title, came if isinstance(came, bytes) or piece not in came else piece, piece)
        if os.access(PROGRAM, os.X_OK):
            site = new_site(folder)
            for path in sorted(HERE.glob("*.lines")):
                came = told(path.read_text(), site, PROGRAM)
                look(f"demo/{path.name} over the program", came, path.with_suffix(".schedule").read_bytes())
            look("demo/site.lines: every call does what it says", refusals_in((HERE / "site.schedule").read_bytes(), site), [])
    if not os.access(PROGRAM, os.X_OK):
        print("the program isn't built, so that the demonstrations weren't made anew")
    print(f"schedule.py: {wrong} wrong")
    return 1 if wrong else 0


if __name__ == "__main__":
    sys.exit(main())
