#!/usr/bin/env python3
"""Carries out the commands that documents show, and compares what they print with what stands there.

    checks/documents.py [--write] [FILE ..]

A block ```sh is a piece of a shell's session, and the next block without a name, where it comes before another ```sh, is what it
prints, or the front of that where its last line is `..`. The session is in a new folder in which `zope` and `demo` are those of the
repository. A piece that begins with `./zope serve` goes on in the background until the next such, or until the document ends; port
8080 is another that is free. Ids of transactions differ from run to run: one may be any other, which stands for it from then on.
With --write what was printed is put into the document, to be read there. FILE is docs/FIRST_SITE.md and README.md where none is
given. Needs the built program (`./zope check` builds it) and `curl`.
"""

import os
import pathlib
import re
import signal
import subprocess
import sys
import tempfile

from served import HOME, free_port, listens, wait_for

PORT, MARK = "8080", "--- the piece ends here ---"
# the id of a transaction by a moment; ids of objects are small numbers
ID = re.compile(r"\b(?!0{8})[0-9a-f]{16}\b")
BLOCK = re.compile(r"^```(\w*)\n(.*?)^```\n", re.M | re.S)


def pieces_of(text):
    """The pieces of a document's session, each with the place of what it prints, where that is shown."""
    pieces = []
    for block in BLOCK.finditer(text):
        if block[1] == "sh":
            pieces.append([block[2], None])
        elif block[1] == "" and pieces and pieces[-1][1] is None:
            pieces[-1][1] = block.span(2)
    return [(piece, place) for piece, place in pieces if ".ci/run" not in piece]


class Session:
    """A shell in a folder of its own."""

    def __init__(self, folder):
        (folder / "demo").symlink_to(HOME / "demo")
        (folder / "zope").write_text(f'#!/bin/sh\nexec {HOME}/zope "$@"\n')
        (folder / "zope").chmod(0o755)
        self.port, self.servers = str(free_port()), []
        self.folder, self.ids = folder, {}
        self.shell = subprocess.Popen(["bash"], cwd=folder, stdin=subprocess.PIPE, stdout=subprocess.PIPE, stderr=subprocess.STDOUT, text=True)

    def prints(self, piece):
        """Carries out a piece, and gives what it prints."""
        piece = ID.sub(lambda found: self.ids.get(found[0], found[0]), piece).replace(PORT, self.port)
        if piece.startswith("./zope serve"):
            self.end_servers()
            words = ["bash", "-c", "exec " + piece]
            quiet = {"stdout": subprocess.DEVNULL, "stderr": subprocess.DEVNULL}
            self.servers.append(subprocess.Popen(words, cwd=self.folder, start_new_session=True, **quiet))
            wait_for(lambda: listens(int(self.port)))
            return ""
        self.shell.stdin.write(f"{piece}\necho '{MARK}'\n")
        self.shell.stdin.flush()
        printed = ""
        while not printed.endswith(MARK + "\n"):
            line = self.shell.stdout.readline()
            assert line, "the shell ended"
            printed += line
        # a last line that isn't ended is ended there
        printed = printed.removesuffix(MARK + "\n").replace(self.port, PORT)
        return printed if printed.endswith("\n") or not printed else printed + "\n"

    def end_servers(self):
        """Ends the servers as Ctrl-C does, which reaches the script and the program."""
        for server in self.servers:
            os.killpg(server.pid, signal.SIGINT)
            server.wait()
        self.servers = []
        wait_for(lambda: not listens(int(self.port)))

    def ends(self):
        self.end_servers()
        self.shell.stdin.close()
        self.shell.wait()

    def as_shown(self, shown, printed):
        """What was printed with the document's ids for its own, which are learnt from what is shown."""
        for ours, theirs in zip(ID.findall(shown), ID.findall(printed)):
            self.ids.setdefault(ours, theirs)
        known = {theirs: ours for ours, theirs in self.ids.items()}
        if shown.endswith("\n..\n"):
            printed = "".join(printed.splitlines(keepends=True)[: shown.count("\n") - 1]) + "..\n"
        return ID.sub(lambda found: known.get(found[0], found[0]), printed)


def look_at(file, writes):
    """Compares a document, and gives how many pieces it has and how many are shown otherwise."""
    text, wrong, made = file.read_text(), 0, []
    pieces = pieces_of(text)
    with tempfile.TemporaryDirectory() as folder:
        session = Session(pathlib.Path(folder))
        for piece, place in pieces:
            printed = session.prints(piece)
            if place is None:
                continue
            shown = text[place[0] : place[1]]
            printed = session.as_shown(shown, printed)
            made.append((place, printed))
            if printed != shown:
                wrong += 1
                print(f"{file.name}: {'new' if writes else 'WRONG'}\n{piece}  came\n{printed}  shown\n{shown}")
        session.ends()
    if writes:
        for (start, end), printed in reversed(made):
            text = text[:start] + printed + text[end:]
        file.write_text(text)
    return len(pieces), wrong


def main():
    words = [word for word in sys.argv[1:] if word != "--write"]
    files = [pathlib.Path(word) for word in words] or [HOME / "docs" / "FIRST_SITE.md", HOME / "README.md"]
    wrong = 0
    for file in files:
        count, differ = look_at(file, "--write" in sys.argv)
        wrong += differ
        print(f"documents: {file.name} has {count} pieces of a session, {differ} shown otherwise than they come out")
    return 1 if wrong else 0


if __name__ == "__main__":
    sys.exit(main())
