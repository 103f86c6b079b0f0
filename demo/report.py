"""Reads the text of a report, as docs/FORMATS.md has it ("Reports")."""


def lines_of(report):
    """Each line of a report as its words, with the bytes of the reply behind a `reply` line, and none behind any other."""
    at = 0
    while at < len(report):
        end = report.find(b"\n", at)
        if end < 0:
            end = len(report)
        words = report[at:end].decode("utf-8", "replace").split(" ")
        at = end + 1
        reply = None
        if words[0] == "reply" and words[-1].isdigit():
            length = int(words[-1])
            reply = report[at : at + length]
            at += length + 1
        yield words, reply
