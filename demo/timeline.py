#!/usr/bin/env python3
"""Shows a report as a picture: one HTML page that stands alone.

    demo/timeline.py REPORT > PAGE.html

Time goes down. Each worker has a lane, in which its attempts stand with their snapshots, what they fetched, waits, votes,
conflicts and the reply, which opens by a click. Stops and restarts go across all lanes. Below stands the history, with what
each transaction wrote. REPORT is what `zope replay` printed, or `zope dump`; - is standard input.
"""

import collections
import html
import pathlib
import sys

from report import lines_of

STYLE = """
body { font: 13px/1.45 system-ui, sans-serif; margin: 1.5em; color: #1b1f24; background: #fff }
h1 { font-size: 1.3em; margin: 0 0 .3em } h2 { font-size: 1.1em; margin: 1.6em 0 .4em }
table { border-collapse: separate; border-spacing: 3px 0; table-layout: fixed }
th { position: sticky; top: 0; background: #fff; text-align: left; padding: .3em .4em; border-bottom: 2px solid #888; z-index: 1 }
td { padding: .05em .4em; vertical-align: top; overflow-wrap: anywhere }
col.n { width: 3.6em } col.w { width: 19.5em } td.n { color: #999; text-align: right; font-size: 11px; white-space: nowrap; overflow-wrap: normal }
td.a { background: #e8f0fb } td.b { background: #dbe6d2 } td.c { background: #f5e9c9 } td.d { background: #f3d9d0 } td.v { background: #c3d9f7 }
td.top { border-top: 2px solid #2f6fb5; border-radius: 5px 5px 0 0 } td.end { border-radius: 0 0 5px 5px }
.wait { color: #8a5a00 } .bad { color: #b3261e; font-weight: 600 } .vote { color: #0b4f9e; font-weight: 600 } .dim { color: #777 }
tr.band td { text-align: center; font-weight: 600; padding: .3em; border-radius: 4px }
tr.band a { color: inherit } tr.band.stop td { background: #b3261e; color: #fff } tr.band.on td { background: #2e7d32; color: #fff } tr.band.say td { background: #eee }
b.s2 { background: #2e7d32 } b.s4 { background: #b26a00 } b.s5 { background: #b3261e }
summary b { color: #fff; border-radius: 3px; padding: 0 .4em } summary { cursor: pointer }
pre { font-size: 11px; white-space: pre-wrap; max-height: 22em; overflow: auto; margin: .2em 0; background: #fafafa; padding: .4em }
code, .id { font: 12px ui-monospace, monospace } #history { table-layout: auto } #history td, #history th { padding: .25em .8em .25em 0; border-bottom: 1px solid #ddd }
#history td { overflow-wrap: break-word; max-width: 34em }
tr:target td { background: #fff3b0 }
"""
SHADES = "abcd"
KINDS = {b"F": "folder", b"M": "method", b"D": "document", b"U": "user folder"}
SHOWN_BYTES = 4_000


def short(hexadecimal):
    """An object's id without its leading zeros."""
    return hexadecimal.lstrip("0") or "0"


def link(tid):
    return f'<a class="id" href="#t{html.escape(tid)}">{html.escape(tid)}</a>'


def transactions(count):
    return f"{html.escape(count)} transaction{'' if count == '1' else 's'}"


def text(words):
    return html.escape(" ".join(words))


class Row:
    """A line of the picture: in the lane of a worker, or across all lanes. `states` has the shades of all lanes beside it."""

    def __init__(self, number, kind, content, worker=None, states=(), band=""):
        self.number, self.kind, self.content, self.worker = number, kind, content, worker
        self.states, self.band, self.count, self.edge = dict(states), band, 1, ""
        self.idles = collections.Counter()  # how often each worker was stepped without a request


class Picture:
    """What a report comes to: rows, the transactions of its history, and what is counted."""

    def __init__(self):
        self.rows, self.transactions, self.counts = [], [], collections.Counter()
        self.states, self.attempts, self.workers, self.floor = {}, {}, set(), None

    def put(self, number, kind, content, worker=None, band=""):
        self.rows.append(Row(number, kind, content, worker, self.states, band))
        if worker is not None:
            self.workers.add(worker)
        return self.rows[-1]

    def again(self, kind, worker):
        """The last row, where it is of the same kind and lane, so that a further line joins it."""
        last = self.rows[-1] if self.rows else None
        return last if last and last.kind == kind and last.worker == worker else None

    def begin(self, number, worker, tid):
        attempt = self.attempts.get(worker, 0)
        self.attempts[worker] = attempt + 1
        self.states[worker] = SHADES[min(attempt, 3)]
        which = f" <b>attempt {attempt + 1}</b>" if attempt else ""
        self.put(number, "begin", f"begins at {link(tid)}{which}", worker).edge = " top"
        self.counts["attempt"] += 1

    def fetch(self, number, worker, what):
        name = short(what[1]) if what[0] == "object" else " ".join(what)
        row = self.again("fetch", worker)
        if row:
            row.content += f", <code>{html.escape(name)}</code>"
        else:
            self.put(number, "fetch", f"fetches <code>{html.escape(name)}</code>", worker)
        self.counts["fact"] += 1

    def repeated(self, number, worker, kind, content):
        row = self.again(kind, worker)
        if row:
            row.count += 1
        else:
            self.put(number, kind, content, worker)

    def reply(self, number, worker, words, sent):
        status = sent.split(b" ", 2)[1].decode("ascii", "replace") if sent.count(b" ") > 1 else "?"
        mark = f"{words[0]} {link(words[1])}" if len(words) > 2 else html.escape(words[0])
        shown = html.escape(sent[:SHOWN_BYTES].decode("utf-8", "replace").replace("\r\n", "\n"))
        more = f"\n.. {len(sent)} bytes" if len(sent) > SHOWN_BYTES else ""
        badge = f'<b class="s{html.escape(status[:1])}">{html.escape(status)}</b>'
        self.put(number, "reply", f"<details><summary>{badge} {mark}</summary><pre>{shown}{more}</pre>%s</details>", worker).edge = " end"
        self.counts[f"reply {status}"] += 1
        self.leave(worker)

    def leave(self, worker):
        self.states.pop(worker, None)
        self.attempts.pop(worker, None)

    def behind_reply(self, worker, what):
        """A `shown` or `denied` line joins the reply that it stands behind."""
        row = next((row for row in reversed(self.rows) if row.kind == "reply" and row.worker == worker), None)
        if row:
            row.content = row.content.replace("%s</details>", f"<div>{what}</div>%s</details>")

    def line(self, number, words, sent):
        """Takes a line of the report."""
        match words:
            case ["begin", worker, tid]:
                self.begin(number, worker, tid)
            case ["fetch", worker, *what]:
                self.fetch(number, worker, what)
            case ["computed", worker]:
                self.put(number, "computed", "has a change", worker)
            case ["busy", worker, holder]:
                self.repeated(number, worker, "busy", f'<span class="wait">waits for the vote of {html.escape(holder)}</span>')
                self.counts["wait"] += 1
            case ["vote", worker, tid]:
                self.states[worker] = "v"
                self.put(number, "vote", f'<span class="vote">votes</span> {link(tid)}', worker)
            case ["conflict", worker, oid, seen, found]:
                content = f'<span class="bad">conflict</span> over <code>{short(oid)}</code>: read {link(seen)}, now {link(found)}'
                self.put(number, "conflict", content, worker).edge = " end"
                self.counts["conflict"] += 1
            case ["idle", worker]:
                row = self.again("idle", None) or self.put(number, "idle", '<span class="dim">no request</span>')
                row.idles[worker] += 1
                self.workers.add(worker)
            case ["reply", worker, *more] if sent is not None:
                self.reply(number, worker, more, sent)
            case ["shown" | "denied" as word, worker, oid, *more]:
                self.behind_reply(worker, f"{word} <code>{short(oid)}</code> {text(more)}")
            case ["lost", worker]:
                self.put(number, "lost", '<span class="bad">cut off</span>', worker).edge = " end"
                self.leave(worker)
                self.counts["request cut off"] += 1
            case ["spent" | "givenup" | "diskfault" | "memory" | "unknown" as word, worker, *more]:
                self.put(number, word, f'<span class="bad">{word}</span> {text(more)}', worker)
            case _:
                self.across(number, words)

    def across(self, number, words):
        """Takes a line that is no worker's."""
        match words:
            case ["zope", "report", _] | ["end"] | ["history", _]:
                pass
            case ["floor", tid]:
                self.floor = tid
            case ["open", tid, count]:
                self.put(number, "band", f"opened at {link(tid)}, {transactions(count)}", band="say")
            case ["stop"] | ["openfault"]:
                self.put(number, "band", "stop" if words == ["stop"] else "the opening failed", band="stop")
                self.counts["stop" if words == ["stop"] else "failed opening"] += 1
            case ["restart", tid, count]:
                self.put(number, "band", f"opened again at {link(tid)}, {transactions(count)}", band="on")
            case ["transaction", tid, user, description, _, _]:
                self.transactions.append((tid, unhex(user), unhex(description), []))
            case ["record", oid, value] if self.transactions:
                self.transactions[-1][3].append((oid, None if value == "none" else bytes.fromhex(value)))
            case _:
                self.put(number, "band", text(words), band="say")


def unhex(word):
    return "" if word == "-" else bytes.fromhex(word).decode("utf-8", "replace")


def piece(value, at):
    """The text whose length stands at a place, and the place behind it."""
    length = int.from_bytes(value[at : at + 2], "big")
    return value[at + 2 : at + 2 + length].decode("utf-8", "replace"), at + 2 + length


def written(oid, value):
    """What a record wrote: an object's kind, name and title where it is one, and how many bytes."""
    if value is None:
        return f"<code>{short(oid)}</code> none"
    told = f"{len(value)} bytes"
    if value[:2] in (b"Z1", b"Z2") and value[2:3] in KINDS:
        name, at = piece(value, 3)
        title, _ = piece(value, at + 8)
        told = f"{KINDS[value[2:3]]} <b>{html.escape(name or '/')}</b>{' ‘' + html.escape(title) + '’' if title else ''}, {told}"
    return f"<code>{short(oid)}</code> {told}"


def lanes(picture):
    """The table of the lanes, line by line."""
    workers = sorted(picture.workers, key=lambda name: (len(name), name))
    yield '<table><colgroup><col class="n">' + '<col class="w">' * len(workers) + "</colgroup><thead><tr><th></th>"
    yield "".join(f"<th>worker {html.escape(name)}</th>" for name in workers) + "</tr></thead><tbody>"
    for row in picture.rows:
        number = f'<td class="n">{row.number}</td>'
        if row.band:
            yield f'<tr class="band {row.band}">{number}<td colspan="{max(1, len(workers))}">{row.content}</td></tr>'
            continue
        cells = []
        for name in workers:
            content = row.content.replace("%s</details>", "</details>") if name == row.worker or row.idles[name] else ""
            count = row.idles[name] or row.count
            times = f" ({count} times)" if content and count > 1 else ""
            edge = row.edge if content else ""
            cells.append(f'<td class="{row.states.get(name, "")}{edge}">{content}{times}</td>')
        yield f"<tr>{number}{''.join(cells)}</tr>"
    yield "</tbody></table>"


def history(picture):
    """The table of the history, line by line."""
    floor = f", packed up to {html.escape(picture.floor)}" if picture.floor else ""
    yield f"<h2>History: {transactions(str(len(picture.transactions)))}{floor}</h2>"
    yield '<table id="history"><thead><tr><th>transaction</th><th>user</th><th>description</th><th>wrote</th></tr></thead><tbody>'
    for tid, user, description, records in picture.transactions:
        wrote = "<br>".join(written(oid, value) for oid, value in records)
        name = html.escape(tid)
        yield f'<tr id="t{name}"><td class="id">{name}</td><td>{html.escape(user)}</td><td>{html.escape(description)}</td><td>{wrote}</td></tr>'
    yield "</tbody></table>"


def page(report):
    """The page of a report."""
    picture = Picture()
    for number, (words, sent) in enumerate(lines_of(report), 1):
        picture.line(number, words, sent)
    counted = ", ".join(f"{what}: {count}" for what, count in sorted(picture.counts.items())) or "no step"
    head = f'<!doctype html><html lang="en"><head><meta charset="utf-8"><title>Report</title><style>{STYLE}</style></head><body>'
    parts = [head, f"<h1>Report</h1><p>{html.escape(counted)}</p>", *lanes(picture), *history(picture), "</body></html>"]
    return "\n".join(parts) + "\n"


def main():
    if len(sys.argv) != 2 or sys.argv[1] in ("-h", "--help"):
        print(__doc__, file=sys.stderr)
        return 2
    report = sys.stdin.buffer.read() if sys.argv[1] == "-" else pathlib.Path(sys.argv[1]).read_bytes()
    sys.stdout.buffer.write(page(report).encode())
    return 0


if __name__ == "__main__":
    sys.exit(main())
