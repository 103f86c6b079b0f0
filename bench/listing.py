#!/usr/bin/env python3
"""Replays pages that list the documents of a folder, of ten times as many and of a form that is sent along, beside Jinja2.

    bench/listing.py [--rounds N]

A folder of the root has so many documents, each with a title. Methods of the root list them: by name, by a name in quotes, behind
an `if` on the same name, and with a method that is rendered inside each. A page that meets n objects is evaluated n + 1 times, so
what it costs tells whether it goes on where it stopped. Each cost is seconds of the processor, without those of a run that has no
request: the middle one of N rounds (7) over all runs, in each of which Jinja2 makes its pages too; the replay's own lines for each
fetch are part of it. Needs the built program (`./zope check` builds it) and Python's jinja2.
"""

import argparse
import pathlib
import statistics
import tempfile
import time

import jinja2

from pages import folder, page
from replay import Writer, build, processor_seconds

TITLE = b"<p><dtml-var title></p>\n"
METHODS = {
    b"by_name": b"<dtml-in objectValues>" + TITLE + b"</dtml-in>",
    b"in_quotes": b'<dtml-in "objectValues">' + TITLE + b"</dtml-in>",
    b"behind_if": b"<dtml-if objectValues><dtml-in objectValues>" + TITLE + b"</dtml-in></dtml-if>",
    b"with_rows": b"<dtml-in objectValues><dtml-var row></dtml-in>",
    b"row": TITLE,
}
JINJA = "{% for document in documents %}<p>{{ document.title }}</p>\n{% endfor %}"
FIRST = 10


def write_site(path, sizes):
    """A root with the methods, and a folder for each number of documents."""
    objects, root, oid = [], [], FIRST
    for number, (name, source) in enumerate(METHODS.items(), 1):
        objects.append((number, page(b"M", name, 0, source)))
        root.append((name, number))
    for size in sizes:
        at, children = oid, []
        oid += 1
        for number in range(size):
            name = b"document%05d" % number
            objects.append((oid, page(b"D", name, at, b"", (), b"Title of %d" % number)))
            children.append((name, oid))
            oid += 1
        objects.append((at, folder(b"of%d" % size, 0, children)))
        root.append((b"of%d" % size, at))
    objects.append((0, folder(b"", 0, root)))
    with open(path, "wb") as out:
        Writer(out).transaction(0x0331620000000000, b"", b"init", sorted(objects))


def schedule(requests):
    """Each request with the steps that it takes: two more than the objects that it asks for."""
    lines = [b"zope schedule 1\n"]
    for message, asks in requests:
        lines.append(b"request 0 %d\n%s\n" % (len(message), message) + b"step 0\n" * (asks + 2))
    lines.append(b"end\n")
    return b"".join(lines)


def listing(method, size, form=b""):
    """A request, and how many objects its page asks for: the root, the folder, the method, its documents, and the method inside each."""
    path = b"/of%d/%s" % (size, method)
    message = b"GET %s HTTP/1.0\r\n\r\n" % path
    if form:
        message = b"POST %s HTTP/1.0\r\nContent-Length: %d\r\n\r\n%s" % (path, len(form), form)
    return message, 3 + size + (method == b"with_rows")


def form_of(length):
    """A form of a thousand fields at most and about so many bytes."""
    fields = min(1_000, length // 20)
    return b"&".join(b"name%04d=%s" % (number, b"v" * max(1, length // fields - 10)) for number in range(fields))


class Replayed:
    """A request that is replayed so many times."""

    def __init__(self, at, name, request, times):
        self.at, self.times, self.lines, self.costs = at, times, at / name, []
        self.lines.write_bytes(schedule([request] * times))

    def seconds(self):
        """The seconds of the processor that a run takes."""
        took = processor_seconds(self.at / "site.fs", self.lines, self.at / "report")
        assert (self.at / "report").read_bytes().count(b"HTTP/1.1 200 OK") == self.times, "a page wasn't answered"
        return took

    def middle(self):
        """The middle one of the costs of a page."""
        return statistics.median(self.costs) / self.times


class Document:
    def __init__(self, number):
        self.title = f"Title of {number}"


def jinja_pages(size, times):
    """The seconds of the processor of so many pages."""
    template = jinja2.Environment().from_string(JINJA)
    documents = [Document(number) for number in range(size)]
    template.render(documents=documents[:1])
    began = time.process_time()
    for _ in range(times):
        template.render(documents=documents)
    return time.process_time() - began


# ten thousand would be more tags than a page may have: a turn and the tag in it count
SIZES = (10, 100, 1_000, 4_900)
FORMS = (1_000, 10_000, 100_000, 1_000_000)
OTHERS = (("in_quotes", 400, 4_000), ("behind_if", 400, 4_000), ("with_rows", 100, 1_000))


def pages_of(at):
    """All that is replayed, by names."""
    made = {}
    for size in SIZES:
        made[f"by_name {size}"] = Replayed(at, f"by_name {size}", listing(b"by_name", size), 40_000 // size)
    for method, few, many in OTHERS:
        for size in (few, many):
            name = f"{method} {size}"
            made[name] = Replayed(at, name, listing(method.encode(), size), 20_000 // size)
    for length in FORMS:
        made[f"form {length}"] = Replayed(at, f"form {length}", listing(b"by_name", 1, form_of(length)), min(2_000, 10_000_000 // length))
    made["form 100000 over 50"] = Replayed(at, "over 50", listing(b"by_name", 50, form_of(100_000)), 100)
    return made


def measure(at, rounds):
    """The middle seconds of a page of each, and of Jinja2's page of 1,000 documents."""
    made, opened, by_jinja = pages_of(at), Replayed(at, "none", None, 0), []
    for _ in range(rounds):
        start = opened.seconds()
        for page_of in made.values():
            page_of.costs.append(page_of.seconds() - start)
        by_jinja.append(jinja_pages(1_000, 100) / 100)
    return {name: page_of.middle() for name, page_of in made.items()} | {"Jinja2's 1000": statistics.median(by_jinja)}


def print_ratio(middles, few, many, most):
    first, second = middles[few], middles[many]
    print(f"| {few}: {first * 1e3:.3f} ms | {many}: {second * 1e3:.3f} ms | {second / first:.1f} (wanted: at most {most:g}) |", flush=True)


def main():
    options = argparse.ArgumentParser(description=__doc__.splitlines()[0])
    options.add_argument("--rounds", type=int, default=7)
    given = options.parse_args()
    build()
    with tempfile.TemporaryDirectory() as name:
        at = pathlib.Path(name)
        write_site(at / "site.fs", (1, 50, 400, 4_000, *SIZES))
        middles = measure(at, given.rounds)
    for few, many in zip(SIZES, SIZES[1:]):
        print_ratio(middles, f"by_name {few}", f"by_name {many}", 1.5 * many / few)
    for method, few, many in OTHERS:
        print_ratio(middles, f"{method} {few}", f"{method} {many}", 15)
    for few, many in zip(FORMS, FORMS[1:]):
        print_ratio(middles, f"form {few}", f"form {many}", 15)
    print_ratio(middles, "form 100000", "form 100000 over 50", 3)
    print_ratio(middles, "Jinja2's 1000", "by_name 1000", 3)


if __name__ == "__main__":
    main()
