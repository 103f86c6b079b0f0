#!/usr/bin/env python3
"""Replays pages of a site of 1,000 documents and of one of 100,000, and lets Jinja2 make the same pages.

A document shows a header and a footer that all pages share, and its own title, id and a property. The 1,000 documents that
are asked for stand in ten folders of the root; the larger site has the 99,000 others in a folder beside these, in 990 folders
of a hundred each. The schedule asks for each of the 1,000 in turn. A page's cost is what a run with more pages takes longer
than one with fewer, so that opening the file, which grows with it, isn't part of it. Costs are seconds of the processor; sites and
Jinja2 take turns, and the middle one of all rounds is taken, of ratios that of each round's. Needs the built program (`./zope check`
builds it) and Python's jinja2.
"""

import argparse
import os
import pathlib
import statistics
import tempfile
import time

import jinja2

from replay import Writer, be, build, processor_seconds, text

HEADER = b"<html><head><title>&dtml-title;</title></head>\n<body>\n<h1>&dtml-title;</h1>\n"
FOOTER = b'<p class="foot">A page of <dtml-var AUTHENTICATED_USER>.</p>\n</body></html>\n'
SOURCE = b"<dtml-var header><p>The document &dtml-id; is about <dtml-var subject>.</p>\n<dtml-var footer>"
PAGES = {
    "header": "<html><head><title>{{ document.title|e }}</title></head>\n<body>\n<h1>{{ document.title|e }}</h1>\n",
    "footer": '<p class="foot">A page of {{ user }}.</p>\n</body></html>\n',
    "page": "{% include 'header' %}<p>The document {{ document.id|e }} is about {{ document.subject }}.</p>\n{% include 'footer' %}",
}
FOLDERS, INSIDE, OTHERS = 10, 100, 990


def listed(items):
    return be(len(items), 2) + b"".join(items)


def head(kind, name, parent, properties=(), title=b""):
    shown = [text(key) + b"s" + text(value) for key, value in properties]
    return b"Z2" + kind + text(name) + be(parent, 8) + text(title) + be(0, 4) + listed(shown)


def folder(name, parent, children):
    return head(b"F", name, parent) + listed([text(child) + be(oid, 8) for child, oid in children])


def page(kind, name, parent, source, properties=(), title=b""):
    return head(kind, name, parent, properties, title) + be(len(source), 4) + source + be(0, 2)


class Site:
    """The objects of a site, each behind the ones before it."""

    def __init__(self):
        self.objects, self.next = [], 1

    def give(self):
        self.next += 1
        return self.next - 1

    def documents(self, name, parent):
        """A folder of documents."""
        at, children = self.give(), []
        for number in range(INSIDE):
            oid, child = self.give(), b"document%02d" % number
            told = [(b"subject", b"matter %d" % oid)]
            self.objects.append((oid, page(b"D", child, at, SOURCE, told, b"Title of %d" % oid)))
            children.append((child, oid))
        self.objects.append((at, folder(name, parent, children)))
        return name, at

    def write(self, path, others):
        header, footer = self.give(), self.give()
        self.objects += [(header, page(b"M", b"header", 0, HEADER)), (footer, page(b"M", b"footer", 0, FOOTER))]
        root = [(b"header", header), (b"footer", footer)]
        root += [self.documents(b"folder%d" % number, 0) for number in range(FOLDERS)]
        archive = self.give()
        kept = [self.documents(b"folder%03d" % number, archive) for number in range(others)]
        self.objects.append((archive, folder(b"archive", 0, kept)))
        self.objects.append((0, folder(b"", 0, root + [(b"archive", archive)])))
        with open(path, "wb") as out:
            Writer(out).transaction(0x0331620000000000, b"", b"init", sorted(self.objects))


def schedule(pages):
    lines = [b"zope schedule 1\n"]
    for number in range(pages):
        message = b"GET /folder%d/document%02d HTTP/1.0\r\n\r\n" % (number // INSIDE % FOLDERS, number % INSIDE)
        # the root, the folder, the document, the header and the footer are asked for
        lines.append(b"request 0 %d\n%s\n" % (len(message), message) + b"step 0\n" * 7)
    lines.append(b"end\n")
    return b"".join(lines)


class Document:
    def __init__(self, number):
        self.id, self.title, self.subject = f"document{number:02}", f"Title of {number}", f"matter {number}"


def jinja_page():
    """The seconds of the processor of a page of a thousand, made by Jinja2."""
    template = jinja2.Environment(loader=jinja2.DictLoader(PAGES)).get_template("page")
    documents, passes = [Document(number) for number in range(1_000)], 10
    template.render(document=documents[0], user="Anonymous User")
    began = time.process_time()
    for _ in range(passes):
        for document in documents:
            template.render(document=document, user="Anonymous User")
    return (time.process_time() - began) / passes / len(documents)


def main():
    options = argparse.ArgumentParser(description=__doc__.splitlines()[0])
    options.add_argument("--pages", type=int, default=20_000)
    options.add_argument("--rounds", type=int, default=9)
    given = options.parse_args()
    build()
    with tempfile.TemporaryDirectory() as made:
        at = pathlib.Path(made)
        sites = {"small": at / "small.fs", "large": at / "large.fs"}
        Site().write(sites["small"], 0)
        Site().write(sites["large"], OTHERS)
        (at / "few").write_bytes(schedule(1_000))
        (at / "many").write_bytes(schedule(1_000 + given.pages))
        processor_seconds(sites["small"], at / "few", at / "report")
        assert (at / "report").read_bytes().count(b"HTTP/1.1 200 OK") == 1_000, "a page wasn't answered"
        costs = {"small": [], "large": [], "jinja": []}
        for _ in range(given.rounds):
            for name, site in sites.items():
                many, few = (processor_seconds(site, at / lines, os.devnull) for lines in ("many", "few"))
                costs[name].append((many - few) / given.pages)
            costs["jinja"].append(jinja_page())
        for name, site in sites.items():
            print(f"{name} site of {site.stat().st_size} bytes: {statistics.median(costs[name]) * 1e6:.1f} us a page")
        print(f"Jinja2 alone: {statistics.median(costs['jinja']) * 1e6:.1f} us a page")
        print(f"to Jinja2: {middle_ratio(costs['small'], costs['jinja']):.2f} (wanted: at most 1.2)")
        print(f"large to small: {middle_ratio(costs['large'], costs['small']):.2f} (wanted: 0.9 to 1.1)")


def middle_ratio(ours, theirs):
    """The middle one of the ratios of each round."""
    return statistics.median(one / other for one, other in zip(ours, theirs))


if __name__ == "__main__":
    main()
