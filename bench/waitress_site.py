"""What bench/serving.py measures the server beside: a page and an edit by waitress, with Jinja2 over SQLite.

    python3 bench/waitress_site.py PORT FILE

The page has a header, a footer and ten properties; its templates are compiled once, its values are read from FILE for each reply.
Who sends a name and a password is looked up, as the served site does, by the SHA-1 of the password. An edit changes the page's row
by one transaction, with `synchronous=FULL` and a write-ahead log.
"""

import base64
import hashlib
import logging
import sqlite3
import sys
import threading
import urllib.parse

import jinja2
import waitress

HEADER = "<html><body><h1>{{ title }}</h1>"
FOOTER = "<p>You are {{ user }}.</p></body></html>"
PAGE = "{% include 'header' %}<dl>" + "".join(f"<dt>p{n}</dt><dd>{{{{ p{n} }}}}</dd>" for n in range(10)) + "</dl>{% include 'footer' %}"
TEMPLATES = jinja2.Environment(loader=jinja2.DictLoader({"header": HEADER, "footer": FOOTER, "page": PAGE}), autoescape=True)
LOCAL = threading.local()


def database(file):
    """This thread's connection."""
    if not hasattr(LOCAL, "base"):
        LOCAL.base = sqlite3.connect(file, isolation_level=None, timeout=60)
        LOCAL.base.execute("PRAGMA synchronous=FULL")
    return LOCAL.base


def make(file):
    base = database(file)
    base.execute("PRAGMA journal_mode=WAL")
    base.execute("CREATE TABLE users (name TEXT PRIMARY KEY, digest BLOB)")
    base.execute("INSERT INTO users VALUES ('admin', ?)", (hashlib.sha1(b"secret").digest(),))
    base.execute("CREATE TABLE pages (id TEXT PRIMARY KEY, title TEXT, data TEXT, " + ", ".join(f"p{n} TEXT" for n in range(10)) + ")")
    for name in ["page", *(f"d{n}" for n in range(16))]:
        base.execute(f"INSERT INTO pages VALUES (?, 'A page', ''{', ?' * 10})", (name, *(f"value {n}" for n in range(10))))


def user_of(base, surroundings):
    """The name of the user whose name and password were sent, or none."""
    kind, _, coded = surroundings.get("HTTP_AUTHORIZATION", "").partition(" ")
    if kind.lower() != "basic":
        return None
    name, _, password = base64.b64decode(coded).decode().partition(":")
    row = base.execute("SELECT digest FROM users WHERE name = ?", (name,)).fetchone()
    return name if row and row[0] == hashlib.sha1(password.encode()).digest() else None


def application(file):
    def answer(surroundings, start):
        base = database(file)
        user, (name, _, call) = user_of(base, surroundings), surroundings["PATH_INFO"].strip("/").partition("/")
        if call == "manage_edit":
            if user is None:
                status, text = "401 Unauthorized", "unauthorized\n"
            else:
                form = urllib.parse.parse_qs(surroundings["wsgi.input"].read().decode())
                base.execute("UPDATE pages SET title = ?, data = ? WHERE id = ?", (form["title"][0], form["data"][0], name))
                status, text = "200 OK", "done\n"
        else:
            rows = base.execute("SELECT * FROM pages WHERE id = ?", (name,))
            names, row = [column[0] for column in rows.description], rows.fetchone()
            status, text = "200 OK", TEMPLATES.get_template("page").render(dict(zip(names, row)), user=user or "Anonymous User")
        body = text.encode()
        start(status, [("Content-Type", "text/html; charset=utf-8"), ("Content-Length", str(len(body)))])
        return [body]

    return answer


if __name__ == "__main__":
    make(sys.argv[2])
    # it would tell of each request that waits
    logging.getLogger("waitress.queue").setLevel(logging.ERROR)
    waitress.serve(application(sys.argv[2]), host="127.0.0.1", port=int(sys.argv[1]), _quiet=True)
