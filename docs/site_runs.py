#!/usr/bin/env python3
"""Writes the cases of the calls of management over the whole program: data/calls.cases of zope_cases.

    python3 docs/site_runs.py > crates/zope_cases/data/calls.cases

A run is that of `stopped_runs.py`, over an evaluator that follows the order of an evaluation: fields, credentials, the path,
the user, the permission, and then a page or a call, whose rows are those of `calls.py`. Of pages it knows sources without
tags and the front page of a new site. Files are written by the tables of the formats. Nothing here runs or reads the product.
"""

import base64
import copy
import re
from urllib.parse import parse_qsl, unquote, urlencode

from calls import CALLS, KINDS_ON, NEW, PERMISSIONS, Refused, Site, Unknown, kept, new, record as spelled
from stopped_runs import T0, Run, described, hex16, item_bytes, put_bytes, put_hex, steps
from stops import record

FRONT = "<html><body><h1><dtml-var title html_quote></h1></body></html>"
NO_LIMIT = 2**48 - 1

# ---- objects by their records

OBJECTS = {}


def spell(o, version=2):
    data = spelled(o, version)
    OBJECTS[data] = copy.deepcopy(o)
    return data


def filled(o, first):
    """The object with the id of the new one."""
    return o | {"children": [(name, first if oid is NEW else oid) for name, oid in o["children"]]} if o["kind"] == "F" else o


# ---- an evaluation

class Need(Exception):
    pass


class Answered(Exception):
    """A reply: its status, its body, its type and the lines behind it."""


def refuse(status, body, *behind):
    raise Answered(status, body.encode() + b"\n", "plain", list(behind))


def here(known, oid):
    if oid not in known:
        raise Need(oid)
    if known[oid] not in OBJECTS:
        refuse(500, f"broken object: {hex16(oid)}")
    return OBJECTS[known[oid]]


def containers(known, oid):
    path = [oid]
    while path[-1] != 0:
        here(known, path[-1])
        path.append(here(known, path[-1])["parent"])
    here(known, 0)
    assert len(path) <= 65
    return path


def reach(known, wrapper, oid):
    path = containers(known, oid)
    return path + [o for o in wrapper if o not in path]


def child_of(o, name):
    return dict(o.get("children", [])).get(name)


def find(known, wrapper, name):
    """A child of that name, reached through the wrapper: the first that an object of the wrapper has."""
    for at in wrapper:
        oid = child_of(here(known, at), name)
        if oid is not None:
            here(known, oid)
            return reach(known, wrapper, oid)
    return None


def target(known, segments):
    """What a path leads to: a call and the wrapper of its object, or the wrapper of a page and of its client."""
    wrapper, client = [0], [0]
    if known.get(0, b"") is None:
        refuse(404, "not found: /")
    here(known, 0)
    for at, segment in enumerate(segments):
        if at == len(segments) - 1 and (segment in KINDS_ON or segment in ASKING):
            return segment, wrapper, None
        found = None if segment.startswith("_") else find(known, wrapper, segment)
        if found is None:
            refuse(404, f"not found: {segment}")
        wrapper, client = found, wrapper
    if here(known, wrapper[0])["kind"] == "F":
        found = find(known, wrapper, "index_html")
        if found is None or here(known, found[0])["kind"] not in "MD":
            refuse(404, "not found: index_html")
        wrapper, client = found, wrapper
    if here(known, wrapper[0])["kind"] == "U":
        refuse(404, f"not found: {segments[-1]}")
    return None, wrapper, client


# ---- who may

def roles_for(known, path, permission):
    found = set()
    for oid in path:
        for n, acquire, names in here(known, oid)["settings"]:
            if n == permission:
                found |= set(names)
                if not acquire:
                    return found
    return found | ({"Anonymous", "Manager"} if permission in (1, 2) else {"Manager"})


def roles_of(known, who, path):
    found = {"Anonymous"}
    if who:
        name, own, home = who
        found |= {"Authenticated"} if name else set()
        if home in path:
            found |= set(own)
            for oid in path:
                found |= set(dict(here(known, oid)["locals"]).get(name, []))
    return found


def verdict(known, who, path, permission):
    """The least role by which the user has the permission."""
    return min(roles_for(known, path, permission) & roles_of(known, who, path), default=None, key=str.encode)


def user(known, path, credentials, permission):
    """The user of these credentials, by the users of the folders upwards, who has the permission on the path's first object."""
    if credentials is None:
        return None
    for folder in path if here(known, path[0])["kind"] == "F" else path[1:]:
        oid = child_of(here(known, folder), "acl_users")
        if oid is None:
            continue
        for name, password, own in here(known, oid).get("users", []):
            who = (name, own, folder)
            if name == credentials[0] and password == kept(credentials[1]) and verdict(known, who, path, permission):
                return who
    return None


def permit(known, path, credentials, permission):
    who = user(known, path, credentials, permission)
    role = verdict(known, who, path, permission)
    if role is None:
        name = PERMISSIONS[permission - 1]
        refuse(401, f"unauthorized: {name}", ("denied", path[0], name))
    return who, role


# ---- pages and calls

def page(known, wrapper, client, credentials):
    path = containers(known, wrapper[0])
    who, role = permit(known, path, credentials, 1)
    source, shown = here(known, path[0])["source"], {path[0]: role}
    if source == FRONT:
        role = verdict(known, who, containers(known, client[0]), 1)
        assert role
        shown.setdefault(client[0], role)
        source = source.replace("<dtml-var title html_quote>", here(known, client[0])["title"])
    assert "dtml-" not in source
    raise Answered(200, source.encode(), "html", [("shown", oid, role) for oid, role in sorted(shown.items())])


class Others:
    """The objects that are known, by their ids; None for one that doesn't read."""

    def __init__(self, known):
        self.known = known

    def __contains__(self, oid):
        return oid in self.known

    def __getitem__(self, oid):
        return OBJECTS.get(self.known[oid])


SAID = {"missing": "missing: ", "bad-field": "bad field: ", "too-long": "too long: ", "no-such-id": "no such id: ", "taken": "taken: ",
        "too-many": "too many"}


def said_of(refusal):
    """The body of a reply for the words of a refusal."""
    word, _, rest = str(refusal).partition(" ")
    if word == "bad-source":
        return "bad source: {} at {}".format(*rest.split())
    return SAID[word] + ("" if rest == '""' else rest)


def call(known, name, path, form):
    """The entries of a call."""
    o = copy.deepcopy(here(known, path[0]))
    try:
        more = CALLS[name](o, form, Site(path[0], len(path), Others(known))) or []
    except Refused as refusal:
        if str(refusal).startswith("broken"):
            refuse(500, f"broken object: {hex16(int(str(refusal).split()[1]))}")
        refuse(400, said_of(refusal))
    except Unknown as unknown:
        raise Need(unknown.args[0]) from None
    return [(oid, lambda first, o=o: spell(filled(o, first))) for oid, o in [(path[0], o)] + more]


# ---- calls that ask the history

def undo(known, form):
    """The entries that undo a transaction: each object goes back to the transaction whose value it had before."""
    found = form.get("tid")
    if found is None:
        refuse(400, "missing: tid")
    if isinstance(found, list) or not re.fullmatch("[0-9a-f]{16}", str(found)):
        refuse(400, "bad field: tid")
    ask = ("transaction", int(str(found), 16))
    if ask not in known:
        raise Need(ask)
    if known[ask] is None:
        refuse(400, f"no such transaction: {found}")
    for oid, _, _ in known[ask]:
        if oid not in known:
            raise Need(oid)
    for oid, after, _ in known[ask]:
        if known[oid] != after:
            refuse(400, f"changed since: {hex16(oid)}")
    return [(oid, (before,)) for oid, _, before in known[ask]]


def listed(known, form):
    """The newest 20 transactions, the newest first."""
    if ("log",) not in known:
        raise Need(("log",))
    rows = known[("log",)][-20:][::-1]
    said = [" ".join([hex16(tid), *(text.decode("utf-8", "replace") for text in texts)]) + "\n" for tid, *texts in rows]
    raise Answered(200, "".join(said).encode(), "plain", [])


# they are calls on the root, and need `Undo changes`; the second one shows a page
ASKING = {"manage_undo_transactions": undo, "undoable_transactions": listed}


def needed(known, name, oid, method):
    """The permission that a call needs, where it is one on this object by this method."""
    kind = here(known, oid)["kind"]
    permission = (12 if oid == 0 else None) if name in ASKING else KINDS_ON[name].get(kind)
    if permission is None or (method == "HEAD" and name != "undoable_transactions"):
        refuse(404, f"not found: {name}")
    return permission


def form_of(pairs):
    form = {}
    for name, v in pairs:
        name, *suffixes = name.split(":")
        v = int(v) if "int" in suffixes else v
        if "list" in suffixes or name in form:
            form[name] = (form[name] if isinstance(form.get(name), list) else [form[name]] if name in form else []) + [v]
        else:
            form[name] = v
    return form


def site(request, known):
    """The evaluator of a site."""
    head, _, body = request.partition(b"\r\n\r\n")
    (method, raw, _), *headers = [line.split(" ", 2) for line in head.decode().split("\r\n")]
    path, _, query = raw.partition("?")
    segments = [unquote(segment) for segment in path.split("/") if segment]
    form = form_of(parse_qsl(query, keep_blank_values=True) + parse_qsl(body.decode(), keep_blank_values=True))
    credentials = next((base64.b64decode(h[2]).decode().split(":", 1) for h in headers if h[0] == "Authorization:"), None)
    try:
        name, wrapper, client = target(known, segments)
        if name is None:
            page(known, wrapper, client, credentials)
        permission = needed(known, name, wrapper[0], method)
        on = containers(known, wrapper[0])
        who, _ = permit(known, on, credentials, permission)
        description = "".join("/" + segment for segment in segments).encode()
        entries = ASKING[name](known, form) if name in ASKING else call(known, name, on, form)
        return "change", (who[0] if who else "").encode(), description, entries
    except Need as need:
        return "need", need.args[0]
    except Answered as answered:
        return "answer", *answered.args, method == "HEAD"


# ---- requests and runs

def request(method, path, form=None, by=None):
    """A message. Lists stand in the form under the field's name."""
    pairs = [(f"{f}:list", v) if isinstance(found, list) else (f, v) for f, found in (form or {}).items() for v in (found if isinstance(found, list) else [found])]
    text = urlencode(pairs, safe=":")
    lines = [f"{method} {path}" + (f"?{text}" if text and method != "POST" else "") + " HTTP/1.0"]
    lines += ["Authorization: Basic " + base64.b64encode(by.encode()).decode()] if by else []
    lines += [f"Content-Length: {len(text)}"] if text and method == "POST" else []
    return "\r\n".join([*lines, "", text if method == "POST" else ""]).encode()


class Play:
    """A run that is made step by step."""

    model = Run

    def __init__(self, content, limit=NO_LIMIT):
        self.given, self.run = [], self.model(content, site, limit)
        self.run.blocks = [b"zope report 1\n" + self.run.opened]

    def put(self, item):
        self.given.append(item)
        self.run.blocks.append(self.run.item(item))
        return self

    def ask(self, w, *words, **more):
        return self.put(("request", w, request(*words, **more)))

    def send(self, w, message):
        return self.put(("request", w, message))

    def step(self, w, times=1):
        for item in steps(w, times):
            self.put(item)
        return self

    def to(self, w, state):
        """Steps of the worker up to a state."""
        while self.run.workers[w].state != state:
            self.step(w)
        return self

    def through(self, w):
        """Steps of the worker up to its reply."""
        while w in self.run.workers:
            self.step(w)
        return self

    def whole(self, w, *words, **more):
        return self.ask(w, *words, **more).through(w)

    def printed(self):
        return b"".join(self.run.blocks)

    def end(self):
        self.run.blocks.append(self.run.end())
        return self


def file_of(objects, version=2):
    """A file of one transaction with these objects."""
    return b"FS21" + described(T0, b" ", b"", b"init", [record(oid, T0, 0, 4, spell(o, version)) for oid, o in sorted(objects.items())])


ADMIN, SECRET = "admin:secret", kept("secret")
INIT = {
    0: new("F", "", 0, "Zope", children=[("acl_users", 1), ("index_html", 2)]),
    1: new("U", "acl_users", 0, users=[("admin", SECRET, ["Manager"])]),
    2: new("M", "index_html", 0, source=FRONT),
}
EDIT = (b"POST /index_html/manage_edit HTTP/1.1\r\nHost: localhost\r\nAuthorization: Basic YWRtaW46c2VjcmV0\r\n"
        b"Content-Length: 6\r\n\r\ndata=x")


# ---- cases

# the files of the cases, and what of a report tells what they hold, by the name of the piece
FILES = {"new_site": file_of(INIT), "old_site": file_of(INIT, 1)}
CASES = []


def case(title, play, file="new_site", limit="", command="replay"):
    CASES.append((title, play.end(), file, limit, command))


def kept_lines(content):
    run = Run(content, site, NO_LIMIT).end()
    return run[run.index(b"\n") + 1 : -4]


def name_of(block):
    """The name of a reply's piece, by its worker, its mark and its body."""
    w, kind, tid = re.match(rb"reply (\d+) (\w+) ([0-9a-f]{16})", block).groups()
    body = block.partition(b"\r\n\r\n")[2].partition(b"\n")[0].decode()
    slug = re.sub(r"[^A-Za-z0-9]+", "_", body).strip("_")[:50]
    return f"reply_{int(w)}_{kind.decode()}_{int(tid, 16) - T0}_{block.split()[6].decode()}_{slug}".rstrip("_")


def put_shared(content, shared):
    """The lines of a text, of which the shared ones stand in pieces."""
    for name, lines in shared.items():
        before, found, after = content.partition(lines)
        if found:
            put_shared(before, shared)
            print(f"  use {name}")
            put_shared(after, shared)
            return
    if content:
        put_bytes(content)


def put_items(items):
    """The lines of a schedule."""
    at = 0
    while at < len(items):
        same = 1
        while at + same < len(items) and items[at][0] == "step" and items[at + same] == items[at]:
            same += 1
        turn = {("step", 0): "turn", ("step", 1): "turn_1"}.get(items[at][:2])
        if turn:
            print(f"  repeat {same} {turn}" if same > 1 else f"  use {turn}")
        else:
            put_bytes(b"".join(item_bytes(item) for item in items[at : at + same]))
        at += same


def put_all(further={}):
    """Writes the cases; of their reports the replies that stand several times, what the files hold, and further texts by their names stand
    in pieces."""
    replies = [block for _, play, *_ in CASES for block in play.run.blocks if block.startswith(b"reply")]
    shared = {}
    for block in sorted({block for block in replies if replies.count(block) > 1}):
        name = name_of(block)
        more = sum(other == name or other.startswith(f"{name}_of_") for other in shared)
        shared[f"{name}_of_{more + 1}" if more else name] = block
    for name, block in shared.items():
        print(f"piece {name}")
        put_bytes(block)
        print()
    lines = {}
    for name, content in FILES.items():
        if name not in ("new_site", "old_site"):
            print(f"piece {name}")
            put_hex(content)
            print(f"\npiece {name}_kept")
            put_bytes(kept_lines(content))
            print()
        lines[name.replace("_site", "_kept") if name in ("new_site", "old_site") else f"{name}_kept"] = kept_lines(content)
    for name, block in further.items():
        print(f"piece {name}")
        put_bytes(block)
        print()
    for title, play, file, limit, command in CASES:
        print(f"case {title}")
        print(f"words {command} site.fs{limit}\nfile site.fs\n  use {file}\ninput\n  | zope schedule 1")
        put_items(play.given)
        print("  | end\nstatus 0\noutput")
        # a piece ends with its line, so that what stands before and behind it are lines too
        put_shared(play.printed(), shared | lines | further)
        print()


# ---- what is run

def document(id, parent, source, **more):
    return new("D", id, parent, more.pop("title", ""), source=source) | more


# users `admin`, a manager, and `ann`, an editor, who is a manager in `f`, a folder that is its own child
TREE = {
    0: new("F", "", 0, "Zope", children=[("acl_users", 1), ("index_html", 2), ("d", 3), ("f", 4), ("g", 6), ("lost", 900)]),
    1: new("U", "acl_users", 0, users=[("admin", SECRET, ["Manager"]), ("ann", SECRET, ["Editor"])]),
    2: new("M", "index_html", 0, source=FRONT),
    3: document("d", 0, "hello", title="D"),
    4: new("F", "f", 0, "F", children=[("x", 5), ("me", 4)]) | {"locals": [("ann", ["Manager"])]},
    5: document("x", 4, "deep", proxy=["Editor"], properties=[("n", 7)]),
    6: new("F", "g", 0, "G"),
}
DEEP = INIT | {
    0: new("F", "", 0, "Zope", children=[("acl_users", 1), ("index_html", 2), ("n1", 101), ("almost", 163), ("deep", 164)]),
} | {100 + n: new("F", f"n{n}", 100 + n - 1 if n > 1 else 0, f"N{n}", children=[(f"n{n + 1}", 101 + n)] if n < 64 else []) for n in range(1, 65)}
FILES |= {"tree": file_of(TREE), "deep": file_of(DEEP)}

ANN = "ann:secret"
ADDING = {
    "manage_addFolder": {"id": "n", "title": "N"},
    "manage_addDTMLMethod": {"id": "n", "title": "N", "file": "a method"},
    "manage_addDTMLDocument": {"id": "n", "title": "N", "file": "a document"},
    "manage_addUserFolder": {},
}
FIVE = ADDING | {"manage_renameObject": {"id": "d", "new_id": "n"}}


def over(file="new_site"):
    return Play(FILES[file])


def post(play, path, form=None, by=ADMIN):
    return play.whole(0, "POST", path, form=form, by=by)


def get(play, path, by=None):
    return play.whole(0, "GET", path, by=by)


def put_limits(title, play, end):
    """The first call of a run, over a file that may come to as many bytes as the call needs, and to one less."""
    first = next(item for item in play.given if item[0] == "request")
    for limit in (end - 1, end):
        play = Play(FILES["old_site"], limit).put(("clock", T0)).send(0, first[2]).through(0)
        assert (b"spent 0 full %d %d\n" % (end, limit) in play.printed()) == (limit < end)
        case(f"{title}, which comes to {end} bytes, of {limit}", play, "old_site", f" --limit {limit}")


def put_rows():
    play = over("old_site").put(("clock", T0))
    play.ask(0, "POST", "/index_html/acl_users/userFolderAddUser", form={"name": "bob", "password": "b", "roles": ["Editor"]}, by=ADMIN)
    play.send(1, EDIT).to(0, "computed").to(1, "computed").step(0, 2).step(1).step(1, 7)
    printed = play.printed()
    assert b"conflict 1 0000000000000001 0331620000000000 0331620000000001\n" in printed
    assert b"reply 1 commit 0331620000000002 143\n" in printed
    case("a user is added while a page is edited: each read what the other wrote", play, "old_site")

    play = post(over("old_site").put(("clock", T0)), "/manage_addDTMLDocument", {"id": "d", "file": "hi"})
    places = {oid: place for oid, place, _ in play.run.store.known.transactions[-1][2]}
    assert places == {0: 464, 3: 583}
    put_limits("a document is added", get(play, "/d"), 583 + 42 + len(spell(document("d", 0, "hi"))) + 8)
    case("a document is added to a site whose records have the first version", play, "old_site")

    play = over("old_site").put(("clock", T0))
    for form, said in (({"id": "index_html"}, b"taken: index_html"), ({"id": "_x"}, b"bad field: id"), ({}, b"missing: id")):
        post(play, "/manage_addFolder", form)
        assert said in play.run.blocks[-1] and b"X-Transaction: read 0331620000000000" in play.run.blocks[-1]
    case("a folder whose name is taken, one whose name is none, and one without a name", play, "old_site")

    play = post(over("old_site").put(("clock", T0)), "/index_html/manage_proxy", {"roles": ["Manager"]})
    put_limits("proxy roles of the front page are set", play, 623)
    case("proxy roles of the front page of a site whose records have the first version", play, "old_site")


def put_works():
    """Each call does what it says, and what it made is found by the next request."""
    play = get(post(over(), "/manage_addFolder", {"id": "f", "title": "A folder"}), "/f")
    get(get(play, "/f/f"), "/f/index_html")
    get(post(play, "/f/manage_addFolder", {"id": "f", "title": "One in it"}), "/f/f")
    case("a folder is added, and then one in it", play)
    play = get(over(), "/m")
    get(post(play, "/manage_addDTMLMethod", {"id": "m", "title": "M", "file": "a method"}), "/m")
    get(post(play, "/manage_addDTMLMethod", {"id": "k"}), "/k")
    case("methods are added", play)
    play = get(over(), "/d")
    get(post(play, "/manage_addDTMLDocument", {"id": "d", "title": "D", "file": "a document"}), "/d")
    get(post(play, "/manage_addDTMLDocument", {"id": "k"}), "/k")
    case("documents are added", play)
    play = post(over(), "/manage_addFolder", {"id": "f"})
    post(play, "/f/manage_addUserFolder")
    post(play, "/f/acl_users/userFolderAddUser", {"name": "bob", "password": "b", "roles": ["Manager"]})
    post(play, "/f/manage_addDTMLDocument", {"id": "d", "file": "by bob"}, "bob:b")
    post(play, "/manage_addDTMLDocument", {"id": "d", "file": "by bob"}, "bob:b")
    case("a user folder is added, and its users are found", get(play, "/f/d"))
    play = post(over("tree"), "/manage_renameObject", {"id": "d", "new_id": "e"})
    get(get(play, "/e"), "/d")
    post(play, "/manage_renameObject", {"id": "f", "new_id": "d"})
    get(get(play, "/d/x"), "/f/x")
    case("a document and a folder are renamed", play, "tree")
    play = post(over("tree"), "/f/manage_renameObject", {"id": "me", "new_id": "self"})
    get(get(play, "/f/self/x"), "/f/me/x")
    case("a folder that is its own child is renamed in itself", play, "tree")
    play = get(post(over("tree"), "/f/manage_renameObject", {"id": "x", "new_id": "y"}), "/f/y")
    case("a document with proxy roles and a property is renamed", play, "tree")
    play = post(over("tree"), "/manage_renameObject", {"id": "lost", "new_id": "found"})
    case("a child that is gone isn't renamed", play, "tree")
    play = post(over("tree"), "/manage_delObjects", {"ids": ["f", "g"]})
    get(post(play, "/manage_addDTMLDocument", {"id": "f", "file": "another"}), "/f")
    post(play, "/manage_delObjects", {"ids": "f"})
    get(post(play, "/manage_addDTMLDocument", {"id": "f", "file": "a third"}), "/f")
    case("a name is free again when its child was deleted, and ids aren't given twice", play, "tree")
    for call, form in FIVE.items():
        play = over("tree").whole(0, "GET", ("/g" if call == "manage_addUserFolder" else "") + f"/{call}", form=form, by=ADMIN)
        assert b"commit" in play.run.blocks[-1]
        case(f"{call} by GET", play, "tree")
    play = get(post(over(), "/manage_addDTMLDocument?id:int=7", {"file:int": "-07", "title": "a&b"}), "/7")
    case("a document's name and its source are numbers, of which one stands in the query", play)


def put_denied():
    for call, form in FIVE.items():
        play = over("tree")
        for path in ("", "/f"):
            for by in (None, ANN, "ann:other", "eve:secret"):
                post(play, f"{path}/{call}", form if path == "" or call != "manage_renameObject" else {"id": "x", "new_id": "n"}, by)
        post(play, f"/{call}", {"id": "_"}, None)
        case(f"{call}: who may, in the root and in a folder", play, "tree")
    for call in FIVE:
        play = over("tree")
        for path in ("", "/g"):
            play.whole(0, "HEAD", f"{path}/{call}", by=ADMIN)
        for path in ("/d", "/index_html", "/acl_users", "/f/x"):
            post(play, f"{path}/{call}", {"id": "n"})
            play.whole(0, "GET", f"{path}/{call}", by=ADMIN)
        assert b"commit" not in play.printed()
        case(f"{call} by HEAD, and on what is no folder", play, "tree")


def put_refusals():
    for call, form in ADDING.items():
        play = over("tree")
        wrong = [{}] if call == "manage_addUserFolder" else []
        if call != "manage_addUserFolder":
            wrong += [{"title": "T"}, {"id": ""}, {"id": ["n"]}, {"id": "a b", "title": "T" * 1001}, {"id": "n" * 101}]
            wrong += [{"id": "n", "title": ["T"]}, {"id": "n", "title": "T" * 1001}, {"id": "d"}, {"id": "acl_users"}]
        if "file" in form:
            wrong += [{"id": "n", "file": ["x"]}, {"id": "n", "file": "<dtml-foo>"}, {"id": "d", "file": "<dtml-foo>"}]
        for one in wrong:
            post(play, f"/{call}", one)
        assert b"commit" not in play.printed()
        case(f"{call}: what is refused", play, "tree")
        play = over("deep")
        for path in ("/deep", "/almost"):
            post(play, f"{path}/{call}", form)
        assert play.printed().count(b"too many") == 1 and play.printed().count(b"reply 0 commit") == 1
        if call == "manage_addFolder":
            get(play, "/almost/n")
        case(f"{call}: an object with 64 containers, and one with 65", play, "deep")
    play = over("tree")
    for one in ({}, {"id": "d"}, {"new_id": "n"}, {"id": ["d"], "new_id": "n"}, {"id": "acl_users", "new_id": "n"}, {"id": "d", "new_id": "acl_users"},
                {"id": "d", "new_id": "a/b"}, {"id": "d", "new_id": "n" * 101}, {"id": "q", "new_id": "d"}, {"id": "", "new_id": "n"},
                {"id": "d", "new_id": "d"}, {"id": "d", "new_id": "f"}, {"id": "lost", "new_id": "g"}):
        post(play, "/manage_renameObject", one)
    assert b"commit" not in play.printed()
    case("manage_renameObject: what is refused", play, "tree")


def put_together():
    """Calls of two workers."""
    def ask(play, w, path, form, by=ADMIN):
        return play.ask(w, "POST", path, form=form, by=by)

    for call in ("manage_addFolder", "manage_addDTMLMethod", "manage_addDTMLDocument"):
        play = ask(ask(over(), 0, f"/{call}", {"id": "a", "title": "A"}), 1, f"/{call}", {"id": "b", "title": "B"})
        play.to(0, "computed").to(1, "computed").step(0).step(1).step(0).step(1).through(1)
        printed = play.printed()
        assert b"busy 1 0\n" in printed and b"conflict 1 0000000000000000 0331620000000000 0331620000000001\n" in printed
        assert [t[2][-1][0] for t in play.run.store.known.transactions[1:]] == [3, 4]
        case(f"two workers call {call} in one folder: the second begins anew and gets another id", get(get(play, "/a"), "/b"))
    play = ask(ask(over("tree"), 0, "/f/manage_addFolder", {"id": "a"}), 1, "/g/manage_addFolder", {"id": "b"})
    play.to(0, "computed").to(1, "computed").through(1).through(0)
    assert b"conflict" not in play.printed() and [t[2][-1][0] for t in play.run.store.known.transactions[1:]] == [7, 8]
    case("two workers add to two folders: the one that votes first gets the next id, the other the one behind it", play, "tree")
    play = ask(ask(over("tree"), 0, "/g/manage_addUserFolder", {}), 1, "/g/manage_addUserFolder", {})
    play.to(0, "computed").to(1, "computed").through(0).through(1)
    assert b"conflict 1" in play.printed() and b"taken: acl_users" in play.printed()
    case("two workers add a user folder to one folder: the second is refused", play, "tree")

    play = ask(ask(over("tree"), 0, "/manage_renameObject", {"id": "d", "new_id": "e"}), 1, "/d/manage_edit", {"data": "edited"})
    play.to(0, "computed").to(1, "computed").through(0).step(1).through(1)
    assert b"conflict 1 0000000000000000" in play.printed() and b"not found: d" in play.printed()
    case("a document is renamed while it is edited: the edit begins anew and doesn't find it", get(play, "/e"), "tree")
    play = ask(ask(over("tree"), 0, "/manage_renameObject", {"id": "d", "new_id": "e"}), 1, "/d/manage_edit", {"data": "edited"})
    play.to(0, "computed").to(1, "computed").through(1).step(0).through(0)
    assert b"conflict 0 0000000000000003" in play.printed() and play.printed().count(b" commit ") > 2
    case("a document is edited while it is renamed: the renaming begins anew and keeps the edit", get(play, "/e"), "tree")
    play = ask(ask(over("tree"), 0, "/f/manage_renameObject", {"id": "x", "new_id": "y"}), 1, "/d/manage_edit", {"data": "edited"})
    play.to(0, "computed").to(1, "computed").through(0).through(1)
    assert b"conflict" not in play.printed()
    case("a document is edited while another one is renamed in another folder: neither meets the other", play, "tree")
    play = ask(ask(over("tree"), 0, "/manage_renameObject", {"id": "d", "new_id": "n"}), 1, "/manage_renameObject", {"id": "g", "new_id": "n"})
    play.to(0, "computed").to(1, "computed").through(0).step(1).through(1)
    assert b"taken: n" in play.printed()
    case("two children get one name: the second begins anew and finds it taken", play, "tree")
    play = ask(over("tree"), 0, "/manage_renameObject", {"id": "d", "new_id": "e"})
    play.ask(1, "GET", "/d").step(1).through(0).through(1)
    assert b"reply 1 read 0331620000000000" in play.printed() and b"hello" in play.printed()
    case("a document is renamed while it is read: the reader sees it under its former name", play, "tree")
    play = ask(ask(over("tree"), 0, "/manage_delObjects", {"ids": "g"}), 1, "/g/manage_addFolder", {"id": "n"})
    play.to(0, "computed").to(1, "computed").through(0).step(1).through(1)
    assert b"not found: g" in play.printed()
    case("a folder is deleted while one is added to it", play, "tree")
    play = ask(ask(over("tree"), 0, "/g/manage_addFolder", {"id": "n"}), 1, "/manage_delObjects", {"ids": "g"})
    play.to(0, "computed").to(1, "computed").through(0).through(1)
    assert b"conflict" not in play.printed() and play.printed().count(b" commit ") > 2
    case("a folder is deleted while one is added to it, which the deletion doesn't read", play, "tree")


# what builds a site out of a new one: paths, fields and users
BUILDING = [
    ("/manage_edit", {"title": "Village library"}, ADMIN),
    ("/manage_addDTMLMethod", {"id": "header", "title": "Header", "file": "<html><body><h1>&dtml-title;</h1>\n"}, ADMIN),
    ("/manage_addDTMLMethod", {"id": "footer", "file": "<p>You are <dtml-var AUTHENTICATED_USER>.</p></body></html>\n"}, ADMIN),
    ("/index_html/manage_edit", {"data": "<dtml-var header><dtml-var footer>"}, ADMIN),
    ("/acl_users/userFolderAddUser", {"name": "ann", "password": "garden", "roles": ["Editor", "Author", "Editor"]}, ADMIN),
    ("/acl_users/userFolderAddUser", {"name": "bob", "password": "b"}, ADMIN),
    ("/manage_permission", {"permission_to_manage": "Change DTML Documents", "roles": "Editor", "acquire": "1"}, ADMIN),
    ("/manage_permission", {"permission_to_manage": "Add Documents, Images, and Files", "roles": ["Editor"], "acquire": "1"}, ADMIN),
    ("/manage_addFolder", {"id": "news", "title": "News"}, ADMIN),
    ("/news/manage_addDTMLDocument", {"id": "opening", "title": "We open on Monday", "file": "From nine to five."}, "ann:garden"),
    ("/news/manage_addDTMLDocument", {"id": "minutes", "title": "Minutes of the board", "file": "The roof leaks."}, "ann:garden"),
    ("/news/minutes/manage_permission", {"permission_to_manage": "View", "roles": ["Manager", "Editor"]}, ADMIN),
    ("/news/opening/manage_edit", {"data": "From ten to six.", "title": "We open on Tuesday"}, "ann:garden"),
    ("/manage_addFolder", {"id": "people"}, ADMIN),
    ("/people/manage_edit", {"title": "People"}, ADMIN),
    ("/people/manage_addUserFolder", None, ADMIN),
    ("/people/acl_users/userFolderAddUser", {"name": "cy", "password": "c:d", "roles": ["Manager"]}, ADMIN),
    ("/people/manage_addFolder", {"id": "cy", "title": "Cy's own"}, "cy:c:d"),
    ("/people/cy/manage_addDTMLDocument", {"id": "index_html", "file": "Cy"}, "cy:c:d"),
    ("/people/cy/manage_setLocalRoles", {"userid": "bob", "roles": ["Owner", "Editor"]}, "cy:c:d"),
    ("/people/cy/manage_setLocalRoles", {"userid": "ann", "roles": "Owner"}, "cy:c:d"),
    ("/people/cy/manage_setLocalRoles", {"userid": "bob", "roles": ["Manager"]}, "cy:c:d"),
    ("/people/cy/manage_addDTMLDocument", {"id": "guest.book", "title": "Guests"}, "bob:b"),
    ("/people/cy/manage_delLocalRoles", {"userids": ["ann"]}, "cy:c:d"),
    ("/news/manage_addProperty", {"id": "editor", "value": "ann"}, ADMIN),
    ("/news/manage_addProperty", {"id": "most", "value": "007", "type": "int"}, ADMIN),
    ("/news/manage_addProperty", {"id": "days", "value": "Monday\r\nTuesday\n", "type": "lines"}, ADMIN),
    ("/news/opening/manage_addProperty", {"id": "hours", "value": "6", "type": "string"}, ADMIN),
    ("/news/manage_delProperties", {"ids": ["editor", "editor"]}, ADMIN),
    ("/header/manage_proxy", {"roles": ["Manager", "Author"]}, ADMIN),
    ("/footer/manage_proxy", {"roles": "Manager"}, ADMIN),
    ("/footer/manage_proxy", None, ADMIN),
    ("/manage_addDTMLMethod", {"id": "old", "file": "to be dropped"}, ADMIN),
    ("/manage_addFolder", {"id": "attic", "title": "Attic"}, ADMIN),
    ("/attic/manage_addDTMLDocument", {"id": "letter", "file": "Dear reader"}, ADMIN),
    ("/manage_renameObject", {"id": "attic", "new_id": "archive"}, ADMIN),
    ("/archive/manage_renameObject", {"id": "letter", "new_id": "letter.txt"}, ADMIN),
    ("/manage_delObjects", {"ids": ["old", "old"]}, ADMIN),
    ("/news/minutes/manage_permission", {"permission_to_manage": "View", "acquire": "1"}, ADMIN),
    ("/manage_renameObject", {"id": "news", "new_id": "News"}, ADMIN),
]


def put_building():
    play = over().put(("clock", T0))
    for path, form, by in BUILDING:
        post(play, path, form, by)
        assert b" commit " in play.run.blocks[-1], (path, play.run.blocks[-1])
    assert len(BUILDING) == 40
    FILES["built"] = play.run.disk.content
    case("forty calls build a site out of a new one", play)
    play = over("built")
    for path in ("/News/opening", "/News/minutes", "/people/cy", "/people/cy/guest.book", "/archive/letter.txt", "/news", "/old", "/attic"):
        get(play, path)
    case("the site that forty calls built is looked at", play, "built")


def put_looks():
    """The file that the forty calls come to, which is written here: its dump ends as their report does."""
    known = Run(FILES["built"], site, NO_LIMIT).store.known
    objects = {oid for _, _, records in known.transactions for oid, _, _ in records}
    for command, lines in (
        ("dump", Run(FILES["built"], site, NO_LIMIT).end()),
        ("check", f"transactions 41\nobjects {len(objects)}\nlast {hex16(T0 + 40)}\nend {len(FILES['built'])}\ntorn 0\n".encode()),
    ):
        print(f"case {command} of the file that forty calls come to")
        print(f"words {command} site.fs\nfile site.fs\n  use built\nstatus 0\noutput")
        put_shared(lines, {"built_kept": kept_lines(FILES["built"])})
        print()


def main():
    print("# The calls that add and rename, over the whole program, calls of two workers, and a site that calls build. Written by\n# docs/site_runs.py.\n")
    put_rows()
    put_works()
    put_denied()
    put_refusals()
    put_together()
    put_building()
    put_all()
    put_looks()


if __name__ == "__main__":
    main()
