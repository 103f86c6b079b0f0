#!/usr/bin/env python3
"""Writes the cases of the calls of management: data/calls.cases of manage_cases.

    python3 docs/calls.py > crates/manage_cases/data/calls.cases

What must come is worked out from the table of calls and the table of records alone: the fields in the order of a row, each
for absent, bad and too long, then what else the row is refused for, then the objects that are written. Nothing here runs or
reads the product. `site_runs.py` takes the rows from here.
"""

import base64
import copy
import hashlib
import re
import sys
from urllib.parse import quote_plus

PERMISSIONS = ("View", "Access contents information", "Add Folders", "Add Documents, Images, and Files", "Change DTML Methods",
               "Change DTML Documents", "Delete objects", "Manage properties", "Change permissions", "Manage users",
               "Add User Folders", "Undo changes", "Change proxy roles")
RESERVED = (".", "..", "acl_users", "id", "title", "title_or_id", "objectIds", "objectValues", "userFolderAddUser",
            "undoable_transactions")


# ---- records

def text(value, size=2):
    data = value.encode()
    return len(data).to_bytes(size, "big") + data


def many(items, one):
    return len(items).to_bytes(2, "big") + b"".join(map(one, items))


def roles(names):
    return many(names, text)


def value(v):
    if isinstance(v, int):
        return b"i" + v.to_bytes(8, "big", signed=True)
    if isinstance(v, list):
        return b"l" + many(v, text)
    return b"s" + text(v)


def record(o, version=2):
    """The record of an object, in the first version where it has one."""
    source = lambda: text(o["source"], 4) + (roles(o["proxy"]) if version == 2 else b"")
    parts = {
        "F": lambda: many(o["children"], lambda c: text(c[0]) + (c[1] or 0).to_bytes(8, "big")),
        "M": source,
        "D": source,
        "U": lambda: many(o["users"], lambda u: text(u[0]) + text(u[1]) + roles(u[2])),
    }
    return (f"Z{version}{o['kind']}".encode() + text(o["id"]) + o["parent"].to_bytes(8, "big") + text(o["title"])
            + many(o["settings"], lambda s: bytes([s[0], s[1]]) + roles(s[2]))
            + many(o["locals"], lambda l: text(l[0]) + roles(l[1]))
            + many(o["properties"], lambda p: text(p[0]) + (value if version == 2 else text)(p[1])) + parts[o["kind"]]())


def new(kind, id, parent, title="", **part):
    base = {"kind": kind, "id": id, "parent": parent, "title": title, "settings": [], "locals": [], "properties": []}
    return base | {"F": {"children": []}, "M": {"source": "", "proxy": []}, "D": {"source": "", "proxy": []},
                   "U": {"users": []}}[kind] | part


# ---- rules of texts: whether a text is like one but for its length, and the most bytes

def is_id(t):
    return bool(re.fullmatch(r"[A-Za-z0-9_.,~-]+", t)) and not t.startswith(("_", "aq_", "manage_")) and t not in RESERVED


def is_number(t):
    return bool(re.fullmatch(r"-?[0-9]+", t)) and -2**63 <= int(t) < 2**63


# sources that don't read, with the number of the kind and the place; any other source that is given here reads
BAD_SOURCES = {
    "<dtml-foo>": (1, 0),
    "a<dtml-if x>": (2, 1),
    "é</dtml-in>": (3, 2),
    "<dtml-var a a>": (4, 0),
    '  <dtml-var "a +">': (5, 2),
    "<dtml-if a>" * 65 + "</dtml-if>" * 65: (7, 64 * len("<dtml-if a>")),
}
MOST_CHILDREN, MOST_CONTAINERS = 10000, 64

RULES = {
    "any": (lambda t: True, None),
    "child": (lambda t: t != "acl_users", None),
    "id": (is_id, 100),
    "number": (is_number, 10000),
    "password": (lambda t: t != "", 1000),
    "permission": (lambda t: t in PERMISSIONS, None),
    "property": (lambda t: bool(re.fullmatch(r"[A-Za-z][A-Za-z0-9_]*", t)) and t not in RESERVED, 100),
    "role": (lambda t: bool(re.fullmatch(r"[ -+\--~]+", t)), 64),
    "source": (lambda t: True, 262144),
    "title": (lambda t: True, 1000),
    "type": (lambda t: t in ("string", "int", "lines"), None),
    "user": (lambda t: t != "" and ":" not in t and all(ord(c) >= 32 for c in t), 100),
    "value": (lambda t: True, 10000),
}


class Refused(Exception):
    pass


def given(form, field):
    """The texts of a field, and whether it came as a list."""
    found = form.get(field)
    if found is None or found == []:
        return [], isinstance(found, list)
    if isinstance(found, list):
        return [str(v) for v in found], True
    return [str(found)], False


def judge(form, rows):
    for field, rule, needed, listed in rows:
        texts, is_list = given(form, field)
        if is_list and not listed:
            raise Refused(f"bad-field {field}")
        if not texts:
            if needed:
                raise Refused(f"missing {field}")
            continue
        like, most = RULES[rule]
        if not all(map(like, texts)):
            raise Refused(f"bad-field {field}")
        if most is not None and any(len(t.encode()) > most for t in texts):
            raise Refused(f"too-long {field}")
        if rule == "role" and len(set(texts)) > 65535:
            raise Refused(f"too-long {field}")


def one(field, rule):
    return (field, rule, True, False)


def maybe(field, rule):
    return (field, rule, False, False)


def some(field, rule):
    return (field, rule, True, True)


def any_of(field, rule):
    return (field, rule, False, True)


def said(form, field):
    texts, _ = given(form, field)
    return texts[0] if texts else ""


def sorted_roles(form):
    return sorted(set(given(form, "roles")[0]), key=str.encode)


def known(ids, names):
    for id in ids:
        if id not in names:
            raise Refused(f"no-such-id {id}" if id else 'no-such-id ""')


def put(items, item):
    return sorted([i for i in items if i[0] != item[0]] + [item], key=lambda i: i[0] if isinstance(i[0], int) else i[0].encode())


# ---- the rows

class Site:
    """The object called on, its id, how many objects there are from it up to the root, and what the others' ids give."""

    def __init__(self, oid, depth=1, others=None):
        self.oid, self.depth, self.others = oid, depth, others or {}


class Unknown(Exception):
    """An object is asked for that isn't known."""


def delete_objects(o, form, site):
    judge(form, [some("ids", "any")])
    ids = given(form, "ids")[0]
    known(ids, [c[0] for c in o["children"]])
    o["children"] = [c for c in o["children"] if c[0] not in ids]


def set_permission(o, form, site):
    judge(form, [one("permission_to_manage", "permission"), any_of("roles", "role"), maybe("acquire", "any")])
    number = PERMISSIONS.index(said(form, "permission_to_manage")) + 1
    acquire, names = said(form, "acquire") == "1", sorted_roles(form)
    if acquire and not names:
        o["settings"] = [s for s in o["settings"] if s[0] != number]
    else:
        o["settings"] = put(o["settings"], (number, int(acquire), names))


def set_local_roles(o, form, site):
    judge(form, [one("userid", "user"), some("roles", "role")])
    locals = put(o["locals"], (said(form, "userid"), sorted_roles(form)))
    if len(locals) > 1000:
        raise Refused("too-many")
    o["locals"] = locals


def delete_local_roles(o, form, site):
    judge(form, [some("userids", "any")])
    users = given(form, "userids")[0]
    known(users, [l[0] for l in o["locals"]])
    o["locals"] = [l for l in o["locals"] if l[0] not in users]


def lines_of(t):
    lines = t.split("\n") if t else []
    return [l.removesuffix("\r") for l in lines[:-1]] + lines[-1:]


def add_property(o, form, site):
    kind = said(form, "type")
    judge(form, [one("id", "property"), one("value", "number" if kind == "int" else "value"), maybe("type", "type")])
    name, v = said(form, "id"), said(form, "value")
    if name in [p[0] for p in o["properties"]]:
        raise Refused(f"taken {name}")
    v = int(v) if kind == "int" else lines_of(v) if kind == "lines" else v
    if len(o["properties"]) >= 100 or isinstance(v, list) and len(v) > 1000:
        raise Refused("too-many")
    o["properties"] = put(o["properties"], (name, v))


def delete_properties(o, form, site):
    judge(form, [some("ids", "any")])
    ids = given(form, "ids")[0]
    known(ids, [p[0] for p in o["properties"]])
    o["properties"] = [p for p in o["properties"] if p[0] not in ids]


def set_proxy_roles(o, form, site):
    judge(form, [any_of("roles", "role")])
    o["proxy"] = sorted_roles(form)


def kept(password):
    return "{SHA}" + base64.b64encode(hashlib.sha1(password.encode()).digest()).decode()


def add_user(o, form, site):
    judge(form, [one("name", "user"), one("password", "password"), any_of("roles", "role")])
    name = said(form, "name")
    if name in [u[0] for u in o["users"]]:
        raise Refused(f"taken {name}")
    if len(o["users"]) >= 1000:
        raise Refused("too-many")
    o["users"] = put(o["users"], (name, kept(said(form, "password")), sorted_roles(form)))


def edit_page(o, form, site):
    judge(form, [one("data", "source"), maybe("title", "title")])
    read_source(said(form, "data"))
    o["source"] = said(form, "data")
    if given(form, "title")[0]:
        o["title"] = said(form, "title")


def edit_folder(o, form, site):
    judge(form, [one("title", "title")])
    o["title"] = said(form, "title")


def edit(o, form, site):
    (edit_folder if o["kind"] == "F" else edit_page)(o, form, site)


def read_source(source):
    if source in BAD_SOURCES:
        raise Refused("bad-source {} {}".format(*BAD_SOURCES[source]))


def names_in(o):
    return [c[0] for c in o["children"]]


def free(name, o):
    if name in names_in(o):
        raise Refused(f"taken {name}")


def room(o, site):
    if len(o["children"]) >= MOST_CHILDREN or site.depth > MOST_CONTAINERS:
        raise Refused("too-many")


# a child whose id isn't known before the vote
NEW = None


def adding(kind, fields, part):
    """A row that adds an object of this kind: the folder with the child last, and the child."""

    def row(o, form, site):
        judge(form, fields)
        name = said(form, "id")
        free(name, o)
        room(o, site)
        made = new(kind, name, site.oid, said(form, "title"), **part(form))
        o["children"] = o["children"] + [(name, NEW)]
        return [(NEW, made)]

    return row


def sourced(form):
    read_source(said(form, "file"))
    return {"source": said(form, "file")}


ID_AND_TITLE = [one("id", "id"), maybe("title", "title")]
add_folder = adding("F", ID_AND_TITLE, lambda form: {})
add_method = adding("M", ID_AND_TITLE + [maybe("file", "source")], sourced)
add_document = adding("D", ID_AND_TITLE + [maybe("file", "source")], sourced)


def add_user_folder(o, form, site):
    return adding("U", [], lambda form: {})(o, {"id": "acl_users"}, site)


def rename_object(o, form, site):
    judge(form, [one("id", "child"), one("new_id", "id")])
    former, name = said(form, "id"), said(form, "new_id")
    known([former], names_in(o))
    free(name, o)
    oid = dict(o["children"])[former]
    o["children"] = [c for c in o["children"] if c[0] != former] + [(name, oid)]
    if oid == site.oid:
        o["id"] = name
        return []
    if oid not in site.others:
        raise Unknown(oid)
    child = copy.deepcopy(site.others[oid])
    if child is None:
        raise Refused(f"broken {oid}")
    child["id"] = name
    return [(oid, child)]


CALLS = {
    "manage_addFolder": add_folder,
    "manage_addDTMLMethod": add_method,
    "manage_addDTMLDocument": add_document,
    "manage_addUserFolder": add_user_folder,
    "manage_renameObject": rename_object,
    "manage_edit": edit,
    "manage_delObjects": delete_objects,
    "manage_permission": set_permission,
    "manage_setLocalRoles": set_local_roles,
    "manage_delLocalRoles": delete_local_roles,
    "manage_addProperty": add_property,
    "manage_delProperties": delete_properties,
    "manage_proxy": set_proxy_roles,
    "userFolderAddUser": add_user,
}


# the permission that a call needs, by the kind of the object
KINDS_ON = {
    "manage_addFolder": {"F": 3},
    "manage_addDTMLMethod": {"F": 4},
    "manage_addDTMLDocument": {"F": 4},
    "manage_addUserFolder": {"F": 11},
    "manage_edit": {"M": 5, "D": 6, "F": 8},
    "manage_delObjects": {"F": 7},
    "manage_renameObject": {"F": 7},
    "manage_permission": {"F": 9, "M": 9, "D": 9, "U": 9},
    "manage_setLocalRoles": {"F": 9, "M": 9, "D": 9, "U": 9},
    "manage_delLocalRoles": {"F": 9, "M": 9, "D": 9, "U": 9},
    "manage_addProperty": {"F": 8, "D": 8},
    "manage_delProperties": {"F": 8, "D": 8},
    "manage_proxy": {"M": 13, "D": 13},
    "userFolderAddUser": {"U": 10},
}


# ---- a site

FULL = {
    "settings": [(1, 0, ["Manager"]), (5, 1, ["Author", "Editor"])],
    "locals": [("ann", ["Editor", "Owner"]), ("bo", ["Owner"])],
    "properties": [("a", "one"), ("b", -2), ("c", ["x", ""])],
}
SITE = {
    0: new("F", "", 0, "Zope", children=[("d", 1), ("m", 2), ("acl_users", 3), ("f", 4)]),
    1: new("D", "d", 0, "D", source="hello", proxy=["Editor"]) | copy.deepcopy(FULL),
    2: new("M", "m", 0, "M", source="s") | copy.deepcopy(FULL),
    3: new("U", "acl_users", 0, users=[("jo", "{SHA}x", ["Manager"])]) | copy.deepcopy(FULL),
    4: new("F", "f", 0, "F", children=[("z", 9), ("acl_users", 8), ("y", 7)]) | copy.deepcopy(FULL),
    7: new("F", "y", 4, "Y", children=[("w", 6)]) | copy.deepcopy(FULL),
    8: new("U", "acl_users", 4, users=[("jo", "{SHA}x", ["Manager"])]),
    9: new("D", "z", 4, "Z", source="<dtml-var id>", proxy=["Editor"]) | copy.deepcopy(FULL),
}
# an object of each kind on which calls are tried
ONES = {0: "the root", 1: "a document", 2: "a method", 3: "a user folder", 4: "a folder"}
KIND_OF = {"F": 4, "D": 1, "M": 2, "U": 3}
DEEPEST = MOST_CONTAINERS
# folders inside one another, by how many containers they have
CHAIN = {n: new("F", f"n{n}", 1000 + n - 1 if n > 1 else 0) for n in range(1, DEEPEST + 1)}


# ---- cases

# what several records share
SHARED = {}
RUN = re.compile(rb"(.)\1{299,}", re.DOTALL)


def put_parts(data, line):
    """The lines of bytes: pieces that are shared, long runs of one byte, and the rest by the given function."""
    for name, shared in SHARED.items():
        before, found, after = data.partition(shared)
        if found:
            put_parts(before, line)
            print(f"  use {name}")
            put_parts(after, line)
            return
    at = 0
    for run in RUN.finditer(data):
        line(data[at : run.start()])
        print(f"  repeat {len(run[0])} byte_{run[1].hex()}")
        at = run.end()
    line(data[at:])


def put_hex(data):
    for at in range(0, len(data), 60):
        print(f"  hex {data[at:at + 60].hex()}")


def put_line(data):
    if data:
        print(f"  | {data.decode()}\\")


def put_record(o):
    put_parts(record(o), put_hex)


def put_object(oid, o):
    if o is None:
        print(f"absent {oid}")
        return
    print(f"object {oid}")
    if SITE.get(oid) == o:
        print(f"  use object_{oid}")
    elif CHAIN.get(oid - 1000) == o:
        print(f"  use folder_in_{oid - 1000}")
    else:
        put_record(o)


def pairs(form):
    """The form's bytes: one value, or each item of a list under a name with a suffix."""
    for field, found in form.items():
        for v in found if isinstance(found, list) else [found]:
            suffix = (":int" if isinstance(v, int) else "") + (":list" if isinstance(found, list) else "")
            yield f"{field}{suffix}={quote_plus(str(v))}"


def hole_of(o):
    """Where the id of a new object stands in a record: there alone the record differs by that id."""
    filled = o | {"children": [(name, 2**64 - 1 if oid is NEW else oid) for name, oid in o["children"]]}
    places = [at for at, (a, b) in enumerate(zip(record(o), record(filled))) if a != b]
    assert places == list(range(places[0], places[0] + 8))
    return places[0]


def put_written(oid, o):
    if oid is NEW:
        print("made 0")
    elif o["kind"] == "F" and (NEW in [c[1] for c in o["children"]]):
        print(f"written {oid} hole {hole_of(o)} 0")
    else:
        print(f"written {oid}")
    put_record(o)


def put_case(title, call, oid, form, o=None, others=None, path=()):
    """A case of a call on an object. Behind the form: the object where it isn't the site's, others by their ids, and the ids
    of folders between it and the root."""
    o = copy.deepcopy(o or SITE[oid])
    others = others or {}
    print(f"\ncase {call} {title}")
    for at in [0] + list(path):
        put_object(at, SITE[0] if at == 0 and oid else o if at == oid else CHAIN[at - 1000])
    if oid:
        put_object(oid, o)
    for at, other in others.items():
        if at:
            put_object(at, other)
    print(f"change {call} {oid}")
    put_parts("&".join(pairs(form)).encode(), put_line)
    if not form:
        print("  | \\")
    try:
        if o["kind"] not in KINDS_ON[call]:
            raise Refused(f"not-found {call}")
        more = CALLS[call](o, form, Site(oid, (2 if oid else 1) + len(path), others)) or []
        for name, written in [(oid, o)] + more:
            put_written(name, written)
    except Refused as refusal:
        print(f"refused {refusal}")
    except Unknown as unknown:
        print(f"refused need {unknown}")


def each_kind(call, form):
    """The call on each kind of object, the root too."""
    for oid, name in ONES.items():
        put_case(f"on {name}", call, oid, form, others=others_of(call, oid))


def others_of(call, oid):
    """The children that a call may ask for."""
    return {at: SITE[at] for _, at in SITE[oid]["children"] if at in (7, 8, 9)} if call == "manage_renameObject" and oid == 4 else None


GOOD = {
    "id": "p", "ids": ["z"], "userid": "ann", "userids": ["ann"], "roles": ["Owner", "Editor", "Owner"], "value": "v",
    "permission_to_manage": "View", "name": "ann", "password": "secret", "type": "string", "acquire": "0", "title": "New",
    "file": "<b>&dtml-id;</b>", "new_id": "x",
}
# by field, and for some by the call and the field
BAD = {
    "id": ["", "1a", "a-b", "a b", "_a", "title", "é"], "userid": ["", "a:b", "a\x1fb", "\n"], "roles": ["", "a,b", "\x7f", "é", "a\nb"],
    "permission_to_manage": ["", "view", "View ", "Viev", "1"], "name": ["", "a:b", "\x00"], "password": [""], "type": ["", "Int", "float", "lines "],
    "new_id": ["", "a b", "_a", "aq_", "aq_a", "manage_", "manage_edit", "é", "a/b", "a\n", "a+b", "a:b", "a@b"] + list(RESERVED),
    ("manage_renameObject", "id"): ["acl_users"],
}
LONG = {
    "id": "a" * 100, "userid": "é" * 50, "roles": "R" * 64, "value": "v" * 10000, "name": "u" * 100, "password": "p" * 1000,
    "new_id": "a" * 100, "title": "é" * 500, "file": "s" * 262144,
    ("manage_renameObject", "id"): None,
}
FIELDS = {
    "manage_delObjects": [("ids", True, True)],
    "manage_permission": [("permission_to_manage", True, False), ("roles", False, True), ("acquire", False, False)],
    "manage_setLocalRoles": [("userid", True, False), ("roles", True, True)],
    "manage_delLocalRoles": [("userids", True, True)],
    "manage_addProperty": [("id", True, False), ("value", True, False), ("type", False, False)],
    "manage_delProperties": [("ids", True, True)],
    "manage_proxy": [("roles", False, True)],
    "userFolderAddUser": [("name", True, False), ("password", True, False), ("roles", False, True)],
    "manage_addFolder": [("id", True, False), ("title", False, False)],
    "manage_addDTMLMethod": [("id", True, False), ("title", False, False), ("file", False, False)],
    "manage_addDTMLDocument": [("id", True, False), ("title", False, False), ("file", False, False)],
    "manage_addUserFolder": [],
    "manage_renameObject": [("id", True, False), ("new_id", True, False)],
}
ADDING = ("manage_addFolder", "manage_addDTMLMethod", "manage_addDTMLDocument")
for adds in ADDING:
    BAD[adds, "id"] = BAD["new_id"]


def of_field(table, call, field):
    return table.get((call, field), table.get(field)) or []


def each_field(call):
    """Each field absent, as a list, bad and at its limit, and refusals of an earlier field before a later one."""
    oid = KIND_OF[next(iter(KINDS_ON[call]))]
    good = {field: GOOD[field] for field, _, _ in FIELDS[call]}
    if call == "manage_delProperties":
        good["ids"] = ["a"]
    if call == "manage_renameObject":
        good["id"] = "z"
    others = others_of(call, oid)

    def put(title, form):
        put_case(title, call, oid, form, others=others)

    put("with every field", good)
    put("with no field", {})
    put("with a field that it hasn't", good | {"other": ["x"], "Title": "y"})
    for field, needed, listed in FIELDS[call]:
        bad_ones, longest = of_field(BAD, call, field), of_field(LONG, call, field)
        put(f"without {field}", {f: v for f, v in good.items() if f != field})
        one_of = good[field][0] if listed else good[field]
        put(f"with one {field} as a list", good | {field: [one_of]})
        put(f"with one {field} alone", good | {field: one_of})
        put(f"with a number as {field}", good | {field: 7})
        put(f"with a list of numbers as {field}", good | {field: [7, -7]})
        for bad in bad_ones:
            put(f"with a bad {field}, {bad!r}", good | {field: bad})
        if listed and bad_ones:
            put(f"with a bad item of {field}", good | {field: [one_of, bad_ones[1]]})
        if longest:
            put(f"with the longest {field}", good | {field: longest})
            put(f"with {field} of a byte more", good | {field: longest + "x"})
            if len(bad_ones) > 1:
                put(f"with {field} bad and too long", good | {field: longest + bad_ones[1]})
    for at, (field, needed, listed) in enumerate(FIELDS[call]):
        longest = of_field(LONG, call, field)
        # what is wrong with this field, and then with each later one
        wrong = [("too long", longest + "x")] if longest else []
        if call in ADDING or call == "manage_renameObject":
            wrong += [("as a list", [good[field]])] + [("bad", bad) for bad in of_field(BAD, call, field)[:1]]
        for how, value in wrong:
            for later, later_needed, _ in FIELDS[call][at + 1:]:
                put(f"with {field} {how} and no {later}", {f: v for f, v in good.items() if f != later} | {field: value})
                bad_ones = of_field(BAD, call, later)
                if bad_ones:
                    put(f"with {field} {how} and a bad {later}", good | {field: value, later: bad_ones[1 if len(bad_ones) > 1 else 0]})
                if call in ADDING:
                    put(f"with {field} {how} and a list as {later}", good | {field: value, later: [good[later]]})


def names(count, front="u"):
    return [f"{front}{n:05d}" for n in range(count)]


def full_folder(count, front=()):
    """A folder with so many children, behind those in front."""
    return new("F", "f", 0, children=list(front) + [(n, 5) for n in names(count, "c")])


def put_adding():
    """The calls that add an object: names, limits, and which refusal comes first."""
    for call in ADDING:
        for id in ("1a", "a-b", "...", ".a", "~", "a,b", "aq", "manage", "Acl_users", "Title", "A_", "index_html"):
            put_case(f"named {id}", call, 4, {"id": id})
        for id in ("z", "acl_users", "y", "Z"):
            put_case(f"named {id} beside others", call, 4, {"id": id})
        for title in ("", "<b>&\"", "é\nü"):
            put_case(f"titled {title!r}", call, 4, {"id": "n", "title": title})
        put_case("in a folder without children", call, 7, {"id": "z"}, SITE[7] | {"parent": 0, "children": []})
        put_case("in the root that has no child", call, 0, {"id": "z", "title": "T"}, SITE[0] | {"children": []})
        put_case("in the root under a name that is taken", call, 0, {"id": "d"})
    for call in ADDING[1:]:
        for source in ("", "a\r\nb", "é", "<dtml-var title>", "<!--#var x-->", "&dtml-x", "<dtml-if a>" * 64 + "</dtml-if>" * 64, *BAD_SOURCES):
            put_case(f"with the source {source[:40]!r}", call, 4, {"id": "n", "file": source})
            if source in BAD_SOURCES:
                put_case(f"with the source {source[:40]!r} under a name that is taken", call, 4, {"id": "z", "file": source})
        put_case("with a source that is bad and too long", call, 4, {"id": "n", "file": "<dtml-foo>" + "s" * 262144})
        put_case("with a number as a source, and no title", call, 4, {"id": 5, "file": -5})
    call = "manage_addUserFolder"
    free = SITE[4] | {"children": [("z", 9)]}
    put_case("in a folder without one", call, 4, {}, free)
    put_case("with fields that it hasn't", call, 4, {"id": ["x", "y"], "title": "T" * 2000}, free)
    put_case("in a folder without children", call, 7, {}, SITE[7] | {"parent": 0, "children": []})
    put_case("in the root that has no child", call, 0, {}, SITE[0] | {"children": []})
    put_case("beside a child of another kind by that name", call, 4, {}, SITE[4] | {"children": [("acl_users", 9)]})
    for call in (*ADDING, call):
        form = {} if call == "manage_addUserFolder" else {"id": "n"}
        for count in (MOST_CHILDREN - 1, MOST_CHILDREN):
            put_case(f"behind {count} others", call, 4, form, full_folder(count))
        taken = full_folder(MOST_CHILDREN - 1, [(form.get("id", "acl_users"), 9)])
        put_case(f"named as one of {MOST_CHILDREN} others", call, 4, form, taken)
        for depth in (DEEPEST - 1, DEEPEST):
            put_case(f"in a folder with {depth} containers", call, 1000 + depth, form, CHAIN[depth], path=[1000 + n for n in range(1, depth)])
        below = CHAIN[DEEPEST] | {"children": [(form.get("id", "acl_users"), 9)]}
        put_case(f"in a folder with {DEEPEST} containers under a name that is taken", call, 1000 + DEEPEST, form, below, path=[1000 + n for n in range(1, DEEPEST)])
    for call in ADDING[1:]:
        put_case(f"behind {MOST_CHILDREN} others, with a source that doesn't read", call, 4, {"id": "n", "file": "<dtml-foo>"}, full_folder(MOST_CHILDREN))
        put_case(f"in a folder with {DEEPEST} containers, with a source that doesn't read", call, 1000 + DEEPEST, {"id": "n", "file": "<dtml-foo>"}, CHAIN[DEEPEST], path=[1000 + n for n in range(1, DEEPEST)])


def put_renaming():
    """The renaming of a child: which one, its new name, and what of it is known."""
    call = "manage_renameObject"
    others = others_of(call, 4)
    for former, kind in (("z", "a document"), ("y", "a folder")):
        for name in ("a", "zz", "Z", "1", "index_html", "~"):
            put_case(f"of {kind} to {name}", call, 4, {"id": former, "new_id": name}, others=others)
        put_case(f"of {kind} to its own name", call, 4, {"id": former, "new_id": former}, others=others)
        put_case(f"of {kind} to its own name, which isn't asked for", call, 4, {"id": former, "new_id": former})
        put_case(f"of {kind} to acl_users", call, 4, {"id": former, "new_id": "acl_users"}, others=others)
    put_case("to another child's name", call, 4, {"id": "z", "new_id": "y"}, others=others)
    put_case("to another child's name, of a child that isn't asked for", call, 4, {"id": "z", "new_id": "y"})
    for former in ("q", "", "Z", "zz", "n" * 400, "a/b", "é", "_a"):
        put_case(f"of {former[:10]!r}, which isn't there", call, 4, {"id": former, "new_id": "x"})
    put_case("of one that isn't there to a name that is taken", call, 4, {"id": "q", "new_id": "y"})
    put_case("of one that isn't there to its own name", call, 4, {"id": "q", "new_id": "q"})
    put_case("of a child that isn't asked for yet", call, 4, {"id": "z", "new_id": "x"})
    put_case("of a child that is gone", call, 4, {"id": "z", "new_id": "x"}, others={9: None})
    put_case("of a method", call, 0, {"id": "m", "new_id": "x"}, others={2: SITE[2]})
    put_case("of a child of the root", call, 0, {"id": "f", "new_id": "x"}, others={4: SITE[4]})
    users = SITE[4] | {"children": [("z", 9), ("u", 8), ("y", 7)]}
    put_case("of a user folder under another name", call, 4, {"id": "u", "new_id": "v"}, users, {8: SITE[8]})
    put_case("of a child whose own id is another", call, 4, {"id": "y", "new_id": "x"}, others={7: SITE[7] | {"id": "other"}})
    put_case("of a child whose container is another", call, 4, {"id": "y", "new_id": "x"}, others={7: SITE[7] | {"parent": 0}})
    put_case("of a child that stands last", call, 4, {"id": "y", "new_id": "x"}, others=others)
    twice = SITE[4] | {"children": [("a", 9), ("z", 9), ("y", 7)]}
    put_case("of one of two names of a child", call, 4, {"id": "a", "new_id": "b"}, twice, {9: SITE[9]})
    put_case("of one of two names of a child to the other", call, 4, {"id": "a", "new_id": "z"}, twice, {9: SITE[9]})
    itself = SITE[4] | {"children": [("me", 4), ("z", 9)]}
    put_case("of a child that is the folder itself", call, 4, {"id": "me", "new_id": "x"}, itself)
    put_case("of a child that is the folder itself to its id", call, 4, {"id": "me", "new_id": "f"}, itself)
    put_case("of a child that is the folder itself to a name that is taken", call, 4, {"id": "me", "new_id": "z"}, itself)
    put_case("of another child of a folder that is its own child", call, 4, {"id": "z", "new_id": "x"}, itself, {9: SITE[9]})
    put_case("of a child that is the root, in the root", call, 0, {"id": "me", "new_id": "x"}, SITE[0] | {"children": [("d", 1), ("me", 0)]})
    put_case("of a child that is the root, in a folder", call, 4, {"id": "r", "new_id": "x"}, SITE[4] | {"children": [("r", 0), ("y", 7)]}, {0: SITE[0]})
    crowd = full_folder(MOST_CHILDREN - 1, [("z", 9)])
    put_case(f"among {MOST_CHILDREN}", call, 4, {"id": "z", "new_id": "x"}, crowd, {9: SITE[9]})
    put_case(f"among {MOST_CHILDREN} to a name that is taken", call, 4, {"id": "z", "new_id": "c05000"}, crowd, {9: SITE[9]})
    put_case(f"of one that isn't among {MOST_CHILDREN}", call, 4, {"id": "c10000", "new_id": "x"}, crowd)
    for ids in ("z", ["z", "y", "c00001"]):
        put_case(f"of {ids} among {MOST_CHILDREN}", "manage_delObjects", 4, {"ids": ids}, crowd)


def main():
    print("# The calls of management, field by field and limit by limit. Written by docs/calls.py.")
    for oid, o in SITE.items():
        print(f"\npiece object_{oid}")
        put_hex(record(o))
    for n, o in CHAIN.items():
        print(f"\npiece folder_in_{n}")
        put_hex(record(o))
    for byte in b"aspuvTR0nx\n\xa9":
        print(f"\npiece byte_{byte:02x}\n  hex {byte:02x}")
    crowd = b"".join(text(name) + (5).to_bytes(8, "big") for name in names(MOST_CHILDREN - 1, "c"))
    print("\npiece crowd")
    put_hex(crowd)
    SHARED["crowd"] = crowd
    for call in FIELDS:
        each_kind(call, {f: GOOD[f] for f, _, _ in FIELDS[call]})
        each_field(call)
    put_adding()
    put_renaming()

    # ids
    for call, oid, field in (("manage_delObjects", 4, "ids"), ("manage_delLocalRoles", 1, "userids"), ("manage_delProperties", 1, "ids")):
        mine = {"manage_delObjects": ["z", "acl_users", "y"], "manage_delLocalRoles": ["ann", "bo"], "manage_delProperties": ["a", "b", "c"]}[call]
        for n in range(len(mine)):
            put_case(f"of the one numbered {n}", call, oid, {field: mine[n]})
        put_case("of all", call, oid, {field: mine})
        put_case("of all, backwards", call, oid, {field: mine[::-1]})
        put_case("of one that is given twice", call, oid, {field: [mine[0], mine[0]]})
        put_case("of one that isn't there", call, oid, {field: "q"})
        put_case("of several that aren't there", call, oid, {field: [mine[0], "r", "q"]})
        put_case("of the beginning of one", call, oid, {field: [mine[0][:-1] + "!", "q"]})
        put_case("with another case", call, oid, {field: mine[0].upper()})

    # settings
    for acquire in ("1", "0", "", "yes", "01"):
        for found in ([], ["Owner"], ["b", "a", "b", "B", "ab"]):
            for permission in ("View", "Change DTML Methods", "Change proxy roles", "Access contents information"):
                put_case(f"acquire {acquire!r}, roles {found}, {permission}", "manage_permission", 4,
                         {"permission_to_manage": permission, "roles": found, "acquire": acquire})
    for permission in PERMISSIONS:
        put_case(f"of {permission}", "manage_permission", 3, {"permission_to_manage": permission, "roles": "Owner"})

    # local roles
    for user in ("ann", "bo", "abe", "ann.", "cy", "Ann"):
        put_case(f"of {user}", "manage_setLocalRoles", 2, {"userid": user, "roles": ["z", "Z"]})
    for count in (999, 1000):
        crowd = new("D", "d", 0) | {"locals": [(u, ["R"]) for u in names(count)]}
        put_case(f"of one more than {count}", "manage_setLocalRoles", 1, {"userid": "u00500x", "roles": "S"}, crowd)
        put_case(f"of one of {count}", "manage_setLocalRoles", 1, {"userid": "u00500", "roles": "S"}, crowd)

    # properties
    for name in ("a0", "aa", "0", "B", "b_", "d", "a", "c"):
        put_case(f"named {name}", "manage_addProperty", 1, {"id": name, "value": "v"})
    for kind in ("string", "int", "lines"):
        for v in ("", "7", "-7", "-0", "007", "+7", "-", "7 ", "9223372036854775807", "9223372036854775808", "-9223372036854775808",
                  "-9223372036854775809", "x", "\n", "\r\n", "a\nb", "a\r\nb\r\n", "a\rb", "a\r\r\nb\r", "\n\n", "é\nü"):
            put_case(f"of type {kind} with {v!r}", "manage_addProperty", 4, {"id": "p", "value": v, "type": kind})
    for kind, zeros in (("int", 9999), ("int", 10000), ("string", 10000), ("lines", 10001)):
        put_case(f"of type {kind} with a 1 behind {zeros} zeros", "manage_addProperty", 1, {"id": "p", "value": "0" * zeros + "1", "type": kind})
    for lines in (999, 1000, 1001):
        put_case(f"of {lines} lines", "manage_addProperty", 1, {"id": "p", "value": "\n".join(["x"] * lines), "type": "lines"})
    put_case("of 1,001 lines under a name that is taken", "manage_addProperty", 1, {"id": "a", "value": "\n" * 1000, "type": "lines"})
    put_case("of a bad number under a bad type", "manage_addProperty", 1, {"id": "q", "value": "x" * 10001, "type": "float"})
    put_case("of a bad number under a bad id", "manage_addProperty", 1, {"id": "_", "value": "x", "type": "int"})
    for count in (99, 100):
        crowd = new("D", "d", 0) | {"properties": [(n, "v") for n in names(count, "p")]}
        put_case(f"behind {count} others", "manage_addProperty", 1, {"id": "q", "value": "v"}, crowd)
        put_case(f"named as one of {count} others", "manage_addProperty", 1, {"id": "p00042", "value": "v"}, crowd)

    # users
    for name in ("al", "jo", "joe", "Jo", "~", "é"):
        put_case(f"named {name}", "userFolderAddUser", 3, {"name": name, "password": "p", "roles": ["b", "a"]})
    for count in (999, 1000):
        crowd = new("U", "acl_users", 0, users=[(u, "k", []) for u in names(count)])
        put_case(f"behind {count} others", "userFolderAddUser", 3, {"name": "v", "password": "p"}, crowd)
        put_case(f"named as one of {count} others", "userFolderAddUser", 3, {"name": "u00042", "password": "p"}, crowd)


if __name__ == "__main__":
    sys.set_int_max_str_digits(20000)
    main()
