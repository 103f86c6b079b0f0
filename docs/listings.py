#!/usr/bin/env python3
"""Writes the cases of pages that list, beside others that change what they list: data/listings.cases of zope_cases.

    python3 docs/listings.py > crates/zope_cases/data/listings.cases

A run is that of `site_runs.py`, whose evaluator knows here one source with tags more: a list of the titles of a folder's
children, by the rules of the names and of the loop. The list asks for one child at a time, so that other workers vote between
its stops. Nothing here runs or reads the product.
"""

import site_runs as runs
from site_runs import ADMIN, ANN, FILES, INIT, SECRET, Answered, case, containers, document, file_of, get, here, over, permit, post, reach, refuse, verdict
from calls import PERMISSIONS, new
from stopped_runs import T0, hex16

LISTING = "<ul><dtml-in objectValues><li><dtml-var title></li></dtml-in></ul>"
PASSING = "<ul><dtml-in objectValues skip_unauthorized><li><dtml-var title></li></dtml-in></ul>"


# ---- the list of a folder's titles

def denied(oid, permission):
    name = PERMISSIONS[permission - 1]
    refuse(401, f"unauthorized: {name}", ("denied", oid, name))


def titles(known, who, client, shown, passes):
    """The titles of the children of the client's first folder, whose list the user must be granted. Each child is reached before
    the first has its turn, and is shown at its turn; one that the user may not view is refused, or has no turn."""
    folder = next(at for at in client if here(known, at)["kind"] == "F")
    if verdict(known, who, containers(known, folder), 2) is None:
        denied(folder, 2)
    children = [oid for _, oid in here(known, folder)["children"]]
    for oid in children:
        here(known, oid)
        reach(known, client, oid)
    listed = []
    for oid in children:
        role = verdict(known, who, containers(known, oid), 1)
        if role is None and passes:
            continue
        if role is None:
            denied(oid, 1)
        shown.setdefault(oid, role)
        listed.append("<li>" + here(known, oid)["title"] + "</li>")
    return "<ul>" + "".join(listed) + "</ul>"


FORMER = runs.page


def page(known, wrapper, client, credentials):
    source = here(known, wrapper[0])["source"]
    if source not in (LISTING, PASSING):
        return FORMER(known, wrapper, client, credentials)
    who, role = permit(known, containers(known, wrapper[0]), credentials, 1)
    shown = {wrapper[0]: role}
    text = titles(known, who, client, shown, source == PASSING)
    raise Answered(200, text.encode(), "html", [("shown", oid, role) for oid, role in sorted(shown.items())])


runs.page = page


# ---- the site: a shelf of four books, a box with one that only managers may view, and one that is gone

SHELF = INIT | {
    0: new("F", "", 0, "Zope", children=[("acl_users", 1), ("index_html", 2), ("list", 3), ("pass", 4), ("shelf", 5), ("box", 10), ("gone", 13)]),
    1: new("U", "acl_users", 0, users=[("admin", SECRET, ["Manager"]), ("ann", SECRET, ["Editor"])]),
    3: new("M", "list", 0, source=LISTING),
    4: new("M", "pass", 0, source=PASSING),
    5: new("F", "shelf", 0, "Shelf", children=[("a", 6), ("b", 7), ("c", 8), ("d", 9)]),
    6: document("a", 5, "", title="Emma"),
    7: document("b", 5, "", title="Ulysses"),
    8: document("c", 5, "", title="Walden"),
    9: document("d", 5, "", title="Middlemarch"),
    10: new("F", "box", 0, "Box", children=[("e", 11), ("f", 12)]),
    11: document("e", 10, "", title="Dracula"),
    12: document("f", 10, "", title="Frankenstein") | {"settings": [(1, False, ["Manager"])]},
    13: new("F", "gone", 0, "Gone", children=[("g", 11), ("h", 900), ("i", 12)]),
}
FILES["shelf"] = file_of(SHELF)
ALL = b"<ul><li>Emma</li><li>Ulysses</li><li>Walden</li><li>Middlemarch</li></ul>"


def ask(play, w, path="/shelf/list", by=None):
    return play.ask(w, "GET", path, by=by)


def edit(play, w, path, title):
    return play.ask(w, "POST", f"{path}/manage_edit", form={"title": title, "data": ""}, by=ADMIN)


def shows(play, text, count=1):
    assert play.printed().count(text) == count, play.printed().decode()
    return play


def put_lists():
    play = get(get(over("shelf"), "/shelf/list"), "/shelf/pass")
    shows(play, ALL, 2)
    get(get(play, "/shelf/list", ADMIN), "/list")
    case("a list, in a folder and in the root", play, "shelf")
    play = over("shelf")
    for by in (None, ANN, ADMIN):
        for path in ("/box/list", "/box/pass", "/gone/list", "/gone/pass"):
            get(play, path, by)
    shows(play, b"unauthorized: View", 2)
    shows(play, b"broken object: " + hex16(900).encode(), 6)
    shows(play, b"<ul><li>Dracula</li></ul>", 2)
    shows(play, b"<ul><li>Dracula</li><li>Frankenstein</li></ul>", 2)
    case("lists of a child that only managers may view, and of one that is gone", play, "shelf")


def put_together():
    for stops in range(3, 8):
        play = ask(ask(over("shelf"), 0), 1, "/shelf/pass").step(0, stops).step(1, 8 - stops)
        edit(play, 2, "/shelf/c", "The Castle").through(2)
        get(play.through(1).through(0), "/shelf/list")
        shows(shows(play, ALL, 2), ALL.replace(b"Walden", b"The Castle"))
        case(f"two lists are on their way, {stops} and {8 - stops} steps, while a title changes: both are of the time before it", play, "shelf")
    play = edit(ask(over("shelf"), 0).step(0, 5), 2, "/shelf/a", "Persuasion").through(2)
    play = edit(ask(play, 1).step(1, 5), 2, "/shelf/d", "Romola").through(2)
    ask(play, 3).step(3, 5).step(1, 2).step(0, 1).through(3).through(0).through(1)
    shows(shows(shows(play, ALL), ALL.replace(b"Emma", b"Persuasion")), ALL.replace(b"Emma", b"Persuasion").replace(b"Middlemarch", b"Romola"))
    case("three lists are on their way at once, each begun behind another change", play, "shelf")
    play = ask(over("shelf"), 0).step(0, 5).ask(2, "POST", "/shelf/manage_delObjects", form={"ids": ["b", "d"]}, by=ADMIN).through(2)
    get(play.through(0), "/shelf/list")
    shows(shows(play, ALL), b"<ul><li>Emma</li><li>Walden</li></ul>")
    case("children are deleted while they are listed", play, "shelf")
    play = ask(over("shelf"), 0).step(0, 6)
    play.ask(2, "POST", "/shelf/c/manage_permission", form={"permission_to_manage": "View", "roles": "Manager"}, by=ADMIN).through(2)
    get(get(play.through(0), "/shelf/list"), "/shelf/pass")
    shows(shows(play, ALL), ALL.replace(b"<li>Walden</li>", b""))
    case("the view of a child is taken away while it is listed", play, "shelf")


def put_conflicts():
    for before in (True, False):
        play = ask(over("shelf"), 0).step(0, 5) if before else over("shelf")
        edit(edit(play, 1, "/shelf/b", "Dubliners"), 2, "/shelf/b", "Exiles").to(1, "computed").to(2, "computed").through(1).step(2)
        assert b"conflict 2 " + hex16(7).encode() in play.run.blocks[-1], play.run.blocks[-1]
        ask(play, 3).step(3, 5).step(2, 2)
        ask(play, 4).step(4, 4).through(2).step(3, 2).through(4).through(3)
        play = get(play.through(0) if before else play, "/shelf/list")
        shows(play, ALL, int(before))
        shows(play, ALL.replace(b"Ulysses", b"Dubliners"), 2)
        shows(play, ALL.replace(b"Ulysses", b"Exiles"))
        case(f"lists {'before, ' if before else ''}within and behind an edit that begins anew", play, "shelf")


def main():
    del FILES["deep"], FILES["tree"]
    print("# Pages that list, beside others that change what they list, over the whole program. Written by docs/listings.py.\n")
    put_lists()
    put_together()
    put_conflicts()
    runs.put_all()


if __name__ == "__main__":
    main()
