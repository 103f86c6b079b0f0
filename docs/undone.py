#!/usr/bin/env python3
"""Writes the cases of undo and of the page of transactions over the whole program: data/undone.cases of zope_cases.

    python3 docs/undone.py > crates/zope_cases/data/undone.cases

A run is that of `site_runs.py`, whose evaluator has the two calls, too. Files are written by the tables of the formats: a
restore is a back pointer to where the data stands. Nothing here runs or reads the product.
"""

import site_runs as runs
from site_runs import ADMIN, ANN, FILES, INIT, Play, case, file_of, get, over, post, put_shared, site
from stopped_runs import T0, Run, data_at, described, hex16, home, item_bytes, put_bytes, transaction_at
from stops import record

UNDO, LIST = "/manage_undo_transactions", "/undoable_transactions"


def undo(play, n, by=ADMIN):
    """The undo of the nth transaction behind the first one of the file."""
    return post(play, UNDO, {"tid": hex16(T0 + n)}, by)


def refused(play, body):
    assert body.encode() + b"\n" in play.run.blocks[-1] and b" read " in play.run.blocks[-1], play.run.blocks[-1]
    return play


def done(play):
    assert b" commit " in play.run.blocks[-1], play.run.blocks[-1]
    return play


def backs(content):
    """The object, place and back pointer of each record of the last transaction."""
    known = Run(content, site, runs.NO_LIMIT).store.known
    return [(oid, place, int.from_bytes(content[place + 42 : place + 50], "big")) for oid, place, _ in known.transactions[-1][2]]


def none_twice(content):
    """No back pointer leads to another one."""
    for _, _, records in Run(content, site, runs.NO_LIMIT).store.known.transactions:
        for _, place, _ in records:
            back = 0 if any(content[place + 34 : place + 42]) else int.from_bytes(content[place + 42 : place + 50], "big")
            assert back == 0 or home(content, back) == back


# ---- rows

def put_rows():
    play = post(over("old_site").put(("clock", T0)), "/manage_addDTMLDocument", {"id": "d", "file": "hi"})
    assert [place for _, place, _ in backs(play.run.disk.content)] == [464, 583]
    get(done(undo(play, 1)), "/d")
    assert backs(play.run.disk.content) == [(0, 716, 31), (3, 766, 0)]
    refused(play, "not found: d")
    get(done(undo(play, 2)), "/d")
    assert [back for _, _, back in backs(play.run.disk.content)] == [464, 583]
    assert b"hi" in play.run.blocks[-1]
    done(post(play, "/d/manage_edit", {"data": "ho"}))
    refused(undo(play, 3), f"changed since: {hex16(3)}")
    refused(post(play, UNDO, {"tid": hex16(7)}), f"no such transaction: {hex16(7)}")
    none_twice(play.run.disk.content)
    case("a document is added, that is undone, the undo too, and then the document has changed", play, "old_site")

    # the undo comes to 824 bytes: its records stand at 716 and 766, and have 50 bytes each
    for limit in (823, 824):
        play = post(Play(FILES["old_site"], limit).put(("clock", T0)), "/manage_addDTMLDocument", {"id": "d", "file": "hi"})
        undo(play, 1)
        assert (b"spent 0 full 824 823\n" in play.printed()) == (limit < 824)
        case(f"an undo that comes to 824 bytes, of {limit}", play, "old_site", f" --limit {limit}")

    play = over("old_site").put(("clock", T0)).send(0, runs.EDIT).through(0).send(0, runs.EDIT).through(0)
    get(play, LIST, ADMIN)
    said = f"{hex16(T0 + 2)} admin /index_html/manage_edit\n{hex16(T0 + 1)} admin /index_html/manage_edit\n{hex16(T0)}  init\n"
    assert said.encode() in play.run.blocks[-1]
    case("the list behind two edits of the front page", play, "old_site")


# ---- each kind of call

CALLS = [
    ("/manage_addFolder", {"id": "n", "title": "N"}, "/n"),
    ("/manage_addDTMLMethod", {"id": "n", "file": "a method"}, "/n"),
    ("/manage_addDTMLDocument", {"id": "n", "file": "a document"}, "/n"),
    ("/g/manage_addUserFolder", None, "/g/acl_users/manage_addFolder"),
    ("/d/manage_edit", {"data": "edited", "title": "E"}, "/d"),
    ("/manage_delObjects", {"ids": ["d", "f"]}, "/f/x"),
    ("/manage_renameObject", {"id": "d", "new_id": "e"}, "/e"),
    ("/d/manage_permission", {"permission_to_manage": "View", "roles": ["Manager"]}, "/d"),
    ("/d/manage_setLocalRoles", {"userid": "ann", "roles": ["Manager"]}, "/d"),
    ("/f/manage_delLocalRoles", {"userids": ["ann"]}, "/f/x"),
    ("/g/manage_addProperty", {"id": "p", "value": "7", "type": "int"}, "/g"),
    ("/f/x/manage_delProperties", {"ids": ["n"]}, "/f/x"),
    ("/f/x/manage_proxy", None, "/f/x"),
    ("/acl_users/userFolderAddUser", {"name": "bob", "password": "b", "roles": ["Manager"]}, "/d"),
]


def put_each():
    for path, form, look in CALLS:
        play = get(done(post(over("tree"), path, form)), look)
        get(done(undo(play, 1)), look)
        get(done(undo(play, 2)), look)
        get(done(undo(play, 3)), look)
        values = [data for _, _, data in Run(play.run.disk.content, site, runs.NO_LIMIT).store.known.transactions[-1][2]]
        assert values == [data for _, _, data in Run(play.run.disk.content, site, runs.NO_LIMIT).store.known.transactions[2][2]]
        none_twice(play.run.disk.content)
        case(f"{path.rpartition('/')[2]} is undone, done again by an undo of that, and undone once more", play, "tree")
    play = get(done(post(over("tree"), "/manage_addFolder", {"id": "n"})), LIST, ADMIN)
    done(post(play, "/n/manage_addFolder", {"id": "m"}))
    refused(undo(play, 1), "changed since: " + hex16(7))
    get(done(undo(done(undo(play, 2)), 1)), "/n")
    done(post(play, "/manage_addFolder", {"id": "n"}))
    assert backs(play.run.disk.content)[-1][0] == 9
    case("a folder that has a child isn't undone before the child is, and no id is given twice", play, "tree")
    play = get(done(undo(over("tree"), 0)), "/")
    refused(play, "not found: /")
    case("the first transaction is undone, and nothing is there", play, "tree")


def put_values():
    play = over("tree")
    for source in ("x", "y", "x"):
        done(post(play, "/d/manage_edit", {"data": source}))
    get(done(undo(play, 1)), "/d")
    assert b"hello" in play.run.blocks[-1]
    refused(undo(play, 2), "changed since: " + hex16(3))
    case("a document that has the value again goes back to the one before the transaction, not to the one before the last edit", play, "tree")
    play = over("tree")
    for _ in range(2):
        done(post(play, "/d/manage_edit", {"data": "x"}))
    get(get(done(undo(play, 2)), "/d"), LIST, ADMIN)
    done(undo(play, 1))
    get(play, "/d")
    case("two edits to one value are undone", play, "tree")


# ---- with others

def put_together():
    def start():
        """The undo of an edit of `d`, which was computed."""
        play = done(post(over("tree"), "/d/manage_edit", {"data": "x"}))
        return play.ask(0, "POST", UNDO, form={"tid": hex16(T0 + 1)}, by=ADMIN).to(0, "computed")

    play = start().whole(1, "POST", "/d/manage_edit", form={"data": "y"}, by=ADMIN).through(0)
    assert f"conflict 0 {hex16(3)}".encode() in play.printed()
    case("another worker edits the document that is undone: a conflict, and then it has changed since", get(refused(play, "changed since: " + hex16(3)), "/d"), "tree")
    play = start().whole(1, "POST", "/index_html/manage_edit", form={"data": "y"}, by=ADMIN).through(0)
    assert b"conflict" not in play.printed()
    case("another worker edits another document: both stand", get(get(done(play), "/d"), "/"), "tree")
    play = start().ask(1, "POST", UNDO, form={"tid": hex16(T0 + 1)}, by=ADMIN).to(1, "computed").through(1)
    play.through(0)
    assert f"conflict 0 {hex16(3)}".encode() in play.printed()
    case("two workers undo one transaction: the second finds that it has changed", refused(play, "changed since: " + hex16(3)), "tree")
    play = start().step(0).ask(1, "POST", "/d/manage_edit", form={"data": "y"}, by=ADMIN).to(1, "computed").step(1).through(0).through(1)
    assert b"busy 1 0" in play.printed() and f"conflict 1 {hex16(3)}".encode() in play.printed()
    case("an edit waits for the undo and begins anew behind it", get(done(play), "/d"), "tree")
    play = over("tree").ask(0, "POST", UNDO, form={"tid": hex16(T0 + 1)}, by=ADMIN).step(0)
    play.whole(1, "POST", "/d/manage_edit", form={"data": "x"}, by=ADMIN).through(0)
    case("a transaction behind the snapshot can't be undone", refused(play, f"no such transaction: {hex16(T0 + 1)}"), "tree")
    play = over("tree").ask(0, "GET", LIST, by=ADMIN).step(0)
    play.whole(1, "POST", "/d/manage_edit", form={"data": "x"}, by=ADMIN).through(0)
    assert f"{hex16(T0)}  init\n".encode() in play.run.blocks[-1] and hex16(T0 + 1).encode() + b" admin" not in play.run.blocks[-1]
    case("the list shows what was there at its snapshot", play, "tree")


# ---- who may, and what is refused

def put_denied():
    for path, form in ((UNDO, {"tid": hex16(T0)}), (LIST, None)):
        play = over("tree")
        for by in (None, ANN, "ann:other", "eve:secret"):
            post(play, path, form, by)
            play.whole(0, "GET", path, form=form, by=by)
            assert b"unauthorized: Undo changes" in play.run.blocks[-1]
        for folder in ("/f", "/d", "/acl_users", "/index_html"):
            post(play, folder + path, form)
        play.whole(0, "HEAD", path, by=None)
        assert b"commit" not in play.printed()
        case(f"{path[1:]}: who may, and where it is a call", play, "tree")
    play = over("tree")
    play.whole(0, "HEAD", LIST, by=ADMIN)
    get(post(play, LIST), LIST + "?tid=x&more:list=y", ADMIN)
    play.whole(0, "HEAD", UNDO, form={"tid": hex16(T0)}, by=ADMIN)
    refused(play, "")
    case("the list by each method, and with fields; an undo by HEAD is none", play, "tree")
    play = done(post(over("tree"), "/manage_permission", {"permission_to_manage": "Undo changes", "roles": ["Editor"]}))
    get(play, LIST, ANN)
    refused(undo(play, 1), "unauthorized: Undo changes")
    case("whom the root grants to undo changes may, and the manager no longer", done(undo(play, 1, ANN)), "tree")


def put_refusals():
    play = over("tree")
    post(play, UNDO)
    refused(play, "missing: tid")
    for tid in ("", "1", hex16(T0)[:15], hex16(T0) + "0", hex16(T0 + 10).upper(), " " + hex16(T0)[1:], "0x" + hex16(T0)[2:], [hex16(T0)], [hex16(T0), hex16(T0)]):
        refused(post(play, UNDO, {"tid": tid}), "bad field: tid")
    refused(post(play, UNDO + "?tid:int=" + hex16(T0)), "bad field: tid")
    for tid in ("1234567890123456", "0" * 16, "f" * 16, hex16(T0 - 1), hex16(T0 + 1)):
        refused(post(play, UNDO, {"tid": tid}), f"no such transaction: {tid}")
    refused(post(play, UNDO + "?tid:int=1234567890123456"), "no such transaction: 1234567890123456")
    play.whole(0, "GET", UNDO, form={"tid": hex16(T0)}, by=ADMIN)
    case("which ids are none, which transactions there aren't, and an undo by GET", done(play), "tree")


# ---- files that others wrote

def packed(content, count):
    """The file with its first transactions packed."""
    at = 4
    for _ in range(count):
        content = content[: at + 16] + b"p" + content[at + 17 :]
        at += int.from_bytes(content[at + 8 : at + 16], "big") + 8
    return content


def with_transactions(count, texts):
    """The file of a new site, and so many further transactions without records."""
    content = FILES["new_site"]
    for n in range(1, count):
        content += described(T0 + n, b" ", *texts(n), [])
    return content


def put_packed():
    play = over()
    for source in ("one", "two"):
        done(post(play, "/index_html/manage_edit", {"data": source}))
    FILES["packed"] = packed(play.run.disk.content, 2)
    play = get(over("packed"), LIST, ADMIN)
    for n in (0, 1):
        refused(undo(play, n), f"no such transaction: {hex16(T0 + n)}")
    get(done(undo(play, 2)), "/")
    assert b"one" in play.run.blocks[-1]
    get(done(undo(play, 3)), "/")
    case("what was packed can't be undone, and what came behind it goes back to it", get(play, LIST, ADMIN), "packed")
    FILES["all_packed"] = packed(FILES["new_site"], 1)
    play = get(over("all_packed"), LIST, ADMIN)
    assert b"Content-Length: 0\r\n" in play.run.blocks[-1]
    case("the list over a file whose transactions are all packed is empty", play.whole(0, "HEAD", LIST, by=ADMIN), "all_packed")


def put_lists():
    case("the list over a new site", get(over(), LIST, ADMIN))
    for count in (20, 21):
        FILES[f"of_{count}"] = with_transactions(count, lambda n: (b"ann", b"/%d" % n))
        play = get(over(f"of_{count}"), LIST, ADMIN)
        assert (b" init\n" in play.run.blocks[-1]) == (count == 20) and play.run.blocks[-1].count(b" ann /") == count - (count == 20) - (count == 21)
        case(f"the list over {count} transactions", play, f"of_{count}")
    FILES["odd_texts"] = with_transactions(4, lambda n: ((b"a\xff", b"/\xc3"), (b"", b"/a\nb"), (b"j\xc3\xb6", b""))[n - 1])
    play = get(over("odd_texts"), LIST, ADMIN)
    assert f"{hex16(T0 + 1)} a\ufffd /\ufffd\n".encode() in play.run.blocks[-1]
    FILES["odd_texts"] = play.run.disk.content
    odd = play
    play = get(done(undo(over("of_21"), 20)), LIST, ADMIN)
    case("a transaction without records is undone by one without", play, "of_21")
    return odd


def put_built():
    """A file with undos of undos, as the tables of the formats have it, is one that opens."""
    play = done(post(over("tree"), "/manage_addDTMLDocument", {"id": "n", "file": "new"}))
    for n in range(1, 5):
        done(undo(play, n))
    done(post(play, "/n/manage_edit", {"data": "newer"}))
    done(undo(play, 6))
    none_twice(play.run.disk.content)
    FILES["put_back"] = play.run.disk.content
    play = get(get(over("put_back"), "/n"), LIST, ADMIN)
    done(undo(play, 7))
    case("undos go on over a file that has undos of undos", get(play, "/n"), "put_back")


def put_looks():
    known = Run(FILES["put_back"], site, runs.NO_LIMIT).store.known
    objects = {oid for _, _, records in known.transactions for oid, _, data in records if known.revisions(oid)[0][2] is not None}
    for command, lines in (
        ("dump", Run(FILES["put_back"], site, runs.NO_LIMIT).end()),
        ("check", f"transactions {len(known.transactions)}\nobjects {len(objects)}\nlast {hex16(known.last())}\nend {len(FILES['put_back'])}\ntorn 0\n".encode()),
    ):
        print(f"case {command} of a file that has undos of undos")
        print(f"words {command} site.fs\nfile site.fs\n  use put_back\nstatus 0\noutput")
        put_shared(lines, {"put_back_kept": runs.kept_lines(FILES["put_back"])})
        print()


# ---- many

def put_begin(title, file, play):
    """A case of which the history at the end isn't compared."""
    print(f"case {title}\nwords replay site.fs\nfile site.fs\n  use new_site")
    runs.put_hex(file[len(FILES["new_site"]) :])
    print("input\n  | zope schedule 1")
    runs.put_items(play.given)
    print("  | end\nstatus 0\noutput begins")
    put_bytes(play.printed())
    print()


def put_many():
    content = with_transactions(1000, lambda n: (b"", b"%d" % n))
    put_begin("the list over 1,000 transactions", content, get(Play(content), LIST, ADMIN))
    start = len(FILES["new_site"])
    content = FILES["new_site"] + described(T0 + 1, b" ", b"", b"", [record(100 + n, T0 + 1, 0, start, b"a") for n in range(1000)])
    play = done(undo(Play(content), 1))
    assert [back for _, _, back in backs(play.run.disk.content)] == [0] * 1000
    put_begin("a transaction with 1,000 parts is undone", content, play)


def main():
    del FILES["deep"]
    print("# Undo, and the page of transactions, over the whole program. Written by docs/undone.py.\n")
    put_rows()
    put_each()
    put_values()
    put_together()
    put_denied()
    put_refusals()
    put_packed()
    put_lists()
    put_built()
    runs.put_all()
    put_looks()
    put_many()


if __name__ == "__main__":
    main()
