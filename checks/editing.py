#!/usr/bin/env python3
"""Edits a site in a browser, by the site's own pages alone: logs in, edits, adds, looks at the change, and undoes it.

    checks/editing.py [PICTURES]

The site is the notice board of demo/board.lines, made over a server by demo/send.py. Chromium without a window goes through its
screens as a person would: it fills in their fields and clicks on their buttons. Behind that the tape has to replay to the very
replies. Needs the built program (`./zope check` builds it) and Debian's packages `chromium` and `chromium-driver`; the pictures go
to the folder PICTURES, where it is named.
"""

import json
import pathlib
import subprocess
import sys
import tempfile
import time

from browse import Browser
from served import HOME, Serving, new_site, wait_for

EDITOR = "ann:garden"


class Person:
    """Who sits before the browser."""

    def __init__(self, site, pictures):
        self.site, self.pictures, self.browser, self.taken = site, pictures, Browser(), 0

    def goes_to(self, path, login=""):
        self.browser.open(f"http://{login}{self.site}{path}")

    def sees(self):
        return self.browser.run("return document.body.innerText")

    def is_told(self):
        """What the server said to the last button."""
        return self.browser.run("return document.querySelector('iframe').contentDocument.body.innerText").strip()

    def fills(self, field, text):
        """Writes into the field of that selector."""
        self.browser.run(f"const field = document.querySelector({json.dumps(field)}); field.value = {json.dumps(text)}")

    def clicks(self, words, within="form"):
        """Clicks on the first button of those words, in a place that has others."""
        found = f"""const places = [...document.querySelectorAll({json.dumps(within)})];
            for (const place of places) for (const button of place.querySelectorAll('button'))
                if (place.innerText.includes({json.dumps(words)})) {{ button.click(); return true }}
            return false"""
        self.browser.run("document.querySelector('iframe').contentDocument.body.innerText = ''")
        assert self.browser.run(found), f"there is no button {words}: {self.sees()}"
        wait_for(self.is_told, 20)
        return self.is_told()

    def waits_for(self, what):
        wait_for(lambda: what(self.sees()), 20)

    def takes_picture(self, name):
        self.taken += 1
        self.browser.picture(self.pictures / f"{self.taken}_{name}.png")


def stranger(person):
    """Without a log-in the board is shown, and no screen."""
    person.goes_to("/")
    assert "From nine to five." in person.sees() and "Anonymous User" in person.sees()
    person.takes_picture("board")
    for screen in "/edit", "/undo":
        person.goes_to(screen)
        assert "notice" not in person.sees().lower() and "button" not in person.sees(), person.sees()


def edits(person):
    person.goes_to("/edit", EDITOR + "@")
    person.goes_to("/edit")
    assert "You are ann." in person.sees()
    shown = person.browser.run("return document.querySelector('textarea').value")
    assert shown == "From nine to five.\nBring your books back.", shown
    person.takes_picture("edit")
    person.fills("form[action='/notices/opening/manage_edit'] textarea", "From ten to six.\n<b>& no later</b>")
    person.fills("form[action='/notices/opening/manage_edit'] input", 'We open on "Tuesday"')
    assert person.clicks("Save opening") == "done"
    person.takes_picture("saved")
    person.goes_to("/")
    # what was written is shown as it was written, quoted
    assert "From ten to six.\n<b>& no later</b>" in person.sees() and 'We open on "Tuesday"' in person.sees(), person.sees()
    person.takes_picture("edited_board")
    person.goes_to("/edit")
    shown = person.browser.run("return [document.querySelector('textarea').value, document.querySelector('input').value]")
    assert shown == ["From ten to six.\n<b>& no later</b>", 'We open on "Tuesday"'], shown


def adds(person):
    person.goes_to("/edit")
    assert person.clicks("Add", "#new") == "missing: id" or person.is_told() == "bad field: id", person.is_told()
    for field, text in (("[name=id]", "party"), ("[name=title]", "A party"), ("[name=file]", "On Friday, with cake.")):
        person.fills(f"#new {field}", text)
    assert person.clicks("Add", "#new") == "done"
    # the list has it without another look
    person.waits_for(lambda text: "Save party" in text)
    person.takes_picture("added")
    person.goes_to("/")
    assert "On Friday, with cake." in person.sees()
    person.goes_to("/edit")
    assert person.clicks("Delete roof") == "done"
    person.waits_for(lambda text: "Save roof" not in text)


def undoes(person):
    person.goes_to("/undo")
    person.waits_for(lambda text: "/notices/manage_delObjects by ann" in text)
    person.takes_picture("undo")
    # the addition can't be undone alone: the folder was changed since
    assert person.clicks("/notices/manage_addDTMLDocument by ann", "li").startswith("changed since: ")
    changes = ["/notices/manage_delObjects by ann", "/notices/manage_addDTMLDocument by ann", "/notices/opening/manage_edit by ann"]
    for count, change in enumerate(changes, 1):
        assert person.clicks(change, "li") == "done", change
        person.waits_for(lambda text, count=count: text.count("/manage_undo_transactions by ann") == count)
    person.takes_picture("undone")
    person.goes_to("/")
    assert "From nine to five.\nBring your books back." in person.sees() and "party" not in person.sees(), person.sees()
    assert "The roof leaks" in person.sees()
    person.takes_picture("board_as_before")


def main():
    pictures = pathlib.Path(sys.argv[1] if len(sys.argv) > 1 else tempfile.mkdtemp())
    pictures.mkdir(exist_ok=True)
    with tempfile.TemporaryDirectory() as folder:
        serving = Serving(new_site(folder), 2000)
        lines = (HOME / "demo" / "board.lines").read_bytes()
        subprocess.run([HOME / "demo" / "send.py", str(serving.entry)], input=lines, check=True, stdout=subprocess.DEVNULL)
        person = Person(f"127.0.0.1:{serving.entry}", pictures)
        try:
            for part in stranger, edits, adds, undoes:
                part(person)
        finally:
            person.browser.close()
        time.sleep(0.5)
        printed = serving.end().strip()
        print(f"editing: edited, added, deleted and undone in a browser; {printed}; {serving.check_replay()} replies, each of them replayed")


if __name__ == "__main__":
    main()
