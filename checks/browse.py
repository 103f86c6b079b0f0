#!/usr/bin/env python3
"""Looks at a served site as people's programs do: curl, Python's http.client, and Chromium.

    checks/browse.py [PICTURES]

Each of them gets a server of its own over a new site, with a tap before it. Behind that the tape is replayed over the file as it
was, and has to give every reply, byte for byte, and the file's history. Needs the built program (`./zope check` builds it), `curl`,
and Debian's packages `chromium` and `chromium-driver`; Chromium's pictures go to the folder PICTURES, where it is named.
"""

import base64
import http.client
import json
import pathlib
import subprocess
import sys
import tempfile
import time
import urllib.parse
import urllib.request

from served import PASSWORD, USER, Serving, free_port, new_site, wait_for

CHANGED = "<html><body><h1>Changed by %s</h1><form action='/index_html/manage_edit' method='post'>" \
    "<input name='title' value='t'><input name='data' id='data'><input type='submit' id='go'></form></body></html>"


def with_curl(serving):
    site = f"http://127.0.0.1:{serving.entry}"

    def curl(*words):
        came = subprocess.run(["curl", "-sS", "-o", "-", "-w", "\n%{http_code}", *words], check=True, capture_output=True)
        body, _, status = came.stdout.rpartition(b"\n")
        return int(status), body

    status, body = curl(site + "/")
    assert status == 200 and b"Zope" in body, (status, body)
    came = subprocess.run(["curl", "-sS", "-I", site + "/"], check=True, capture_output=True).stdout
    assert came.startswith(b"HTTP/1.1 200 OK\r\n"), came
    edit = [site + "/index_html/manage_edit", "--data-urlencode", "data=" + CHANGED % "curl", "--data-urlencode", "title=t"]
    assert curl(*edit)[0] == 401
    assert curl("-u", f"{USER}:wrong", *edit)[0] == 401
    assert curl("-u", f"{USER}:{PASSWORD}", *edit) == (200, b"done\n")
    assert curl(site + "/") == (200, (CHANGED % "curl").encode())
    assert curl(site + "/nothing")[0] == 404
    # a body of 1 MB is taken and read, one byte more isn't
    long = "data=" + "a" * (1048576 - 5)
    for text, wanted in ((long, 400), (long + "a", 413)):
        came = subprocess.run(["curl", "-sS", "-o", "/dev/null", "-w", "%{http_code}", "-u", f"{USER}:{PASSWORD}", "--data-binary", "@-", edit[0]],
                              input=text.encode(), check=True, capture_output=True)
        assert int(came.stdout) == wanted, (came.stdout, wanted)
    # twenty at once
    several = subprocess.run(["curl", "-sS", "-Z", "--parallel-max", "20", *[f"{site}/?n={n}" for n in range(20)]], check=True, capture_output=True)
    assert several.stdout.count(b"Changed by curl") == 20


def with_http_client(serving):
    def ask(verb, path, body=None, **headers):
        client = http.client.HTTPConnection("127.0.0.1", serving.entry, timeout=20)
        client.request(verb, path, body, headers)
        reply = client.getresponse()
        came = reply.status, reply.read()
        assert len(came[1]) == int(reply.getheader("Content-Length")) or verb == "HEAD"
        client.close()
        return came

    login = {"Authorization": "Basic " + base64.b64encode(f"{USER}:{PASSWORD}".encode()).decode()}
    form = {"Content-Type": "application/x-www-form-urlencoded", **login}
    assert ask("GET", "/")[0] == 200
    assert ask("HEAD", "/")[0] == 200
    for n in range(10):
        body = f"data=text+{n}&title=t"
        assert ask("POST", "/index_html/manage_edit", body, **form) == (200, b"done\n")
        assert ask("GET", "/")[1] == f"text {n}".encode()
    status, log = ask("GET", "/undoable_transactions", **login)
    assert status == 200 and log.count(b"\n") == 11, (status, log)
    last = log.split()[0].decode()
    assert ask("POST", "/manage_undo_transactions", f"tid={last}", **form) == (200, b"done\n")
    assert ask("GET", "/")[1] == b"text 8"


class Browser:
    """Chromium without a window, driven by the WebDriver protocol."""

    def __init__(self):
        self.port = free_port()
        self.driver = subprocess.Popen(["chromedriver", f"--port={self.port}"], stdout=subprocess.DEVNULL, stderr=subprocess.DEVNULL)
        self.session = None
        wait_for(lambda: self.call("GET", "/status", quiet=True), 30)
        options = {"args": ["--headless=new", "--no-sandbox", "--disable-gpu", "--window-size=900,500"]}
        asked = {"capabilities": {"alwaysMatch": {"browserName": "chrome", "goog:chromeOptions": options, "unhandledPromptBehavior": "ignore"}}}
        self.session = "/session/" + self.call("POST", "/session", asked)["sessionId"]

    def call(self, verb, path, body=None, quiet=False):
        data = None if body is None else json.dumps(body).encode()
        asked = urllib.request.Request(f"http://127.0.0.1:{self.port}{path}", data, {"Content-Type": "application/json"}, method=verb)
        try:
            with urllib.request.urlopen(asked, timeout=60) as came:
                return json.load(came)["value"]
        except OSError as error:
            if quiet:
                return None
            raise RuntimeError(f"{path}: {getattr(error, 'read', lambda: error)()}") from error

    def open(self, url):
        self.call("POST", self.session + "/url", {"url": url})

    def run(self, script):
        return self.call("POST", self.session + "/execute/sync", {"script": script, "args": []})

    def picture(self, file):
        file.write_bytes(base64.b64decode(self.call("GET", self.session + "/screenshot")))

    def close(self):
        self.call("DELETE", self.session)
        self.driver.terminate()
        self.driver.wait()


def with_chromium(serving, pictures):
    site, browser = f"127.0.0.1:{serving.entry}", Browser()
    try:
        browser.open(f"http://{site}/")
        assert "Zope" in browser.run("return document.body.innerText")
        browser.picture(pictures / "page.png")
        # the log-in's dialogue is answered by what the address says; where nothing answers it, the browser shows no more than that
        browser.open(f"http://{site}/index_html/manage_edit?data=x&title=t")
        shown = browser.run("return document.body.innerText")
        assert "Changed" not in shown and "done" not in shown, shown
        browser.picture(pictures / "refused.png")
        form = urllib.parse.quote_plus(CHANGED % "Chromium")
        browser.open(f"http://{USER}:{PASSWORD}@{site}/index_html/manage_edit?title=t&data={form}")
        assert browser.run("return document.body.innerText").strip() == "done"
        browser.open(f"http://{site}/")
        browser.picture(pictures / "form.png")
        browser.run("document.getElementById('data').value = '<h1>Edited in a browser</h1>'; document.getElementById('go').click()")
        wait_for(lambda: "done" in browser.run("return document.body.innerText"), 20)
        browser.open(f"http://{site}/")
        assert browser.run("return document.body.innerText").strip() == "Edited in a browser"
        browser.picture(pictures / "edited.png")
    finally:
        browser.close()
    time.sleep(0.5)


def main():
    pictures = pathlib.Path(sys.argv[1] if len(sys.argv) > 1 else tempfile.mkdtemp())
    pictures.mkdir(exist_ok=True)
    for name, look in (("curl", with_curl), ("http.client", with_http_client), ("chromium", lambda it: with_chromium(it, pictures))):
        with tempfile.TemporaryDirectory() as folder:
            serving = Serving(new_site(folder), 400)
            look(serving)
            printed = serving.end().strip()
            print(f"{name}: {printed}; {serving.check_replay()} replies, each of them replayed")


if __name__ == "__main__":
    main()
