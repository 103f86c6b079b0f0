#!/usr/bin/env python3
"""Tries what docs/RUNNING.md says: nginx before the server, with TLS and buffering, and the unit of systemd.

    checks/proxy.py

The configuration is read from the document; names of files, ports and folders alone are replaced. Needs the built program
(`./zope check` builds it), `curl`, `openssl`, `flock` and Debian's package `nginx-light`; the unit is looked at where there is a
`systemd-analyze`.
"""

import os
import pathlib
import re
import shutil
import signal
import socket
import ssl
import subprocess
import tempfile
import time

from served import HOME, PASSWORD, PROGRAM, USER, Serving, free_port, listens, message, new_site, read_all, wait_for

DOCUMENT = (HOME / "docs" / "RUNNING.md").read_text()
ADMIN, NAME = f"{USER}:{PASSWORD}", "library.example"


def block(language):
    found = re.findall(rf"^```{language}\n(.*?)^```$", DOCUMENT, re.M | re.S)
    assert len(found) == 1, f"the document has {len(found)} blocks of {language}"
    return found[0]


def replaced(text, pairs):
    for old, new in pairs:
        assert old in text, f"the document has no {old}"
        text = text.replace(old, new)
    return text


class Nginx:
    """A real nginx with the document's configuration."""

    def __init__(self, folder, port):
        self.plain, self.tls = free_port(), free_port()
        key, certificate = folder / f"{NAME}.key", folder / f"{NAME}.pem"
        subprocess.run(["openssl", "req", "-x509", "-newkey", "rsa:2048", "-nodes", "-days", "2", "-subj", f"/CN={NAME}",
                        "-addext", f"subjectAltName=DNS:{NAME}", "-keyout", key, "-out", certificate], check=True, capture_output=True)
        self.certificate = certificate
        site = replaced(block("nginx"), [
            ("listen 80;", f"listen 127.0.0.1:{self.plain};"), ("listen 443 ssl;", f"listen 127.0.0.1:{self.tls} ssl;"),
            ("127.0.0.1:8080", f"127.0.0.1:{port}")])
        conf = folder / "nginx.conf"
        folders = "".join(f"{word}_temp_path {folder}/{word};\n" for word in ("client_body", "proxy", "fastcgi", "uwsgi", "scgi"))
        conf.write_text(f"daemon off; user root; worker_processes 1; pid {folder}/nginx.pid; error_log {folder}/error.log;\n"
                        f"events {{ worker_connections 1024; }}\nhttp {{ access_log off;\n{folders}{site}\n}}\n")
        self.process = subprocess.Popen(["nginx", "-c", conf, "-e", folder / "error.log"])
        wait_for(lambda: self.process.poll() is not None or listens(self.tls))
        assert self.process.poll() is None, (folder / "error.log").read_text()

    def asks(self, path, *words, login=ADMIN):
        """What curl gets over TLS: the status and the body."""
        target = ["--cacert", self.certificate, "--resolve", f"{NAME}:{self.tls}:127.0.0.1", f"https://{NAME}:{self.tls}{path}"]
        user = ["-u", login] if login else []
        came = subprocess.run(["curl", "-sS", "-w", "\n%{http_code}", *user, *words, *target], check=True, capture_output=True).stdout
        body, _, status = came.rpartition(b"\n")
        return int(status), body

    def connects(self):
        """A connection over TLS, whose bytes are sent by hand."""
        context = ssl.create_default_context(cafile=self.certificate)
        return context.wrap_socket(socket.create_connection(("127.0.0.1", self.tls), 60), server_hostname=NAME)

    def ends(self):
        self.process.terminate()
        self.process.wait()


def requests(nginx):
    assert nginx.asks("/", login=None)[0] == 200
    came = subprocess.run(["curl", "-sS", "-o", "-", "-D", "-", "-H", f"Host: {NAME}", f"http://127.0.0.1:{nginx.plain}/a?b=c"], check=True, capture_output=True)
    assert came.stdout.startswith(b"HTTP/1.1 301 ") and f"Location: https://{NAME}/a?b=c\r\n".encode() in came.stdout, came.stdout
    edit = "/index_html/manage_edit"
    assert nginx.asks(edit, "-d", "title=t&data=changed", login=None) == (401, b"unauthorized: Change DTML Methods\n")
    assert nginx.asks(edit, "-d", "title=t&data=changed") == (200, b"done\n")
    assert nginx.asks("/", login=None) == (200, b"changed")
    # the path comes as it was sent
    assert nginx.asks("/a%20b//c", "--path-as-is") == (404, b"not found: a b\n"), nginx.asks("/a%20b//c", "--path-as-is")
    # a foreign page can't call, and the site's own can
    for place, status in (("cross-site", 403), ("same-site", 403), ("same-origin", 200), ("none", 200)):
        assert nginx.asks(edit, "-H", f"Sec-Fetch-Site: {place}", "-d", "title=t&data=changed")[0] == status, place
        assert nginx.asks("/", "-H", f"Sec-Fetch-Site: {place}")[0] == 200, place
    # a body without a length comes with one; one of a megabyte is read, and one byte more isn't
    assert nginx.asks(edit, "-H", "Transfer-Encoding: chunked", "-d", "title=t&data=chunks") == (200, b"done\n")
    with tempfile.NamedTemporaryFile() as body:
        body.write(b"data=" + b"a" * (1048576 - 5))
        body.flush()
        assert nginx.asks(edit, "--data-binary", f"@{body.name}") == (400, b"too long: data\n")
        body.write(b"a")
        body.flush()
        assert nginx.asks(edit, "--data-binary", f"@{body.name}")[0] == 413
    return 17


def slow_clients(nginx, server):
    """Clients that send a byte now and then don't come through to the server; a whole message does."""
    slow = [nginx.connects() for _ in range(100)]
    edit = message("POST", "/index_html/manage_edit", b"title=t&data=slow", "Connection: close", user=ADMIN)
    for client in slow:
        client.sendall(edit[:-8])
    time.sleep(1)
    rows = pathlib.Path("/proc/net/tcp").read_text().splitlines()[1:]
    open_now = [row for row in rows if row.split()[2].endswith(f":{server:04X}") and row.split()[3] == "01"]
    assert not open_now, f"{len(open_now)} connections of slow clients reach the server"
    slow[0].sendall(edit[-8:])
    assert read_all(slow[0]).endswith(b"done\n")
    assert nginx.asks("/", login=None) == (200, b"slow")
    for client in slow:
        client.close()
    return len(slow)


def unit(folder):
    """The unit's command as it stands, and what systemd says of the unit."""
    text = block("ini")
    command = re.search(r"^ExecStart=sh -c '(.*)'$", text, re.M)[1].replace("%%", "%")
    port = free_port()
    command = replaced(command, [(" zope_main ", f" {PROGRAM} "), ("--port 8080", f"--port {port}")])
    (folder / "tapes").mkdir()
    runs = [subprocess.Popen(["sh", "-c", command], cwd=folder, stdout=subprocess.PIPE, umask=0o077)]
    wait_for(lambda: listens(port))
    # a second one finds the lock, and makes no tape
    assert subprocess.run(["sh", "-c", command], cwd=folder, check=False).returncode == 75
    assert subprocess.run(["curl", "-sS", f"http://127.0.0.1:{port}/"], check=True, capture_output=True).stdout == b"slow"
    # the process is the server itself, so that a signal ends it
    runs[0].send_signal(signal.SIGTERM)
    assert runs[0].wait(20) == -signal.SIGTERM
    runs.append(subprocess.Popen(["sh", "-c", command], cwd=folder, stdout=subprocess.PIPE, umask=0o077))
    wait_for(lambda: listens(port))
    runs[1].terminate()
    runs[1].wait()
    tapes = list((folder / "tapes").iterdir())
    assert len(tapes) == 2 and all(tape.stat().st_mode & 0o077 == 0 for tape in tapes), tapes
    if not shutil.which("systemd-analyze"):
        return "tried; there is no systemd-analyze"
    file = folder / "site.service"
    file.write_text(replaced(text, [("User=site", f"User={os.getuid()}")]))
    said = subprocess.run(["systemd-analyze", "verify", file], check=False, capture_output=True, text=True)
    about = [line for line in said.stderr.splitlines() if "site.service" in line]
    assert said.returncode == 0 and not about, said.stderr
    return "tried, and verified by systemd-analyze"


def main():
    with tempfile.TemporaryDirectory() as name:
        folder = pathlib.Path(name)
        serving = Serving(new_site(folder), 10_000, tapped=False)
        nginx = Nginx(folder, serving.port)
        try:
            asked, slow = requests(nginx), slow_clients(nginx, serving.port)
        finally:
            nginx.ends()
        serving.kill()
        print(f"proxy: {asked} kinds of requests through nginx over TLS, and one beside {slow} slow clients that don't reach the server")
        print(f"proxy: the unit was {unit(folder)}")


if __name__ == "__main__":
    main()
