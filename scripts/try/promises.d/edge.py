"""The shipped nginx and HAProxy on ports of loopback, before a hub that answers what is wanted here.

nginx takes the caller's address from a field of the request, so that each request has one of its own, and offers the ciphers of old
versions of TLS, so that its `ssl_protocols` alone decides. Else the files are those of deploy.
"""

from __future__ import annotations

import argparse
import contextlib
import pathlib
import re
import socket
import ssl
import sys
import threading
import time
import typing

from asking import TOP, Missing, program, run

sys.path.insert(0, str(TOP / "bench"))

import load  # noqa: E402

NAMES = {"payments": "payments.hub.example", "health": "health.hub.example"}
IN_HTTP = """http {
    set_real_ip_from 127.0.0.0/8;
    real_ip_header X-Trial-Address;
    ssl_protocols TLSv1 TLSv1.1 TLSv1.2 TLSv1.3;
    ssl_ciphers ALL:@SECLEVEL=0;"""
# The longest that anything here waits for an answer, in seconds.
PATIENCE = 60


class Hub(threading.Thread):
    """Answers `/me` with 200 to the key `good`, `/fails` with 503 and F1, and 401 to all else. It keeps the heads that reach it."""

    def __init__(self, port: int) -> None:
        super().__init__(daemon=True)
        self.heads: list[str] = []
        self.listener = socket.create_server(("127.0.0.1", port))
        self.port = int(self.listener.getsockname()[1])

    def run(self) -> None:
        with contextlib.suppress(OSError):
            while True:
                caller, _ = self.listener.accept()
                with contextlib.suppress(OSError), caller:
                    self.answer(caller)

    def answer(self, caller: socket.socket) -> None:
        caller.settimeout(PATIENCE)
        got = b""
        while b"\r\n\r\n" not in got:
            if not (piece := caller.recv(65_536)):
                return
            got += piece
        head, _, body = got.partition(b"\r\n\r\n")
        length = re.search(rb"content-length: *(\d+)", head, re.I)
        while len(body) < int(length[1] if length else 0):
            body += caller.recv(65_536)
        self.heads.append(head.decode())
        status, text = "401 Unauthorized", '{"code":"NoPerson"}'
        if head.startswith(b"GET /fails "):
            status, text = "503 Service Unavailable", '{"code":"F1"}'
        elif b"Bearer good" in head:
            status, text = "200 OK", '{"number":1}'
        caller.sendall(f"HTTP/1.1 {status}\r\nContent-Type: application/json\r\nContent-Length: {len(text)}\r\nConnection: close\r\n\r\n{text}".encode())

    def close(self) -> None:
        self.listener.close()


class Answer(typing.NamedTuple):
    """The status; the fields, their names in small letters; the body."""

    status: int
    fields: dict[str, str]
    body: str


def answer_of(told: str) -> Answer:
    """What stands in an answer whose lines end with LF; status 0 if it is none."""
    head, _, body = told.partition("\n\n")
    first, *lines = head.split("\n")
    fields = {name.lower(): value.strip() for name, _, value in (line.partition(":") for line in lines)}
    return Answer(int(first.split()[1]) if first.startswith("HTTP/") else 0, fields, body)


def until_listens(port: int) -> None:
    for _ in range(100):
        with contextlib.suppress(OSError), socket.create_connection(("127.0.0.1", port)):
            return
        time.sleep(0.1)
    raise ValueError(f"nobody listens on port {port}")


class Edge(load.Proxies):
    """Both proxies in a folder: nginx at a port and HAProxy and the hub at the next ones. Of the circle `health` there is no hub."""

    def __init__(self, folder: pathlib.Path, port: int) -> None:
        self.openssl, self.curl = program("openssl", "openssl"), program("curl", "curl")
        both = argparse.Namespace(nginx=program("nginx", "nginx-light"), haproxy=program("haproxy", "haproxy"))
        folder.parent.chmod(0o755)
        self.port, self.callers = port, 0
        try:
            super().__init__(both, folder, load.Ports(port))
        except SystemExit as fault:
            raise Missing(f"a proxy that starts here: {fault}") from fault
        for each in (port, port + 1, port + 3):
            until_listens(each)
        self.hub = Hub(port + 2)
        self.hub.start()

    def write_nginx(self, ports: load.Ports) -> None:
        super().write_nginx(ports)
        main = self.folder / "nginx.conf"
        main.write_text(main.read_text().replace("http {", IN_HTTP))
        for each in self.folder.glob("iodef-hub-*.conf"):
            each.write_text(each.read_text().replace("/var/lib/iodef-hub-names", str(self.folder)))
        for name in ("payments", "health", "health2"):
            (self.folder / f"{name}.json").write_text('{"orgs":{}}' if name == "payments" else f'{{"of":"{name}"}}')
        self.add_locations()
        self.folder.chmod(0o755)

    def add_locations(self) -> None:
        """A second hub below /2/ of the circle `health`, and TAXII of the circle `payments`, which the hub here answers."""
        file = self.folder / "site.conf"
        first, mark, second = file.read_text().partition("server_name health.hub.example;")
        taxii = f"    location /taxii2/ {{ include {self.folder}/iodef-hub-taxii.conf; proxy_pass http://127.0.0.1:{self.port + 2}; }}\n"
        first = first.replace("    location = /healthz", f"{taxii}    location = /healthz", 1)
        second = second.replace("iodef-hub-page.conf", "iodef-hub-second.conf", 1)
        second = second.replace("    location = /healthz", "    location /2/ { return 200 $iodef_hub_circle; }\n    location = /healthz", 1)
        file.write_text(first + mark + second)

    def address(self) -> str:
        """One that no request had."""
        self.callers += 1
        return f"192.0.2.{self.callers}"

    def ask(self, target: str, *more: str, circle: str = "payments", address: str = "") -> Answer:
        """One request by curl from an address of its own."""
        name = NAMES[circle]
        fields = ["-H", f"X-Trial-Address: {address or self.address()}", "-H", "Expect:"]
        words = ["-sS", "-g", "-D", "-", "-m", str(PATIENCE), "--cacert", self.authority, "--resolve", f"{name}:{self.port}:127.0.0.1", *fields, *more]
        return answer_of(run(self.curl, *words, f"https://{name}:{self.port}{target}", input="x" * 300_000).stdout)

    def raw(self, request: bytes) -> Answer:
        it = self.connect()
        it.sendall(request)
        return answer_of(all_of(it)[0].replace("\r", ""))

    def connect(self, address: str = "") -> ssl.SSLSocket:
        context = ssl.create_default_context(cafile=str(self.authority))
        raw = socket.create_connection(("127.0.0.1", self.port), timeout=PATIENCE)
        return context.wrap_socket(raw, server_hostname=NAMES["payments"])

    def begin(self, address: str, method: str = "GET") -> ssl.SSLSocket:
        """A connection with a request of which a byte is wanting."""
        it = self.connect()
        it.sendall(f"{method} /me HTTP/1.1\r\nHost: {NAMES['payments']}\r\nX-Trial-Address: {address}\r\nContent-Length: 2\r\n\r\nx".encode())
        return it

    def shake(self, *words: str) -> str:
        """What openssl says of a handshake that it tries."""
        asked = [self.openssl, "s_client", "-connect", f"127.0.0.1:{self.port}", "-cipher", "ALL:@SECLEVEL=0", *words]
        told = run(*asked, env={"OPENSSL_CONF": "/dev/null"}, input="Q\n")
        return told.stdout + told.stderr

    def close(self) -> None:
        self.hub.close()
        super().close()


def all_of(it: ssl.SSLSocket) -> tuple[str, float]:
    """What comes until the end of a connection, and after how many seconds that is."""
    begun, told = time.monotonic(), b""
    with contextlib.suppress(OSError):
        while piece := it.recv(65_536):
            told += piece
    it.close()
    return told.decode(errors="replace"), time.monotonic() - begun


def close_all(sockets: list[ssl.SSLSocket]) -> None:
    for each in sockets:
        each.close()
