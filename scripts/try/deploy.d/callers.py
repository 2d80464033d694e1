#!/usr/bin/env python3
"""callers.py WHAT WORDS: what a proxy meets, tried through TLS or in a hub's place. It prints one line of JSON, but for `forms`.

    forms NAME                      requests that no hub is asked: `ok TEXT` or `FAILED TEXT` for each
    drip NAME KEY ADDRESSES         20 connections of each address drip a body, while another address asks with the key
    network NAME KEY                20 connections of one IPv6 address drip, while another of its network and one of another ask
    silent NAME ADDRESS COUNT       connections of an address that send nothing: how many are taken
    half NAME ADDRESS COUNT         heads of an address that never end, until they are closed
    lists NAME                      searches at once of one key and of one address, with a hub `lists` in the circle's place
    slow NAME SECONDS               a reply that is taken only after some seconds: its bytes, and the status of a request meanwhile
    hub PORT SECONDS KIND           in a hub's place: it `closes` after each request, answers `F2`, `long` (40 MB) below /incidents, or
                                    `lists` in 3 s; it tells how often it was asked what
"""

import concurrent.futures
import contextlib
import json
import socket
import ssl
import subprocess
import sys
import threading
import time

AUTHORITY = "/etc/ssl/iodef-hub/authority.pem"
LONG = 40_000_000


class Caller:
    """Connections to a circle through TLS."""

    def __init__(self, name: str) -> None:
        self.name = name
        self.context = ssl.create_default_context(cafile=AUTHORITY)

    def connect(self, source: str, to: str = "127.0.0.1", buffer: int = 0) -> ssl.SSLSocket:
        raw = socket.socket(socket.AF_INET6 if ":" in source else socket.AF_INET)
        if buffer:
            raw.setsockopt(socket.SOL_SOCKET, socket.SO_RCVBUF, buffer)
        raw.settimeout(60)
        raw.bind((source, 0))
        raw.connect((to, 443))
        return self.context.wrap_socket(raw, server_hostname=self.name)

    def ask(self, source: str, request: bytes, to: str = "127.0.0.1") -> bytes:
        """All bytes of the answer."""
        try:
            with self.connect(source, to) as it:
                it.sendall(request)
                return read(it)
        except OSError as error:
            return type(error).__name__.encode()

    def status(self, source: str, key: str, path: str = "/me", to: str = "127.0.0.1") -> str:
        return status(self.ask(source, self.request(b"GET", path.encode(), f"Authorization: Bearer {key}\r\n".encode()), to))

    def request(self, method: bytes, target: bytes, fields: bytes = b"", version: bytes = b"HTTP/1.1") -> bytes:
        host = f"Host: {self.name}\r\n".encode()
        return method + b" " + target + b" " + version + b"\r\n" + host + b"Connection: close\r\n" + fields + b"\r\n"


def read(it: socket.socket) -> bytes:
    parts = []
    try:
        while part := it.recv(65536):
            parts.append(part)
    except OSError:
        pass
    return b"".join(parts)


def status(answer: bytes) -> str:
    words = answer.split(b"\r\n")[0].split()
    return words[1].decode() if len(words) > 1 else answer.decode(errors="replace")[:40] or "closed"


def code(answer: bytes) -> str:
    """The status and the code of a refusal in the hub's form; else its first bytes."""
    head, _, body = answer.partition(b"\r\n\r\n")
    try:
        told = json.loads(body)
        form = told["code"] if sorted(told) == ["code", "detail", "reason"] else "no refusal"
    except (ValueError, KeyError, TypeError):
        form = repr(body[:40])
    if b"\r\ncontent-type: application/json" not in head.lower():
        form += " of another type"
    return f"{status(answer)} {form}"


def forms(name: str) -> None:
    caller = Caller(name)
    length = b"Content-Length: 2\r\n"
    ask, post = b"GET", b"POST"
    cases: list[tuple[str, bytes, str]] = [
        ("an escaped zero byte", caller.request(ask, b"/me%00"), "400 BadHead"),
        ("a path above the root", caller.request(ask, b"/ui/..%2f..%2f"), "400 BadHead"),
        ("a wrong escape", caller.request(ask, b"/me%zz"), "400 BadHead"),
        ("a tab in the target", caller.request(ask, b"/me\tx"), "400 BadHead"),
        ("a byte 7F in the target", caller.request(ask, b"/me\x7f"), "400 BadHead"),
        ("UTF-8 in the target", caller.request(ask, "/search?needle=secret-needle-é".encode()), "400 BadHead"),
        ("a byte FF in the target", caller.request(ask, b"/search?needle=secret-needle\xff"), "400 BadHead"),
        ("# in the target", caller.request(ask, b"/search?needle=secret-needle#a"), "400 BadHead"),
        ("UTF-8 in a whole URL", caller.request(ask, f"http://{name}/é".encode()), "400 BadHead"),
        ("a target without a slash", caller.request(ask, b"me"), "400 BadHead"),
        ("OPTIONS *", caller.request(b"OPTIONS", b"*"), "400 BadHead"),
        ("CONNECT", caller.request(b"CONNECT", f"{name}:443".encode()), "400 BadHead"),
        ("TRACE", caller.request(b"TRACE", b"/me"), "404 NoRoute"),
        ("a method in small letters", caller.request(b"get", b"/me"), "400 BadHead"),
        ("HTTP/2.0 in a line of HTTP/1", caller.request(ask, b"/me", version=b"HTTP/2.0"), "400 BadHead"),
        ("no Host", b"GET /me HTTP/1.1\r\n\r\n", "400 BadHead"),
        ("another Host", b"GET /me HTTP/1.1\r\nHost: other.hub.example\r\nConnection: close\r\n\r\n", "404 NoRoute"),
        ("bytes that are no HTTP", b"\x00\x01\r\n\r\n", "400 BadHead"),
        ("a zero byte in a field", caller.request(ask, b"/me", b"X: a\0b\r\n"), "400 BadHead"),
        ("two lengths", caller.request(post, b"/incidents?level=3", length + length) + b"{}", "400 BadHead"),
        ("a length below zero", caller.request(post, b"/incidents?level=3", b"Content-Length: -1\r\n"), "400 BadHead"),
        ("a chunked body", caller.request(post, b"/incidents?level=3", b"Transfer-Encoding: chunked\r\n") + b"2\r\n{}\r\n0\r\n\r\n", "501 Chunked"),
        ("a body in another coding", caller.request(post, b"/incidents?level=3", b"Transfer-Encoding: xchunked\r\n") + b"{}", "501 Chunked"),
        ("chunked and a length", caller.request(post, b"/incidents?level=3", b"Transfer-Encoding: chunked\r\n" + length), "400 BadHead"),
        ("a change without a length", caller.request(post, b"/incidents?level=3"), "411 NoLength"),
        ("a body that is too large", caller.request(post, b"/incidents?level=3", b"Content-Length: 262145\r\n"), "413 TooLarge"),
        ("a field of 9,000 bytes", caller.request(ask, b"/me", b"X: " + b"x" * 9000 + b"\r\n"), "431 HeadTooLong"),
        ("a target of 9,000 bytes", caller.request(ask, b"/me?" + b"x" * 9000), "431 HeadTooLong"),
        ("a target and a key of 8,000 bytes", caller.request(ask, b"/me?" + b"x" * 8000, b"Authorization: Bearer " + b"x" * 8000 + b"\r\n"),
         "431 HeadTooLong"),
        ("a path that the page lacks", caller.request(ask, b"/ui/none"), "404 NoRoute"),
        ("a post to the page", caller.request(post, b"/ui/", length) + b"{}", "404 NoRoute"),
        ("a condition that the page doesn't meet", caller.request(ask, b"/ui/", b'If-Match: "x"\r\n'), "400 BadHead"),
        ("a path of nginx's own answers", caller.request(ask, b"/iodef-hub-503"), "404 NoRoute"),
        ("a post to /healthz", caller.request(post, b"/healthz", length) + b"{}", "404 NoRoute"),
    ]
    for place, (text, request, wanted) in enumerate(cases):
        found = code(caller.ask(f"127.0.4.{place + 1}", request))
        print(f"ok {text} is {wanted}" if found == wanted else f"FAILED {text}: wanted {wanted}, found {found}")
    with socket.create_connection(("127.0.0.1", 443)) as it:
        it.sendall(caller.request(ask, b"/me"))
        found = code(read(it))
    print("ok no TLS is 400 BadHead" if found == "400 BadHead" else f"FAILED no TLS: found {found}")


class Drippers:
    """Connections that send a byte of a body each half second, until they are answered or closed."""

    def __init__(self) -> None:
        self.lock = threading.Lock()
        self.statuses: dict[str, int] = {}
        self.longest = 0.0
        self.running: list[threading.Thread] = []

    def start(self, it: ssl.SSLSocket, head: bytes) -> None:
        self.running.append(threading.Thread(target=self.drip, args=(it, head), daemon=True))
        self.running[-1].start()

    def drip(self, it: ssl.SSLSocket, head: bytes) -> None:
        begun = time.monotonic()
        it.settimeout(0.5)
        answer = b""
        try:
            it.sendall(head)
            while time.monotonic() < begun + 60:
                try:
                    part = it.recv(65536)
                    answer += part
                    if not part:
                        break
                except TimeoutError:
                    it.sendall(b" ")
        except OSError:
            pass
        it.close()
        with self.lock:
            told = status(answer)
            self.statuses[told] = self.statuses.get(told, 0) + 1
            self.longest = max(self.longest, time.monotonic() - begun)

    def wait(self) -> None:
        for each in self.running:
            each.join()


def drip(name: str, key: str, addresses: int) -> None:
    caller, drippers = Caller(name), Drippers()
    head = caller.request(b"POST", b"/incidents?level=3", b"Content-Length: 262144\r\n") + b"{"
    sources = [f"127.0.3.{place % addresses + 1}" for place in range(20 * addresses)]
    with concurrent.futures.ThreadPoolExecutor(16) as several:
        for it in list(several.map(caller.connect, sources)):
            drippers.start(it, head)
    # By then most are in hand that waited for their address's rate, and none was closed.
    time.sleep(9)
    asked = [caller.status("127.0.9.9", key), caller.status("127.0.0.1", key, "/healthz")]
    drippers.wait()
    asked.append(caller.status("127.0.9.9", key))
    print(json.dumps({"statuses": drippers.statuses, "longest": round(drippers.longest, 1), "asked": " ".join(asked)}))


def network(name: str, key: str) -> None:
    caller, drippers = Caller(name), Drippers()
    head = caller.request(b"GET", b"/me", b"Content-Length: 1000\r\n") + b"{"
    for _ in range(20):
        drippers.start(caller.connect("2001:db8:0:1::1", "::1"), head)
    time.sleep(2)
    asked = [caller.status(source, key, to="::1") for source in ("2001:db8:0:1:2:3:4:5", "2001:db8:0:2::1")]
    drippers.wait()
    print(json.dumps({"statuses": drippers.statuses, "asked": " ".join(asked)}))


def silent(name: str, address: str, count: int) -> None:
    held, refused = [], 0
    for _ in range(count):
        it = socket.socket()
        it.settimeout(3)
        it.bind((address, 0))
        try:
            it.connect(("127.0.0.1", 443))
            held.append(it)
        except OSError:
            refused += 1
    other = Caller(name).status("127.0.9.8", "none")
    print(json.dumps({"taken": len(held), "refused": refused, "other": other}))


def half(name: str, address: str, count: int) -> None:
    caller = Caller(name)
    held = [caller.connect(address) for _ in range(count)]
    for place, it in enumerate(held):
        it.sendall(b"GET /me HT" if place % 2 else f"GET /me HTTP/1.1\r\nHost: {name}\r\nX: ".encode())
    for it in held:
        read(it)


def curl(name: str, version: str, source: str, key: str, count: int) -> subprocess.Popen[str]:
    """So many searches at once, with HTTP/2 as streams of one connection."""
    words = ["curl", "-s", "-Z", "--parallel-max", str(count), "--interface", source, "--cacert", AUTHORITY, "-o", "/dev/null", "-w", "%{http_code}\n"]
    words += ["--http2"] if version == "http2" else ["--http1.1", "--parallel-immediate"]
    words += ["-H", f"Authorization: Bearer {key}", f"https://{name}/search?needle=[1-{count}]"]
    return subprocess.Popen(words, stdout=subprocess.PIPE, text=True)


def statuses(*running: subprocess.Popen[str]) -> str:
    return " ".join(sorted(word for each in running for word in each.communicate()[0].split()))


def lists(name: str) -> None:
    caller, told = Caller(name), dict[str, dict[str, str]]()
    search = caller.request(b"GET", b"/search?needle=x", b"Authorization: Bearer first\r\n")
    for place, version in enumerate(("http1", "http2")):
        first = curl(name, version, f"127.0.8.{place + 1}", "first", 4)
        time.sleep(0.5)
        refused = caller.ask(f"127.0.8.{place + 11}", search)
        begun = time.monotonic()
        caller.status("127.0.8.9", "other")
        waited = time.monotonic() - begun
        of_key = f"{statuses(first)} {status(refused)}"
        of_address = statuses(*(curl(name, version, f"127.0.8.{place + 21}", f"key{it}", 1) for it in range(4)))
        told |= {version: {"key": " ".join(sorted(of_key.split())), "address": of_address}}
    head, _, body = refused.decode().partition("\r\n\r\n")
    after = [line.partition(": ")[2] for line in head.split("\r\n") if line.lower().startswith("retry-after:")]
    for _ in range(2):
        with caller.connect("127.0.8.31") as it:
            it.sendall(search)
            time.sleep(0.3)
    left = [status(caller.ask("127.0.8.32", search)), caller.status("127.0.8.33", "other")]
    print(json.dumps({**told, "after": after[0], "body": body, "waited": round(waited, 1), "left": " ".join(left)}))


def slow(name: str, seconds: float) -> None:
    caller = Caller(name)
    with caller.connect("127.0.6.1", buffer=4096) as it:
        it.sendall(caller.request(b"GET", b"/incidents/1"))
        time.sleep(seconds)
        other = caller.status("127.0.6.2", "none")
        body = read(it).partition(b"\r\n\r\n")[2]
    print(json.dumps({"bytes": len(body), "other": other}))


def hub(port: int, seconds: float, kind: str) -> None:
    until = time.monotonic() + seconds
    asked = []
    with socket.create_server(("127.0.0.1", port)) as listening:
        listening.settimeout(0.5)
        while time.monotonic() < until:
            try:
                it, _ = listening.accept()
            except TimeoutError:
                continue
            with it:
                request = it.recv(65536)
                asked.append(b" ".join(request.split(b" ")[:2]).decode())
                answer = [b"503 Service Unavailable", b'{"code":"F2","detail":"","reason":"no memory"}']
                if kind == "lists":
                    time.sleep(3 if b" /search" in request else 0)
                    answer = [b"200 OK", b"{}"]
                if kind == "long":
                    answer = [b"200 OK", b"x" * (LONG if b" /incidents" in request else 2)]
                if kind != "closes":
                    head = b"HTTP/1.1 %s\r\nContent-Type: application/json\r\nConnection: close\r\nContent-Length: %d\r\n\r\n"
                    with contextlib.suppress(OSError):     # a proxy that has no room leaves
                        it.sendall(head % (answer[0], len(answer[1])) + answer[1])
    print(json.dumps({each: asked.count(each) for each in sorted(set(asked))}))


def main() -> None:
    what, *words = sys.argv[1:]
    if what == "forms":
        forms(words[0])
    elif what == "drip":
        drip(words[0], words[1], int(words[2]))
    elif what == "network":
        network(words[0], words[1])
    elif what == "silent":
        silent(words[0], words[1], int(words[2]))
    elif what == "half":
        half(words[0], words[1], int(words[2]))
    elif what == "lists":
        lists(words[0])
    elif what == "slow":
        slow(words[0], float(words[1]))
    else:
        hub(int(words[0]), float(words[1]), words[2])


if __name__ == "__main__":
    main()
