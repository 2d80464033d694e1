"""The demo's server on loopback: the page around the readers, the page for people below /ui/, and the hub at all other paths.

Only who has the demo's address gets the readers' keys: it has a word that nobody can guess. A request that names another host than
this one is refused, so that a page of elsewhere, whose name is made to lead here, can't read an answer.
"""
from __future__ import annotations

import errno
import http.client
import http.server
import json
import re
import secrets
import shutil
import threading

from . import circle, pages, places

LONGEST_BODY = 1 << 20  # the hub's own limit is lower, and told by it
SECONDS = 60  # for each read of a request
SECONDS_OF_HUB = 600  # for a reply: an unproved program is slow, the more so on a busy machine
HEADERS = (
    ("Cache-Control", "no-store"),
    ("X-Content-Type-Options", "nosniff"),
    ("Referrer-Policy", "no-referrer"),
    ("Cross-Origin-Opener-Policy", "same-origin"),
    ("Cross-Origin-Resource-Policy", "same-origin"),
)
HTML, JSON, TEXT = "text/html; charset=utf-8", "application/json", "text/plain; charset=utf-8"


class Origin:
    """What the server serves. `hub_port` is set when the hub listens."""

    def __init__(self, readers: list[circle.Reader]) -> None:
        self.hub_port = 0
        self.readers = readers
        self.word = secrets.token_urlsafe(16)
        self.frame, self.page = places.frame().read_text(), places.page().read_text()
        self.files: dict[str, tuple[str, str, str | None]] = {}  # by path: the text, its kind, and its policy

    def open(self, hub_port: int, is_unproved: bool) -> None:
        """Has all to serve from now on."""
        self.hub_port = hub_port
        shown = {
            "unproved": is_unproved,
            "readers": [{"name": it.name, "of": it.of, "role": it.role, "key": it.key} for it in self.readers],
            "reports": [{"number": it.number, "title": it.title, "shows": it.shows} for it in circle.REPORTS],
        }
        self.files = {
            f"/demo/{self.word}/": (self.frame, HTML, pages.policy_of(self.frame, frames="'self'")),
            f"/demo/{self.word}/circle.json": (json.dumps(shown), JSON, None),
            "/ui/": (self.page, HTML, pages.policy_of(self.page, framed_by="'self'")),
            "/ui/names.json": (json.dumps(circle.NAMES), JSON, None),
        }


class Handler(http.server.BaseHTTPRequestHandler):
    server: Server
    timeout = SECONDS

    def log_message(self, format: str, *words: object) -> None:
        """Prints nothing: a path may have the demo's word."""

    def version_string(self) -> str:
        return "iodef-hub-demo"

    def answer(self) -> None:
        try:
            if not self.names_this_host():
                self.say(421, "BadHost", "open the address that iodef-hub-demo printed")
            elif self.path.partition("?")[0] in self.server.origin.files:
                self.send_file(self.path.partition("?")[0])
            elif self.path == "/" or self.path.startswith(("/demo", "/ui")):
                self.say(404, "NoRoute", "open the whole address that iodef-hub-demo printed")
            else:
                self.pass_on()
        except OSError:
            self.close_connection = True  # the caller left

    do_GET = do_POST = do_PUT = do_HEAD = do_DELETE = do_PATCH = do_OPTIONS = answer

    def names_this_host(self) -> bool:
        named = self.headers.get_all("Host") or []
        return len(named) == 1 and re.fullmatch(r"(127\.0\.0\.1|localhost)(:\d+)?", named[0]) is not None

    def send_file(self, path: str) -> None:
        if self.command != "GET":
            return self.say(404, "NoRoute", f"no {self.command} at this path")
        text, kind, policy = self.server.origin.files[path]
        content = text.encode()
        self.begin(200, kind, len(content), [("Content-Security-Policy", policy)] if policy else [])
        self.wfile.write(content)

    def begin(self, status: int, kind: str, length: int, more: list[tuple[str, str]]) -> None:
        self.send_response(status)
        for name, value in (("Content-Type", kind), ("Content-Length", str(length)), *HEADERS, *more):
            self.send_header(name, value)
        self.end_headers()

    def say(self, status: int, code: str, reason: str) -> None:
        """A refusal in the hub's form."""
        content = json.dumps({"code": code, "detail": "", "reason": reason}).encode()
        self.begin(status, JSON, len(content), [])
        if self.command != "HEAD":
            self.wfile.write(content)

    def length(self) -> str:
        return str(self.headers.get("Content-Length", "" if self.command in ("POST", "PUT", "PATCH") else "0"))

    def fault_of_body(self) -> tuple[int, str] | None:
        """Why the request's body isn't read: the status and the code, if there is a fault."""
        length = self.length()
        if self.headers.get("Transfer-Encoding") is not None:
            return 501, "Chunked"
        if length == "":
            return 411, "NoLength"
        if not (length.isascii() and length.isdigit()):
            return 400, "BadHead"
        return (413, "TooLarge") if len(length) > 9 or int(length) > LONGEST_BODY else None

    def body(self) -> bytes:
        found = self.rfile.read(int(self.length()))
        if len(found) < int(self.length()):
            raise ConnectionResetError("the request ended early")
        return found

    def pass_on(self) -> None:
        """Asks the hub in the caller's place. Of the headers it gets the key alone, as from a proxy."""
        if fault := self.fault_of_body():
            return self.say(*fault, "request refused")
        body = self.body()
        key = self.headers.get("Authorization")
        hub = http.client.HTTPConnection("127.0.0.1", self.server.origin.hub_port, timeout=SECONDS_OF_HUB)
        try:
            try:
                hub.request(self.command, self.path, body or None if self.command == "GET" else body, {} if key is None else {"Authorization": key})
                reply = hub.getresponse()
            except (http.client.InvalidURL, ValueError):
                return self.say(400, "BadHead", "request refused")
            except (OSError, http.client.HTTPException):
                return self.say(503, "Away", "the hub is busy, or has ended")
            self.begin(reply.status, reply.getheader("Content-Type") or TEXT, reply.length or 0, [])
            shutil.copyfileobj(reply, self.wfile)
        finally:
            hub.close()


class Server(http.server.ThreadingHTTPServer):
    """Listens on a port of loopback, 0 for a free one."""

    daemon_threads = True

    def __init__(self, origin: Origin, port: int) -> None:
        self.origin = origin
        self.thread: threading.Thread | None = None
        try:
            super().__init__(("127.0.0.1", port), Handler)
        except OSError as fault:
            why = {errno.EADDRINUSE: "is used by another program", errno.EACCES: "is for root alone"}.get(fault.errno or 0, str(fault))
            raise places.Fault("ListenFailed", f"port {port} {why}: leave --port out for a free one") from None

    @property
    def address(self) -> str:
        return f"http://127.0.0.1:{self.server_address[1]}/demo/{self.origin.word}/"

    def handle_error(self, request: object, client_address: object) -> None:
        """Prints nothing: a caller that leaves is no fault."""

    def start(self) -> None:
        self.thread = threading.Thread(target=self.serve_forever, daemon=True)
        self.thread.start()

    def stop(self) -> None:
        if self.thread is not None:
            self.shutdown()
        self.server_close()
