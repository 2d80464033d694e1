"""One origin on loopback, as a proxy makes it: the page below /ui/ under its policy, and the hub at all other paths."""

import base64
import hashlib
import http.client
import http.server
import json
import pathlib
import re
import threading
import urllib.parse

Answer = tuple[int, str, bytes]


def digest_in_page(page: str, name: str) -> str:
    """The page's one element of this name, as a policy names it by its hash."""
    (found,) = re.findall(rf"<{name}>(.*?)</{name}>", page, re.S)
    return "'sha256-" + base64.b64encode(hashlib.sha256(found.encode()).digest()).decode() + "'"


def policy_of(page: str) -> str:
    return "; ".join(
        (
            "default-src 'none'",
            f"script-src {digest_in_page(page, 'script')}",
            f"style-src {digest_in_page(page, 'style')}",
            "connect-src 'self'",
            "img-src data:",
            "base-uri 'none'",
            "form-action 'none'",
            "frame-ancestors 'none'",
            "require-trusted-types-for 'script'",
            "trusted-types 'none'",
        )
    )


class Origin:
    """The server, what it was asked, and answers that it gives in the hub's place, each once."""

    def __init__(self, page: pathlib.Path, hub_port: int, port: int) -> None:
        self.page = page
        self.hub_port = hub_port
        self.names: bytes | None = None
        self.second_port: int | None = None  # of a second hub, below /2/
        self.listed: list[int] | None = None  # the numbers of a list that it answers in the hub's place
        self.at_once = self.most_at_once = 0  # how many excerpts are asked for now, and were at most
        self.instead: dict[str, Answer] = {}
        self.moved: dict[str, str] = {}  # where an answer leads
        self.lost: set[str] = set()  # paths of which the hub's next answer is lost
        self.may_be_kept = False  # whether a browser may keep the hub's answers
        self.waits: dict[tuple[str, str], threading.Event] = {}  # of a method and a path, until when an answer waits
        self.heads: list[tuple[str, dict[str, str]]] = []
        self.asked: list[tuple[str, str]] = []
        self.bodies: list[bytes] = []
        self.one_at_a_time = threading.Lock()
        self.counting = threading.Lock()
        origin = self

        class Handler(http.server.BaseHTTPRequestHandler):
            def log_message(self, format: str, *words: object) -> None:
                pass

            def do_GET(self) -> None:
                self.answer()

            def do_POST(self) -> None:
                self.answer()

            def do_PUT(self) -> None:
                self.answer()

            def answer(self) -> None:
                body = self.rfile.read(int(self.headers.get("Content-Length", "0")))
                origin.heads.append((self.path, dict(self.headers)))
                status, kind, content = origin.answer_to(self.command, self.path, self.headers.get("Authorization"), body)
                try:
                    self.send(status, kind, content)
                except OSError:  # the browser ended the request
                    pass

            def send(self, status: int, kind: str, content: bytes) -> None:
                self.send_response(status)
                self.send_header("Content-Type", kind)
                self.send_header("Content-Length", str(len(content)))
                if status == 302:
                    self.send_header("Location", origin.moved[self.path])
                if origin.may_be_kept:
                    self.send_header("Cache-Control", "max-age=1000")
                if self.path.removeprefix("/2").startswith("/ui/"):
                    self.send_header("Content-Security-Policy", policy_of(origin.page.read_text()))
                    self.send_header("X-Content-Type-Options", "nosniff")
                self.end_headers()
                self.wfile.write(content)

        self.server = http.server.ThreadingHTTPServer(("127.0.0.1", port), Handler)
        self.port = port
        threading.Thread(target=self.server.serve_forever, daemon=True).start()

    @property
    def address(self) -> str:
        return f"http://127.0.0.1:{self.port}/ui/"

    def answer_to(self, method: str, target: str, key: str | None, body: bytes) -> Answer:
        path = urllib.parse.urlsplit(target).path
        self.asked.append((method, target))
        self.bodies.append(body)
        port = self.hub_port
        if self.second_port is not None and path.startswith("/2/"):
            path, target, port = path.removeprefix("/2"), target.removeprefix("/2"), self.second_port
        if path == "/ui/":
            return 200, "text/html; charset=utf-8", self.page.read_bytes()
        if path == "/ui/names.json":
            return (404, "text/plain", b"") if self.names is None else (200, "application/json", self.names)
        if path.startswith("/ui/"):
            return 404, "text/plain", b""
        if path in self.instead:
            return self.instead.pop(path)
        if path in self.moved:
            return 302, "text/plain", b""
        if path == "/incidents" and method == "GET" and self.listed is not None:
            return self.answer_of_list(target)
        if not re.fullmatch(r"/incidents/\d+", path) or method != "GET":
            told = self.answer_of_hub(method, target, key, body, port)
            if path in self.lost:
                self.lost.remove(path)
                return 503, "application/json", b'{"code":"Away","detail":"","reason":"hub restarts or is busy"}'
            if (method, path) in self.waits:
                self.waits[(method, path)].wait(60)
            return told
        self.count_asked(1)
        try:
            return self.answer_of_hub(method, target, key, body, port)
        finally:
            self.count_asked(-1)

    def count_asked(self, step: int) -> None:
        with self.counting:
            self.at_once += step
            self.most_at_once = max(self.most_at_once, self.at_once)

    def answer_of_list(self, target: str) -> Answer:
        after = int(dict(urllib.parse.parse_qsl(urllib.parse.urlsplit(target).query)).get("after", "0"))
        found = [number for number in self.listed or [] if number > after][:100]
        entries = [{"number": number, "revision": 1, "source": 2} for number in found]
        return 200, "application/json", json.dumps({"incidents": entries}).encode()

    def answer_of_hub(self, method: str, target: str, key: str | None, body: bytes, port: int) -> Answer:
        with self.one_at_a_time:
            connection = http.client.HTTPConnection("127.0.0.1", port, timeout=600)
            try:
                headers = {} if key is None else {"Authorization": key}
                connection.request(method, target, body if method != "GET" else None, headers)
                answer = connection.getresponse()
                return answer.status, answer.getheader("Content-Type") or "", answer.read()
            except OSError:
                return 503, "application/json", b'{"code":"Away","detail":"","reason":"hub restarts or is busy"}'
            finally:
                connection.close()

    def forms(self, method: str, path: str) -> list[dict[str, str]]:
        """What each request of this method and path had in its form, in their order."""
        pairs = zip(self.asked, self.bodies, strict=True)
        return [dict(urllib.parse.parse_qsl(body.decode(), True)) for asked, body in pairs if asked == (method, path)]

    def close(self) -> None:
        self.server.shutdown()
        self.server.server_close()
