"""The drill of a serving hub and a copy, also of a hub of an earlier release: what that one doesn't have is left out, and named."""
from __future__ import annotations

import contextlib
import http.client
import http.server
import pathlib
import shutil
import sqlite3
import subprocess
import sys
import threading
from collections.abc import Iterator

DRILL = pathlib.Path(__file__).resolve().parents[3] / "deploy" / "bin" / "iodef-hub-drill"
NO_ROUTE = b'{"code":"NoRoute","detail":"","reason":"request refused"}'
LACKING = ("/me/communities", "/sharing")


@contextlib.contextmanager
def served(program: str, store: pathlib.Path, port: int) -> Iterator[None]:
    with subprocess.Popen([program, "serve", store, str(port), "100000"], stdout=subprocess.PIPE) as hub:
        assert hub.stdout is not None and hub.stdout.readline() == f"listening {port}\n".encode()
        try:
            yield
        finally:
            hub.terminate()


@contextlib.contextmanager
def earlier(port: int) -> Iterator[str]:
    """A hub of an earlier release: the one at this port, without two of its requests. Its URL."""

    class Earlier(http.server.BaseHTTPRequestHandler):
        def do_GET(self) -> None:
            status, body = 404, NO_ROUTE
            if not self.path.endswith(LACKING):
                connection = http.client.HTTPConnection("127.0.0.1", port, timeout=100)
                connection.request("GET", self.path, headers={"Authorization": self.headers["Authorization"]})
                answer = connection.getresponse()
                status, body = answer.status, answer.read()
            self.send_response(status)
            self.send_header("Content-Length", str(len(body)))
            self.end_headers()
            self.wfile.write(body)

        def log_message(self, *_: object) -> None:
            pass

    with http.server.ThreadingHTTPServer(("127.0.0.1", 0), Earlier) as server:
        threading.Thread(target=server.serve_forever, daemon=True).start()
        yield f"http://127.0.0.1:{server.server_port}"
        server.shutdown()


def drilled(program: str, before: str, after: pathlib.Path, keys: pathlib.Path) -> tuple[int, list[str]]:
    words = [sys.executable, str(DRILL), before, str(after), "--keys", str(keys), "--program", program]
    ran = subprocess.run(words, capture_output=True, text=True)
    return ran.returncode, [it for it in (ran.stdout + ran.stderr).splitlines() if "served after" not in it]


def cases(program: str, store: pathlib.Path, folder: pathlib.Path, port: int, keys: tuple[str, ...]) -> Iterator[tuple[bool, str]]:
    file, here, after = folder / "drill.keys", folder / "drill.db", folder / "after.db"
    file.write_text("".join(f"{key}\n" for key in keys))
    for copy in (here, after):
        shutil.copy(store, copy)
    with served(program, here, port), earlier(port) as url:
        status, lines = drilled(program, f"http://127.0.0.1:{port}", after, file)
        yield status == 0 and len(lines) == 1 and lines[0].endswith(" answers, 0 differ"), f"a hub and its copy don't differ: {lines}"
        whole = int(lines[0].split()[0])
        status, lines = drilled(program, url, after, file)
        yield status == 0 and lines[-1].endswith(" answers, 0 differ"), f"nor a hub of an earlier release and its copy: {lines}"
        left = lines[0].removeprefix("left out: ").split(" answers")[0]
        yield lines[0].endswith(f" answers to /incidents/N/sharing and /me/communities, which {url} doesn't have"), f"what it doesn't have is told: {lines[0]}"
        yield left.isdecimal() and int(lines[-1].split()[0]) == whole - int(left), f"and no more is left out: {left} of {whole}"
        with contextlib.closing(sqlite3.connect(after)) as rows, rows:
            rows.execute("DELETE FROM recipient WHERE incident = 1")
        status, lines = drilled(program, url, after, file)
        yield status == 1 and "differs: key 3 /incidents/1" in lines, f"what differs is named all the same: {lines[1:]}"
