"""A hub of a trial: its store, the program that serves it, and requests to it."""
from __future__ import annotations

import hashlib
import http.client
import json
import pathlib
import subprocess
import typing


def digest(key: str) -> str:
    return hashlib.sha256(key.encode()).hexdigest()


def report(name: str, *texts: str, label: str = "white") -> bytes:
    """A report whose IncidentID has the name, and which has the texts."""
    incident = {"purpose": "reporting", "restriction": label, "GenerationTime": "2026-11-29T10:00:00Z",
                "IncidentID": {"id": name, "name": "src.example"}, "Contact": [{"role": "creator"}], "Description": list(texts)}
    return json.dumps({"version": "2.0", "Incident": [incident]}, ensure_ascii=False).encode()


class Hub:
    """A store that is served on a port of loopback, and asked at the same or another one."""

    def __init__(self, program: str, store: pathlib.Path, port: int, asked: int = 0) -> None:
        self.program, self.store, self.port, self.asked = program, store, port, asked or port
        self.process: subprocess.Popen[str] | None = None

    def make(self, key: str) -> None:
        self.store.parent.mkdir(parents=True, exist_ok=True)
        subprocess.run([self.program, "init", self.store, "Hub", digest(key)], check=True, stdout=subprocess.DEVNULL)

    def start(self) -> None:
        words = [self.program, "serve", str(self.store), str(self.port), "4294967295"]
        self.process = subprocess.Popen(words, stdout=subprocess.PIPE, text=True)
        assert self.process.stdout is not None
        line = self.process.stdout.readline()
        assert line == f"listening {self.port}\n", line

    def stop(self) -> None:
        if self.process is not None:
            self.process.terminate()
            self.process.wait()
            self.process = None

    def ask(self, key: str, method: str, target: str, body: bytes = b"") -> tuple[int, bytes]:
        connection = http.client.HTTPConnection("127.0.0.1", self.asked, timeout=100)
        try:
            connection.request(method, target, body if method != "GET" else None, {"Authorization": f"Bearer {key}"})
            answer = connection.getresponse()
            return answer.status, answer.read()
        finally:
            connection.close()

    def done(self, key: str, method: str, target: str, body: bytes = b"") -> typing.Any:
        status, told = self.ask(key, method, target, body)
        assert status == 200, (method, target, status, told)
        return json.loads(told)
