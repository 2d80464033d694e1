"""A small circle of three organisations, made over HTTP of a program that is served on loopback."""

import hashlib
import http.client
import json
import pathlib
import subprocess
import typing
import urllib.parse

KEYS = {"admin": "admin-key", "bank": "bank-key", "telco": "telco-key", "university": "university-key", "poster": "poster-key"}
Pairs = typing.Sequence[tuple[str, object]]


def digest(key: str) -> str:
    return hashlib.sha256(key.encode()).hexdigest()


class Circle:
    """The hub's process with its store in a folder, and requests to it past the page."""

    def __init__(self, program: pathlib.Path, folder: pathlib.Path, port: int) -> None:
        self.program = program
        self.store = folder / "hub.db"
        subprocess.run([program, "init", self.store, "Hub", digest(KEYS["admin"])], check=True, stdout=subprocess.DEVNULL)
        self.port = port
        self.process = self.served()

    def served(self) -> subprocess.Popen[str]:
        process = subprocess.Popen(
            [self.program, "serve", self.store, str(self.port), "1000000"],
            stdout=subprocess.PIPE,
            stderr=subprocess.DEVNULL,
            text=True,
        )
        assert process.stdout is not None
        if not process.stdout.readline().startswith("listening"):
            process.wait(10)
            raise RuntimeError(f"the hub does not listen on port {self.port}")
        return process

    def ask(
        self, who: str, method: str, path: str, form: Pairs = (), query: Pairs = (), report: bytes | None = None
    ) -> typing.Any:
        return json.loads(self.text(who, method, path, form, query, report))

    def text(
        self, who: str, method: str, path: str, form: Pairs = (), query: Pairs = (), report: bytes | None = None
    ) -> str:
        """The answer as it is served."""
        body: bytes | None = urllib.parse.urlencode(form).encode() if report is None else report
        if method == "GET":
            body = None
        target = path + ("?" + urllib.parse.urlencode(query) if query else "")
        connection = http.client.HTTPConnection("127.0.0.1", self.port, timeout=600)
        connection.request(method, target, body, {"Authorization": f"Bearer {KEYS.get(who, who)}"})
        answer = connection.getresponse().read().decode()
        connection.close()
        return answer

    def person(self, who: str, org: int, name: str, role: str) -> None:
        self.ask("admin", "POST", "/persons", [("org", org), ("name", name), ("role", role), ("key", digest(KEYS[who]))])

    def fill(self, report: bytes) -> None:
        """Bank (2) posts, Telco (3) is its partner in community and group, University (4) is a stranger."""
        for name in ("Bank", "Telco", "University"):
            self.ask("admin", "POST", "/orgs", [("name", name)])
        self.person("bank", 2, "Ada", "coordinator")
        self.person("telco", 3, "Ben", "coordinator")
        self.person("university", 4, "Cleo", "reader")
        self.person("poster", 2, "Dan", "poster")
        self.ask("admin", "POST", "/communities", [("name", "payments")])
        for org in (2, 3):
            self.ask("admin", "POST", "/communities/1/join", [("org", org)])
        self.ask("bank", "POST", "/groups", [("name", "phishing"), ("releasability", "members only")])
        self.ask("bank", "POST", "/groups/1/add", [("org", 3), ("extend", 0)])
        self.ask("bank", "POST", "/incidents", query=[("level", 3), ("gate", "4:1:/Incident/0/EventData/1")], report=report)

    def stop(self) -> None:
        self.process.terminate()
        self.process.wait(20)

    def start(self) -> None:
        self.process = self.served()
