"""What a circle does while its hub goes to another machine: two persons post, and two others read what they may."""
from __future__ import annotations

import dataclasses
import http.client
import json
import threading
import time

KEYS = {"admin": "admin-key", "bank": "bank-key", "telco": "telco-key", "partner": "partner-key", "stranger": "stranger-key"}
Answer = tuple[int, dict[str, object]]


def ask(host: str, port: int, who: str, method: str, target: str, body: bytes | None = None, seconds: float = 30) -> Answer:
    """Status and body; the status is 0 if nothing answers."""
    connection = http.client.HTTPConnection(host, port, timeout=seconds)
    try:
        connection.request(method, target, body, {"Authorization": f"Bearer {KEYS[who]}"})
        answer = connection.getresponse()
        return answer.status, json.loads(answer.read())
    except (OSError, http.client.HTTPException, ValueError):
        return 0, {}
    finally:
        connection.close()


def report(name: str) -> bytes:
    """A report of which everybody may read the name, a partner the green text, and the source alone the red one."""
    return json.dumps({"version": "2.0", "Incident": [{
        "purpose": "reporting", "restriction": "white", "GenerationTime": "2026-11-28T10:00:00Z",
        "IncidentID": {"id": name, "name": "load.example"}, "Contact": [{"role": "creator", "ContactName": ["CSIRT"]}],
        "EventData": [{"restriction": "green", "Description": [f"green text of {name}"]}, {"restriction": "red", "Description": [f"red text of {name}"]}],
    }]}).encode()


@dataclasses.dataclass(frozen=True)
class Posted:
    """A report that was answered as posted, and when."""

    name: str
    number: int
    moment: float


@dataclasses.dataclass
class Load:
    """Posters rest while `rests` is set, and by themselves from their first refusal on; readers never do."""

    host: str
    port: int
    pause: float
    posted: list[Posted] = dataclasses.field(default_factory=list)
    refused: list[str] = dataclasses.field(default_factory=list)
    undue: list[str] = dataclasses.field(default_factory=list)
    read: int = 0
    is_over: bool = False

    def __post_init__(self) -> None:
        self.lock = threading.Lock()
        self.goes = threading.Event()
        self.at_rest = {"bank": threading.Event(), "telco": threading.Event()}
        self.threads = [threading.Thread(target=self.post, args=(who,), daemon=True) for who in self.at_rest]
        self.threads += [threading.Thread(target=self.look, args=(who,), daemon=True) for who in ("partner", "stranger")]
        self.count = 0

    def begin(self) -> None:
        for thread in self.threads:
            thread.start()

    def go(self) -> None:
        for event in self.at_rest.values():
            event.clear()
        self.goes.set()

    def rest(self, seconds: float = 120) -> None:
        """Waits until each poster rests."""
        self.goes.clear()
        for event in self.at_rest.values():
            event.wait(seconds)

    def wait_refused(self, seconds: float = 120) -> None:
        """Waits until each poster rests by itself, since it was refused."""
        for event in self.at_rest.values():
            event.wait(seconds)
        self.goes.clear()

    def end(self) -> None:
        self.is_over = True
        self.goes.set()
        for thread in self.threads:
            thread.join(60)

    def name(self, who: str) -> str:
        with self.lock:
            self.count += 1
            return f"{who}-{self.count}"

    def post(self, who: str) -> None:
        while not self.is_over:
            if self.at_rest[who].is_set() or not self.goes.is_set():
                self.at_rest[who].set()
                time.sleep(0.02)
                continue
            name = self.name(who)
            status, told = ask(self.host, self.port, who, "POST", "/incidents?level=3", report(name))
            numbers = told.get("numbers")
            with self.lock:
                if status == 200 and isinstance(numbers, list):
                    self.posted.append(Posted(name, int(numbers[0]), time.time()))
                else:
                    self.refused.append(f"{status} {told.get('code')}")
                    self.at_rest[who].set()
            time.sleep(self.pause)

    def look(self, who: str) -> None:
        """Views the newest incidents in turn: nothing that isn't due may be in one."""
        forbidden = ("red text",) if who == "partner" else ("red text", "green text")
        while not self.is_over:
            with self.lock:
                newest = max((each.number for each in self.posted), default=0)
            for number in range(max(newest - 3, 1), newest + 2):
                status, told = ask(self.host, self.port, who, "GET", f"/incidents/{number}")
                text = json.dumps(told)
                with self.lock:
                    self.read += status == 200
                    self.undue += [f"{who} {number}: {each}" for each in forbidden if each in text]
                time.sleep(self.pause / 2)
            time.sleep(self.pause)
