"""The shipped proxies with some text of their files replaced, requests from any address, and what honest persons feel beside an attack."""

from __future__ import annotations

import collections
import contextlib
import dataclasses
import hashlib
import itertools
import json
import pathlib
import ssl
import threading
import time
import typing
from collections.abc import Callable, Iterator

from proxies import NAME, Proxies

Check = tuple[bool, str]
# Of a file of deploy the texts that are replaced, and by what.
Changes = dict[str, list[tuple[str, str]]]
# What a request takes beside those in hand, on a busy machine.
BESIDE = 1.5


def digest(key: str) -> str:
    return hashlib.sha256(key.encode()).hexdigest()


class Served(typing.Protocol):
    """What is asked of a hub of costly."""

    store: pathlib.Path
    port: int
    limit: int
    expected: list[int]
    program: str

    def done(self, key: str, method: str, target: str, body: bytes = b"") -> typing.Any: ...
    def post(self, body: bytes, query: str = "level=3") -> list[int]: ...
    def memory(self, field: str) -> int: ...
    def start(self) -> None: ...
    def stop(self) -> None: ...


def changed(text: str, changes: list[tuple[str, str]], name: str) -> str:
    for old, new in changes:
        if old not in text:
            raise ValueError(f"{name} has no {old!r}")
        text = text.replace(old, new)
    return text


class Edge(Proxies):
    """The proxies with changes to `haproxy.cfg` and to files of nginx."""

    def __init__(self, folder: pathlib.Path, port: int, changes: Changes) -> None:
        self.changes = changes
        super().__init__(folder, port)

    def queue_settings(self) -> str:
        return changed(super().queue_settings(), self.changes.get("haproxy.cfg", []), "haproxy.cfg")

    def write_nginx(self, ports: typing.Any) -> None:
        super().write_nginx(ports)
        for name, changes in self.changes.items():
            if name.endswith(".conf"):
                file = self.folder / name
                file.write_text(changed(file.read_text(), changes, name))


class Told(typing.NamedTuple):
    """The status, 0 without an answer; the answer's JSON; its bytes; the seconds that it took."""

    status: int
    said: typing.Any
    length: int
    took: float

    def reason(self) -> str:
        return str(self.said.get("reason", "")) if isinstance(self.said, dict) else ""


def request(key: str, method: str, target: str, body: bytes = b"", *fields: str) -> bytes:
    lines = [f"{method} {target} HTTP/1.1", f"Host: {NAME}", "Connection: close", *fields]
    if key:
        lines.append(f"Authorization: Bearer {key}")
    if method != "GET":
        lines.append(f"Content-Length: {len(body)}")
    return "\r\n".join(lines).encode() + b"\r\n\r\n" + body


def send(proxies: Proxies, source: str, whole: bytes) -> Told:
    """Sends bytes and reads all that comes back, of which the first 64 KiB are kept."""
    begun, kept, length = time.monotonic(), b"", 0
    with contextlib.suppress(OSError, ssl.SSLError):
        with proxies.connect(source) as it:
            it.sendall(whole)
            while piece := it.recv(1 << 18):
                length += len(piece)
                kept += piece[: max(65_536 - len(kept), 0)]
    head, _, body = kept.partition(b"\r\n\r\n")
    status = int(head[9:12]) if head[:7] == b"HTTP/1." and head[9:12].isdigit() else 0
    try:
        said = json.loads(body)
    except ValueError:
        said = {}
    return Told(status, said, length, time.monotonic() - begun)


def ask(proxies: Proxies, source: str, key: str, method: str, target: str, body: bytes = b"", *fields: str) -> Told:
    return send(proxies, source, request(key, method, target, body, *fields))


def at_share(took: list[float], share: float) -> float:
    return sorted(took)[min(int(len(took) * share), len(took) - 1)] if took else 0.0


@dataclasses.dataclass
class Felt:
    kind: str
    status: int
    took: float


@dataclasses.dataclass
class Honest:
    """Persons who ask twice a second, each from an address of its own: of twelve times nine something quick, a list, a search, a post."""

    proxies: Proxies
    hub: Served
    viewed: int
    felt: list[Felt] = dataclasses.field(default_factory=list)
    posted: list[int] = dataclasses.field(default_factory=list)
    ends: threading.Event = dataclasses.field(default_factory=threading.Event)
    asked: list[threading.Thread] = dataclasses.field(default_factory=list)

    KEYS: typing.ClassVar = [f"other{at}" for at in range(10)]
    POSTER: typing.ClassVar = "dan-key"
    pause: float = 0.5

    def admit(self, admin: str) -> None:
        """Ten readers, and a poster of another organisation than the attackers."""
        org = self.hub.done(admin, "POST", "/orgs", b"name=Honest")["numbers"][0]
        people = [(key, "reader") for key in self.KEYS] + [(self.POSTER, "poster")]
        for key, role in people:
            self.hub.done(admin, "POST", "/persons", f"org={org}&name={key}&role={role}&key={digest(key)}".encode())

    def target(self, turn: int) -> tuple[str, str, str, bytes]:
        """Kind, method, target and body of one."""
        at = turn % 12
        if at == 3:
            return "list", "GET", "/incidents?after=0", b""
        if at == 7:
            return "search", "GET", f"/search?needle=honest-{turn}", b""
        if at == 11:
            return "post", "POST", "/incidents?level=3", small_report(f"honest-{id(self)}-{turn}")
        return "quick", "GET", ("/me", f"/incidents/{self.viewed}", "/me/groups")[at % 3], b""

    def one(self, turn: int) -> None:
        kind, method, target, body = self.target(turn)
        key = self.POSTER if kind == "post" else self.KEYS[turn % len(self.KEYS)]
        told = ask(self.proxies, f"127.46.{turn // 200 % 200}.{turn % 200 + 1}", key, method, target, body)
        self.felt.append(Felt(kind, told.status, told.took))
        if kind == "post" and told.status == 200:
            self.posted += told.said["numbers"]

    def run(self, attack: Callable[[Callable[[], bool]], None], seconds: float) -> float:
        """Asks beside an attack, which ends when what it is given is false. Returns for how long."""
        begun = time.monotonic()
        until = begun + seconds
        attacker = threading.Thread(target=attack, args=(lambda: time.monotonic() < until and not self.ends.is_set(),))
        attacker.start()
        time.sleep(2)
        for turn in itertools.count():
            if time.monotonic() >= until:
                break
            self.asked.append(threading.Thread(target=self.one, args=(turn,)))
            self.asked[-1].start()
            time.sleep(self.pause)
        for each in [*self.asked, attacker]:
            each.join()
        self.hub.expected += self.posted
        self.hub.expected.sort()
        return time.monotonic() - begun

    def took(self, *kinds: str) -> list[float]:
        return [each.took for each in self.felt if each.kind in kinds]

    def checks(self, name: str, one: float, own: float) -> Iterator[Check]:
        """Each is answered. What is quick waits for one in hand, which takes so many seconds, and all else for some more of equals."""
        bad = collections.Counter(f"{each.kind} {each.status}" for each in self.felt if each.status != 200)
        yield not bad, f"beside {name} each of {len(self.felt)} honest requests is answered: {dict(bad) or 'all are'}"
        for kinds, most in ((("quick",), one + BESIDE), (("list", "search", "post"), 3 * one + own + BESIDE)):
            took = self.took(*kinds)
            told = ", ".join(f"{at_share(took, share):.1f}" for share in (0.5, 0.95, 1))
            yield at_share(took, 0.95) <= most, f"  {'/'.join(kinds)}: {len(took)}, of which 50, 95 and all of 100 took {told} s, of at most {most:.1f}"


def small_report(name: str) -> bytes:
    return f'{{"Incident":[{{"Contact":0,"GenerationTime":0,"IncidentID":"{name}","purpose":0,"restriction":"public"}}]}}'.encode()
