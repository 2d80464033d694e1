"""Checks of iodef-hub-taxii: what each reader polls before and after each kind of change, versions, bad requests, and what is kept and
logged."""
from __future__ import annotations

import base64
import contextlib
import copy
import datetime
import hashlib
import http.client
import io
import json
import pathlib
import random
import re
import shutil
import socket
import subprocess
import sys
import time
import urllib.parse
from collections.abc import Iterator
from dataclasses import dataclass, field
from typing import Any

from iodef_hub_misp import Mapping, to_misp
from iodef_hub_stix.excerpt import Excerpt
from iodef_hub_stix.making import made_of

from . import stix_reports as reports
from .context import Context, same
from .stix_rules import faults_of
from .taxii_client import MEDIA, Client, Consumer, Failed

SECTION = "taxii"
TOP = pathlib.Path(__file__).resolve().parents[3]
COMMAND = TOP / "clients" / "python" / "iodef-hub-taxii"
NAME = "hub.example.org"
LATER = "2026-06-01T00:00:00.000Z"
REPORTS = 1000
READERS = tuple(reports.READERS)
Object = dict[str, Any]
Check = Iterator[tuple[bool, str]]


class Service:
    """The server, as a process with its log in a file."""

    def __init__(self, folder: pathlib.Path, hub: int, port: int, *words: str) -> None:
        self.folder, self.hub, self.port, self.words = folder, hub, port, words
        self.state, self.log = folder / "state.db", folder / "log"
        self.process: subprocess.Popen[str] | None = None

    def start(self) -> None:
        words = [sys.executable, "-B", str(COMMAND), "--hub", f"http://127.0.0.1:{self.hub}", "--name", NAME, "--state", str(self.state),
                 "--port", str(self.port), "--pause", "0", *self.words]
        with self.log.open("a") as log:
            self.process = subprocess.Popen(words, stdout=subprocess.PIPE, stderr=log, text=True)
        assert self.process.stdout is not None
        line = self.process.stdout.readline()
        assert line == f"listening {self.port}\n", (line, self.log.read_text())

    def stop(self) -> int:
        assert self.process is not None
        self.process.terminate()
        return self.process.wait()

    def client(self, reader: str, by_password: bool = False) -> Client:
        return Client(f"http://127.0.0.1:{self.port}", reports.KEYS.get(reader, reader), by_password)

    def metrics(self) -> dict[str, int]:
        told = self.client("source").raw("GET", "/metrics")[2].decode()
        return {name: int(value) for name, value in (line.split() for line in told.splitlines())}


# What is polled of generated reports


@dataclass
class Seen:
    """What a reader is served of an incident: the needles, and the ids of its objects; and the digest of these without moments. And the
    needles of its event for MISP."""

    needles: set[str]
    ids: set[str]
    digest: str
    in_misp: set[str]


MAPPING = Mapping.read(json.dumps({"hub": NAME, "groups": [], "organisations": [
    {"number": reports.READERS["source"], "uuid": "55f6ea5e-2c60-40e5-964f-47a8950d210f", "name": "src.example"}]}).encode())


def seen_in(answer: bytes) -> Seen:
    """What is in the hub's answer, and so in no bridge anything else."""
    told = json.loads(answer)
    objects = made_of(Excerpt.of_answer(told, NAME), LATER, LATER)
    digest = hashlib.sha256(json.dumps(objects).encode()).hexdigest()
    with contextlib.redirect_stderr(io.StringIO()):
        event = to_misp(answer, MAPPING)
    return Seen(reports.needles_in(told["document"]), {each["id"] for each in objects}, digest, reports.needles_in(event))


@dataclass
class Watch:
    """A reader's consumer, and what it was served in the phase before."""

    reader: str
    consumer: Consumer
    seen: dict[int, Seen] = field(default_factory=dict)
    modified: dict[int, str] = field(default_factory=dict)


class Trial:
    def __init__(self, context: Context) -> None:
        assert context.program is not None
        self.chance = random.Random(context.seed)
        self.count = min(context.count, REPORTS)
        self.hub = reports.circle(context.program, context.folder, next(context.ports))
        self.service = Service(context.folder, self.hub.port, next(context.ports), "--look", "5", "--again", "9999")
        self.service.start()
        self.again = 0.0
        self.answers: dict[bytes, Seen] = {}
        self.polled: dict[str, float] = {}
        self.reports: dict[int, reports.Report] = {}
        self.watches: dict[str, Watch] = {}
        self.ids: set[str] = set()  # of all objects that the excerpts ever made

    def post(self) -> None:
        for number in range(1, self.count + 1):
            self.reports[number] = reports.made_report(self.chance, number)
            assert reports.post(self.hub, self.reports[number]) == number

    def seen(self, reader: str, number: int) -> Seen:
        """What the hub serves a reader. Each answer is judged once: most readers have the same, before and after a change."""
        status, answer = self.hub.ask(reports.KEYS[reader], "GET", f"/incidents/{number}")
        assert status in (200, 404), (status, answer)
        if status == 404:
            return Seen(set(), set(), "", set())
        digest = hashlib.sha256(answer).digest()
        if digest not in self.answers:
            self.answers[digest] = seen_in(answer)
        return self.answers[digest]

    def read_anew(self) -> None:
        """Of the two polls of a phase the first reads all excerpts again, and the second doesn't: the service is started with a time
        that is longer than a poll on this machine, and shorter than a phase."""
        client = self.service.client("member")
        (collection,) = client.collections()
        began = time.monotonic()
        Consumer(client, collection).poll()
        self.again = 1 + 3 * (time.monotonic() - began)
        self.service.stop()
        self.service.words = ("--look", "5", "--again", f"{self.again:.1f}")
        self.service.start()

    def phase(self, name: str) -> Check:
        """Each reader polls since its last poll, and all anew."""
        for reader in READERS:
            client = self.service.client(reader)
            (collection,) = client.collections()
            watch = self.watches.setdefault(reader, Watch(reader, Consumer(client, collection)))
            now = {number: self.seen(reader, number) for number in self.reports}
            time.sleep(max(self.polled.get(reader, 0) + self.again + 0.2 - time.monotonic(), 0))
            watch.consumer.poll()
            whole = Consumer(client, collection)
            whole.poll(limit="150")
            self.polled[reader] = time.monotonic()
            yield from self._told(f"{name}, {reader}", watch, now, whole)
            watch.seen = now

    def _told(self, name: str, watch: Watch, now: dict[int, Seen], whole: Consumer) -> Check:
        alive = {each["id"]: each for each in whole.kept.values() if not each.get("revoked")}
        needles = {needle for each in now.values() for needle in each.needles}
        withheld = {needle for report in self.reports.values() for needle in report.labels} - needles
        found = reports.needles_in(list(whole.kept.values()))
        yield same(f"{name}: there is something seen and something withheld",
                   bool(needles) and (bool(withheld) or watch.reader == "source"))
        yield same(f"{name}: nothing withheld is in the collection", sorted(found - needles)[:5], [])
        strange = {number: each.in_misp - each.needles for number, each in now.items() if each.in_misp - each.needles}
        yield same(f"{name}: nor in an event for MISP", (strange, any(each.in_misp for each in now.values())), ({}, True))
        ids = {each for it in now.values() for each in it.ids}
        self.ids |= ids
        turned = [each for each in alive if each not in ids]
        missing = [each for each in ids if each not in alive]
        # An object that was revoked before has another id; as many are there as are missing, and the six that each collection has.
        yield same(f"{name}: each object that the hub's excerpts make is there", (len(missing), len(turned) - 6),
                   (len(missing), len(missing)))
        yield same(f"{name}: an id changes only after a revocation",
                   [each for each in missing if not whole.kept.get(each, {}).get("revoked")
                                                                     and each.partition("--")[0] in VERSIONED], [])
        yield same(f"{name}: the rules of STIX hold", faults_of(list(whole.kept.values()))[:5], [])
        yield same(f"{name}: a consumer that polls on has the same versions", _versions(watch.consumer), _versions(whole))
        yield same(f"{name}: and each follows the one before", watch.consumer.wrong[:5], [])
        yield from self._moments(name, watch, now, alive)

    def _moments(self, name: str, watch: Watch, now: dict[int, Seen], alive: dict[str, Object]) -> Check:
        """`modified` is another one exactly if the reader's excerpt is."""
        of_report = {each["id"]: each for each in alive.values() if each["type"] == "report"}
        told = {}
        for number, each in now.items():
            (report,) = [it for it in each.ids if it.startswith("report--")] or [""]
            told[number] = of_report.get(report, {}).get("modified", "")
        known = {number: it for number, it in watch.seen.items() if told[number] and watch.modified.get(number)}
        changed = [number for number in known
                   if (told[number] != watch.modified[number]) != (now[number].digest != watch.seen[number].digest)]
        yield same(f"{name}: a version is new exactly if the excerpt is", changed[:5], [])
        watch.modified = told


VERSIONED = {"identity", "indicator", "note", "observed-data", "report", "vulnerability", "relationship"}


def _versions(consumer: Consumer) -> dict[str, tuple[str, bool]]:
    return {name: (each["modified"], each.get("revoked", False)) for name, each in consumer.kept.items() if "modified" in each}


# The kinds of change: each is made to every ninth report, and most are taken back later


def until(seconds: float) -> str:
    return (datetime.datetime.now(datetime.timezone.utc) + datetime.timedelta(seconds=seconds)).strftime("%Y-%m-%dT%H:%M:%SZ")


class Changes:
    """Changes that show more, and those that show less again."""

    def __init__(self, trial: Trial) -> None:
        self.trial, self.hub = trial, trial.hub
        self.paths: dict[int, str] = {}

    def _do(self, number: int, what: str, *words: tuple[str, object]) -> None:
        status, told = self.hub.ask(reports.KEYS["source"], "POST", f"/incidents/{number}/{what}", urllib.parse.urlencode(words).encode())
        assert status == 200 or json.loads(told)["code"] in ("S1", "S2"), (what, told)

    def _path(self, number: int) -> str:
        """A class that has needles, of a report: the same in all phases. Of a grant, one whose label hides it from the grantee, if there is
        one."""
        if number not in self.paths:
            kind = KINDS[number % len(KINDS)]
            named = [each.path for each in self.trial.reports[number].classes if each.needles]
            if kind == "replace":
                # The label of an identity is part of it, and a revision keeps the identity.
                named = [each for each in named if not each.endswith("/IncidentID")]
            person = GRANTEES.get(kind)
            hidden = [each for each in named if person and self._is_hidden(person, number, each)]
            self.paths[number] = self.trial.chance.choice(hidden or named)
        return self.paths[number]

    def _is_hidden(self, person: str, number: int, path: str) -> bool:
        words = urllib.parse.urlencode({"person": reports.PERSONS[person], "incident": number, "path": path})
        return str(self.hub.done("admin", "GET", f"/explain?{words}")["trace"]).startswith("verdict Hidden H-")

    def widen(self, revision: int = 1) -> None:
        end = until(3600)
        for number in self.trial.reports:
            kind = KINDS[number % len(KINDS)]
            path = self._path(number)
            if kind == "grant":
                self._do(number, "grant", ("revision", 1), ("path", path), ("org", reports.READERS["stranger"]))
            elif kind == "grant to a person":
                self._do(number, "grant", ("revision", 1), ("path", path), ("person", reports.PERSONS["client"]))
            elif kind == "an end":
                self._do(number, "grant", ("revision", 1), ("path", path), ("org", reports.READERS["member"]), ("until", end))
            elif kind == "gate":
                self._do(number, "gate", ("revision", 1), ("path", ""), ("level", 3))
            elif kind == "gate of a class":
                self._do(number, "gate", ("revision", 1), ("path", path), ("level", 5))
            elif kind == "address an organisation":
                self._do(number, "address", ("org", reports.READERS["nominated"]))
            elif kind == "address a person":
                self._do(number, "address", ("person", reports.PERSONS["stranger"]))
            elif kind == "replace":
                self._replace(number, "white", revision)

    def narrow(self) -> None:
        for number in self.trial.reports:
            kind = KINDS[number % len(KINDS)]
            path = self._path(number)
            if kind == "grant":
                self._do(number, "withdraw", ("path", path), ("org", reports.READERS["stranger"]))
            elif kind == "grant to a person":
                self._do(number, "withdraw", ("path", path), ("person", reports.PERSONS["client"]))
            elif kind == "gate":
                self._do(number, "gate", ("revision", 1), ("path", ""), ("level", 0))
            elif kind == "gate of a class":
                self._do(number, "gate", ("revision", 1), ("path", path), ("level", 0))
            elif kind == "address an organisation":
                self._do(number, "unaddress", ("org", reports.READERS["nominated"]))
            elif kind == "address a person":
                self._do(number, "unaddress", ("person", reports.PERSONS["stranger"]))
            elif kind == "replace":
                self._replace(number, "red", 2)

    def _replace(self, number: int, label: str, revision: int) -> None:
        """The class at the path is marked anew, and its needles are others."""
        report = copy.deepcopy(self.trial.reports[number])
        for path, each in reports.objects_in(report.document):
            if path == self._path(number):
                extended = each.pop("ext-restriction", None)
                # The hub refuses a revision that changes nothing; public is handled as white.
                each["restriction"] = "public" if extended is None and each.get("restriction") == label == "white" else label
        report.classes = reports.classes_of(report.document)
        target = f"/incidents/{number}?{reports.query(report, revision=revision)}"
        self.hub.done(reports.KEYS["source"], "PUT", target, json.dumps(report.document).encode())
        self.trial.reports[number] = report

    def narrow_circle(self) -> None:
        """The member leaves the community, one reader isn't nominated any more, and the other isn't a client."""
        self.hub.done("admin", "POST", "/communities/1/leave", f"org={reports.READERS['member']}".encode())
        self.hub.done(reports.KEYS["nominated"], "POST", f"/persons/{reports.PERSONS['nominated']}/unnominate")
        self.hub.done("admin", "POST", "/orgs/2/clients/remove", f"client={reports.READERS['client']}".encode())

    def let_end(self) -> None:
        """The permissions with an end get one that is near, which shows the same; and it passes."""
        for number in self.trial.reports:
            if KINDS[number % len(KINDS)] == "an end":
                words = ("revision", 1), ("path", self._path(number)), ("org", reports.READERS["member"]), ("until", until(NEAR))
                self._do(number, "grant", *words)
        time.sleep(NEAR + 1)


NEAR = 5  # seconds: longer than a request takes, on a machine with other work too
GRANTEES = {"grant": "stranger", "grant to a person": "client", "an end": "member"}
KINDS = ["none", "grant", "grant to a person", "an end", "gate", "gate of a class", "address an organisation", "address a person",
         "replace"]


def of_changes(trial: Trial) -> Check:
    changes = Changes(trial)
    trial.read_anew()
    yield from trial.phase("before")
    before = {reader: {number: it.digest for number, it in watch.seen.items()} for reader, watch in trial.watches.items()}
    changes.widen()
    yield from trial.phase("shown more")
    wider = {reader: {number: it.digest for number, it in watch.seen.items()} for reader, watch in trial.watches.items()}
    changes.let_end()
    changes.narrow()
    yield from trial.phase("shown less")
    after = {reader: {number: it.digest for number, it in watch.seen.items()} for reader, watch in trial.watches.items()}
    changes.widen(3)
    yield from trial.phase("shown again")
    again = {reader: {number: it.digest for number, it in watch.seen.items()} for reader, watch in trial.watches.items()}
    changes.narrow_circle()
    yield from trial.phase("a smaller circle")
    fewer = {reader for reader, watch in trial.watches.items() if {number: it.digest for number, it in watch.seen.items()} != again[reader]}
    yield same("who left, isn't nominated or isn't a client any more sees less", fewer, {"member", "nominated", "client"})
    consumer = trial.watches["member"].consumer
    listed = {each["id"]: each["version"] for each in consumer.client.manifest(consumer.collection)}
    yield same("the manifest has these versions", {name: listed.get(name) for name, each in consumer.kept.items() if "modified" in each},
               {name: each["modified"] for name, each in consumer.kept.items() if "modified" in each})
    for kind in KINDS[1:]:
        told = [(one[reader][number] != other[reader][number]) for one, other in ((before, wider), (wider, after)) for reader in READERS
                for number in trial.reports if KINDS[number % len(KINDS)] == kind]
        yield same(f"{kind} changed an excerpt", any(told) or trial.count < 100)  # of few reports not each kind does
    revoked = [each for watch in trial.watches.values() for each in watch.consumer.kept.values() if each.get("revoked")]
    yield same("something was revoked", bool(revoked))
    again = [name for watch in trial.watches.values() for name in watch.consumer.kept if name not in trial.ids]
    yield same("and something that was is there again, by another id", len(again) > 6 * len(READERS))
    (nothing,) = {each["id"] for watch in trial.watches.values() for each in watch.consumer.kept.values()
                  if each.get("name") == "withdrawn" and
                  each["type"] == "mutex"}
    yield same("and has nothing of a report", {json.dumps(_words(each), sort_keys=True) for each in revoked} - withdrawn(nothing), set())


def _words(value: Object) -> Object:
    """An object that is revoked without its ids and moments."""
    return {name: it for name, it in value.items() if name not in ("id", "created", "modified", "valid_from", "published",
                                                                   "first_observed", "last_observed")}


RED = ["marking-definition--e828b379-4e03-4974-9ac4-e53a884c97c1"]
BARE: Object = {"spec_version": "2.1", "revoked": True, "object_marking_refs": RED}


def withdrawn(nothing: str) -> set[str]:
    """What is left of an object of each type."""
    told: tuple[Object, ...] = (
        {"type": "identity", "name": "withdrawn"}, {"type": "vulnerability", "name": "withdrawn"},
        {"type": "indicator", "pattern": "[mutex:name = 'withdrawn']", "pattern_type": "stix"},
        {"type": "note", "content": "withdrawn", "object_refs": [nothing]},
        {"type": "report", "name": "withdrawn", "object_refs": [nothing]},
        {"type": "observed-data", "number_observed": 1, "object_refs": [nothing]},
        {"type": "relationship", "relationship_type": "related-to", "source_ref": nothing, "target_ref": nothing})
    return {json.dumps({**BARE, **each}, sort_keys=True) for each in told}


def of_pages(trial: Trial) -> Check:
    """Pages, the manifest, filters, single objects."""
    client = trial.service.client("member")
    (collection,) = client.collections()
    whole = [each for part in client.parts(f"{collection}objects/") for each in part.objects]
    short = [each for part in client.parts(f"{collection}objects/", limit="37") for each in part.objects]
    yield same("pages of another length have the same objects", whole == short and bool(whole))
    by_password = [each for part in trial.service.client("member", True).parts(f"{collection}objects/") for each in part.objects]
    yield same("and so has Basic", by_password == whole)
    manifest = client.manifest(collection)
    yield same("the manifest has the same", [each["id"] for each in manifest], [each["id"] for each in whole])
    versions = [each.get("modified") or each.get("created") or entry["date_added"] for each, entry in zip(whole, manifest)]
    yield same("with their versions", [each["version"] for each in manifest], versions)
    yield same("each was added at another moment", len({each["date_added"] for each in manifest}), len(manifest))
    middle = len(manifest) // 2
    later = [each for part in client.parts(f"{collection}objects/", added_after=manifest[middle]["date_added"]) for each in part.objects]
    yield same("added_after begins behind a moment, even amid an excerpt", later == whole[middle + 1:])
    part = client.part(f"{collection}objects/", limit="5")
    yield same("the fields of moments are the manifest's", (part.first, part.last), (manifest[0]["date_added"], manifest[4]["date_added"]))
    types = [each for it in client.parts(f"{collection}objects/", **{"match[type]": "indicator,report"}) for each in it.objects]
    yield same("match[type]", types == [each for each in whole if each["type"] in ("indicator", "report")] and bool(types))
    names = ",".join(each["id"] for each in whole[20:23])
    yield same("match[id]", client.part(f"{collection}objects/", **{"match[id]": names}).objects, whole[20:23])
    yield same("match[spec_version]", client.part(f"{collection}objects/", **{"match[spec_version]": "2.0"}).objects, [])
    yield same("an object by itself", client.part(f"{collection}objects/{whole[20]['id']}/").objects, [whole[20]])
    yield same("its versions", client.part(f"{collection}objects/{whole[20]['id']}/versions/").objects, [versions[20]])
    yield same("nothing is added by reading", client.part(f"{collection}objects/", added_after=manifest[-1]["date_added"]).objects, [])
    trial.service.stop()
    trial.service.start()
    again = [each for it in client.parts(f"{collection}objects/") for each in it.objects]
    yield same("a restart changes nothing", again == whole)


# Bad requests

HEAD = f"Accept: {MEDIA}\r\nAuthorization: Bearer key-member\r\n"
BAD_FILTERS = ["next=1", "next=1-", "limit=0", "limit=-1", "limit=x", "limit=", "limit=1.5", "limit=9999999999", "next=x", "next=-1",
               "next=", "added_after=x",
               "added_after=2026-06-01", "added_after=2026-13-01T00:00:00Z", "added_after=2026-06-01T00:00:00",
               "added_after=2026-06-01T00:00:00%2B02:00",
               "added_after=", "match[type]=A", "match[type]=", "match[id]=x", "match[id]=,", "match[version]=2026-06-01T00:00:00Z",
               "match[version]=new",
               "match[spec_version]=3", "foo=1", "match[foo]=1", "limit=1&limit=2", "limit", "=", "%", "%ff=1", "limit=%ff", "a" * 2049]


def bytes_asked(port: int, head: bytes) -> tuple[int, Object, bool]:
    """Status and error of an answer to these bytes, and whether it is of TAXII's type."""
    with socket.create_connection(("127.0.0.1", port), timeout=60) as connection:
        connection.sendall(head)
        answer = http.client.HTTPResponse(connection)
        answer.begin()
        body = answer.read()
        return answer.status, json.loads(body), answer.getheader("Content-Type") == MEDIA


def bad_heads(collection: str) -> Iterator[tuple[str, bytes, int, str]]:
    def get(path: str, fields: str = HEAD, method: str = "GET", version: str = "HTTP/1.1") -> bytes:
        return f"{method} {path} {version}\r\n{fields}\r\n".encode("latin-1")
    objects = f"{collection}objects/"
    for each in BAD_FILTERS:
        yield f"?{each[:40]}", get(f"{objects}?{each}"), 414 if len(each) > 2048 else 400, ""
    yield "a filter where none is", get(f"{collection}?limit=1"), 400, "UnknownFilter"
    yield "a filter of the discovery", get("/taxii2/?limit=1"), 400, "UnknownFilter"
    yield "no key", get(objects, f"Accept: {MEDIA}\r\n"), 401, "KeyMissing"
    for what, told in (("an unknown key", "Bearer nobody"), ("another scheme", "Digest key-member"), ("Basic without base64", "Basic ***"),
                       ("Basic without a password", "Basic " + base64.b64encode(b"key-member").decode()), ("an empty key", "Bearer "),
                       ("a key too long", "Bearer " + "k" * 129), ("a key with a space", "Bearer key member"),
                       ("only the scheme", "Bearer")):
        code = "KeyUnknown" if what == "an unknown key" else "KeyMissing"
        yield what, get(objects, f"Accept: {MEDIA}\r\nAuthorization: {told}\r\n"), 401, code
    for each in ("application/json", "application/taxii+json;version=2.0", "text/html", "application/stix+json;version=2.1", ";;;,,"):
        yield f"Accept {each}", get(objects, f"Accept: {each}\r\nAuthorization: Bearer key-member\r\n"), 406, "NotAcceptable"
    for path in ("/", "/taxii2x/", "/taxii2/other/", "/taxii2/hub/x/", "/taxii2/hub/collections/x/", "/taxii2/hub//collections/",
                 f"{collection}x/",
                 f"{objects}x/", f"{objects}indicator--00000000-0000-4000-8000-000000000000/", f"{objects}a/versions/b/",
                 "/taxii2/hub/status/1/",
                 f"{objects}../../", "/taxii2/hub/collections/00000000-0000-4000-8000-000000000000/objects/", f"{objects}%00/"):
        yield path[-60:], get(path), 404, ""
    for method in ("POST", "DELETE", "PUT", "PATCH", "OPTIONS"):
        yield method, get(objects, HEAD + "Content-Length: 0\r\n", method), 405, "OnlyReading"
    yield "a body", get(objects, HEAD + "Content-Length: 5\r\n") + b"hello", 400, "HasBody"
    yield "a chunked body", get(objects, HEAD + "Transfer-Encoding: chunked\r\n"), 400, "HasBody"
    for what, head in (("no HTTP", b"hello\r\n\r\n"), ("HTTP/0.9", b"GET /taxii2/\r\n\r\n"),
                       ("HTTP/2", get("/taxii2/", version="HTTP/2.0")),
                       ("TLS", bytes.fromhex("16030100050100000100") + b"\r\n\r\n"), ("an address", get("http://x/taxii2/")),
                       ("small letters", get("/taxii2/", method="get")),
                       ("two keys", get(objects, HEAD + "Authorization: Bearer key-source\r\n")),
                       ("a folded line", get(objects, HEAD + " x\r\n")),
                       ("a field without a colon", get(objects, HEAD + "x\r\n")),
                       ("bytes beyond ASCII", get(objects, HEAD + "X: \xff\r\n")),
                       ("a zero", get(objects, HEAD + "X: \0\r\n")), ("a bare line feed", get(objects, HEAD + "X: a\nY: b\r\n"))):
        yield what, head, 400, "BadHead"
    yield "a long head", get(objects, HEAD + f"X: {'x' * 9000}\r\n"), 431, "HeadTooLong"
    yield "a head without an end", b"GET /taxii2/ HTTP/1.1\r\n" + b"X: y\r\n" * 2000, 431, "HeadTooLong"
    yield "many fields", get(objects, HEAD + "X: y\r\n" * 65), 431, "HeadTooLong"


def of_bad(trial: Trial) -> Check:
    client = trial.service.client("member")
    (collection,) = client.collections()
    for what, head, wanted, code in bad_heads(collection):
        status, value, is_taxii = bytes_asked(trial.service.port, head)
        told = status, is_taxii, value.get("http_status"), bool(value.get("title")), code in ("", value.get("error_code"))
        yield same(f"bad: {what}", told, (wanted, True, str(wanted), True, True))
    yield same("another reader's collection isn't there", asked(trial.service.client("stranger"), f"{collection}objects/"),
               "404 NoCollection")
    yield from of_cursors(trial, client.part(f"{collection}objects/", limit="5").next or "")
    yield same("no traceback in the log", "Traceback" in trial.service.log.read_text(), False)
    with socket.create_connection(("127.0.0.1", trial.service.port), timeout=60) as slow:
        began = time.monotonic()
        slow.sendall(b"GET /taxii2/ HTTP/1.1\r\n")
        first = slow.recv(4096).decode()[:12]
        yield same("who is slow is answered in time", (first, 14 < time.monotonic() - began < 25), ("HTTP/1.1 408", True))


def of_cursors(trial: Trial, told: str) -> Check:
    """The `next` of another reader leads to nothing but the own objects behind it; one that is far ahead to none."""
    client = trial.service.client("stranger")
    (collection,) = client.collections()
    whole = {each["id"] for part in client.parts(f"{collection}objects/") for each in part.objects}
    part = client.part(f"{collection}objects/", next=told)
    yield same("another reader's next leads to own objects alone", {each["id"] for each in part.objects} <= whole)
    status, _, body = client.raw("GET", f"{collection}objects/?next={'9' * 17}-{told.partition('-')[2]}")
    yield same("a next far ahead leads to none", (status, json.loads(body)), (200, {"more": False}))


def asked(client: Client, url: str) -> str:
    """The status and the name of the fault, if there is one."""
    try:
        client.get(url)
    except Failed as failed:
        return f"{failed.status} {failed.error['error_code']}"
    return "served"


def of_room(trial: Trial) -> Check:
    """More connections than there is room for."""
    open_ones = [socket.create_connection(("127.0.0.1", trial.service.port), timeout=60) for _ in range(32)]
    try:
        time.sleep(0.5)
        yield same("one connection too many is turned away", bytes_asked(trial.service.port, b"")[0], 503)
    finally:
        for each in open_ones:
            each.close()
    time.sleep(0.5)
    yield same("and then there is room again", trial.service.client("member").get("/taxii2/")[0]["api_roots"], ["/taxii2/hub/"])


def of_nginx(trial: Trial, port: int) -> Check:
    """The same by nginx, with the settings of deploy/nginx."""
    if shutil.which("nginx") is None:
        yield same("nginx is on this machine", False)
        return
    folder = trial.service.folder / "nginx"
    folder.mkdir()
    folder.chmod(0o755)
    paths = "".join(f"{name}_temp_path {folder}/{name}; " for name in ("client_body", "proxy", "fastcgi", "uwsgi", "scgi"))
    (folder / "nginx.conf").write_text(
        f"daemon off; pid {folder}/pid; error_log {folder}/error;\nevents {{ }}\nhttp {{ {paths} access_log off;\n"
        f"server {{ listen 127.0.0.1:{port}; location /taxii2/ {{ include {TOP}/deploy/nginx/iodef-hub-taxii.conf; "
        f"proxy_pass http://127.0.0.1:{trial.service.port}; }} location / {{ return 404; }} }} }}\n")
    process = subprocess.Popen(["nginx", "-p", str(folder), "-c", str(folder / "nginx.conf")], stderr=subprocess.DEVNULL)
    try:
        wait_for(port)
        direct, between = trial.service.client("member"), Client(f"http://127.0.0.1:{port}", reports.KEYS["member"])
        (collection,) = between.collections()
        told = [[each for part in it.parts(f"{collection}objects/", limit="100") for each in part.objects] for it in (direct, between)]
        yield same("by nginx there are the same objects", told[0] == told[1] and bool(told[0]))
        yield same("but no metrics", between.raw("GET", "/metrics")[0], 404)
        yield same("nor a path around", between.raw("GET", "/taxii2/../metrics")[0], 404)
        status, _, body = between.raw("POST", f"{collection}objects/")
        yield same("and TAXII's own errors", (status, json.loads(body)["error_code"]), (405, "OnlyReading"))
        yield same("a missing key is answered by the service", between.raw("GET", "/taxii2/", {"Accept": MEDIA})[0], 401)
    finally:
        process.terminate()
        process.wait()


def wait_for(port: int) -> None:
    for _ in range(100):
        try:
            socket.create_connection(("127.0.0.1", port), timeout=1).close()
            return
        except OSError:
            time.sleep(0.1)


def of_kept(trial: Trial) -> Check:
    """What is in the log, in the file of state, and in the metrics."""
    log = trial.service.log.read_text()
    state = b"".join(each.read_bytes() for each in trial.service.folder.glob("state.db*"))
    secrets = [each for key in reports.KEYS.values() for each in (key, base64.b64encode(f"anybody:{key}".encode()).decode())]
    yield same("no key is in the log", [each for each in secrets if each in log], [])
    yield same("nor in the file", [each for each in secrets if each.encode() in state], [])
    yield same("no needle is in the log", reports.needles_in(log), set())
    yield same("nor in the file", {each.decode() for each in re.findall(rb"n\d+x\d+z", state)}, set())
    yield same("the file is for its owner alone", oct(trial.service.state.stat().st_mode & 0o777), "0o600")
    counts = trial.service.metrics()
    yield same("the metrics count readers", counts["readers"], len(READERS))
    yield same("and excerpts that could not be written", counts["unfit_total"], 0)


def of_away(trial: Trial) -> Check:
    """The hub suspends a reader, then is away."""
    trial.hub.done("admin", "POST", f"/persons/{reports.PERSONS['client']}/suspend")
    for reader, wanted in (("client", "401 KeyUnknown"), ("member", "503 HubAway")):
        if reader == "member":
            trial.hub.stop()
        yield same(f"{reader}, suspended or without a hub", asked(trial.service.client(reader), "/taxii2/"), wanted)
    yield same("the server ends by a signal", trial.service.stop(), 0)


def of_command(context: Context) -> Check:
    told = subprocess.run([sys.executable, "-B", COMMAND, "--help"], capture_output=True, text=True, timeout=60).stdout
    page = COMMAND.with_suffix(".1").read_text()
    ports = [re.findall(r"--?port ([0-9]+)", each) for each in (told, page)]
    yield same("command: its help and its page name one port", ports, [["21012"], ["21012"]])
    wanted = ("TLP:RED", "mutex", "withdrawn", "-again\nseconds behind the last read", "Back it up", "GenerationTime", "into one consumer")
    yield same("command: they tell what consumers and operators must know", [
        each for each in wanted for text in (told, page) if " ".join(each.split()) not in " ".join(text.split())], [])
    words = {"--hub": "http://127.0.0.1:1", "--name": NAME, "--state": str(context.folder / "other.db"), "--port": str(next(context.ports))}
    text = context.folder / "text.db"
    text.write_text("no database, but a text that is as long as one would be" * 100)
    for what, changed, wanted in (("no such folder", {"--state": "/nowhere/state.db"}, 1),
                                  ("a file that is none", {"--state": str(text)}, 1),
                                  ("plain HTTP", {"--hub": "http://hub.example.org"}, 2), ("no port", {"--port": "0"}, 2),
                                  ("no seconds", {"--look": "x"}, 2), ("names that aren't there", {"--names": "/nowhere"}, 2)):
        given = [each for pair in {**words, **changed}.items() for each in pair]
        ran = subprocess.run([sys.executable, "-B", COMMAND, *given], capture_output=True, text=True, timeout=60)
        yield same(f"command: {what}", (ran.returncode, "Traceback" in ran.stderr, bool(ran.stderr)), (wanted, False, True))


def checks(context: Context) -> Check:
    yield from of_command(context)
    if context.program is None:
        return
    trial = Trial(context)
    try:
        trial.post()
        yield from of_pages(trial)
        yield from of_bad(trial)
        yield from of_room(trial)
        yield from of_nginx(trial, next(context.ports))
        yield from of_changes(trial)
        yield from of_kept(trial)
        yield from of_away(trial)
    finally:
        trial.hub.stop()
        if trial.service.process is not None:
            trial.service.process.kill()
