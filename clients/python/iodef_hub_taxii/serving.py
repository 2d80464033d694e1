"""The server: requests of TAXII 2.1 for reading, and their answers."""
from __future__ import annotations

import base64
import binascii
import datetime
import json
import re
import sys
import threading
import time
import urllib.parse
import uuid
from collections.abc import Callable, Mapping
from dataclasses import dataclass, field
from typing import Any

import iodef_hub

from .collection import MEDIA, MOST_OBJECTS, Collection, Page
from .looking import Busy, Reader, Settings, Turns
from .store import Store, Wanted

TAXII = "application/taxii+json;version=2.1"
ROOT = "/taxii2/hub/"
LONGEST_QUERY, MOST_FILTERS = 2048, 64
LONGEST_BODY = 1024  # what nginx accepts; TAXII wants a positive number, though no request for reading has a body
ID = re.compile(r"[a-z0-9][a-z0-9-]{1,40}--[0-9a-f]{8}(-[0-9a-f]{4}){3}-[0-9a-f]{12}")
TYPE = re.compile(r"[a-z0-9][a-z0-9-]{1,40}")
MOMENT = re.compile(r"(\d{4}-\d\d-\d\dT\d\d:\d\d:\d\d)(?:\.(\d{1,12}))?Z")
FILTERS = {"added_after", "limit", "next", "match[id]", "match[type]", "match[version]", "match[spec_version]"}
AGAIN = {"Retry-After": "10"}
EPOCH = datetime.datetime(1970, 1, 1)


class Refusal(Exception):
    """An answer with TAXII's form of an error. `code` names the fault."""

    def __init__(self, status: int, code: str, title: str, headers: Mapping[str, str] | None = None) -> None:
        super().__init__(code)
        self.status, self.code, self.title, self.headers = status, code, title, dict(headers or {})


@dataclass(frozen=True)
class Request:
    method: str
    path: str
    query: str
    fields: Mapping[str, str]


@dataclass
class Answer:
    status: int
    body: bytes
    headers: dict[str, str] = field(default_factory=dict)
    about: str = ""  # for the log


def answer_of(value: object, about: str, headers: Mapping[str, str] | None = None) -> Answer:
    body = json.dumps(value, ensure_ascii=False, separators=(",", ":")).encode()
    return Answer(200, body, {"Content-Type": TAXII, **(headers or {})}, about)


def refusal_of(refusal: Refusal) -> Answer:
    value = {"title": refusal.title, "error_code": refusal.code, "http_status": str(refusal.status)}
    return Answer(refusal.status, json.dumps(value).encode(), {"Content-Type": TAXII, **refusal.headers}, refusal.code)


# What is asked


def key_of(fields: Mapping[str, str]) -> str:
    """The caller's key: Bearer's, or the password of Basic."""
    scheme, _, told = fields.get("authorization", "").partition(" ")
    told = told.strip()
    if scheme.lower() == "basic":
        try:
            told = base64.b64decode(told, validate=True).decode("ascii").partition(":")[2]
        except (binascii.Error, ValueError):
            told = ""
    if scheme.lower() not in ("bearer", "basic") or not re.fullmatch("[!-~]{1,128}", told):
        raise Refusal(401, "KeyMissing", "the key is missing or isn't one", {"WWW-Authenticate": 'Basic realm="iodef-hub", Bearer'})
    return told


def check_accept(fields: Mapping[str, str]) -> None:
    """Refuses a request that accepts no TAXII 2.1. One without the field accepts all."""
    for each in fields.get("accept", "*/*").lower().split(","):
        kind, *words = [it.strip() for it in each.split(";")]
        version = [it.removeprefix("version=").strip('"') for it in words if it.startswith("version=")]
        if kind in ("*/*", "application/*") or kind == "application/taxii+json" and version in ([], ["2.1"]):
            return
    raise Refusal(406, "NotAcceptable", f"only {TAXII} is served")


def moment_of(text: str) -> int:
    """A moment of TAXII, in microseconds. It has at least as many digits as are compared; more of them are cut off."""
    found = MOMENT.fullmatch(text)
    try:
        whole = datetime.datetime.fromisoformat(found[1]) if found else None
    except ValueError:
        whole = None
    if found is None or whole is None:
        raise Refusal(400, "BadAddedAfter", "added_after isn't a moment such as 2026-06-01T00:00:00.000000Z")
    return (whole - EPOCH) // datetime.timedelta(microseconds=1) + int((found[2] or "0")[:6].ljust(6, "0"))


def filters_of(query: str, allowed: set[str]) -> dict[str, str]:
    """The parameters of a query. Unknown and repeated ones are refused, as an answer without them would be another one."""
    if len(query) > LONGEST_QUERY:
        raise Refusal(414, "QueryTooLong", f"a query has at most {LONGEST_QUERY} bytes")
    try:
        pairs = urllib.parse.parse_qsl(query, True, bool(query), encoding="ascii", errors="strict", max_num_fields=16)
    except ValueError:
        raise Refusal(400, "BadQuery", "the query can't be read") from None
    for name, _ in pairs:
        if name not in allowed:
            raise Refusal(400, "UnknownFilter", "a parameter of the query isn't known here")
    if len({name for name, _ in pairs}) < len(pairs):
        raise Refusal(400, "RepeatedFilter", "a parameter of the query is there twice")
    return dict(pairs)


def _words(filters: Mapping[str, str], name: str, form: re.Pattern[str]) -> frozenset[str] | None:
    if name not in filters:
        return None
    words = filters[name].split(",")
    if len(words) > MOST_FILTERS or not all(form.fullmatch(each) for each in words):
        raise Refusal(400, "BadMatch", f"{name} isn't a list of at most {MOST_FILTERS} of its words")
    return frozenset(words)


@dataclass(frozen=True)
class Asked:
    """Which objects are asked for, and how many; and before which moment, in milliseconds, what was read last is read again. A further page
    has the moment of its first one."""

    wanted: Wanted
    count: int
    before: int
    is_first: bool


def asked_of(filters: Mapping[str, str], again_seconds: float) -> Asked:
    """What the parameters of a query ask for."""
    after = moment_of(filters["added_after"]) if "added_after" in filters else -1
    now = time.time_ns() // 1_000_000
    before = now - round(again_seconds * 1000)
    if "next" in filters:
        told = re.fullmatch("([0-9]{1,18})-([0-9]{1,14})", filters["next"])
        if told is None:
            raise Refusal(400, "BadNext", "next isn't one that was served")
        after, before = max(after, int(told[1])), min(int(told[2]), now)
    if not re.fullmatch("[1-9][0-9]{0,8}", filters.get("limit", "1")):
        raise Refusal(400, "BadLimit", "limit isn't a whole number from 1 on")
    count = min(int(filters.get("limit", MOST_OBJECTS)), MOST_OBJECTS)
    types, ids = _words(filters, "match[type]", TYPE), _words(filters, "match[id]", ID)
    versions = _words(filters, "match[version]", re.compile(rf"first|last|all|{MOMENT.pattern}"))
    specs = _words(filters, "match[spec_version]", re.compile(r"2\.[01]"))
    if versions is not None and not versions & {"first", "last", "all"}:
        raise Refusal(400, "BadMatch", "match[version] is first, last or all, as only the last version is kept")
    types = frozenset() if specs is not None and "2.1" not in specs else types
    return Asked(Wanted(after, types, ids), count, before, "next" not in filters)


# The service


class Service:
    """What is answered. A key is only in the request's own Reader."""

    def __init__(self, settings: Settings, store: Store, turns: Turns, title: str) -> None:
        self.settings, self.store, self.turns, self.title = settings, store, turns, title
        self._looking: dict[int, threading.Lock] = {}
        self._lock = threading.Lock()
        self.counts = {"requests_total": 0, "refused_total": 0, "failed_total": 0, "objects_total": 0, "unfit_total": 0}

    def count(self, name: str, by: int = 1) -> None:
        with self._lock:
            self.counts[name] += by

    def answer(self, request: Request) -> Answer:
        """The answer, whatever is asked."""
        self.count("requests_total")
        try:
            return self._routed(request)
        except Refusal as refusal:
            self.count("refused_total")
            return refusal_of(refusal)
        except iodef_hub.Refused as refusal:
            self.count("refused_total")
            if refusal.code == "K1":
                headers = {"WWW-Authenticate": 'Basic realm="iodef-hub", Bearer'}
                return refusal_of(Refusal(401, "KeyUnknown", "the hub doesn't know the key", headers))
            return refusal_of(Refusal(503, "HubRefused", "the hub refused a request", AGAIN))
        except (iodef_hub.HubError, Busy):
            self.count("failed_total")
            return refusal_of(Refusal(503, "HubAway", "the hub can't be asked at the moment", AGAIN))

    def _routed(self, request: Request) -> Answer:
        if request.path == "/metrics":
            return self._metrics()
        if request.method not in ("GET", "HEAD"):
            raise Refusal(405, "OnlyReading", "the collection is only for reading", {"Allow": "GET"})
        check_accept(request.fields)
        if request.path.rstrip("/") == "/taxii2":
            reader = self._reader(request, set())
            return answer_of({"title": self.title, "default": ROOT, "api_roots": [ROOT]}, f"discovery reader={reader.number}")
        steps = request.path.rstrip("/").removeprefix(ROOT.rstrip("/")).split("/")[1:]
        if not (request.path.rstrip("/") + "/").startswith(ROOT) or len(steps) > 5 or "" in steps:
            raise Refusal(404, "NoRoute", "there is no such resource")
        return self._in_root(request, steps)

    def _reader(self, request: Request, allowed: set[str]) -> Reader:
        """The caller. The query is read before the hub is asked."""
        filters_of(request.query, allowed)
        return Reader(self.settings, self.store, self.turns, key_of(request.fields))

    def _in_root(self, request: Request, steps: list[str]) -> Answer:
        if not steps:
            reader = self._reader(request, set())
            value = {"title": self.title, "versions": [TAXII], "max_content_length": LONGEST_BODY}
            return answer_of(value, f"root reader={reader.number}")
        if steps[0] != "collections":
            raise Refusal(404, "NoRoute", "there is no such resource")
        route = "/".join("ID" if place in (1, 3) else step for place, step in enumerate(steps))
        routes: dict[str, Callable[[Request, Reader, list[str]], Answer]] = {
            "collections": self._collections, "collections/ID": self._collection, "collections/ID/manifest": self._manifest,
            "collections/ID/objects": self._objects, "collections/ID/objects/ID": self._object,
            "collections/ID/objects/ID/versions": self._versions,
        }
        if route not in routes:
            raise Refusal(404, "NoRoute", "there is no such resource")
        if len(steps) > 3 and not ID.fullmatch(steps[3]):
            raise Refusal(404, "NoObject", "there is no such object")
        filtered = "objects" in route or "manifest" in route
        one = {name for name in FILTERS if len(steps) <= 3 or name not in ("match[id]", "match[type]")}
        reader = self._reader(request, one if filtered else set())
        if len(steps) > 1 and steps[1] != self._id(reader):
            raise Refusal(404, "NoCollection", "there is no such collection for this key")
        return routes[route](request, reader, steps)

    def _id(self, reader: Reader) -> str:
        return str(uuid.uuid5(uuid.NAMESPACE_URL, "iodef-hub-taxii:" + json.dumps([self.settings.name, reader.number])))

    def _about(self, reader: Reader) -> dict[str, Any]:
        title = f"{self.title}: what person {reader.number} may read"
        return {"id": self._id(reader), "title": title, "can_read": True, "can_write": False, "media_types": [MEDIA]}

    def _collections(self, request: Request, reader: Reader, steps: list[str]) -> Answer:
        return answer_of({"collections": [self._about(reader)]}, f"collections reader={reader.number}")

    def _collection(self, request: Request, reader: Reader, steps: list[str]) -> Answer:
        return answer_of(self._about(reader), f"collection reader={reader.number}")

    def _page(self, request: Request, reader: Reader, steps: list[str]) -> tuple[Page, dict[str, Any], dict[str, str]]:
        """A page, the members that tell of further ones, and the fields of when its objects were added."""
        asked = asked_of(filters_of(request.query, FILTERS), self.settings.again_seconds)
        wanted, is_single = asked.wanted, len(steps) > 3
        if is_single:
            wanted = Wanted(wanted.after, wanted.types, frozenset([steps[3]]))
            self.store.greet(reader.number)
        elif asked.is_first or len(self.store.rows(reader.number, wanted, asked.count)) < asked.count:
            self._look(reader, asked)
        page = Collection(self.store, reader).page(wanted, asked.count)
        self.count("unfit_total", reader.unfit)
        self.count("objects_total", len(page.entries))
        further = page.next
        if further is None and not is_single and self.store.due(reader.number, asked.before, 1):
            further = moment_of(page.entries[-1].added) if page.entries else max(wanted.after, 0)
        told: dict[str, Any] = {"more": False} if further is None else {"more": True, "next": f"{further}-{asked.before}"}
        added = [each.added for each in page.entries]
        fields = {"X-TAXII-Date-Added-First": added[0], "X-TAXII-Date-Added-Last": added[-1]} if added else {}
        return page, told, fields

    def _look(self, reader: Reader, asked: Asked) -> None:
        """Reads the hub before a page. While another request of the same reader does, this one waits for it."""
        with self._lock:
            looking = self._looking.setdefault(reader.number, threading.Lock())
        if looking.acquire(timeout=self.settings.look_seconds):
            try:
                reader.look(asked.before, asked.is_first)
            finally:
                looking.release()
        else:
            self.store.greet(reader.number)

    def _objects(self, request: Request, reader: Reader, steps: list[str]) -> Answer:
        page, told, fields = self._page(request, reader, steps)
        value = {**told, **({"objects": [each.object for each in page.entries]} if page.entries else {})}
        return answer_of(value, f"objects reader={reader.number} objects={len(page.entries)}", fields)

    def _object(self, request: Request, reader: Reader, steps: list[str]) -> Answer:
        page, told, fields = self._page(request, reader, steps)
        if not page.entries and not self.store.rows(reader.number, Wanted(ids=frozenset([steps[3]])), 1):
            raise Refusal(404, "NoObject", "there is no such object")
        value = {**told, **({"objects": [each.object for each in page.entries]} if page.entries else {})}
        return answer_of(value, f"object reader={reader.number}", fields)

    def _manifest(self, request: Request, reader: Reader, steps: list[str]) -> Answer:
        page, told, fields = self._page(request, reader, steps)
        records = [
            {"id": each.object["id"], "date_added": each.added, "version": each.version, "media_type": MEDIA} for each in page.entries]
        value = {**told, **({"objects": records} if records else {})}
        return answer_of(value, f"manifest reader={reader.number} objects={len(records)}", fields)

    def _versions(self, request: Request, reader: Reader, steps: list[str]) -> Answer:
        page, told, fields = self._page(request, reader, steps)
        if not page.entries and not self.store.rows(reader.number, Wanted(ids=frozenset([steps[3]])), 1):
            raise Refusal(404, "NoObject", "there is no such object")
        versions = [each.version for each in page.entries]
        return answer_of({**told, **({"versions": versions} if versions else {})}, f"versions reader={reader.number}", fields)

    def _metrics(self) -> Answer:
        """For this host alone: nginx doesn't pass it on."""
        with self._lock:
            counts = dict(self.counts)
        counts |= {"hub_requests_total": self.turns.asked, **self.store.counts()}
        text = "".join(f"{name} {value}\n" for name, value in counts.items())
        return Answer(200, text.encode(), {"Content-Type": "text/plain; charset=utf-8"}, "metrics")


def log(text: str) -> None:
    print(text, file=sys.stderr, flush=True)


