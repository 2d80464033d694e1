"""A client of TAXII 2.1, written from memory of the specification and without the server's code: what it wants of each answer is an
assertion, and a consumer that keeps what it polls."""
from __future__ import annotations

import base64
import http.client
import json
import re
import urllib.parse
from collections.abc import Iterator
from dataclasses import dataclass, field
from typing import Any

MEDIA = "application/taxii+json;version=2.1"
MOMENT = re.compile(r"[0-9]{4}-[0-9]{2}-[0-9]{2}T[0-9]{2}:[0-9]{2}:[0-9]{2}(\.[0-9]+)?Z")
Object = dict[str, Any]


class Wrong(Exception):
    """An answer that isn't TAXII's."""


class Failed(Exception):
    """An answer with an error."""

    def __init__(self, status: int, error: Object) -> None:
        super().__init__(f"{status} {error}")
        self.status, self.error = status, error


def want(is_so: bool, what: str) -> None:
    if not is_so:
        raise Wrong(what)


@dataclass
class Part:
    """A page: its objects, and the moments of its fields."""

    objects: list[Object]
    more: bool
    next: str | None
    first: str | None
    last: str | None


class Client:
    def __init__(self, base: str, key: str, by_password: bool = False) -> None:
        parts = urllib.parse.urlsplit(base)
        assert parts.hostname is not None
        self.host, self.port, self.base = parts.hostname, parts.port, base
        told = f"Basic {base64.b64encode(f'anybody:{key}'.encode()).decode()}" if by_password else f"Bearer {key}"
        self.fields = {"Accept": MEDIA, "Authorization": told}

    def raw(self, method: str, target: str, fields: dict[str, str] | None = None) -> tuple[int, dict[str, str], bytes]:
        connection = http.client.HTTPConnection(self.host, self.port, timeout=300)
        try:
            connection.request(method, target, headers=self.fields if fields is None else fields)
            answer = connection.getresponse()
            return answer.status, {name.lower(): it for name, it in answer.getheaders()}, answer.read()
        finally:
            connection.close()

    def get(self, url: str, **filters: str) -> tuple[Object, dict[str, str]]:
        parts = urllib.parse.urlsplit(urllib.parse.urljoin(self.base, url))
        target = parts.path + ("?" + urllib.parse.urlencode(filters) if filters else "")
        status, fields, body = self.raw("GET", target)
        want(fields.get("content-type", "").replace(" ", "") == MEDIA, f"the type is {fields.get('content-type')}")
        value = json.loads(body)
        want(isinstance(value, dict), "the answer isn't an object")
        if status != 200:
            want(isinstance(value.get("title"), str) and value["title"] != "", "an error has no title")
            want(value.get("http_status", str(status)) == str(status), "http_status is another one")
            raise Failed(status, value)
        return value, fields

    def root(self) -> str:
        """The address of the API root that the discovery names."""
        value, _ = self.get("/taxii2/")
        want(isinstance(value.get("title"), str), "a discovery has a title")
        roots = value.get("api_roots", [])
        want(isinstance(roots, list) and len(roots) > 0, "there is no API root")
        want("default" not in value or value["default"] in roots, "the default isn't one of the roots")
        about, _ = self.get(roots[0])
        want(isinstance(about.get("title"), str), "a root has a title")
        want(MEDIA in about.get("versions", []), "the root doesn't speak 2.1")
        longest = about.get("max_content_length")
        want(type(longest) is int and longest > 0, "a root tells its longest body")
        return str(roots[0])

    def collections(self) -> list[str]:
        """The addresses of the collections that may be read."""
        root = self.root()
        value, _ = self.get(f"{root}collections/")
        found = []
        for each in value.get("collections", []):
            want(bool(re.fullmatch(r"[0-9a-f-]{36}", each["id"])) and isinstance(each["title"], str), "a collection has an id and a title")
            want(type(each["can_read"]) is bool and type(each["can_write"]) is bool, "a collection tells what may be done")
            one, _ = self.get(f"{root}collections/{each['id']}/")
            want(one == each, "a collection by itself is another one")
            if each["can_read"]:
                found.append(f"{root}collections/{each['id']}/")
        return found

    def part(self, url: str, **filters: str) -> Part:
        value, fields = self.get(url, **filters)
        objects = value.get("objects", value.get("versions", []))
        want("objects" not in value or value["objects"] != [], "a list is empty")
        want(set(value) <= {"more", "next", "objects", "versions"}, f"an envelope has {sorted(value)}")
        first, last = fields.get("x-taxii-date-added-first"), fields.get("x-taxii-date-added-last")
        want(bool(objects) == (first is not None) == (last is not None), "the fields of moments are there with objects")
        for each in (first, last):
            want(each is None or bool(MOMENT.fullmatch(each)), "a moment isn't one")
        want(value.get("more", False) is False or isinstance(value.get("next"), str), "more without next")
        return Part(objects, value.get("more", False), value.get("next"), first, last)

    def parts(self, url: str, **filters: str) -> Iterator[Part]:
        """All pages."""
        before = ""
        while True:
            part = self.part(url, **filters)
            want(part.first is None or part.last is None or before <= part.first <= part.last, "the pages aren't in order")
            before = part.last or before
            yield part
            if not part.more:
                return
            want(not part.objects or part.next != filters.get("next"), "next leads to the same page")
            filters = {**filters, "next": str(part.next)}

    def manifest(self, collection: str, **filters: str) -> list[Object]:
        found = []
        for part in self.parts(f"{collection}manifest/", **filters):
            for each in part.objects:
                want({"id", "date_added", "version"} <= set(each), "an entry of a manifest lacks something")
                want(bool(MOMENT.fullmatch(each["date_added"])) and bool(MOMENT.fullmatch(each["version"])),
                     "a moment of a manifest isn't one")
                found.append(each)
        want([each["date_added"] for each in found] == sorted(each["date_added"] for each in found), "a manifest isn't in order")
        return found


@dataclass
class Consumer:
    """Polls a collection, and keeps of each object its last version."""

    client: Client
    collection: str
    kept: dict[str, Object] = field(default_factory=dict)
    last: str | None = None
    wrong: list[str] = field(default_factory=list)

    def poll(self, **filters: str) -> list[Object]:
        """The objects that were added since the last poll."""
        since = {"added_after": self.last} if self.last else {}
        found = []
        for part in self.client.parts(f"{self.collection}objects/", **since, **filters):
            found += part.objects
            self.last = part.last or self.last
        for each in found:
            before = self.kept.get(each["id"])
            if before is not None and before.get("revoked"):
                self.wrong.append(f"{each['id']} has a version after it was revoked")
            if before is not None and "modified" in each:
                if not before["modified"] < each["modified"]:
                    self.wrong.append(f"{each['id']} isn't newer")
                if before["created"] != each["created"]:
                    self.wrong.append(f"{each['id']} was created again")
            self.kept[each["id"]] = each
        return found
