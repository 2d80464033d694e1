"""Generated reports with a needle in each class that holds texts, and a hub with readers of different standing to post them to."""
from __future__ import annotations

import copy
import json
import pathlib
import random
import re
import sys
import urllib.parse
from collections.abc import Iterator
from dataclasses import dataclass, field
from typing import Any

sys.path.insert(0, str(pathlib.Path(__file__).resolve().parent.parent))
import small_hub  # noqa: E402

Object = dict[str, Any]
NEEDLE = re.compile(r"n\d+x\d+z")
# What docs/POLICY.md says of each label, for a reader without an arrangement.
HANDLED = {
    "public": "clear", "white": "clear", "partner": "green", "green": "green", "need-to-know": "amber+strict", "amber": "amber+strict",
    "private": "red", "red": "red", "default": "red", "TLP:CLEAR": "clear", "TLP:GREEN": "green", "TLP:AMBER": "amber",
    "TLP:AMBER+STRICT": "amber+strict", "campus only": "red",
}
LABELS = list(HANDLED)
STRICTNESS = ["clear", "green", "amber", "amber+strict", "red"]


@dataclass(frozen=True)
class Class:
    path: str
    label: str
    needles: frozenset[str]


@dataclass
class Report:
    """A document, its gates, its classes, and the label of each needle."""

    document: Object
    level: int
    gates: list[str]
    classes: list[Class] = field(default_factory=list)

    @property
    def labels(self) -> dict[str, str]:
        return {needle: each.label for each in self.classes for needle in each.needles}


class Maker:
    def __init__(self, chance: random.Random, number: int) -> None:
        self.chance, self.number, self.count = chance, number, 0

    def needle(self) -> str:
        self.count += 1
        return f"n{self.number}x{self.count}z"

    def odd(self) -> str:
        """A text with what a pattern escapes."""
        before = self.chance.choice(["", "'", "\\", "\\'", "' OR file:name = '", "]", "é\u202e", '"', "\n"])
        return before + self.needle() + self.chance.choice(["", "'", "\\"])

    def node(self) -> Object:
        kind = self.chance.randrange(4)
        if kind == 0:
            return {"DomainData": [{"system-status": "unknown", "domain-status": "unknown", "Name": f"{self.needle()}.example"}]}
        category, value = [("site-uri", f"http://{self.needle()}.example/a'b\\c"), ("e-mail", f"{self.needle()}@example.org"),
                           ("ext-value", self.needle())][kind - 1]
        return {"Address": [{"category": category, "value": value}]}

    def system(self) -> Object:
        made: Object = {"category": self.chance.choice(["source", "target", "infrastructure"]), "Node": self.node()}
        if self.chance.random() < 0.3:
            made["Service"] = [{"ip-protocol": self.chance.choice([6, 17, 1]), "Port": self.chance.randrange(1, 65536)}]
        return made

    def record(self) -> Object:
        made: Object = {"Description": [self.odd()], "URL": [f"https://{self.needle()}.example/"]}
        made["FileData"] = [{"File": [{"FileName": self.odd(), "HashData": {"scope": "file-contents", "Hash": [self.hash()]}}]}]
        if self.chance.random() < 0.5:
            made["WindowsRegistryKeysModified"] = [{"Key": [{"KeyName": f"HKLM\\{self.odd()}", "Value": self.odd()}]}]
        return {"RecordData": [made]}

    def hash(self) -> Object:
        return {"DigestMethod": "http://www.w3.org/2001/04/xmlenc#sha256", "DigestValue": f"{self.chance.getrandbits(256):064x}"}

    def event(self, depth: int = 0) -> Object:
        made: Object = {"Description": [self.odd()], "Flow": [{"System": [self.system() for _ in range(self.chance.randrange(1, 3))]}]}
        if self.chance.random() < 0.5:
            made["StartTime"] = "2026-04-15T06:12:00+02:00"
        if self.chance.random() < 0.4:
            made["Record"] = self.record()
        if depth < 2 and self.chance.random() < 0.3:
            made["EventData"] = [self.event(depth + 1)]
        return made

    def observable(self) -> Object:
        kind = self.chance.randrange(6)
        if kind == 0:
            types = ["domain-name", "file-path", "mutex", "email-subject", "http-user-agent", "windows-reg-key", "user-name", "atm"]
            wanted = self.chance.choice(types)
            values = [f"{self.needle()}.example" if wanted == "domain-name" else self.odd().replace("\n", "")
                      for _ in range(self.chance.randrange(1, 4))]
            return {"BulkObservable": {"type": wanted, "BulkObservableList": values}}
        if kind == 1:
            return {"FileData": {"File": [{"FileName": self.odd(), "HashData": {"scope": "file-contents", "Hash": [self.hash()]}}]}}
        if kind == 2:
            return {"WindowsRegistryKeysModified": {"Key": [{"KeyName": self.odd(), "Value": self.odd()}]}}
        if kind == 3:
            return {"EmailData": {"EmailSubject": self.odd(), "EmailFrom": f"{self.needle()}@example.org"}}
        return {"System": self.system()} if kind == 4 else {"Address": {"category": "e-mail", "value": f"{self.needle()}@example.org"}}

    def expression(self, depth: int = 0) -> Object:
        made: Object = {"operator": self.chance.choice(["or", "and", "or", "and", "not", "xor"])}
        made["Observable"] = [self.observable() for _ in range(self.chance.randrange(1, 4))]
        if depth < 2 and self.chance.random() < 0.4:
            made["IndicatorExpression"] = [self.expression(depth + 1)]
        return made

    def indicator(self) -> Object:
        made: Object = {"IndicatorID": {"id": self.needle(), "name": "src.example", "version": "1"}, "Description": [self.odd()]}
        is_single = self.chance.random() < 0.5
        return made | ({"Observable": self.observable()} if is_single else {"IndicatorExpression": self.expression()})

    def contact(self) -> Object:
        return {"role": self.chance.choice(["creator", "victim", "tech"]), "type": "person", "ContactName": [self.odd()],
                "Email": [{"EmailTo": f"{self.needle()}@example.org"}], "Telephone": [{"TelephoneNumber": self.needle()}]}

    def document(self) -> Object:
        incident: Object = {
            "purpose": "reporting", "IncidentID": {"id": f"{self.needle()}", "name": "src.example"},
            "GenerationTime": "2026-06-01T10:00:00Z",
            "Description": [self.odd(), {"lang": "de", "value": self.odd()}],
            "Contact": [self.contact() for _ in range(self.chance.randrange(1, 3))],
            "EventData": [self.event() for _ in range(self.chance.randrange(1, 3))],
            "Indicator": [self.indicator() for _ in range(self.chance.randrange(1, 4))],
            "AlternativeID": {"IncidentID": [{"id": self.needle(), "name": "other.example"}]},
            "Method": [{"Reference": [{"URL": [f"https://{self.needle()}.example/"],
                                       "Description": [self.chance.choice(["CVE-2026-12345", self.needle()])]}]}],
            "History": {"HistoryItem": [{"action": "other", "DateTime": "2026-06-01T10:00:00Z", "Description": [self.odd()]}]},
            "AdditionalData": [{"dtype": "string", "name": "note", "value": self.needle()}],
        }
        return {"version": "2.0", "lang": "en", "Incident": [incident]}


ODD: list[object] = [
    None, True, False, 0, -1, 6, 17, 2**63, "", "x", "a\0b", "2026-13-01", "2026-01-01T00:00:00Z", "0001-01-01T00:00:00+14:00",
    "9999-12-31T23:59:59-14:00", "not", "or", "0", "e-mail", "asn", "AS99999999999", "ipv4-net", "10.0.0.0/8", "10.0.0.0/99", "::/0",
    "file-hash", "mac", "\u202e", "\n", [], {}, [[]], ["x"], [1], [None], {"a": 1}, [{"a": []}], {"value": "v", "lang": "de"}, {"value": 5},
    [{"value": "w", "restriction": "red"}], "CVE-2026-1234", "[mutex:name = 'a']",
]
NAMES = ["restriction", "category", "type", "value", "URL", "Name", "Observable", "IndicatorExpression", "Description", "Service", "Port",
         "id", "pattern", "object_refs", "object_marking_refs", "revoked", "modified"]


def spots_in(value: Any) -> Iterator[tuple[Any, Any]]:
    """Each place in a value, with what holds it."""
    for name, each in value.items() if isinstance(value, dict) else enumerate(value) if isinstance(value, list) else ():
        yield value, name
        yield from spots_in(each)


def make_odd(chance: random.Random, value: Object) -> None:
    """Puts values of other kinds at some places."""
    for _ in range(chance.randrange(1, 6)):
        holder, name = chance.choice(list(spots_in(value)))
        holder[name] = copy.deepcopy(chance.choice(ODD))
        if isinstance(holder, dict) and chance.random() < 0.3:
            holder[chance.choice(NAMES)] = copy.deepcopy(chance.choice(ODD))


def restriction(label: str) -> Object:
    return {"restriction": "ext-value", "ext-restriction": label} if label not in (
        "public", "white", "partner", "green", "need-to-know", "amber", "private", "red", "default") else {"restriction": label}


def objects_in(value: object, path: str = "") -> Iterator[tuple[str, Object]]:
    """Each class below a value with its path, an outer one before those in it."""
    many = value.items() if isinstance(value, dict) else enumerate(value) if isinstance(value, list) else ()
    for name, each in many:
        if isinstance(each, dict):
            yield f"{path}/{name}", each
        yield from objects_in(each, f"{path}/{name}")


def needles_in(value: object) -> set[str]:
    return set(NEEDLE.findall(value if isinstance(value, str) else json.dumps(value, ensure_ascii=False)))


def classes_of(document: Object) -> list[Class]:
    """The classes with the label that holds for each, and the needles in their own texts."""
    found: dict[str, str] = {}
    made = []
    for path, each in objects_in(document):
        told = each.get("restriction")
        above = next((found[path[:place]] for place in range(len(path) - 1, 0, -1) if path[:place] in found), "red")
        found[path] = above if told is None else HANDLED[each["ext-restriction"] if told == "ext-value" else told]
        own = [text for it in each.values() for text in (it if isinstance(it, list) else [it]) if isinstance(text, str)]
        made.append(Class(path, found[path], frozenset(needles_in("\n".join(own)))))
    return made


def made_report(chance: random.Random, number: int) -> Report:
    """A report with labels and gates at random places."""
    document = Maker(chance, number).document()
    every = list(objects_in(document))
    for path, each in every:
        if chance.random() < (0.8 if path == "/Incident/0" else 0.25):
            each.update(restriction(chance.choice(LABELS)))
    gated = chance.sample([path for path, _ in every], chance.choice([0, 0, 1, 2]))
    gates = [f"{chance.choice([0, 1, 2])}:0:{path}" for path in gated]
    return Report(document, chance.choice([1, 2, 3, 3, 3]), gates, classes_of(document))


# Readers, each with its key: the source, one of its community with an arrangement for `default`, a stranger, and two who may be addressed.
KEYS = {"source": "key-source", "member": "key-member", "stranger": "key-stranger", "nominated": "key-nominated", "client": "key-client"}
READERS = {"source": 2, "member": 3, "stranger": 4, "nominated": 5, "client": 6}  # organisations
PERSONS = {name: number for number, name in enumerate(READERS, 2)}


def circle(program: str, folder: pathlib.Path, port: int) -> small_hub.Hub:
    """A running hub with these readers."""
    hub = small_hub.Hub(program, folder / "hub" / "hub.db", port)
    hub.make("admin")
    hub.start()
    for name in READERS:
        hub.done("admin", "POST", "/orgs", f"name={name}".encode())
    for name, org in READERS.items():
        role = "coordinator" if name in ("source", "nominated", "client") else "reader"
        hub.done("admin", "POST", "/persons", f"org={org}&name={name}&role={role}&key={small_hub.digest(KEYS[name])}".encode())
    hub.done("admin", "POST", "/communities", b"name=east")
    for name in ("source", "member"):
        hub.done("admin", "POST", "/communities/1/join", f"org={READERS[name]}".encode())
    for name in ("nominated", "client"):
        hub.done(KEYS[name], "POST", f"/persons/{PERSONS[name]}/nominate")
    hub.done("admin", "POST", "/orgs/2/clients", f"client={READERS['client']}".encode())
    hub.done(KEYS["source"], "POST", "/arrangements", f"org={READERS['member']}&handling=GREEN".encode())
    return hub


def query(report: Report, **words: object) -> str:
    return urllib.parse.urlencode([("level", report.level), *(("gate", each) for each in report.gates), *words.items()])


def post(hub: small_hub.Hub, report: Report) -> int:
    """Posts a report and returns its number."""
    answer = hub.done(KEYS["source"], "POST", f"/incidents?{query(report)}", json.dumps(report.document).encode())
    return int(answer["numbers"][0])


def view(hub: small_hub.Hub, reader: str, number: int) -> Object | None:
    """What the hub serves; None if nothing."""
    status, told = hub.ask(KEYS[reader], "GET", f"/incidents/{number}")
    assert status in (200, 404), (status, told)
    return json.loads(told) if status == 200 else None
