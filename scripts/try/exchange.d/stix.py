"""Checks of iodef-hub-stix: what of a report is in which object, and with which marking; ids, escapes, the rules of STIX; and back."""
from __future__ import annotations

import copy
import io
import json
import pathlib
import random
import subprocess
import sys
import traceback
from collections.abc import Iterator
from typing import Any

from iodef_hub_misp import Unfit
from iodef_hub_stix import words as stix_words
from iodef_hub_stix.back import report_of
from iodef_hub_stix.excerpt import Excerpt
from iodef_hub_stix.making import objects_of
from iodef_hub_stix.marking import definitions_of

from . import stix_reports as reports
from .context import Context, same, taken
from .stix_rules import fault_of_pattern, faults_of, texts_in_pattern

SECTION = "stix"
HERE = pathlib.Path(__file__).resolve().parent
TOP = HERE.parents[2]
COMMAND = TOP / "clients" / "python" / "iodef-hub-stix"
NOW = "2026-06-02T00:00:00.000Z"
LATER = "2026-06-03T00:00:00.000Z"
UNTOLD = "1970-01-01T00:00:00.000Z"
REPORTS = 1000
READERS = tuple(reports.READERS)
# From the specification of TLP 2.0's extension for STIX, written down by hand.
MARKINGS = {
    "marking-definition--94868c89-83c2-464b-929b-a1a8aa3c8487": "clear",
    "marking-definition--bab4a63c-aed9-4cf5-a766-dfca5abac2bb": "green",
    "marking-definition--55d920b0-5e8b-4f79-9ee9-91f868d9b421": "amber",
    "marking-definition--939a9414-2ddd-4d32-a0cd-375ea402b003": "amber+strict",
    "marking-definition--e828b379-4e03-4974-9ac4-e53a884c97c1": "red",
}
Object = dict[str, Any]
Check = Iterator[tuple[bool, str]]


def run(*words: str, given: bytes = b"") -> tuple[int, str, str]:
    """Status and outputs of the command, in this process; what it raises is a traceback of its standard error."""
    kept = sys.argv, sys.stdin, sys.stdout, sys.stderr
    out, err = (io.TextIOWrapper(io.BytesIO(), "utf-8", write_through=True) for _ in range(2))
    sys.argv, sys.stdin, sys.stdout, sys.stderr = ["iodef-hub-stix", *words], io.TextIOWrapper(io.BytesIO(given)), out, err
    try:
        status = stix_words.main()
    except SystemExit as ended:
        status = int(ended.code or 0)
    except BaseException:
        status = -1
        traceback.print_exc()
    finally:
        sys.argv, sys.stdin, sys.stdout, sys.stderr = kept
    return status, out.buffer.getvalue().decode(), err.buffer.getvalue().decode()  # type: ignore[attr-defined]


def process(*words: str, given: bytes = b"") -> tuple[int, str, str]:
    ran = subprocess.run([sys.executable, "-B", COMMAND, *words], input=given, capture_output=True, timeout=120)
    return ran.returncode, ran.stdout.decode(), ran.stderr.decode()


def answer(document: Object, withheld: tuple[str, ...] = (), number: int = 1) -> Object:
    return {"classes": 1, "document": document, "number": number, "revision": 1, "source": 2,
            "withheld": [[each, "H-RED"] for each in withheld]}


def made(value: Object, now: str = NOW) -> list[Object]:
    with taken("an answer of the hub"):
        return objects_of(Excerpt.of_answer(value, "hub.example.org"), now)[0]


def incident(**members: Any) -> Object:
    told = {"purpose": "reporting", "restriction": "green", "IncidentID": {"id": "1", "name": "src.example"},
            "GenerationTime": "2026-06-01T10:00:00Z", "Contact": [{"role": "creator", "ContactName": ["C"]}]}
    return {"version": "2.0", "Incident": [{**told, **members}]}


def label_of(value: Object) -> str:
    (marking,) = value["object_marking_refs"]
    return MARKINGS[marking]


def patterns_of(observable: Object, withheld: tuple[str, ...] = ()) -> list[str]:
    value = answer(incident(Indicator=[{"IndicatorID": {"id": "1"}, **observable}]), withheld)
    return [each["pattern"] for each in made(value) if each["type"] == "indicator"]


def bulk(kind: str, *values: str) -> Object:
    return {"BulkObservable": {"type": kind, "BulkObservableList": list(values)}}


def hashed(method: str, digest: str) -> Object:
    return {"Observable": {"FileData": {"File": [{"HashData": {"Hash": [{"DigestMethod": method, "DigestValue": digest}]}}]}}}


# Patterns, worked out by hand

NODE = {"Address": [{"category": "ipv4-addr", "value": "192.0.2.1"}]}
PATTERNS: list[tuple[str, Object, list[str]]] = [
    ("a domain name", {"Observable": bulk("domain-name", "a.example")}, ["[domain-name:value = 'a.example']"]),
    ("a list is alternatives", {"Observable": bulk("ipv4-addr", "192.0.2.1", "192.0.2.2")},
     ["[ipv4-addr:value = '192.0.2.1']", "[ipv4-addr:value = '192.0.2.2']"]),
    ("a list in one text", {"Observable": {"BulkObservable": {"type": "ipv4-addr", "BulkObservableList": "192.0.2.1\n192.0.2.2"}}},
     ["[ipv4-addr:value = '192.0.2.1']", "[ipv4-addr:value = '192.0.2.2']"]),
    ("a network", {"Observable": bulk("ipv6-net", "2001:db8::/32")}, ["[ipv6-addr:value ISSUBSET '2001:db8::/32']"]),
    ("a number", {"Observable": bulk("asn", "AS64500")}, ["[autonomous-system:number = 64500]"]),
    ("a hash by its length", {"Observable": bulk("file-hash", "A" * 40)}, [f"[file:hashes.'SHA-1' = '{'a' * 40}']"]),
    ("a MAC address", {"Observable": bulk("mac", "00-00-5E-00-53-01")}, ["[mac-addr:value = '00:00:5e:00:53:01']"]),
    ("a user agent", {"Observable": bulk("http-user-agent", "x")},
     ["[network-traffic:extensions.'http-request-ext'.request_header.'User-Agent' = 'x']"]),
    ("a quote is escaped", {"Observable": bulk("mutex", "it's")}, ["[mutex:name = 'it\\'s']"]),
    ("a backslash is escaped", {"Observable": bulk("windows-reg-key", "HKLM\\Run\\")}, ["[windows-registry-key:key = 'HKLM\\\\Run\\\\']"]),
    ("both, and what would end the pattern", {"Observable": bulk("file-path", "\\' OR mutex:name = 'x']")},
     ["[file:name = '\\\\\\' OR mutex:name = \\'x\\']']"]),
    ("a value of another form is none", {"Observable": bulk("ipv4-addr", "999.0.0.1", "192.0.2.1")}, ["[ipv4-addr:value = '192.0.2.1']"]),
    ("a kind that the table lacks", {"Observable": bulk("atm", "x")}, []),
    ("a host at a port", {"Observable": {"System": {"Node": NODE, "Service": [{"ip-protocol": 6, "Port": 8080}]}}},
     ["[network-traffic:dst_ref.value = '192.0.2.1' AND network-traffic:dst_port = 8080 AND network-traffic:protocols[*] = 'tcp']"]),
    ("a source at a port", {"Observable": {"System": {"category": "source", "Node": NODE, "Service": [{"Port": 53}]}}},
     ["[network-traffic:src_ref.value = '192.0.2.1' AND network-traffic:src_port = 53]"]),
    ("a service of several ports", {"Observable": {"System": {"Node": NODE, "Service": [{"Portlist": "1-5"}]}}}, []),
    ("a file's name and hash together", {"Observable": {"FileData": {"File": [{"FileName": "a.exe", "HashData": {"Hash": [
        {"DigestMethod": "http://www.w3.org/2001/04/xmldsig-more#md5", "DigestValue": "b" * 32}]}}]}}},
     [f"[file:name = 'a.exe' AND file:hashes.MD5 = '{'b' * 32}']"]),
    ("a hash in base64, as XML has it", hashed("http://www.w3.org/2001/04/xmlenc#sha256", "47DEQpj8HBSa+/TImW+5\n JCeuQeRkm5NMpJWZG3hSuFU="),
     ["[file:hashes.'SHA-256' = 'e3b0c44298fc1c149afbf4c8996fb92427ae41e4649b934ca495991b7852b855']"]),
    ("base64 of another length is none", hashed("http://www.w3.org/2000/09/xmldsig#sha1", "47DEQpj8HBSa+/TImW+5JCeuQeRkm5NMpJWZG3hSuFU="),
     []),
    ("a name and its address", {"Observable": {"System": {"Node": {**NODE, "DomainData": [{"Name": "a.example"}]}}}},
     ["[domain-name:value = 'a.example' AND domain-name:resolves_to_refs[*].value = '192.0.2.1']"]),
    ("a key and its value", {"Observable": {"WindowsRegistryKeysModified": {"Key": [{"KeyName": "K", "Value": "V"}]}}},
     ["[windows-registry-key:key = 'K' AND windows-registry-key:values[*].data = 'V']"]),
    ("a mail", {"Observable": {"EmailData": {"EmailSubject": "S", "EmailFrom": "a@b.example"}}},
     ["[email-message:subject = 'S' AND email-message:from_ref.value = 'a@b.example']"]),
    ("`or` is alternatives", {"IndicatorExpression": {"operator": "or", "Observable": [bulk("mutex", "a"), bulk("mutex", "b")]}},
     ["[mutex:name = 'a']", "[mutex:name = 'b']"]),
    ("`and` is one", {"IndicatorExpression": {"operator": "and", "Observable": [bulk("mutex", "a"), bulk("mutex", "b", "c")]}},
     ["[mutex:name = 'a'] AND ([mutex:name = 'b'] OR [mutex:name = 'c'])"]),
    ("no operator is `and`", {"IndicatorExpression": {"Observable": [bulk("mutex", "a"), bulk("mutex", "b")]}},
     ["[mutex:name = 'a'] AND [mutex:name = 'b']"]),
    ("`not` is none", {"IndicatorExpression": {"operator": "not", "Observable": [bulk("mutex", "a")]}}, []),
    ("`xor` is none", {"IndicatorExpression": {"operator": "xor", "Observable": [bulk("mutex", "a"), bulk("mutex", "b")]}}, []),
    ("`and` with an operand that has no pattern is none",
     {"IndicatorExpression": {"operator": "and", "Observable": [bulk("mutex", "a"), bulk("atm", "b")]}}, []),
    ("`or` with one is the others", {"IndicatorExpression": {"operator": "or", "Observable": [bulk("mutex", "a"), bulk("atm", "b")]}},
     ["[mutex:name = 'a']"]),
    ("`and` with a `not` is none", {"IndicatorExpression": {"operator": "and", "Observable": [bulk("mutex", "a")],
                                                            "IndicatorExpression": [{"operator": "not",
                                                                                     "Observable": [bulk("mutex", "b")]}]}}, []),
    ("what MISP doesn't detect isn't in it", {"IndicatorExpression": {"operator": "or", "IndicatorExpression": [
        {"operator": "and", "Observable": [bulk("mutex", "a")], "AdditionalData": [{"name": "misp-to-ids", "value": "0"}]}]}}, []),
]


def by_hand() -> Check:
    for what, observable, wanted in PATTERNS:
        got = patterns_of(observable)
        yield same(f"pattern: {what}", got, wanted)
        yield same(f"and is of the grammar: {what}", [fault for each in got if (fault := fault_of_pattern(each))], [])
    both = {"IndicatorExpression": {"operator": "and", "Observable": [bulk("mutex", "a"), bulk("mutex", "b")]}}
    for place, count in (("/Incident/0/Indicator/0/IndicatorExpression", 0),
                          ("/Incident/0/Indicator/0/IndicatorExpression/Observable/0", 0),
                          ("/Incident/0/Indicator/0", 1), ("/Incident/0/Contact/0", 1)):
        yield same(f"with something withheld at {place}, patterns", len(patterns_of(both, (place,))), count)
    yield from markings_by_hand()
    yield from vulnerabilities_by_hand()
    yield from relationships_by_hand()
    yield from moments_by_hand()


CREATED: list[tuple[str, Object, str]] = [
    ("UTC", {"GenerationTime": "2026-06-01T10:00:00Z"}, "2026-06-01T10:00:00.000Z"),
    ("an offset", {"GenerationTime": "2026-06-01T01:30:00.5+02:00"}, "2026-05-31T23:30:00.500Z"),
    ("no offset", {"GenerationTime": "2026-06-01T10:00:00"}, UNTOLD), ("a day", {"GenerationTime": "2026-06-01"}, UNTOLD),
    ("no text", {"GenerationTime": 7}, UNTOLD), ("another text", {"GenerationTime": "yesterday"}, UNTOLD),
    ("behind the run", {"GenerationTime": "2026-07-01T00:00:00Z"}, "2026-07-01T00:00:00.000Z"),
    ("a stricter Incident", {"restriction": "amber"}, UNTOLD), ("a wider Incident", {"restriction": "white"}, "2026-06-01T10:00:00.000Z")]


def moments_by_hand() -> Check:
    """`created` is of the report alone, and `modified` of the run; no moment of a stricter class is beside an object."""
    seen = {"restriction": "green", "Flow": [{"System": [{"Node": NODE}]}]}
    found = {"restriction": "green", "IndicatorID": {"id": "1"}, "EndTime": "2026-06-20T00:00:00Z", "Observable": bulk("mutex", "a")}
    for what, members, wanted in CREATED:
        value = answer(incident(**{"EventData": [seen], "Indicator": [found], **members}))
        objects, others = made(value), made(value, LATER)
        told = one(objects, type="observed-data")
        yield same(f"created: {what}", (told["created"], told["modified"]), (wanted, max(wanted, NOW)))
        yield same(f"and so is what tells no moment: {what}", (told["first_observed"], one(objects, type="indicator")["valid_from"]),
                   (wanted, wanted))
        yield same(f"another run differs in modified alone: {what}", *([{**each, "modified": ""} if "modified" in each else each
                                                                        for each in it] for it in (objects, others)))
        yield same(f"and the rules hold: {what}", faults_of([*definitions_of(objects), *objects]), [])


def vulnerabilities_by_hand() -> Check:
    """A CVE's number as a Reference's name, or its Description; marked as the class that has it."""
    for what, reference, wanted in (
            ("a name", {"ReferenceName": {"ID": "CVE-2026-10001"}}, [("CVE-2026-10001", "green")]),
            ("a stricter name", {"ReferenceName": {"restriction": "amber", "ID": "CVE-2026-10001"}}, [("CVE-2026-10001", "amber+strict")]),
            ("a description", {"Description": ["cve-2026-10001"]}, [("CVE-2026-10001", "green")]),
            ("both", {"ReferenceName": {"ID": "CVE-2026-10001"}, "Description": ["CVE-2026-10001"]}, [("CVE-2026-10001", "green")]),
            ("another name", {"ReferenceName": {"ID": "CAPEC-98"}}, [])):
        objects = made(answer(incident(Method=[{"Reference": [reference]}])))
        found = [(each["name"], label_of(each)) for each in objects if each["type"] == "vulnerability"]
        yield same(f"a vulnerability by {what}", found, wanted)


def relationships_by_hand() -> Check:
    document = json.loads((TOP / "docs" / "examples" / "phishing.json").read_text())
    objects = made(answer(document))
    related = [(each["relationship_type"], each["source_ref"], each["target_ref"]) for each in objects if each["type"] == "relationship"]
    indicator = one(objects, type="indicator", pattern="[domain-name:value = 'payroll-login.example.net']")
    value = one(objects, type="domain-name", value="payroll-login.example.net")
    seen = one(objects, type="observed-data", object_refs=[value["id"]])
    yield same("an indicator is based on what is seen outside it", related, [("based-on", indicator["id"], seen["id"])])
    author = one(objects, type="identity", name="source of incident 1 at hub.example.org")
    yield same("the source is the author of all others", {each.get("created_by_ref") for each in objects if "created" in each
                                                          and each is not author},
               {author["id"]})
    yield same("the report names all others", set(one(objects, type="report")["object_refs"]),
               {each["id"] for each in objects if each["type"] != "report"})


def one(objects: list[Object], **members: Any) -> Object:
    (found,) = [each for each in objects if all(each.get(name) == wanted for name, wanted in members.items())]
    return found


LABELS = {**reports.HANDLED, "tlp:green": "green", "TLP:WHITE": "clear", "TLP:RED": "red", "TLP:ORANGE": "red", "tlp:amber": "amber"}


def markings_by_hand() -> Check:
    for text, wanted in LABELS.items():
        document = incident(EventData=[{**reports.restriction(text), "Flow": [{"System": [{"Node": NODE}]}]}])
        yield same(f"{text} is {wanted}", label_of(one(made(answer(document)), type="ipv4-addr")), wanted)
    bare = incident(EventData=[{"Flow": [{"System": [{"Node": NODE}]}]}])
    del bare["Incident"][0]["restriction"]
    yield same("no label is red", {label_of(each) for each in made(answer(bare))}, {"red"})
    document = incident(
        EventData=[{"Flow": [{"System": [{"restriction": "amber", "category": "source", "Node": {"Address": [
            {"category": "ipv4-addr", "value": "192.0.2.1", "restriction": "white"}]}}]}]}],
        Indicator=[{"restriction": "red", "Description": ["secret"], "IndicatorID": {"id": "1"},
                    "Observable": {"BulkObservable": {"restriction": "white", "type": "ipv4-addr", "BulkObservableList": ["192.0.2.1"]}}}])
    objects = made(answer(document))
    yield same("an object is marked as the class of its value", label_of(one(objects, type="ipv4-addr")), "clear")
    yield same("a role that is stricter isn't beside it", "labels" in one(objects, type="observed-data"), False)
    yield same("nor is a description", "description" in one(objects, type="indicator"), False)
    yield same("so the indicator keeps its label", label_of(one(objects, type="indicator")), "clear")
    yield same("a moment that is stricter isn't either", one(objects, type="observed-data")["first_observed"], UNTOLD)
    yield same("a report is as strict as what it names", label_of(one(objects, type="report")), "green")
    document["Incident"][0]["EventData"].append({"restriction": "red", "Description": ["x"]})
    yield same("also if that is red", label_of(one(made(answer(document)), type="report")), "red")
    twice = incident(EventData=[{"restriction": label, "Flow": [{"System": [{"Node": NODE}]}]} for label in ("white", "red", "green")])
    yield same("of one value with several labels the strictest", label_of(one(made(answer(twice)), type="ipv4-addr")), "red")


# Generated reports at a hub


def of_generated(context: Context) -> Check:
    """Each report as each reader gets it: needles, markings, rules and ids."""
    assert context.program is not None
    hub = reports.circle(context.program, context.folder, next(context.ports))
    chance = random.Random(context.seed)
    found = Found()
    try:
        for number in range(1, min(context.count, REPORTS) + 1):
            report = reports.made_report(chance, number)
            assert reports.post(hub, report) == number
            if number % 3 == 0:  # the nominated person is addressed, by its organisation
                hub.done(reports.KEYS["source"], "POST", f"/incidents/{number}/address", f"org={reports.READERS['nominated']}".encode())
            for reader in READERS:
                found.look(report, reader, reports.view(hub, reader, number))
            found.look_again(hub, report, number)
    finally:
        hub.stop()
    yield from found.told()


class Found:
    """What was found of all reports."""

    def __init__(self) -> None:
        self.seen = self.hidden = self.objects = self.indicators = 0
        self.shown: list[object] = []
        self.wide: list[object] = []
        self.rules: list[str] = []
        self.unstable: list[object] = []
        self.returned: list[object] = []
        self.wide_back: list[object] = []
        self.lost: list[object] = []

    def look(self, report: reports.Report, reader: str, told: Object | None) -> None:
        if told is None:
            self.hidden += len(report.labels)
            return
        objects = made(told)
        needles = reports.needles_in(told["document"])
        found = reports.needles_in(objects)
        self.seen += len(needles)
        self.hidden += len(set(report.labels) - needles)
        self.objects += len(objects)
        self.shown += [(reader, each) for each in found - needles]
        for each in objects:
            strict = max((reports.STRICTNESS.index(report.labels[needle]) for needle in reports.needles_in(each)), default=0)
            if reports.STRICTNESS.index(label_of(each)) < strict:
                self.wide.append((reader, each["id"]))
        self.rules += faults_of([*definitions_of(objects), *objects])
        self._look_back(report, reader, objects)
        for each in objects:
            if each["type"] == "indicator":
                self.indicators += 1
                self.returned += [text for text in texts_in_pattern(each["pattern"]) if not _is_in(text, told["document"])]

    def _look_back(self, report: reports.Report, reader: str, objects: list[Object]) -> None:
        """To IODEF again: no needle has a wider label, and what was to be looked for is."""
        document = report_of(json.dumps({"type": "bundle", "objects": objects}).encode(), "csirt.example", NOW)[0]
        for each in reports.classes_of(document):
            strict = reports.STRICTNESS.index(each.label)
            self.wide_back += [(reader, needle) for needle in each.needles if strict < reports.STRICTNESS.index(report.labels[needle])]
        wanted = {needle for each in objects if each["type"] == "indicator" for needle in reports.needles_in(each["pattern"])}
        self.lost += [(reader, each) for each in wanted - reports.needles_in(document["Incident"][0].get("Indicator", []))]

    def look_again(self, hub: Any, report: reports.Report, number: int) -> None:
        """The same report with its lists in another order, as a new revision: an object with the same content has the same id."""
        other = copy.deepcopy(report)
        for name in ("EventData", "Indicator", "Contact"):
            other.document["Incident"][0][name].reverse()
        before = _by_content(made(reports.view(hub, "source", number) or {}))
        other.gates = []
        body = json.dumps(other.document).encode()
        hub.done(reports.KEYS["source"], "PUT", f"/incidents/{number}?{reports.query(other, revision=1)}", body)
        after = _by_content(made(reports.view(hub, "source", number) or {}, "2027-01-01T00:00:00.000Z"))
        self.unstable += [it for it in before.items() if after.get(it[0]) != it[1]]

    def told(self) -> Check:
        yield same("needles that were seen and not seen, objects and indicators",
                   all((self.seen, self.hidden, self.objects, self.indicators)))
        yield same("nothing withheld is in an object", self.shown[:5], [])
        yield same("no marking is wider than a label of what it holds", self.wide[:5], [])
        yield same("the rules of STIX hold", self.rules[:5], [])
        yield same("an id stays over revisions and places", self.unstable[:5], [])
        yield same("back, no label is wider than that of the report", self.wide_back[:5], [])
        yield same("and each pattern is there", self.lost[:5], [])
        yield same("the texts of patterns are those of the report", self.returned[:5], [])


def _is_in(text: str, document: Object) -> bool:
    members = [each for _, it in reports.objects_in(document) for each in it.values()]
    return text in ("tcp", "udp") or any(text in (each if isinstance(each, list) else [each]) or text in str(each).lower()
                                         for each in members)


def _by_content(objects: list[Object]) -> dict[str, str]:
    """The ids by what tells an object from the others of its report: its members but id, times and references. Of an observation that is
    its value."""
    told = {}
    for each in objects:
        told[each["id"]] = each["type"] if each["type"] in ("report", "relationship") else json.dumps(
            {name: it for name, it in each.items() if name not in VARYING and not name.endswith(("_ref", "_refs"))}, sort_keys=True)
    for each in objects:
        if each["type"] == "observed-data":
            told[each["id"]] = "observed " + told[each["object_refs"][0]]
    return {content: name for name, content in told.items() if content != "relationship"}


VARYING = ("id", "created", "modified", "valid_from", "first_observed", "last_observed", "labels", "description")


# Back to IODEF

GREEN, AMBER, STRICT, RED = (name for name, label in MARKINGS.items() if label != "clear")
CLEAR = next(iter(MARKINGS))
OLD_AMBER = "marking-definition--f88d31f6-486f-44da-b317-01333bde0b82"
OLD_WHITE = "marking-definition--613f2e26-407d-48c7-9eca-b8e91df99dc9"
STRANGE = "marking-definition--00000000-0000-4000-8000-000000000000"
WRITTEN = {"clear": {"restriction": "public"}, "green": {"restriction": "partner"},
           "amber": {"restriction": "ext-value", "ext-restriction": "TLP:AMBER"},
           "amber+strict": {"restriction": "need-to-know"}, "red": {"restriction": "private"}}
BACK: list[tuple[str, Object, str]] = [
    ("none", {}, "red"), ("green", {"object_marking_refs": [GREEN]}, "green"), ("clear", {"object_marking_refs": [CLEAR]}, "clear"),
    ("amber", {"object_marking_refs": [AMBER]}, "amber"), ("strict", {"object_marking_refs": [STRICT]}, "amber+strict"),
    ("several", {"object_marking_refs": [GREEN, RED, CLEAR]}, "red"),
    ("two", {"object_marking_refs": [CLEAR, STRICT, AMBER]}, "amber+strict"),
    ("TLP 1's white", {"object_marking_refs": [OLD_WHITE]}, "clear"),
    ("TLP 1's amber", {"object_marking_refs": [OLD_AMBER]}, "amber+strict"),
    ("an unknown one", {"object_marking_refs": [CLEAR, STRANGE]}, "red"), ("an empty list", {"object_marking_refs": []}, "red"),
    ("of a part", {"object_marking_refs": [CLEAR], "granular_markings": [{"marking_ref": AMBER, "selectors": ["name"]}]}, "amber"),
    ("of a part's language", {"object_marking_refs": [CLEAR], "granular_markings": [{"lang": "de", "selectors": ["name"]}]}, "clear"),
    ("no list", {"object_marking_refs": CLEAR}, "red"), ("no text", {"object_marking_refs": [7]}, "red"),
]
ONE_ID = "00000000-0000-4000-8000-00000000000"


def bundle(*objects: Object) -> bytes:
    return json.dumps({"type": "bundle", "id": f"bundle--{ONE_ID}0", "objects": objects}).encode()


def indicator(pattern: str, **members: Any) -> Object:
    return {"type": "indicator", "spec_version": "2.1", "id": f"indicator--{ONE_ID}1", "pattern": pattern, "pattern_type": "stix",
            "valid_from": "2026-06-01T00:00:00Z", **members}


def back(*objects: Object) -> Object:
    with taken("a bundle with " + " and ".join(sorted({str(each["type"]) for each in objects}))):
        document: Object = report_of(bundle(*objects), "csirt.example", NOW)[0]
    (found,) = document["Incident"]
    assert isinstance(found, dict)
    return found


BACK_PATTERNS: list[tuple[str, Object]] = [
    ("[mutex:name = 'a']", {"Observable": bulk("mutex", "a")}),
    ("[ipv4-addr:value = '192.0.2.1' OR ipv4-addr:value = '192.0.2.2']",
     {"IndicatorExpression": {"operator": "or", "Observable": [bulk("ipv4-addr", "192.0.2.1"), bulk("ipv4-addr", "192.0.2.2")]}}),
    ("[mutex:name = 'a'] OR [url:value = 'http://x/']",
     {"IndicatorExpression": {"operator": "or", "Observable": [bulk("mutex", "a"), bulk("site-uri", "http://x/")]}}),
    ("[ipv4-addr:value ISSUBSET '192.0.2.0/24']", {"Observable": bulk("ipv4-net", "192.0.2.0/24")}),
    ("[mutex:name = 'it\\'s \\\\ OR [x]']", {"Observable": bulk("mutex", "it's \\ OR [x]")}),
    (f"[file:hashes.'SHA-256' = '{'a' * 64}']", {"Observable": bulk("file-hash", "a" * 64)}),
    *((each, {"Observable": {"AdditionalData": [{"dtype": "string", "name": "stix-pattern", "value": each}]}}) for each in (
        "[mutex:name != 'a']", "[mutex:name = 'a' AND mutex:name = 'b']", "[mutex:name = 'a'] AND [mutex:name = 'b']",
        "[mutex:name LIKE 'a%']",
        "([mutex:name = 'a'])", "[mutex:name = 'a'] REPEATS 5 TIMES", "[x:y = 'a']", "nonsense", "[" + "mutex:name = '" * 9000)),
]


SNORT = 'alert tcp any any -> 192.0.2.1 any (msg:"x"; sid:1;)'
# Members that no class holds, each with what standard error says of it.
LOST: list[tuple[Object, str]] = [
    (indicator("[mutex:name = 'a']", description="d", name="n", confidence=0, indicator_types=["benign"], labels=["l"],
               kill_chain_phases=[{"kill_chain_name": "k", "phase_name": "p"}], external_references=[{"source_name": "s", "url": "u"}]),
     "1 confidence of objects of type indicator, 1 external_references of objects of type indicator, 1 indicator_types of objects of type "
     "indicator, 1 kill_chain_phases of objects of type indicator, 1 labels of objects of type indicator, 1 name of objects of type "
     "indicator"),
    (indicator("[mutex:name = 'a']", name="n"), ""), (indicator("[mutex:name = 'a']", pattern_version="2.1"), ""),
    ({"type": "report", "id": f"report--{ONE_ID}1", "name": "n", "description": "d", "report_types": ["campaign"], "labels": ["l"],
      "object_refs": []},
     "1 labels of objects of type report, 1 name of objects of type report, 1 report_types of objects of type report"),
    ({"type": "report", "id": f"report--{ONE_ID}1", "name": "n"}, ""),
    ({"type": "identity", "id": f"identity--{ONE_ID}1", "name": "n", "sectors": ["energy"]}, "1 sectors of objects of type identity"),
    ({"type": "file", "id": f"file--{ONE_ID}1", "hashes": {"MD5": "a" * 32, "SHA-1": "b" * 40}, "size": 1},
     "1 hashes of objects of type file, 1 size of objects of type file"),
    ({"type": "file", "id": f"file--{ONE_ID}1", "hashes": {"MD5": "a" * 32}}, ""),
    ({"type": "mutex", "id": f"mutex--{ONE_ID}1", "name": "n", "x\n": 1}, "1 other members of objects of type mutex"),
]


def of_back_told() -> Check:
    """What standard error says of a bundle."""
    for value, wanted in LOST:
        told = run("to-iodef", "--name", "n", given=bundle(value))[2]
        yield same(f"back: lost of {json.dumps(value)[:90]}", told, f"iodef-hub-stix: left out: {wanted}\n" if wanted else "")
    for name, members, texts in (("its name", {"name": "n"}, ["n"]), ("its description", {"name": "n", "description": "d"}, ["d"]),
                                 ("none", {}, None)):
        yield same(f"back: an indicator's Description: {name}", back(indicator("[mutex:name = 'a']", **members))["Indicator"][0].get(
            "Description"), texts)
    for kind, pattern in (("snort", SNORT), ("yara", "rule a { condition: true }"), ("stix", "[mutex:name != 'a']")):
        status, out, err = run("to-iodef", "--name", "n", given=bundle(indicator(pattern, pattern_type=kind)))
        held = json.loads(out)["Incident"][0]["Indicator"][0]["Observable"] if status == 0 else None
        yield same(f"back: a pattern of {kind} is a text", held, {"AdditionalData": [
            {"dtype": "string", "name": f"{kind}-pattern", "value": pattern}]})
        yield same(f"and is named: {kind}", err,
                   f"iodef-hub-stix: a pattern is kept as a text: object indicator--{ONE_ID}1, of type {kind}\n")
    many = [{**indicator(SNORT, pattern_type="snort"), "id": f"indicator--{ONE_ID[:-2]}{each:03d}"} for each in range(23)]
    err = run("to-iodef", "--name", "n", given=bundle(*many))[2]
    yield same("back: of many the number", (err.count("\n"), err.splitlines()[-1]), (21, "iodef-hub-stix: and 3 further patterns"))


def of_back() -> Check:
    for what, members, wanted in BACK:
        made_of = back(indicator("[mutex:name = 'a']", **members))["Indicator"][0]
        yield same(f"back: markings: {what}", {name: made_of[name] for name in made_of if "restriction" in name}, WRITTEN[wanted])
    for pattern, observed in BACK_PATTERNS:
        made_of = back(indicator(pattern))["Indicator"][0]
        yield same(f"back: {pattern[:80]}", {name: made_of[name] for name in ("Observable", "IndicatorExpression") if name in made_of},
                   observed)
    revoked = [indicator("[mutex:name = 'a']"), {**indicator("[mutex:name = 'b']", revoked=True), "id": f"indicator--{ONE_ID}2"}]
    yield same("back: what is revoked is left out", len(back(*revoked)["Indicator"]), 1)
    versions = [indicator("[mutex:name = 'new']", modified="2026-06-02T00:00:00Z"),
                indicator("[mutex:name = 'old']", modified="2026-06-01T00:00:00Z")]
    yield same("back: of two versions the last", back(*versions)["Indicator"][0]["Observable"], bulk("mutex", "new"))


# Hostile inputs

WRONG: list[tuple[str, object]] = [
    ("null", None), ("a text", "x"), ("a number", 7), ("a float", 1.5), ("true", True), ("a list of lists", [[]]), ("an object", {})]
WRONG_IN_OBJECT: list[tuple[str, object]] = [
    ("null", None), ("a number", 7), ("a list", ["x"]), ("an object", {"a": 1}), ("another text", "\u202e\n")]
WRONG_IN_OTHERS: list[tuple[str, object]] = [("null", None), ("a number", 7), ("an object", {"a": 1}), ("a list of numbers", [1])]
WRONG_WORDS: list[tuple[str, ...]] = [
    (), ("to-stix",), ("to-stix", "--hub", ""), ("to-iodef",), ("to-stix", "--hub", "h", "--now", "yesterday"),
    ("to-stix", "--hub", "h", "/nowhere")]


def hostile() -> Iterator[tuple[str, bytes]]:
    """Inputs for both ways, each of which has to be refused."""
    yield from (("nothing", b""), ("a byte order mark", b"\xef\xbb\xbf{}"), ("no UTF-8", b'{"a":"\xff"}'),
                ("UTF-16", '{"objects":[]}'.encode("utf-16")),
                ("half of it", b'{"objects":[{'), ("a list", b"[]"), ("a text", b'"x"'), ("a number", b"1"), ("null", b"null"),
                ("empty", b"{}"),
                ("NaN", b'{"objects":NaN}'), ("a member twice", b'{"objects":[],"objects":[]}'), ("markup", b"<xml/>"),
                ("very deep", b"[" * 100_000 + b"]" * 100_000), ("deep objects", b'{"document":' * 5000 + b"1" + b"}" * 5000))
    for name in ("document", "objects", "withheld", "number", "source"):
        for what, wrong in WRONG:
            if (name, what) not in (("number", "a number"), ("source", "a number"), ("number", "null"), ("source", "null"),
                                    ("document", "an object")):
                yield f"{name}: {what}", json.dumps({**answer(incident()), "objects": [], name: wrong}).encode()


def hostile_bundles() -> Iterator[tuple[str, bytes]]:
    good = indicator("[mutex:name = 'a']")
    for name in ("type", "id", "pattern", "pattern_type", "valid_from", "description", "revoked", "modified", "valid_until",
                 "spec_version"):
        for what, wrong in WRONG_IN_OBJECT:
            if (name, what) not in (("pattern", "another text"), ("description", "another text")):
                yield f"{name}: {what}", bundle({**good, name: wrong})
    others = [("identity", "name"), ("identity", "roles"), ("identity", "contact_information"), ("note", "content"),
              ("vulnerability", "name"),
              ("observed-data", "object_refs"), ("report", "object_refs"), ("report", "description"), ("report", "created_by_ref")]
    for kind, name in others:
        for what, wrong in WRONG_IN_OTHERS:
            yield f"{kind} {name}: {what}", bundle({"type": kind, "id": f"{kind}--{ONE_ID}1", name: wrong})
    yield "an id of another type", bundle({**good, "id": f"report--{ONE_ID}1"})
    yield "an id that is none", bundle({**good, "id": "indicator--x"})
    yield "no objects", bundle()
    yield "two reports", bundle(*({"type": "report", "id": f"report--{ONE_ID}{each}", "name": "x"} for each in (1, 2)))
    yield "half a character", b'{"type":"bundle","objects":[' + json.dumps(good).replace("'a'", "'\\ud800'").encode() + b"]}"


def of_hostile() -> Check:
    stix = [(what, given, ("to-stix", "--hub", "h")) for what, given in hostile()]
    bundles = [each for each in (*hostile(), *hostile_bundles()) if not each[0].startswith(("document", "withheld", "number", "source"))]
    iodef = [(what, given, ("to-iodef", "--name", "n")) for what, given in bundles]
    stix = [each for each in stix if not each[0].startswith("objects")]
    surrogate = json.dumps(answer(incident(Description=["x"]))).replace('"x"', '"\\ud800"').encode()
    for what, given, words in [*stix, *iodef, ("half a character", surrogate, ("to-stix", "--hub", "h"))]:
        status, out, err = run(*words, given=given)
        is_named = err.startswith("iodef-hub-stix: refused: ") and err.count("\n") == 1 and "Traceback" not in err
        yield same(f"{words[0]}, hostile, {what}", (status, out, is_named or err), (1, "", True))
    for each in WRONG_WORDS:
        status, out, err = run(*each)
        yield same(f"words: {each}", (status, out, "Traceback" in err, bool(err)), (2, "", False, True))


def of_odd(context: Context) -> Check:
    """Reports and bundles with values of other kinds at some places: hubs accept such reports."""
    chance = random.Random(context.seed)
    broken, raised = [], []
    for number in range(min(context.count, 300)):
        document = reports.made_report(chance, number).document
        whole = made(answer(document))
        reports.make_odd(chance, document)
        try:
            objects = made(answer(document))
            broken += faults_of([*definitions_of(objects), *objects])
        except Exception as fault:
            raised.append(f"to-stix: {fault!r}")
        value = {"type": "bundle", "objects": whole}
        reports.make_odd(chance, value)
        try:
            report_of(json.dumps(value).encode(), "csirt.example", NOW)
        except Unfit:
            pass
        except Exception as fault:
            raised.append(f"to-iodef: {fault!r}")
    yield same("nothing odd in a report or a bundle is an unnamed fault", raised[:5], [])
    yield same("and what is made of an odd report keeps the rules", broken[:5], [])


def of_command() -> Check:
    value = answer(incident(EventData=[{"Flow": [{"System": [{"Node": NODE}]}]}], Assessment=[{"occurrence": "actual"}]))
    words = ("to-stix", "--hub", "hub.example.org", "--now", "2026-06-02T00:00:00Z")
    status, out, err = process(*words, given=json.dumps(value).encode())
    objects = json.loads(out)["objects"]
    yield same("the command writes the bundle", (status, objects), (0, [*definitions_of(made(value)), *made(value)]))
    yield same("and says what it left out", err, "iodef-hub-stix: left out: 1 Assessment\n")
    yield same("the bundle keeps the rules", faults_of(objects), [])
    unfit = answer(incident(Indicator=[{"IndicatorID": {"id": "1"}, "Observable": bulk("site-uri", "http://x/ y")}]))
    some = answer(incident(Indicator=[{"IndicatorID": {"id": "1"}, "Observable": bulk("site-uri", "http://x/ y", "http://x/")}]))
    yield same("and so is a part of a list", run(*words, given=json.dumps(some).encode())[2].count(
        "1 values that haven't the form of their kind at /Incident/0/Indicator/0/Observable/BulkObservable\n"), 1)
    yield same("what can't be a pattern is named", "without a value that is known at /Incident/0/Indicator/0/Observable" in run(
        *words, given=json.dumps(unfit).encode())[2])
    redacted = {"classes": 1, "document": value["document"], "label": "TLP:GREEN", "readable": True, "withheld": []}
    yield same("what iodef-redact prints wants a number", run(*words, given=json.dumps(redacted).encode())[2],
               "iodef-hub-stix: refused: the input doesn't tell its incident's number (--incident NUMBER names it)\n")
    told = json.loads(run(*words, "--incident", "1", given=json.dumps(redacted).encode())[1])["objects"]
    ids = [{each["id"] for each in it if each["type"] in ("ipv4-addr", "observed-data", "report")} for it in (told, objects)]
    yield same("and has the same ids as the hub's answer", ids[0], ids[1])
    others, _ = objects_of(Excerpt.of_answer(value, "b"), NOW)
    yield same("another hub's are others", {each["id"] for each in made(value)} & {each["id"] for each in others}, set())
    for text in (run("--help")[1], COMMAND.with_suffix(".1").read_text()):
        told = " ".join(text.split())
        yield same("help and page tell of markings and of iodef-hub-taxii", [each for each in (
            "an object without a marking", "becomes TLP:RED", "GenerationTime", "feed both into one consumer") if each not in told.replace(
            "An object without", "an object without")], [])
    rows = run("table")[1].splitlines()
    yield same("the table counts its rows from memory", rows[-1].startswith(f"{len(rows) - 2} rows: "))


def checks(context: Context) -> Check:
    yield from by_hand()
    yield from of_command()
    yield from of_back()
    yield from of_back_told()
    yield from of_hostile()
    yield from of_odd(context)
    if context.program is not None:
        yield from of_generated(context)
