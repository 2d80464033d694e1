"""Generated reports that are converted from XML and posted to a hub: what a key may read of them is all that is in its XML."""
from __future__ import annotations

import json
import os
import pathlib
import random
import subprocess
import sys
import urllib.parse
from collections.abc import Iterator
from typing import Any

from common import TOP
from iodef_hub_xml import documents, to_json, to_xml, tree
from iodef_hub_xml.faults import Notes
from small_hub import Hub, digest

from . import xml_generated as generated
from .context import Context, same
from .xml_changes import Changes, path_in
from .xml_cases import command

ASK = TOP / "clients" / "python" / "iodef-hub-ask"
REPORTS = 1000
ADMIN, SOURCE = "admin-key", "key-2"
# Who reads, with the strictest label that its clearance reaches: a community with the source is GREEN, a stranger CLEAR.
READERS = {"key-3": 1, "key-4": 0}
CLEAR, GREEN, AMBER, STRICT, RED = range(5)
HANDLINGS = {
    "public": CLEAR,
    "white": CLEAR,
    "partner": GREEN,
    "green": GREEN,
    "need-to-know": STRICT,
    "amber": STRICT,
    "private": RED,
    "red": RED,
    "default": RED,
}
EXTENDED = {"TLP:CLEAR": CLEAR, "TLP:WHITE": CLEAR, "TLP:GREEN": GREEN, "TLP:AMBER": AMBER, "TLP:AMBER+STRICT": STRICT, "TLP:RED": RED}


def circle(hub: Hub) -> None:
    """Organisations 2 to 4, the first two in a community."""
    for number, name in ((2, "Source"), (3, "Member"), (4, "Far")):
        hub.done(ADMIN, "POST", "/orgs", f"name={name}".encode())
        hub.done(ADMIN, "POST", "/persons", f"org={number}&name={name}&role=coordinator&key={digest(f'key-{number}')}".encode())
    hub.done(ADMIN, "POST", "/communities", b"name=east")
    for number in (2, 3):
        hub.done(ADMIN, "POST", "/communities/1/join", f"org={number}".encode())


def handling_of(value: dict[str, Any], around: int) -> int:
    label = value.get("restriction")
    if label is None:
        return around
    return EXTENDED.get(value["ext-restriction"].upper(), RED) if label == "ext-value" else HANDLINGS[label]


def places(value: Any, path: str, handling: int) -> Iterator[tuple[str, int, dict[str, Any]]]:
    """Each class with its path and handling."""
    if isinstance(value, list):
        for at, each in enumerate(value):
            yield from places(each, f"{path}/{at}", handling)
    elif isinstance(value, dict):
        own = handling_of(value, handling) if path else RED
        yield path, own, value
        for member, each in value.items():
            yield from places(each, f"{path}/{member}", own)


def needles_of(value: dict[str, Any]) -> set[str]:
    """Those that a class has directly."""
    plain = {
        member: [one for one in each if not isinstance(one, dict)] if isinstance(each, list) else each
        for member, each in value.items()
        if not isinstance(each, dict)
    }
    return {needle for needle, _ in generated.labels_in_json(plain)}


def wanted_of(document: dict[str, Any], gate: str, most: int) -> tuple[bool, set[str]]:
    """Whether a reader sees a class, and the needles that it then sees: those of the root and of each class that it sees."""
    seen = set()
    is_there = False
    for path, handling, value in places(document, "", RED):
        is_shut = bool(gate) and (path == gate or path.startswith(f"{gate}/"))
        if not path:
            seen |= needles_of(value)
        elif handling <= most and not is_shut:
            is_there = True
            seen |= needles_of(value)
    return is_there, seen if is_there else set()


def posted(hub: Hub, text: bytes, gate: str) -> int:
    query = "level=3" + (f"&gate=0:0:{urllib.parse.quote(gate, safe='')}" if gate else "")
    found: list[int] = hub.done(SOURCE, "POST", f"/incidents?{query}", text)["numbers"]
    return found[0]


def difference(hub: Hub, key: str, number: int, document: dict[str, Any], gate: str) -> tuple[str, set[str], int]:
    """What of a reader's XML isn't as the policy says, the needles that the reader sees, and how many it doesn't see."""
    is_there, wanted = wanted_of(document, gate, READERS[key])
    all_of = set().union(*(needles_of(value) for _, _, value in places(document, "", RED)))
    status, answer = hub.ask(key, "GET", f"/incidents/{number}")
    if status != 200:
        return ("" if status == 404 and not is_there else f"status {status}"), set(), len(all_of)
    excerpt, _ = documents.document_of(answer)
    text = tree.document_text(to_xml.root_of(excerpt, Notes()))
    found = set(generated.NEEDLE.findall(text))
    if found != wanted:
        return f"needles {sorted(found ^ wanted)[:3]}", found, 0
    if to_json.document_of(text.encode(), Notes()) != excerpt:
        return "the excerpt isn't the same behind XML", found, 0
    return "", found, len(all_of - wanted)


def generated_reports(hub: Hub, context: Context) -> Iterator[tuple[bool, str]]:
    faults: list[str] = []
    seen = withheld = 0
    changes = Changes(hub, SOURCE, tuple(READERS))
    for number in range(min(REPORTS, context.count)):
        chance = random.Random(f"{context.seed} gate {number}")
        document = to_json.document_of(generated.report(context.seed, number, is_whole=True), Notes())
        classes = [path for path, _, _ in places(document, "", RED) if path.startswith("/Incident/0/")]
        gate = chance.choice(classes) if chance.random() < 0.5 else ""
        incident = posted(hub, json.dumps(document).encode(), gate)
        for key in READERS:
            fault, found, less = difference(hub, key, incident, document, gate)
            seen, withheld = seen + len(found), withheld + less
            changes.before[incident, key] = found
            faults += [f"report {number} for {key}: {fault}"] if fault else []
        changes.change(incident, document, path_in(document, chance, incident, classes))
    yield same(
        f"of {min(REPORTS, context.count)} reports the XML of {len(READERS)} readers has the {seen} values that the policy shows, "
        f"and none of the {withheld} others",
        (faults[:5], seen > 0, withheld > 0),
        ([], True, True),
    )
    yield from changes.told()


def by_commands(hub: Hub, folder: pathlib.Path) -> Iterator[tuple[bool, str]]:
    """An example from XML to the hub and to another organisation's XML, by commands alone."""

    def ask(key: str, *words: str, given: bytes = b"") -> tuple[int, bytes]:
        room = {**os.environ, "IODEF_HUB_URL": f"http://127.0.0.1:{hub.port}", "IODEF_HUB_KEY": key, "XDG_STATE_HOME": str(folder)}
        ran = subprocess.run([sys.executable, ASK, *words], input=given, capture_output=True, env=room)
        return ran.returncode, ran.stdout

    source = command("to-xml", TOP / "docs" / "examples" / "phishing.json")[1]
    report = folder / "report.json"
    report.write_bytes(command("to-json", given=source)[1])
    status, answer = ask(SOURCE, "--json", "post", str(report), "3", "--any-community")
    (number,) = json.loads(answer)["numbers"]
    status, answer = ask("key-3", "--json", "show", str(number))
    status, text, errors = command("to-xml", given=answer)
    yield same(
        "the excerpt is XML, and what is withheld is said",
        (status, errors),
        (0, "iodef-hub-xml: something is withheld from you in 2 places\n"),
    )
    for needle, is_there in (
        ("j.doe@example.com", False),
        ("First victim", False),
        ("198.51.100.23", False),
        ("takeover-account", False),
        ("192.0.2.17", True),
        ("payroll-check.example.net", True),
    ):
        yield same(
            f"{needle} is in the source's XML, and in a member's{'' if is_there else ' not'}",
            (needle.encode() in source, needle.encode() in text),
            (True, is_there),
        )
    yield same("and it is the excerpt again", json.loads(command("to-json", given=text)[1]), json.loads(answer)["document"])
    yield from after_changes(hub, number)


def after_changes(hub: Hub, number: int) -> Iterator[tuple[bool, str]]:
    """The XML of an excerpt before and behind each change that shows more or less."""
    victim, node = "path=/Incident/0/Contact/1", "path=/Incident/0/EventData/1/Record/RecordData/0"
    changes = (
        ("a permission", "grant", f"revision=1&{victim}&org=3", (True, False)),
        ("and one more", "grant", f"revision=1&{node}&org=3", (True, True)),
        ("a gate", "gate", f"revision=1&{victim}&level=0", (False, True)),
        ("the gate opened", "gate", f"revision=1&{victim}&level=5", (True, True)),
        ("a withdrawal", "withdraw", f"{victim}&org=3", (False, True)),
        ("and one more", "withdraw", f"{node}&org=3", (False, False)),
        ("an address", "address", "person=3", (True, True)),
        ("its end", "unaddress", "person=3", (False, False)),
    )
    for what, change, words, wanted in changes:
        hub.done(SOURCE, "POST", f"/incidents/{number}/{change}", words.encode())
        status, text, _ = command("to-xml", given=hub.ask("key-3", "GET", f"/incidents/{number}")[1])
        yield same(
            f"what is withheld is in no XML behind {what} ({change})",
            (status, b"j.doe@example.com" in text, b"198.51.100.23" in text),
            (0, *wanted),
        )
    hub.done(SOURCE, "POST", f"/incidents/{number}/grant", b"revision=1&path=/Incident/0/Contact/1/Email/0&org=4")
    status, text, errors = command("to-xml", given=hub.ask("key-4", "GET", f"/incidents/{number}")[1])
    yield same(
        "an excerpt is refused for a label that the hub added where XML has none",
        (status, text, errors),
        (1, b"", "iodef-hub-xml: refused: LabelNotHeld: Email has no label in XML: /Incident/0/Contact/0/Email/0\n"),
    )


def checks(context: Context) -> Iterator[tuple[bool, str]]:
    if context.program is None:
        return
    hub = Hub(context.program, context.folder / "hub" / "hub.db", next(context.ports))
    hub.make(ADMIN)
    hub.start()
    try:
        circle(hub)
        yield from by_commands(hub, context.folder)
        yield from generated_reports(hub, context)
    finally:
        hub.stop()
