"""Documents in XML and their reports in JSON, both written by hand; the table, the limits, schemas and the words."""
from __future__ import annotations

import contextlib
import io
import json
import os
import pathlib
import re
import shutil
import socket
import subprocess
import sys
import xml.etree.ElementTree as ElementTree
from collections.abc import Iterator
from dataclasses import dataclass
from typing import Any

import iodef_hub_misp as misp
from common import TOP
from iodef_hub_xml.table import MEMORY, rows

from . import xml_generated as generated
from .context import Context, same

CLIENTS = TOP / "clients" / "python"
COMMAND = CLIENTS / "iodef-hub-xml"
IODEF = "urn:ietf:params:xml:ns:iodef-2.0"
DS = "http://www.w3.org/2000/09/xmldsig#"
ENUM, SCI = "urn:ietf:params:xml:ns:iodef-enum-1.0", "urn:ietf:params:xml:ns:iodef-sci-1.0"
EXAMPLES = [*sorted((TOP / "docs" / "examples").glob("*.json")), *sorted((TOP / "demo" / "reports").glob("*.json"))]


def command(*words: str | pathlib.Path, given: bytes = b"") -> tuple[int, bytes, str]:
    ran = subprocess.run([sys.executable, COMMAND, *words], input=given, capture_output=True, timeout=100)
    return ran.returncode, ran.stdout, ran.stderr.decode()


def document(inside: str, attributes: str = "") -> bytes:
    """A document in XML whose Incident has this inside."""
    return (
        f'<IODEF-Document version="2.00" xmlns="{IODEF}" xmlns:ds="{DS}" xmlns:enum="{ENUM}" xmlns:sci="{SCI}">'
        f"<Incident{attributes}>{inside}</Incident></IODEF-Document>"
    ).encode()


def incident_of(text: bytes) -> dict[str, Any]:
    found: dict[str, Any] = json.loads(text)["Incident"][0]
    return found


@dataclass(frozen=True)
class Case:
    """What an Incident has inside, in XML and in JSON, and what is said of it."""

    ways: str
    name: str
    xml: str
    json: str
    said: list[str]


def cases() -> Iterator[Case]:
    """Those of xml_cases.txt."""
    for block in (TOP / "scripts/try/exchange.d/xml_cases.txt").read_text().split("\n== ")[1:]:
        head, *lines = block.rstrip("\n").replace("\n     ", " ").split("\n")
        ways, _, name = head.partition(": ")
        found = {kind: [line[5:] for line in lines if line[:5].rstrip() == kind] for kind in ("xml", "json", "said")}
        yield Case(ways, name, "".join(found["xml"]), " ".join(found["json"]), found["said"])


def in_json(incident: str) -> bytes:
    return f'{{"version": "2.0", "Incident": [{incident}]}}'.encode()


def said(errors: str) -> list[str]:
    """What standard error says, but for why hubs refuse a report."""
    lines = [line.removeprefix("iodef-hub-xml: ") for line in errors.splitlines()]
    return [line for line in lines if not line.startswith("hubs refuse")]


def is_like(text: bytes, inside: str) -> object:
    """Whether a document has this inside; what it has, if it doesn't."""
    found = generated.canonical(ElementTree.fromstring(text)) if text else None
    wanted = generated.canonical(ElementTree.fromstring(document(inside)))
    return found == wanted or text.decode()


def conversions() -> Iterator[tuple[bool, str]]:
    for case in cases():
        if case.ways in ("both ways", "to JSON"):
            status, text, errors = command("to-json", given=document(case.xml))
            found = incident_of(text) if text else None
            yield same(f"to JSON: {case.name}", (status, found, said(errors)), (0, json.loads(case.json), case.said))
        if case.ways in ("both ways", "to XML"):
            status, text, errors = command("to-xml", given=in_json(case.json))
            yield same(f"to XML: {case.name}", (status, is_like(text, case.xml), said(errors)), (0, True, case.said))


def examples(folder: pathlib.Path) -> Iterator[tuple[bool, str]]:
    for file in EXAMPLES:
        status, text, errors = command("to-xml", file)
        back = command("to-json", given=text)
        yield same(
            f"{file.name} is the same behind XML",
            (status, errors, back[0], json.loads(back[1] or b"0"), back[2]),
            (0, "", 0, json.loads(file.read_text()), ""),
        )
        answer = folder / "answer.json"
        answer.write_text(json.dumps({"classes": 1, "document": json.loads(file.read_text()), "number": 1, "withheld": [["", "H-RED"]]}))
        yield same(
            f"{file.name} in a hub's answer",
            command("to-xml", answer),
            (0, text, "iodef-hub-xml: something is withheld from you in 1 places\n"),
        )
    inside = '<Incident restriction="green"><IncidentID name="n">1</IncidentID></Incident>'
    text = f'<i:IODEF-Document xmlns:i="{IODEF}" version="2.00" xml:lang="en">{inside}</i:IODEF-Document>'.replace(
        "<Inc", "<i:Inc"
    ).replace("</Inc", "</i:Inc")
    wanted = {"version": "2.0", "lang": "en", "Incident": [{"restriction": "green", "IncidentID": {"id": "1", "name": "n"}}]}
    for encoding in ("utf-8", "utf-16", "iso-8859-1", "us-ascii"):
        given = f'<?xml version="1.0" encoding="{encoding}"?>{text}'.encode(encoding)
        yield same(f"{encoding} and another prefix", json.loads(command("to-json", given=given)[1]), wanted)


def examples_of(row_of: str, member: str, name: str) -> bool:
    """Whether an example has a member in a class of this name."""
    kinds = {(row.of, row.member): row for row in rows()}
    waiting: list[tuple[str, Any]] = [("IODEF-Document", json.loads(next(file for file in EXAMPLES if file.stem == name).read_text()))]
    while waiting:
        of, value = waiting.pop()
        if of == row_of and member in value:
            return isinstance(value[member], list) == (kinds[of, member].is_list or kinds[of, member].kind == "lines")
        for each, found in value.items():
            kind = kinds[of, each].kind
            waiting += [
                ("ML_STRING" if kind == "ml" else kind, one)
                for one in (found if isinstance(found, list) else [found])
                if isinstance(one, dict)
            ]
    return False


def table() -> Iterator[tuple[bool, str]]:
    found = list(rows())
    wrong = [f"{row.of} {row.member}" for row in found if row.where != MEMORY and not examples_of(row.of, row.member, row.where)]
    yield same("each row that names an example was read there", wrong, [])
    missed = [
        f"{row.of} {row.member}"
        for row in found
        if row.where == MEMORY and any(examples_of(row.of, row.member, file.stem) for file in EXAMPLES)
    ]
    yield same("no row from memory is in an example", missed, [])
    status, text, errors = command("table")
    last = text.decode().splitlines()[-1]
    yield same(
        "the table is printed, with its counts",
        (status, errors, last),
        (0, "", f"{len(found)} rows, {sum(row.where == MEMORY for row in found)} of them from memory"),
    )
    page = (TOP / "docs" / "EXCHANGE.md").read_text()
    yield same("docs/EXCHANGE.md has the same counts", re.findall(r"`iodef-hub-xml` has (\d+ rows, \d+ of them from memory)", page), [last])


def limits() -> Iterator[tuple[bool, str]]:
    """What hubs refuse is said. The counts are those of docs/HTTP.md, by hand."""
    needed = '<IncidentID name="n">1</IncidentID><GenerationTime>2026-01-01T00:00:00Z</GenerationTime><Contact/>'
    # purpose, IncidentID with id and name, GenerationTime, Contact, the Incident and the root's version are 8 lines.
    for count, wanted in ((4088, []), (4089, ["hubs refuse this report: an Incident has 4097 lines, and at most 4096 are accepted"])):
        status, text, errors = command("to-json", given=document(needed + "<Description>d</Description>" * count, ' purpose="other"'))
        yield same(f"{count} Descriptions", (status, [each.removeprefix("iodef-hub-xml: ") for each in errors.splitlines()]), (0, wanted))
    empty = command("to-json", given=document(needed + "<Description/>", ' purpose="other"'))[1]
    for more, wanted in ((0, []), (1, ["hubs refuse this report: it has 262145 bytes, and at most 262144 are accepted"])):
        text = "d" * (262_144 - (len(empty) - 1) + more)
        status, _, errors = command("to-json", given=document(f"{needed}<Description>{text}</Description>", ' purpose="other"'))
        yield same(f"{262_144 + more} bytes", (status, [each.removeprefix("iodef-hub-xml: ") for each in errors.splitlines()]), (0, wanted))
    _, _, errors = command("to-json", given=document("<EventData>" * 31 + "</EventData>" * 31))
    yield same(
        "a deep report that lacks something",
        [each.removeprefix("iodef-hub-xml: hubs refuse this report: ") for each in errors.splitlines()],
        [f"/Incident/0 lacks {name}" for name in ("Contact", "GenerationTime", "IncidentID", "purpose")],
    )
    _, _, errors = command("to-json", given=document(needed + "<EventData>" * 32 + "</EventData>" * 32, ' purpose="other"'))
    yield same(
        "a report that is too deep", errors, "iodef-hub-xml: hubs refuse this report: a line is 33 deep, and at most 32 are accepted\n"
    )


SCHEMA = """<schema xmlns="http://www.w3.org/2001/XMLSchema" targetNamespace="%s" xmlns:i="%s" elementFormDefault="qualified">%s
 <element name="IODEF-Document"><complexType><sequence><element name="Incident"><complexType><sequence>
  <element name="Description" type="string" maxOccurs="2"/></sequence>
  <attribute name="restriction" type="string" default="private"/></complexType></element></sequence>
  <attribute name="version" type="string" use="required"/></complexType></element></schema>"""


def schemas(context: Context) -> Iterator[tuple[bool, str]]:
    file = context.folder / "iodef.xsd"
    file.write_text(SCHEMA % (IODEF, IODEF, ""))
    status, text, _ = command("to-json", "--schema", file, given=document("<Description>d</Description>"))
    yield same("a document is valid, and gets no label by the schema's default", (status, incident_of(text)), (0, {"Description": ["d"]}))
    status, text, errors = command("to-json", "--schema", file, given=document("<Note/>"))
    yield same(
        "one that isn't is refused",
        (status, text, errors.split(";")[0].split(" Element")[0]),
        (1, b"", "iodef-hub-xml: refused: NotValid: by the schema, line 1:"),
    )
    status, text, errors = command("to-xml", "--schema", file, given=in_json('{"Description": ["a", "b"]}'))
    yield same(
        "to XML: what is valid", (status, is_like(text, "<Description>a</Description><Description>b</Description>"), errors), (0, True, "")
    )
    status, text, errors = command("to-xml", "--schema", file, given=in_json('{"Description": ["a", "b", "c"]}'))
    yield same("to XML: what isn't", (status, text, "NotValid" in errors), (1, b"", True))
    status, text, errors = command("to-json", "--schema", context.folder / "none.xsd", given=document(""))
    yield same("a schema that isn't there", (status, text, "No such file" in errors, "Traceback" in errors), (2, b"", True, False))
    (context.folder / "bad.xsd").write_text("<schema")
    status, text, errors = command("to-json", "--schema", context.folder / "bad.xsd", given=document(""))
    yield same("a schema that is none", (status, text, errors.startswith("iodef-hub-xml: refused: BadSchema: ")), (1, b"", True))
    yield from imported(context, file)


def imported(context: Context, file: pathlib.Path) -> Iterator[tuple[bool, str]]:
    """A schema that imports another by the network, and one that imports a file beside it."""
    other = context.folder / "other.xsd"
    other.write_text('<schema xmlns="http://www.w3.org/2001/XMLSchema" targetNamespace="urn:o"/>')
    with socket.create_server(("127.0.0.1", next(context.ports))) as listener:
        listener.setblocking(False)
        for location, is_read in ((f"http://127.0.0.1:{listener.getsockname()[1]}/o.xsd", False), ("other.xsd", True)):
            file.write_text(SCHEMA % (IODEF, IODEF, f'<import namespace="urn:o" schemaLocation="{location}"/>'))
            status, text, errors = command("to-json", "--schema", file, given=document("<Description>d</Description>"))
            try:
                asked = bool(listener.accept())
            except BlockingIOError:
                asked = False
            yield same(
                f"a schema that imports {'a file' if is_read else 'by the network'}",
                (status, bool(text), asked),
                (0, True, False) if is_read else (1, False, False),
            )


def words() -> Iterator[tuple[bool, str]]:
    for given, wanted in (
        ((), 2),
        (("to-json", "/nowhere"), 2),
        (("to-json", "/tmp"), 2),
        (("other",), 2),
        (("--help",), 0),
        (("to-xml", "--help"), 0),
    ):
        status, text, errors = command(*given)
        yield same(f"the words {' '.join(given) or '(none)'}", (status, bool(text), "Traceback" in errors), (wanted, wanted == 0, False))
    with open("/dev/full", "wb") as full:
        ran = subprocess.run([sys.executable, COMMAND, "table"], stdout=full, stderr=subprocess.PIPE)
    yield same("a full disk", (ran.returncode, b"Traceback" in ran.stderr), (2, False))


def packaged(folder: pathlib.Path) -> Iterator[tuple[bool, str]]:
    """The commands as the Debian package has them: each alone in a folder, with the modules in another one."""
    for name in ("bin", "client"):
        (folder / name).mkdir(parents=True)
    for each in CLIENTS.glob("iodef_hub*"):
        (shutil.copytree if each.is_dir() else shutil.copy)(each, folder / "client" / each.name)
    for command in sorted(each for each in CLIENTS.glob("iodef-hub-*") if not each.suffix):
        file = folder / "bin" / command.name
        file.write_text(command.read_text().replace("/usr/share/iodef-hub/client", str(folder / "client")))
        ran = subprocess.run([sys.executable, file, "--help"], env={"PATH": os.environ["PATH"]}, cwd=folder, capture_output=True)
        yield same(f"{command.name} runs where the package has it", (ran.returncode, ran.stderr), (0, b""))


def of_misp() -> Iterator[tuple[bool, str]]:
    """What the bridge to MISP writes is the same behind XML, but for labels that XML can't hold."""
    folder = CLIENTS / "examples"
    mapping = misp.Mapping.read((folder / "map.json").read_bytes())
    for name, fault in (
        ("types", ""),
        ("objects", "LabelNotHeld: IndicatorExpression has no label in XML"),
        ("hostile", "BadCharacter: XML has no character U+001B"),
    ):
        with contextlib.redirect_stderr(io.StringIO()):
            (made,) = misp.to_iodef((folder / f"{name}.json").read_bytes(), mapping, misp.Choices(own_tags=True))
        status, text, errors = command("to-xml", given=json.dumps(made.document).encode())
        if fault:
            yield same(
                f"{name}.json of MISP is refused",
                (status, text, errors.startswith(f"iodef-hub-xml: refused: {fault}: /Incident/0/")),
                (1, b"", True),
            )
        else:
            yield same(
                f"{name}.json of MISP is the same behind XML",
                (status, json.loads(command("to-json", given=text)[1] or b"0")),
                (0, made.document),
            )


def checks(context: Context) -> Iterator[tuple[bool, str]]:
    yield from conversions()
    yield from examples(context.folder)
    yield from table()
    yield from limits()
    yield from schemas(context)
    yield from words()
    yield from packaged(context.folder / "package")
    yield from of_misp()
