"""Hostile files: each ends with the fault that is named here, status 1 and nothing written, within 10 seconds and 500 MB."""
from __future__ import annotations

import base64
import json
import resource
import subprocess
import sys
import time
from collections.abc import Iterator

from common import TOP

from .context import Context, same
from .xml_cases import COMMAND, DS, document

SECONDS, BYTES = 10, 500_000_000
WANTED = 200
LONGEST = 8 * 1024 * 1024
Case = tuple[str, bytes, str]  # what it is, the file, and the fault
WHOLE = document(
    '<IncidentID name="n">1</IncidentID><Contact role="creator" restriction="green"><ContactName>&#228;</ContactName></Contact>'
    '<AdditionalData dtype="xml"><a xmlns="urn:a"/></AdditionalData><!-- c --><Description><![CDATA[<d>]]></Description>'
)
PLACES = ("file:///etc/passwd", "http://127.0.0.1:9/x", "/dev/zero", "php://filter/x", "\\\\server\\share")
NO_UTF8 = {"any": b"\xff", "half a character": b"\xc3", "a long form": b"\xc0\xaf", "a surrogate": b"\xed\xa0\x80", "Latin-1": b"\xe4"}
ENCODINGS = ("utf-16", "utf-32", "utf-7", "nonsense", "shift_jis", "ebcdic-cp-us", "base64", "rot13", "idna", "undefined",
             "\0", "a" * 9_999)
MANY = ("<x/>", "<?x?>", "<Description/>", '<x a="" b="" c=""/>')


def entity(inside: str, used: str = "&a;") -> bytes:
    return f"<!DOCTYPE IODEF-Document [{inside}]>".encode() + document(f"<Description>{used}</Description>")


def laughs(count: int, times: int) -> str:
    inner = "".join(f'<!ENTITY e{at} "{f"&e{at - 1};" * times}">' for at in range(1, count))
    return f'<!ENTITY e0 "ha">{inner}<!ENTITY a "&e{count - 1};">'


def with_types() -> Iterator[Case]:
    """Document types and entities."""
    for count, times in ((10, 10), (30, 2), (64, 16)):
        yield f"entities in entities, {count} of {times}", entity(laughs(count, times)), "HasDtd"
    yield "a long entity often", entity(f'<!ENTITY a "{"a" * 100_000}">', "&a;" * 100_000), "HasDtd"
    yield "an entity of itself", entity('<!ENTITY a "&a;">'), "HasDtd"
    for where in PLACES:
        yield f"an entity of {where}", entity(f'<!ENTITY a SYSTEM "{where}">'), "HasDtd"
        yield f"a parameter entity of {where}", entity(f'<!ENTITY % p SYSTEM "{where}"> %p;'), "HasDtd"
        yield f"a document type of {where}", f'<!DOCTYPE IODEF-Document SYSTEM "{where}">'.encode() + WHOLE, "HasDtd"
    yield "a public document type", b'<!DOCTYPE IODEF-Document PUBLIC "-//x" "x.dtd">' + WHOLE, "HasDtd"
    yield "a bare document type", b"<!DOCTYPE IODEF-Document>" + WHOLE, "HasDtd"
    yield "a default of an attribute", b'<!DOCTYPE x [<!ATTLIST Contact restriction CDATA "public">]>' + WHOLE, "HasDtd"
    yield "a notation", entity('<!NOTATION n SYSTEM "n"><!ENTITY a SYSTEM "x" NDATA n>', ""), "HasDtd"
    yield "a document type in UTF-16", entity(laughs(10, 10)).decode().encode("utf-16"), "HasDtd"


def too_much() -> Iterator[Case]:
    for depth in (126, 1_000, 100_000, 700_000):
        yield f"{depth} EventData inside each other", document("<EventData>" * depth), "TooDeep"
    yield "deep elements of nobody", document("<x>" * 1_000), "TooDeep"
    yield "deep elements in a value", document(f'<AdditionalData dtype="xml">{"<x>" * 1_000}</AdditionalData>'), "TooDeep"
    yield "a byte too many", document("<Description>" + "d" * LONGEST), "TooLarge"
    yield "zeros", bytes(LONGEST + 1), "TooLarge"
    for inside in MANY:
        yield f"very many {inside}", document(inside * 250_000), "TooLarge"
    yield "many attributes of one element", document("<x " + " ".join(f'a{at}=""' for at in range(250_000)) + "/>"), "TooLarge"
    yield "many prefixes of one element", document("<x " + " ".join(f'xmlns:a{at}="u"' for at in range(200)) + "/>"), "TooLarge"
    yield "many prefixes", document('<x xmlns:a="u"/>' * 6_000), "TooLarge"
    yield "many prefixes in each other", document("".join(f'<x xmlns:a{at}="u{at}">' for at in range(110))), "TooLarge"


def not_whole() -> Iterator[Case]:
    """Files that are cut off, or that aren't what they say of their encoding."""
    for place in (0, 1, 2, 5, 14, 20, 60, *range(100, len(WHOLE), 37), len(WHOLE) - 1):
        yield f"the first {place} bytes", WHOLE[:place], "NotXml"
    for name, bad in NO_UTF8.items():
        yield f"no UTF-8: {name}", WHOLE.replace(b"&#228;", bad), "NotXml"
    for name in ENCODINGS:
        yield f"declared as {name[:20]!r}", f'<?xml version="1.0" encoding="{name}"?>{WHOLE.decode()}'.encode(), "NotXml"
    for name in ("utf-32", "utf-32-be", "cp037"):
        yield f"in {name}", WHOLE.decode().encode(name), "NotXml"
    yield "a version that is none", b'<?xml version="&lt;"?>' + WHOLE, "NotXml"


def of_json(incident: object) -> bytes:
    return json.dumps({"version": "2.0", "Incident": [incident]}).encode()


def long_json() -> Iterator[Case]:
    text = of_json({"IncidentID": {"id": "ä", "name": "n"}})
    for place in (1, 10, len(text) // 2, len(text) - 1):
        yield f"the first {place} bytes of JSON", text[:place], "NotJson"
    yield "a byte order mark", b"\xef\xbb\xbf" + text, "NotJson"
    yield "UTF-16", text.decode().encode("utf-16"), "NotJson"
    yield "no UTF-8", b'{"a":"\xff"}', "NotJson"
    yield "a very long number", b'{"a":' + b"9" * 100_000 + b"}", "NotJson"
    yield "many members, one twice", b"{" + b",".join(b'"a%d":1' % at for at in range(300_000)) + b',"a0":1}', "DoubledMember"
    whole = b'{"Incident":[{' + b'"EventData":[{' * 130 + b"}]" * 130 + b"}]}"
    for bad in (b"[" * 100_000, b'{"a":' * 100_000, b'{"EventData":[' * 500, whole):
        yield f"{bad[:28].decode()} often", bad, "TooDeep"
    yield "a byte too many", b" " * (LONGEST + 1), "TooLarge"
    yield "very many classes", b'{"Incident":[{"EventData":[' + b",".join([b"{}"] * 250_000) + b"]}]}", "TooLarge"
    yield "very many texts", b'{"Incident":[{"Description":[' + b",".join([b'""'] * 250_000) + b"]}]}", "TooLarge"
    yield "very many members", b'{"Incident":[{' + b",".join(b'"a%d":1' % at for at in range(250_000)) + b"}]}", "TooLarge"


# In a value that is XML by its `dtype`. No document type can be at its beginning, so one is no XML.
VALUES = {
    entity(laughs(10, 10)).decode(): "NotXml",
    entity('<!ENTITY a SYSTEM "file:///etc/passwd">').decode(): "NotXml",
    '</content><!DOCTYPE x [<!ENTITY a "b">]><content>': "NotXml",
    "</content><content>": "NotXml",
    "<x>": "NotXml",
    "&nbsp;": "NotXml",
    "&#1;": "NotXml",
    "<p:x/>": "NotXml",
    "<x>" * 1_000: "TooDeep",
    "<x/>" * 250_000: "TooLarge",
    "\ud800": "BadCharacter",
}
# In base64: in Signature, and in RawData.
BOMB = f'<!DOCTYPE x [{laughs(10, 10)}]><Signature xmlns="{DS}">&a;</Signature>'.encode()
WRAPPED = {
    b"\xff": ("NotBase64", "NotBase64"), b"<": ("NotXml", "NotXml"), BOMB: ("HasDtd", "NotXml"), b"<x>" * 1_000: ("TooDeep", "TooDeep"),
}  # fmt: skip


def values_as_xml() -> Iterator[Case]:
    for value, fault in VALUES.items():
        yield f"a value {value[:40]!r}", of_json({"AdditionalData": [{"dtype": "xml", "value": value}]}), fault
    found = [(base64.b64encode(text).decode(), *faults) for text, faults in WRAPPED.items()]
    for text, fault, other in (*found, ("*", "NotBase64", "NotBase64"), ("YQ=", "NotBase64", "NotBase64")):
        file = {"File": [{"Signature": [text]}]}
        yield f"a Signature {text[:40]}", of_json({"EventData": [{"RecordData": [{"FileData": [file]}]}]}), fault
        yield f"RawData {text[:40]}", of_json({"Method": [{"AttackPattern": [{"RawData": [text]}]}]}), other
    other_element = base64.b64encode(b"<x/>").decode()
    yield "another element as X509Data", of_json({"EventData": [{"RecordData": [{"CertificateData": [
        {"Certificate": [{"X509Data": other_element}]}]}]}]}), "NotBase64"  # fmt: skip


def listed() -> Iterator[tuple[str, Case]]:
    """Those of xml_hostile.txt, each with the way that it is given to."""
    for line in (TOP / "scripts/try/exchange.d/xml_hostile.txt").read_text().replace("\n     ", "").split("\n"):
        what, _, rest = line.partition(" ")
        fault, _, text = rest.partition(" ")
        if what == "incident":
            yield "to-xml", (line[:100], f'{{"version": "2.0", "Incident": [{text}]}}'.encode(), fault)
        elif what in ("inside", "xml", "json"):
            given = json.loads(text)
            yield "to-xml" if what == "json" else "to-json", (line[:100], document(given) if what == "inside" else given.encode(), fault)


def limited() -> None:
    resource.setrlimit(resource.RLIMIT_AS, (BYTES, BYTES))


def told(way: str, text: bytes) -> tuple[object, ...]:
    """The status, whether something was written, the fault's name, whether it took little time, was no traceback and has short lines."""
    began, before = time.monotonic(), resource.getrusage(resource.RUSAGE_CHILDREN).ru_utime
    try:
        ran = subprocess.run([sys.executable, COMMAND, way], input=text, capture_output=True, timeout=10 * SECONDS, preexec_fn=limited)
    except subprocess.TimeoutExpired:
        return ("it doesn't end",)
    # On a machine with other work its own time counts.
    is_short = time.monotonic() - began < SECONDS or resource.getrusage(resource.RUSAGE_CHILDREN).ru_utime - before < SECONDS
    lines = ran.stderr.decode().splitlines()
    fault = lines[-1].removeprefix("iodef-hub-xml: refused: ").partition(":")[0] if lines else ""
    return ran.returncode, bool(ran.stdout), fault, is_short, b"Traceback" in ran.stderr, max(map(len, lines), default=0) < 10_000


def cases() -> Iterator[tuple[str, Case]]:
    for family in (with_types, too_much, not_whole):
        yield from (("to-json", case) for case in family())
    for family in (long_json, values_as_xml):
        yield from (("to-xml", case) for case in family())
    yield from listed()


def checks(context: Context) -> Iterator[tuple[bool, str]]:
    found = list(cases())
    yield same(f"there are {WANTED} hostile files", len(found) >= WANTED)
    for way, (what, text, fault) in found:
        yield same(f"{way} refuses {what}", told(way, text), (1, False, fault, True, False, True))
