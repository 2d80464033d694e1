"""STIX 2.1 to IODEF: a report of one Incident.

Each object becomes a class with a label of its own: of several markings the strictest, none is RED.
"""
from __future__ import annotations

import re
from collections import Counter
from collections.abc import Iterator, Sequence
from dataclasses import dataclass, field
from typing import Any, NamedTuple

from iodef_hub_ask.limits import lines_of
from iodef_hub_misp import HASHES, Unfit

from .lost import CARRIED, members_lost
from .marking import label_of_object, restriction_of, strictest
from .reading import Object, counted, moment_in, objects_in, text_in, texts_in, where
from .table import BY_KIND, VALUES
from .values import spelled

LONGEST_PATTERN = 8_192  # of which the values are looked for; a longer one is kept as a text
QUOTED = r"'((?:[^'\\]|\\\\|\\')*)'"
# The patterns that become values: comparisons for equality, joined by OR; all others are kept as texts.
COMPARISON = re.compile(rf"\s*([a-z0-9-]+:[A-Za-z0-9_.'-]+)\s*(=|ISSUBSET)\s*(?:{QUOTED}|([0-9]{{1,10}}))\s*")
OBSERVED = {row.type for row in VALUES}
KIND_OF_PATH = {each.path: each.kind for each in VALUES if not each.kind.endswith("-net")}
NETS = {"ipv4-addr": "ipv4-net", "ipv6-addr": "ipv6-net"}
ADDRESSES = {"ipv4-addr", "ipv4-net", "ipv6-addr", "ipv6-net", "site-uri", "e-mail", "asn", "mac"}
PATTERN_TYPE = re.compile(r"[A-Za-z0-9][A-Za-z0-9._-]{0,63}")
# From memory, as the roles of a Contact and the categories of a System.
RFC_ROLES = {
    "creator", "reporter", "admin", "tech", "provider", "user", "billing", "legal", "irt", "abuse", "cc", "cc-irt", "leo", "vendor",
    "vendor-support", "victim", "victim-notified",
}
CATEGORIES = {"source", "target", "intermediate", "sensor", "infrastructure"}


@dataclass
class Made:
    """The classes of an Incident so far."""

    name: str
    contacts: list[Object] = field(default_factory=list)
    indicators: list[Object] = field(default_factory=list)
    data: list[Object] = field(default_factory=list)
    methods: list[Object] = field(default_factory=list)
    left_out: Counter[str] = field(default_factory=Counter)
    as_texts: list[str] = field(default_factory=list)


class Report(NamedTuple):
    """A report, how much of its bundle isn't in it, and which patterns are in it as texts."""

    document: Object
    left_out: Counter[str]
    as_texts: list[str]


def extra(name: str, value: str) -> Object:
    return {"dtype": "string", "name": name, "value": value}


def unquoted(text: str) -> str:
    return re.sub(r"\\(.)", r"\1", text)


def values_in(pattern: str) -> list[tuple[str, str]] | None:
    """The kinds and values of a pattern that is fitted by each of them alone; None of any other pattern."""
    found = []
    for part in _parts(pattern) if len(pattern) <= LONGEST_PATTERN else ("",):
        read = COMPARISON.fullmatch(part)
        kind = KIND_OF_PATH.get(read[1]) if read else None
        if read is None or kind is None:
            return None
        text = unquoted(read[3]) if read[3] is not None else read[4]
        kind = NETS.get(kind, "") if "/" in text and kind in NETS else kind
        told = spelled(kind, text)
        if told is None or (read[2] == "ISSUBSET") != kind.endswith("-net"):
            return None
        found.append((kind, told))
    return found or None


def _parts(pattern: str) -> Iterator[str]:
    """What is between brackets and OR. Of other patterns a part isn't a comparison."""
    text = re.sub(rf"({QUOTED})|\]\s*OR\s*\[|\sOR\s", lambda found: found[0] if found[1] else "\0", pattern.strip())
    if text.startswith("[") and text.endswith("]"):
        yield from text[1:-1].split("\0")
    else:
        yield ""


def _bulk(kind: str, value: str) -> Object:
    told = "file-hash" if kind in HASHES else kind
    return {"BulkObservable": {"type": told, "BulkObservableList": [value]}}


def indicator_of(value: Object, made: Made) -> Object:
    """The Indicator of an indicator."""
    label = label_of_object(value)
    language, pattern = text_in(value, "pattern_type"), text_in(value, "pattern")
    if not PATTERN_TYPE.fullmatch(language):
        raise Unfit(f"{where(value)}: pattern_type is not a name")
    found = values_in(pattern) if language == "stix" else None
    if found is None:
        made.as_texts.append(f"{where(value)}, of type {language}")
        observed: Object = {"Observable": {"AdditionalData": [extra(f"{language}-pattern", pattern)]}}
    elif len(found) == 1:
        observed = {"Observable": _bulk(*found[0])}
    else:
        observed = {"IndicatorExpression": {"operator": "or", "Observable": [_bulk(*each) for each in found]}}
    described = [text for text in (text_in(value, "description") or text_in(value, "name"),) if text]
    times = {name: told for name, member in (("StartTime", "valid_from"), ("EndTime", "valid_until")) if (told := moment_in(value, member))}
    ident = {"id": value["id"], "name": made.name, "version": "1"}
    return {**restriction_of(label), "IndicatorID": ident, **({"Description": described} if described else {}), **times, **observed}


def contact_of(value: Object, is_author: bool) -> Object:
    """The Contact of an identity."""
    roles = [each for each in texts_in(value, "roles") if each in RFC_ROLES]
    role = {"role": "creator" if is_author else roles[0]} if is_author or roles else {"role": "ext-value", "ext-role": "stix-identity"}
    kind = "person" if text_in(value, "identity_class") == "individual" else "organization"
    reach = [each for each in text_in(value, "contact_information").splitlines() if re.fullmatch(r"[^\s@]+@[^\s@]+", each)]
    emails = {"Email": [{"EmailTo": each} for each in reach]} if reach else {}
    names = [text_in(value, "name") or "name unknown"]
    return {**restriction_of(label_of_object(value)), **role, "type": kind, "ContactName": names, **emails}


def value_of(value: Object) -> tuple[str, str] | None:
    """The kind and value of a cyber-observable object; None of one that the table lacks."""
    for row in [each for each in VALUES if each.type == value["type"]]:
        found = _member_at(value, row.member.split("\0"))
        told = spelled(row.kind, str(found)) if isinstance(found, (str, int)) and not isinstance(found, bool) else None
        if told is not None:
            return row.kind, told
    return None


def _member_at(value: Any, steps: Sequence[str]) -> object:
    for step in steps:
        value = value.get(step) if isinstance(value, dict) else None
    return value


def class_of(kind: str, value: str, category: str | None) -> Object:
    """What an EventData holds of an observed value."""
    if kind in ADDRESSES or kind == "domain-name":
        node: Object = {"DomainData": [{"system-status": "unknown", "domain-status": "unknown", "Name": value}]}
        if kind in ADDRESSES:
            node = {"Address": [{"category": kind, "value": value}]}
        return {"Flow": [{"System": [{**({"category": category} if category else {}), "Node": node}]}]}
    if kind in HASHES:
        held = {"HashData": {"scope": "file-contents", "Hash": [{"DigestMethod": HASHES[kind][1], "DigestValue": value}]}}
        return {"Record": {"RecordData": [{"FileData": [{"File": [held]}]}]}}
    if kind == "file-path":
        return {"Record": {"RecordData": [{"FileData": [{"File": [{"FileName": value}]}]}]}}
    if kind == "windows-reg-key":
        return {"Record": {"RecordData": [{"WindowsRegistryKeysModified": [{"Key": [{"KeyName": value}]}]}]}}
    return {"AdditionalData": [extra(f"stix-{BY_KIND[kind].type}", value)]}


def observed(value: Object | None, held: Object, made: Made) -> None:
    """An observed value; with its observation, if there is one."""
    found = value_of(held)
    if found is None:
        made.left_out[f"objects of type {held['type']}"] += 1
        return
    label = strictest([label_of_object(held), *([label_of_object(value)] if value else [])])
    roles = texts_in(value, "labels") if value else []
    category = next((each for each in roles if each in CATEGORIES), None)
    data = class_of(*found, category)
    if "spoofed" in roles and "Flow" in data:
        data["Flow"][0]["System"][0]["spoofed"] = "yes"
    first = moment_in(value, "first_observed") if value else None
    made.data.append({**restriction_of(label), **({"StartTime": first} if first else {}), **data})


def _observations(objects: dict[str, Object], made: Made) -> None:
    """The observed values, then the objects that no observation names."""
    observations = [each for each in objects.values() if each["type"] == "observed-data"]
    named = [(each, ref) for each in observations for ref in texts_in(each, "object_refs")]
    made.left_out["references to what the bundle lacks"] += sum(ref not in objects for _, ref in named)
    refs = {ref for _, ref in named}
    alone = [(None, name) for name, value in objects.items() if value["type"] in OBSERVED and name not in refs]
    for value, ref in [*((each, ref) for each, ref in named if ref in objects), *alone]:
        observed(value, objects[ref], made)


def _read(objects: dict[str, Object], author: str, made: Made) -> None:
    for name, value in objects.items():
        kind = value["type"]
        if kind in CARRIED or kind in OBSERVED:
            made.left_out.update(members_lost(value))
        if kind == "indicator":
            made.indicators.append(indicator_of(value, made))
        elif kind == "identity":
            made.contacts.append(contact_of(value, name == author))
        elif kind == "note":
            made.data.append({**restriction_of(label_of_object(value)), "Description": [text_in(value, "content")]})
        elif kind == "vulnerability":
            made.methods.append({"Reference": [{**restriction_of(label_of_object(value)), "Description": [text_in(value, "name")]}]})
        elif kind not in ("report", "observed-data") and kind not in OBSERVED:
            made.left_out[f"objects of type {kind}"] += 1
    _observations(objects, made)


def _report_of(objects: dict[str, Object], wanted: str) -> Object | None:
    reports = [each for each in objects.values() if each["type"] == "report"]
    if wanted:
        found = [each for each in reports if each["id"] == wanted]
        if not found:
            raise Unfit(f"the bundle has no report {wanted}")
        return found[0]
    if len(reports) > 1:
        raise Unfit(f"the bundle has {len(reports)} reports (--report ID chooses one)")
    return reports[0] if reports else None


def _chosen(objects: dict[str, Object], report: Object, made: Made) -> dict[str, Object]:
    """The objects that a report names, and the observed values, notes and authors that belong to them."""
    refs = {report["id"], *texts_in(report, "object_refs"), text_in(report, "created_by_ref")}
    for each in objects.values():
        if each["type"] == "note" and refs & set(texts_in(each, "object_refs")):
            refs.add(each["id"])
        if each["type"] in ("observed-data", "note") and each["id"] in refs:
            refs |= set(texts_in(each, "object_refs"))
    kept = {name: each for name, each in objects.items() if name in refs}
    if len(kept) < len(objects):
        made.left_out["objects that the report doesn't name"] += len(objects) - len(kept)
    return kept


def report_of(text: bytes, name: str, now: str, wanted: str = "") -> Report:
    """The report of a bundle. `name` is that of its IncidentID, and `now` is when it is made."""
    made = Made(name)
    objects = counted(objects_in(text), made.left_out)
    report = _report_of(objects, wanted)
    if report is not None:
        objects = _chosen(objects, report, made)
    elif not objects:
        raise Unfit("the bundle has no object that becomes a class")
    author = text_in(report, "created_by_ref") if report else ""
    _read(objects, author, made)
    label = label_of_object(report) if report else strictest(label_of_object(each) for each in objects.values())
    texts = [text for text in ([text_in(report, "description") or text_in(report, "name")] if report else []) if text]
    incident: Object = {
        "purpose": "reporting", **restriction_of(label), "IncidentID": {"id": report["id"] if report else min(objects), "name": name},
        "GenerationTime": (moment_in(report, "modified") or moment_in(report, "published") if report else None) or now,
        **({"Description": texts} if texts else {}),
        "Contact": made.contacts or [{"role": "creator", "type": "organization", "ContactName": [name]}],
    }
    for member, classes in (("Method", made.methods), ("Indicator", made.indicators), ("EventData", made.data)):
        incident |= {member: classes} if classes else {}
    return Report({"version": "2.0", "lang": "en", "Incident": [incident]}, made.left_out, made.as_texts)


def beyond_of(document: Object, size: int, most_bytes: int, most_lines: int) -> Sequence[str]:
    """Why hubs refuse a document of this size, if they do."""
    lines = lines_of(document)
    told = [f"{size} bytes, and hubs accept {most_bytes}"] if size > most_bytes else []
    return [*told, *([f"{lines} lines, and hubs accept {most_lines}"] if lines > most_lines else [])]


