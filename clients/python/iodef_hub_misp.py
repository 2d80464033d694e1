#!/usr/bin/env python3
"""MISP events to IODEF reports for iodef-hub, and back: the library and the command iodef-hub-misp. Needs Python 3.11 only.

    iodef-hub-misp to-iodef --map MAP.json EVENT.json | iodef-hub-ask post-all --any-community -
    iodef-hub-ask --json show 1 | iodef-hub-misp to-misp --map MAP.json > event.json

It opens no connection. If a choice is in doubt, it takes the stricter one and says so on standard error. It refuses what doesn't
fit, with status 1. clients/README.md has the tables, and the form of the file that --map names.
"""
from __future__ import annotations

import argparse
import base64
import datetime
import ipaddress
import json
import pathlib
import re
import sys
import unicodedata
import uuid
from collections import Counter
from collections.abc import Iterator, Sequence
from dataclasses import dataclass, field, replace
from typing import Any, Union

from iodef_hub_ask.characters import shown
from iodef_hub_ask.limits import MOST_BYTES, MOST_GATES, MOST_LINES, lines_of

LAST_NUMBER = 2**32 - 1
LONGEST_INPUT = 64 * 1024 * 1024
LONGEST_VALUE = 65_535  # bytes of a value in MISP

# From the widest audience to the narrowest, with what IODEF writes.
LABELS: dict[str, dict[str, str]] = {
    "clear": {"restriction": "public"},
    "green": {"restriction": "partner"},
    "amber": {"restriction": "ext-value", "ext-restriction": "TLP:AMBER"},
    "amber+strict": {"restriction": "need-to-know"},
    "red": {"restriction": "private"},
}
ORDER = list(LABELS)
# What IODEF's labels are as TLP; `default` and any other text are red.
TLP_OF = {
    "public": "clear", "white": "clear", "partner": "green", "green": "green", "need-to-know": "amber+strict",
    "amber": "amber+strict", "private": "red", "red": "red",
}

HASHES = {  # hexadecimal digits, and the name of the method
    "md5": (32, "http://www.w3.org/2001/04/xmldsig-more#md5"),
    "sha1": (40, "http://www.w3.org/2000/09/xmldsig#sha1"),
    "sha224": (56, "http://www.w3.org/2001/04/xmldsig-more#sha224"),
    "sha256": (64, "http://www.w3.org/2001/04/xmlenc#sha256"),
    "sha384": (96, "http://www.w3.org/2001/04/xmldsig-more#sha384"),
    "sha512": (128, "http://www.w3.org/2001/04/xmlenc#sha512"),
}
HASH_OF = {method: name for name, (_, method) in HASHES.items()}
CVE = re.compile(r"(?i)CVE-[0-9]{4}-[0-9]{4,}")


def hex_of(kind: str | None, digest: str) -> str:
    """A digest of a kind in hexadecimal digits, if it is in base64, as XML writes it; else as it is."""
    length = HASHES[kind][0] if kind in HASHES else 0
    try:
        held = base64.b64decode("".join(digest.split()), validate=True)
    except ValueError:
        return digest
    return held.hex() if held and 2 * len(held) == length else digest


# What the value of a type is made of, joined by bars.
PARTS: dict[str, tuple[str, ...]] = {
    "ip-src": ("Address",), "ip-dst": ("Address",), "AS": ("Address",), "mac-address": ("Address",), "email": ("Address",),
    "email-src": ("Address",), "email-dst": ("Address",), "url": ("Address",), "uri": ("Address",),
    "domain": ("Name",), "hostname": ("Name",), "domain|ip": ("Name", "Address"), "hostname|port": ("Name", "Port"),
    "ip-src|port": ("Address", "Port"), "ip-dst|port": ("Address", "Port"), "port": ("Port",),
    "filename": ("FileName",), **{name: ("DigestValue",) for name in HASHES},
    **{f"filename|{name}": ("FileName", "DigestValue") for name in HASHES},
    "regkey": ("KeyName",), "regkey|value": ("KeyName", "Value"), "link": ("URL",), "vulnerability": ("Reference",),
    "email-subject": ("EmailSubject",), "email-x-mailer": ("EmailX-Mailer",),
}
# The type of a bulk list; that of an address is told by its form.
BULK = {
    "ip-src": "", "ip-dst": "", "domain": "domain-name", "hostname": "domain-name", "url": "site-uri", "uri": "site-uri",
    **{name: "file-hash" for name in HASHES}, "filename": "file-path", "email": "e-mail", "email-src": "e-mail", "email-dst": "e-mail",
    "email-subject": "email-subject", "email-x-mailer": "email-x-mailer", "AS": "asn", "mac-address": "mac", "regkey": "windows-reg-key",
    "user-agent": "http-user-agent", "mutex": "mutex",
}
# What a bulk list, an address of a category, is in MISP where no type is told.
TYPE_OF = {
    "ipv4-addr": "ip-dst", "ipv4-net": "ip-dst", "ipv6-addr": "ip-dst", "ipv6-net": "ip-dst", "domain-name": "domain", "site-uri": "url",
    "file-path": "filename", "e-mail": "email", "email-subject": "email-subject", "email-x-mailer": "email-x-mailer", "asn": "AS",
    "mac": "mac-address", "windows-reg-key": "regkey", "http-user-agent": "user-agent", "mutex": "mutex",
}
CATEGORIES = {
    "Internal reference", "Targeting data", "Antivirus detection", "Payload delivery", "Artifacts dropped", "Payload installation",
    "Persistence mechanism", "Network activity", "Payload type", "Attribution", "External analysis", "Financial fraud", "Support Tool",
    "Social network", "Person", "Other",
}
NETWORK = {"ip-src", "ip-dst", "ip-src|port", "ip-dst|port", "domain", "domain|ip", "hostname", "hostname|port", "url", "uri", "user-agent", "AS",
           "mac-address", "port"}
DELIVERY = {"filename", "email-src", "email-dst", "email-subject", "email-x-mailer", *HASHES, *(f"filename|{name}" for name in HASHES)}
DEFAULT_CATEGORY = {
    **{each: "Network activity" for each in NETWORK}, **{each: "Payload delivery" for each in DELIVERY}, "regkey": "Persistence mechanism",
    "regkey|value": "Persistence mechanism", "mutex": "Artifacts dropped", "link": "External analysis", "vulnerability": "External analysis",
    "email": "Social network",
}
WITHOUT_DATA = {"malware-sample": "filename|md5", "attachment": "filename"}  # as no file is carried
# The members of an event, an attribute and an object that are read.
SPREAD = {"distribution", "sharing_group_id", "SharingGroup"}
EVENT_READ = {
    "uuid", "info", "date", "timestamp", "publish_timestamp", "threat_level_id", "analysis", "published", "Orgc", "Tag", "EventTag", "Attribute", "Object",
    "ShadowAttribute", "EventReport", "extends_uuid", *SPREAD,
}
ATTRIBUTE_READ = {
    "type", "value", "category", "to_ids", "comment", "Tag", "AttributeTag", "first_seen", "last_seen", "object_relation", "deleted", "ShadowAttribute", *SPREAD,
}
OBJECT_READ = {"name", "meta-category", "template_uuid", "template_version", "comment", "deleted", "Attribute", "ObjectReference", *SPREAD}
# What means something to one MISP alone: numbers, UUIDs, times and switches. Nobody misses it, so it isn't counted.
OWN_MATTER = {
    "id", "org_id", "orgc_id", "event_id", "object_id", "user_id", "uuid", "timestamp", "Org", "attribute_count", "locked", "proposal_email_lock",
    "disable_correlation", "event_creator_email", "protected", "sighting_timestamp", "batch_import",
}
# What others are called where they are counted.
CALLED = {"Galaxy": "galaxies except for their tags", "Sighting": "sightings", "RelatedEvent": "related events", "CryptographicKey": "cryptographic keys", "data": "files"}
# Members of a report that say nothing where they have such a value; labels become tags.
USUAL = {
    "purpose": ("reporting",), "operator": ("or",), "system-status": ("unknown",), "domain-status": ("unknown",), "scope": ("file-contents",), "dtype": ("string",),
}
LABEL_MEMBERS = ("restriction", "ext-restriction")
EXTRAS = {
    "misp-threat-level", "misp-analysis", "misp-tag", "misp-type", "misp-category", "misp-relation", "misp-first-seen", "misp-last-seen", "misp-comment",
    "misp-to-ids", "misp-value", "misp-object", "misp-meta-category", "misp-template",
}
UUID = r"[0-9a-f]{8}(-[0-9a-f]{4}){3}-[0-9a-f]{12}"
KIND = r"[A-Za-z0-9][A-Za-z0-9|_ -]{0,63}"  # what a type of MISP looks like
MARK = "\0gate"  # stands for a gate in a class until its place is known


class Unfit(Exception):
    """What can't be converted, and why."""


class NoWhole:
    """A number with a fraction or an exponent, which the hub refuses."""

    def __init__(self, text: str) -> None:
        self.text = text


def counted(what: Counter[str]) -> str:
    return ", ".join(f"{count} {each}" for each, count in sorted(what.items()) if count)


def say(text: str) -> None:
    print(f"iodef-hub-misp: {shown(text)}", file=sys.stderr)


# Reading JSON


def _members(pairs: list[tuple[str, Any]]) -> dict[str, Any]:
    members = dict(pairs)
    if len(members) != len(pairs):
        raise Unfit("a member's name occurs twice in one object")
    return members


def _constant(text: str) -> Any:
    raise Unfit(f"{text} is not JSON")


def read_json(text: bytes) -> Any:
    if len(text) > LONGEST_INPUT:
        raise Unfit(f"the input has more than {LONGEST_INPUT} bytes")
    try:
        return json.loads(text.decode(), object_pairs_hook=_members, parse_float=NoWhole, parse_constant=_constant)
    except (ValueError, RecursionError) as fault:
        raise Unfit(f"the input is not JSON: {fault}") from None


def text_of(value: dict[str, Any], name: str, where: str, default: str | None = None) -> str:
    found = value.get(name)
    if isinstance(found, bool) or not isinstance(found, (str, int)):
        if found is None and default is not None:
            return default
        what = "missing" if found is None else f"a float, {found.text}; write it as a string" if isinstance(found, NoWhole) else "not a string"
        raise Unfit(f"{where}: {name} is {what}")
    try:
        text = str(found)
        text.encode()
    except ValueError:
        raise Unfit(f"{where}: {name} can't be written as text") from None
    return text


def flag_of(value: dict[str, Any], name: str, where: str) -> bool:
    found = value.get(name)
    if found in (None, False, 0, "0", ""):
        return False
    if found in (True, 1, "1"):
        return True
    raise Unfit(f"{where}: {name} is neither true nor false")


def list_of(value: dict[str, Any], name: str, where: str) -> list[dict[str, Any]]:
    found = value.get(name)
    if found is None:
        return []
    if not isinstance(found, list) or not all(isinstance(each, dict) for each in found):
        raise Unfit(f"{where}: {name} is not a list of objects")
    return found


def uuid_of(value: dict[str, Any], name: str, where: str) -> str:
    text = text_of(value, name, where).lower()
    if not re.fullmatch(UUID, text):
        raise Unfit(f"{where}: {name} is not a UUID")
    return text


def moment_of(text: str, where: str) -> str:
    """Seconds since 1970, as a date and time."""
    if not re.fullmatch(r"[0-9]{1,10}", text):
        raise Unfit(f"{where} is not a number of seconds")
    return datetime.datetime.fromtimestamp(int(text), datetime.timezone.utc).strftime("%Y-%m-%dT%H:%M:%SZ")


# The mapping file


@dataclass(frozen=True)
class Org:
    number: int
    name: str
    uuid: str


@dataclass(frozen=True)
class Mapping:
    """What the operator knows of both sides: organisations and sharing groups by MISP's UUID and the hub's number."""

    hub: str
    orgs: tuple[Org, ...]
    groups: dict[str, int]

    @staticmethod
    def read(text: bytes) -> Mapping:
        value = read_json(text)
        if not isinstance(value, dict) or set(value) - {"hub", "organisations", "groups"}:
            raise Unfit('the mapping must be {"hub": .., "organisations": [..], "groups": [..]}')
        hub = text_of(value, "hub", "the mapping")
        orgs, groups = [], {}
        for each in list_of(value, "organisations", "the mapping"):
            where = "an organisation of the mapping"
            orgs.append(Org(_number(each, where, {"number", "uuid", "name"}), text_of(each, "name", where), uuid_of(each, "uuid", where)))
        for each in list_of(value, "groups", "the mapping"):
            where = "a group of the mapping"
            number, name = _number(each, where, {"number", "uuid"}), uuid_of(each, "uuid", where)
            if name in groups:
                raise Unfit(f"{where}: {name} occurs twice")
            groups[name] = number
        if not hub or len({each.uuid for each in orgs}) < len(orgs) or len({each.number for each in orgs}) < len(orgs):
            raise Unfit("the mapping: hub is empty, or an organisation's number or uuid occurs twice")
        return Mapping(hub, tuple(orgs), groups)


def _number(value: dict[str, Any], where: str, names: set[str]) -> int:
    number = value.get("number")
    if type(number) is not int or not 1 <= number <= LAST_NUMBER or set(value) != names:
        raise Unfit(f"{where} must have {', '.join(sorted(names))}, and a number from 1 to {LAST_NUMBER}")
    return number


# MISP's events


@dataclass(frozen=True)
class Key:
    """How attributes are grouped: by the gate (level and group) and the label that they have besides the event's."""

    gate: tuple[int, int] | None
    label: str | None


FREE = Key(None, None)


@dataclass(frozen=True)
class Attribute:
    type: str
    value: str
    category: str
    to_ids: bool
    comment: str = ""
    tags: tuple[str, ...] = ()
    first_seen: str = ""
    last_seen: str = ""
    relation: str = ""
    key: Key = FREE


@dataclass(frozen=True)
class Thing:
    """An object of MISP."""

    name: str
    meta_category: str
    template: str
    comment: str
    key: Key
    attributes: tuple[Attribute, ...]


Item = Union[Attribute, Thing]


@dataclass(frozen=True)
class Choices:
    """What the operator chose."""

    untagged: str = "red"
    own_tags: bool = False
    stricter: bool = False
    split: bool = False
    unpublished: bool = False
    distribution: int | None = None  # of an event that has none


@dataclass
class Event:
    uuid: str
    info: str
    date: str
    made: str
    threat: str
    analysis: str
    level: int
    group: int | None
    label: str
    tags: tuple[str, ...]
    org: Org
    org_name: str
    items: list[Item]


def strictest(labels: Sequence[str]) -> str:
    return max(labels, key=ORDER.index)


def tlp_of(tag: str) -> str | None:
    """The label of a tag, if it is a TLP tag. One that looks like TLP and isn't known is red."""
    text = tag.strip().lower()
    if not re.match(r"tlp\s*[^0-9a-z\s]|tlp\s", unicodedata.normalize("NFKC", text).strip().lower() + " "):
        return None
    name = text.removeprefix("tlp:")
    return "clear" if name == "white" else name if name in LABELS else "red"


@dataclass
class Tags:
    """The tags of an event or attribute: TLP tags that are shared, TLP tags that are local, others, and how many others are local."""

    shared: list[str] = field(default_factory=list)
    local: list[str] = field(default_factory=list)
    others: list[str] = field(default_factory=list)
    kept_back: int = 0


def tags_of(value: dict[str, Any], where: str) -> Tags:
    tags = Tags()
    nested = []
    for name in ("EventTag", "AttributeTag"):
        for each in list_of(value, name, where):
            if not isinstance(each.get("Tag"), dict):
                raise Unfit(f"{where}: {name} has no Tag")
            nested.append({**each["Tag"], "local": each.get("local")})
    for each in [*list_of(value, "Tag", where), *nested]:
        name = text_of(each, "name", f"{where}: a tag")
        is_local = flag_of(each, "local", f"{where}: a tag") or "exportable" in each and not flag_of(each, "exportable", f"{where}: a tag")
        label = tlp_of(name)
        if label is not None:
            (tags.local if is_local else tags.shared).append(label)
            if label == "red" and name.strip().lower() != "tlp:red":  # a stranger, or a look-alike
                say(f"{where}: the tag {name} isn't known, so it is taken as tlp:red")
        elif is_local:
            tags.kept_back += 1
        else:
            tags.others.append(name)
    return tags


def names_group(value: dict[str, Any], where: str) -> bool:
    return bool(value.get("SharingGroup")) or text_of(value, "sharing_group_id", where, "0") not in ("", "0")


class Reader:
    """Reads one event."""

    def __init__(self, mapping: Mapping, choices: Choices) -> None:
        self.mapping, self.choices = mapping, choices
        self.left_out: Counter[str] = Counter()
        self.noted: Counter[str] = Counter()
        self.group_uuids: dict[str, str] = {}
        self.label = "red"

    def event(self, value: dict[str, Any]) -> Event:
        where = "Event"
        if not flag_of(value, "published", where) and not self.choices.unpublished:
            raise Unfit("Event isn't published (--unpublished accepts it)")
        self._look_whole(value)
        self._note_groups(value)
        level, group = self._event_distribution(value)
        orgc = value.get("Orgc")
        if not isinstance(orgc, dict):
            raise Unfit("Event: Orgc is missing")
        org = next((each for each in self.mapping.orgs if each.uuid == uuid_of(orgc, "uuid", "Orgc")), None)
        if org is None:
            raise Unfit(f"Orgc: the organisation {uuid_of(orgc, 'uuid', 'Orgc')} has no entry in the mapping")
        tags = self._tags(value, where)
        if not tags.shared:
            say(f"Event has no TLP tag that is shared, so it is taken as tlp:{self.choices.untagged}")
        elif len(set(tags.shared)) > 1:
            say(f"Event has several TLP tags, so the strictest is taken, tlp:{strictest(tags.shared)}")
        self.label = strictest([*(tags.shared or [self.choices.untagged]), *tags.local])
        items: list[Item] = [each for each in (self._attribute(one, f"Attribute {place}") for place, one in enumerate(list_of(value, "Attribute", where))) if each]
        items += [each for each in (self._thing(one, f"Object {place}") for place, one in enumerate(list_of(value, "Object", where))) if each]
        for name, what in (("ShadowAttribute", "proposals"), ("EventReport", "event reports")):
            self.left_out[what] += len(list_of(value, name, where))
        if text_of(value, "extends_uuid", where, ""):
            self.left_out["references to the event that this one extends"] += 1
        self._count_others(value, EVENT_READ, "events")
        if any(self.noted.values()):
            say("noted: " + counted(self.noted))
        if any(self.left_out.values()):
            say("left out: " + counted(self.left_out))
        made = text_of(value, "publish_timestamp", where, "0")
        made = made if made not in ("", "0") else text_of(value, "timestamp", where)
        return Event(
            uuid_of(value, "uuid", where), text_of(value, "info", where), _date(text_of(value, "date", where, "")), moment_of(made, "Event: publish_timestamp"),
            _one_of(value, "threat_level_id", "1234", "4"), _one_of(value, "analysis", "012", "0"), level, group, self.label, tuple(tags.others), org,
            text_of(orgc, "name", "Orgc", org.name), items,
        )

    def _note_groups(self, value: Any) -> None:
        """The UUIDs of the sharing groups that the event has anywhere, by their number in that MISP."""
        waiting = [value]
        while waiting:
            each = waiting.pop()
            if isinstance(each, dict):
                group = each.get("SharingGroup")
                if isinstance(group, dict) and group:
                    name = uuid_of(group, "uuid", "SharingGroup")
                    for number in {text_of(group, "id", "SharingGroup", ""), text_of(each, "sharing_group_id", "SharingGroup", "")} - {"", "0"}:
                        if self.group_uuids.setdefault(number, name) != name:
                            raise Unfit(f"the sharing group {number} has two UUIDs")
                waiting += [each[name] for name in ("Attribute", "Object") if name in each]
            elif isinstance(each, list):
                waiting += each

    def _look_whole(self, value: dict[str, Any]) -> None:
        """Refuses an event of an index, which has the number of its attributes instead of them."""
        count = text_of(value, "attribute_count", "Event", "0")
        if count not in ("", "0") and "Attribute" not in value and "Object" not in value:
            raise Unfit(f"Event has {count} attributes by its attribute_count, but contains none; export the event")

    def _count_others(self, value: dict[str, Any], read: set[str], of: str) -> None:
        """Counts what is neither read nor of use to that MISP alone."""
        for name, found in value.items():
            if name not in read and name not in OWN_MATTER and not name.startswith("_") and found not in (None, "", "0", 0, [], {}):
                what = CALLED.get(name) or (name if of == "attributes" else f"{name} of {of}")
                self.left_out[what] += len(found) if isinstance(found, list) else 1

    def _tags(self, value: dict[str, Any], where: str) -> Tags:
        tags = tags_of(value, where)
        self.left_out["tags that are local or not exportable"] += tags.kept_back
        return tags

    def _event_distribution(self, value: dict[str, Any]) -> tuple[int, int | None]:
        """The event's own, or the one that the operator chose if the event has none."""
        chosen = self.choices.distribution
        if value.get("distribution") is not None:
            if chosen is not None:
                say("Event has its own distribution, which is used instead of --distribution")
            return self._distribution(value, "Event", 4)
        if names_group(value, "Event"):
            raise Unfit("Event: distribution is missing, and a sharing group is named; write 4 if it is for that group")
        if chosen is None:
            raise Unfit("Event: distribution is missing (--distribution NUMBER sets it)")
        return chosen, None

    def _distribution(self, value: dict[str, Any], where: str, most: int) -> tuple[int, int | None]:
        text = text_of(value, "distribution", where)
        if text not in list("012345")[: most + 1]:
            raise Unfit(f"{where}: the distribution {text} isn't known")
        if text != "4":
            return int(text), None
        number = text_of(value, "sharing_group_id", where, "0")
        own = value.get("SharingGroup")
        if isinstance(own, dict) and text_of(own, "id", where, number) != number and number != "0":
            raise Unfit(f"{where}: sharing_group_id and SharingGroup name different groups")
        name = uuid_of(own, "uuid", f"{where}: SharingGroup") if isinstance(own, dict) and own else self.group_uuids.get(number)
        if name is None:
            raise Unfit(f"{where}: the UUID of the sharing group {number} is missing")
        if name not in self.mapping.groups:
            raise Unfit(f"{where}: the sharing group {name} has no entry in the mapping")
        return 4, self.mapping.groups[name]

    def _gate(self, value: dict[str, Any], where: str) -> tuple[int, int] | None:
        """The gate of a distribution below an event's: none if it inherits, as a missing one does, or lets everybody pass."""
        if value.get("distribution") is None:
            if names_group(value, where):
                raise Unfit(f"{where}: distribution is missing, and a sharing group is named; write 4 if it is for that group")
            return None
        level, group = self._distribution(value, where, 5)
        return None if level in (3, 5) else (level, group or 0)

    def _attribute(self, value: dict[str, Any], where: str) -> Attribute | None:
        if flag_of(value, "deleted", where):
            self.left_out["deleted attributes"] += 1
            return None
        tags = self._tags(value, where)
        own = strictest([*tags.shared, *tags.local]) if tags.shared or tags.local else self.label
        is_own = self.choices.own_tags and tags.shared
        label = own if is_own else strictest([self.label, own])
        if tags.shared and label != own:
            self.noted["TLP tags of attributes that are wider than the event's, so the event's holds"] += 1
        self.left_out["proposals"] += len(list_of(value, "ShadowAttribute", where))
        kind = text_of(value, "type", where)
        if not re.fullmatch(KIND, kind):
            raise Unfit(f"{where}: type is not one of MISP's")
        if kind in WITHOUT_DATA:
            self.left_out[f"files of type {kind}, whose names and hashes are of type {WITHOUT_DATA[kind]}"] += 1
        self._count_others(value, ATTRIBUTE_READ | ({"data"} if kind in WITHOUT_DATA else set()), "attributes")
        kind = WITHOUT_DATA.get(kind, kind)
        text = text_of(value, "value", where)
        if kind in PARTS and class_of(kind, text) is None:
            self.noted["values that don't have the form of their type"] += 1
        return Attribute(
            kind, text, text_of(value, "category", where, DEFAULT_CATEGORY.get(kind, "Other")), flag_of(value, "to_ids", where),
            text_of(value, "comment", where, ""), tuple(tags.others), text_of(value, "first_seen", where, ""), text_of(value, "last_seen", where, ""),
            text_of(value, "object_relation", where, ""), Key(self._gate(value, where), label if label != self.label else None),
        )

    def _thing(self, value: dict[str, Any], where: str) -> Thing | None:
        if flag_of(value, "deleted", where):
            self.left_out["deleted objects"] += 1
            return None
        read = (self._attribute(one, f"{where}, Attribute {place}") for place, one in enumerate(list_of(value, "Attribute", where)))
        attributes = tuple(each for each in read if each)
        self.left_out["references between objects"] += len(list_of(value, "ObjectReference", where))
        self._count_others(value, OBJECT_READ | {"description"}, "objects")  # the description is the template's
        template = text_of(value, "template_uuid", where, "")
        version = text_of(value, "template_version", where, "")
        key = Key(self._gate(value, where), None)
        made = Thing(text_of(value, "name", where), text_of(value, "meta-category", where, ""), f"{template} {version}" if template else "",
                     text_of(value, "comment", where, ""), key, attributes)
        return made if attributes else None


def _date(text: str) -> str:
    try:
        return text and datetime.date.fromisoformat(text).isoformat()
    except ValueError:
        raise Unfit("Event: date is not a date") from None


def _one_of(value: dict[str, Any], name: str, known: str, default: str) -> str:
    text = text_of(value, name, "Event", default)
    if len(text) != 1 or text not in known:
        raise Unfit(f"Event: {name} is not one of {', '.join(known)}")
    return text


# IODEF's classes


def address_of(kind: str, value: str) -> str | None:
    """The category of an address of this type, None if the value isn't one."""
    if kind.startswith("ip-"):
        try:
            ipaddress.ip_interface(value)
        except ValueError:
            return None
        return ("ipv6" if ":" in value else "ipv4") + ("-net" if "/" in value else "-addr")
    form, category = {
        "AS": (r"(?i)(AS)?[0-9]{1,10}", "asn"), "mac-address": (r"(?i)[0-9a-f]{2}([:-][0-9a-f]{2}){5}", "mac"),
        "url": (r"[^\s\x00-\x1f]+", "site-uri"), "uri": (r"[^\s\x00-\x1f]+", "site-uri"),
    }.get(kind, (r"[^\s@]+@[^\s@]+", "e-mail"))
    return category if re.fullmatch(form, value) else None


def _domain(name: str) -> dict[str, Any] | None:
    return {"system-status": "unknown", "domain-status": "unknown", "Name": name} if re.fullmatch(r"[^\s|/]{1,253}", name) else None


def _port(text: str) -> list[dict[str, Any]] | None:
    return [{"Port": int(text)}] if re.fullmatch(r"[1-9][0-9]{0,4}", text) and int(text) < 65536 else None


def _file(name: str | None, kind: str, digest: str | None) -> dict[str, Any] | None:
    file: dict[str, Any] = {} if name is None else {"FileName": name}
    if digest is not None:
        length, method = HASHES[kind]
        if not re.fullmatch(rf"(?i)[0-9a-f]{{{length}}}", digest):
            return None
        file["HashData"] = {"scope": "file-contents", "Hash": [{"DigestMethod": method, "DigestValue": digest}]}
    return {"File": [file]} if name != "" else None


def class_of(kind: str, value: str) -> tuple[str, dict[str, Any]] | None:
    """The class for a value of this type, with its name; None if there is none or the value doesn't have its form."""
    made: dict[str, Any] | None = None
    name = "System"
    if kind in PARTS and PARTS[kind] == ("Address",):
        name, category = "Address", address_of(kind, value)
        made = {"category": category, "value": value} if category else None
    elif kind in ("domain", "hostname"):
        name, made = "DomainData", _domain(value)
    elif kind == "port":
        service = _port(value)
        made = {"Service": service} if service else None
    elif kind in ("ip-src|port", "ip-dst|port", "hostname|port") and value.count("|") == 1:
        host, _, port = value.partition("|")
        inner, service = class_of(kind.partition("|")[0], host), _port(port)
        if inner and service:
            made = {"Node": {inner[0]: [inner[1]]}, "Service": service}
            if kind.startswith("ip-"):
                made["category"] = "source" if kind == "ip-src|port" else "target"
    elif kind == "domain|ip" and value.count("|") == 1:
        host, _, address = value.partition("|")
        domain, inner = _domain(host), class_of("ip-dst", address)
        made = {"Node": {"DomainData": [domain], "Address": [inner[1]]}} if domain and inner else None
    elif kind == "filename" or kind in HASHES:
        name, made = "FileData", _file(value, "", None) if kind == "filename" else _file(None, kind, value)
    elif kind.startswith("filename|") and kind[9:] in HASHES:
        file, bar, digest = value.rpartition("|")
        name, made = "FileData", _file(file, kind[9:], digest) if bar else None
    elif kind == "regkey":
        name, made = "WindowsRegistryKeysModified", {"Key": [{"KeyName": value}]}
    elif kind == "regkey|value":
        key, bar, data = value.partition("|")
        name, made = "WindowsRegistryKeysModified", {"Key": [{"KeyName": key, "Value": data}]} if bar else None
    elif kind == "link":
        name, made = "Reference", {"URL": [value]} if re.fullmatch(r"[^\s\x00-\x1f]+", value) else None
    elif kind == "vulnerability":
        name, made = "Reference", {"Description": [value]}
    elif kind == "email-subject":
        name, made = "EmailData", {"EmailSubject": value}
    elif kind == "email-x-mailer":
        name, made = "EmailData", {"EmailX-Mailer": value}
    return (name, made) if made else None


def bulk_of(kind: str, value: str) -> str | None:
    """The type of the bulk list for a value of this type, None if there is none."""
    if kind not in BULK or kind in PARTS and class_of(kind, value) is None:
        return None
    return BULK[kind] or address_of(kind, value)


def extra(name: str, value: str) -> dict[str, Any]:
    return {"dtype": "string", "name": name, "value": value}


def extras_of(attribute: Attribute) -> list[dict[str, Any]]:
    """The details of an attribute that have no class of their own."""
    made = [extra("misp-type", attribute.type)]
    if attribute.category != DEFAULT_CATEGORY.get(attribute.type):
        made.append(extra("misp-category", attribute.category))
    for name, value in (("misp-relation", attribute.relation), ("misp-first-seen", attribute.first_seen), ("misp-last-seen", attribute.last_seen)):
        made += [extra(name, value)] if value else []
    return made + [extra("misp-tag", each) for each in attribute.tags]


def extras_of_thing(thing: Thing) -> list[dict[str, Any]]:
    made = [extra("misp-object", thing.name)]
    for name, value in (("misp-meta-category", thing.meta_category), ("misp-template", thing.template), ("misp-comment", thing.comment)):
        made += [extra(name, value)] if value else []
    return made


def grouped(items: Sequence[Item]) -> list[tuple[Key, list[Item]]]:
    """The items by their keys, those without gate and label first."""
    groups: dict[Key, list[Item]] = {FREE: []}
    for each in items:
        groups.setdefault(each.key, []).append(each)
    return [(key, group) for key, group in groups.items() if group]


def marked(value: dict[str, Any], key: Key) -> dict[str, Any]:
    made = {**value, **(LABELS[key.label] if key.label else {})}
    return made if key.gate is None else {**made, MARK: key.gate}


def observable_of(attribute: Attribute) -> dict[str, Any]:
    bulk, made = bulk_of(attribute.type, attribute.value), class_of(attribute.type, attribute.value)
    if bulk:
        return {"BulkObservable": {"type": bulk, "BulkObservableList": [attribute.value]}}
    return {made[0]: made[1]} if made else {"AdditionalData": [extra("misp-value", attribute.value)]}


def expression_of(item: Item) -> dict[str, Any]:
    """An attribute or an object in an Indicator."""
    if isinstance(item, Attribute):
        details = extras_of(item) + ([extra("misp-comment", item.comment)] if item.comment else []) + ([] if item.to_ids else [extra("misp-to-ids", "0")])
        return {"operator": "and", "Observable": [observable_of(item)], "AdditionalData": details}
    inner = []
    for key, group in grouped(item.attributes):
        made = [expression_of(each) for each in group]
        inner += made if key == FREE else [marked({"operator": "and", "IndicatorExpression": made}, key)]
    return {"operator": "and", "IndicatorExpression": inner, "AdditionalData": extras_of_thing(item)}


def indicator_of(items: Sequence[Item]) -> dict[str, Any]:
    """The content of an Indicator: a list for each type of what has no details of its own, an expression for each of the others."""
    lists: dict[tuple[str, str, str], list[str]] = {}
    others = []
    for each in items:
        bulk = bulk_of(each.type, each.value) if isinstance(each, Attribute) else None
        if isinstance(each, Attribute) and bulk and not (each.comment or each.tags or each.first_seen or each.last_seen or each.relation):
            lists.setdefault((each.type, each.category, bulk), []).append(each.value)
        else:
            others.append(expression_of(each))
    observables = [
        {"BulkObservable": {"type": bulk, "BulkObservableList": values, "AdditionalData": extras_of(Attribute(kind, "", category, True))}}
        for (kind, category, bulk), values in lists.items()
    ]
    if len(observables) == 1 and not others:
        return {"Observable": observables[0]}
    inner: dict[str, Any] = {"operator": "or"}
    inner |= {"Observable": observables} if observables else {}
    return {"IndicatorExpression": inner | ({"IndicatorExpression": others} if others else {})}


def event_data_of(item: Item) -> dict[str, Any]:
    """An attribute or an object that is no indicator."""
    if isinstance(item, Thing):
        inner = []
        for key, group in grouped(item.attributes):
            made = [event_data_of(each) for each in group]
            inner += made if key == FREE else [marked({"EventData": made}, key)]
        return {"EventData": inner, "AdditionalData": extras_of_thing(item)}
    details = extras_of(item)
    data: dict[str, Any] = {"Description": [item.comment]} if item.comment else {}
    found = class_of(item.type, item.value)
    if found is None or found[0] == "EmailData":
        details.append(extra("misp-value", item.value))
    elif found[0] in ("Address", "DomainData"):
        category = {"ip-src": {"category": "source"}, "ip-dst": {"category": "target"}}.get(item.type, {})
        data["Flow"] = [{"System": [{**category, "Node": {found[0]: [found[1]]}}]}]
    elif found[0] == "System":
        data["Flow"] = [{"System": [found[1]]}]
    elif found[0] == "Reference":
        data["Method"] = [{"Reference": [found[1]]}]
    else:
        data["Record"] = {"RecordData": [{found[0]: [found[1]]}]}
    return {**data, "AdditionalData": details}


def is_indicator(item: Item) -> bool:
    return item.to_ids if isinstance(item, Attribute) else any(each.to_ids for each in item.attributes)


@dataclass(frozen=True)
class Report:
    """A document and how to post it."""

    document: dict[str, Any]
    level: int
    group: int | None
    gates: tuple[str, ...]
    source: int

    def line(self, community: int | None = None) -> str:
        """The line for `post-all`; what is green in the report is for this community, if one is named."""
        named = {} if community is None else {"community": community}
        return compact({**named, "document": self.document, "gates": self.gates, "group": self.group, "level": self.level, "source": self.source})


def compact(value: object) -> str:
    return json.dumps(value, separators=(",", ":"), ensure_ascii=False)


def settled(value: Any, path: str, gates: list[str]) -> Any:
    """The value without its marks; each mark is a gate at its place."""
    if isinstance(value, list):
        return [settled(each, f"{path}/{place}", gates) for place, each in enumerate(value)]
    if not isinstance(value, dict):
        return value
    if MARK in value:
        gates.append(f"{value[MARK][0]}:{value[MARK][1]}:{path}")
    return {name: settled(each, f"{path}/{name}", gates) for name, each in value.items() if name != MARK}


def built(event: Event, items: Sequence[Item], part: int) -> Report:
    name = event.uuid if part == 1 else f"{event.uuid}-part-{part}"
    incident: dict[str, Any] = {
        "purpose": "reporting", **LABELS[event.label], "IncidentID": {"id": name, "name": event.org.name}, "GenerationTime": event.made,
        "Description": [event.info], "Contact": [{"role": "creator", "type": "organization", "ContactName": [event.org_name]}],
        "AdditionalData": [extra("misp-threat-level", event.threat), extra("misp-analysis", event.analysis), *(extra("misp-tag", each) for each in event.tags)],
    }
    if event.date:
        incident["StartTime"] = f"{event.date}T00:00:00Z"
    if part > 1:
        incident["RelatedActivity"] = [{"IncidentID": [{"id": event.uuid, "name": event.org.name}]}]
    found = grouped([each for each in items if is_indicator(each)])
    if found:
        incident["Indicator"] = [
            marked({"IndicatorID": {"id": f"{name}-{place + 1}", "name": event.org.name, "version": "1"}, **indicator_of(group)}, key)
            for place, (key, group) in enumerate(found)
        ]
    data = []
    for key, group in grouped([each for each in items if not is_indicator(each)]):
        made = [event_data_of(each) for each in group]
        data += made if key == FREE else [marked({"EventData": made}, key)]
    if data:
        incident["EventData"] = data
    gates: list[str] = []
    document = settled({"version": "2.0", "lang": "en", "Incident": [incident]}, "", gates)
    return Report(document, event.level, event.group, tuple(gates), event.org.number)


def misfit_of(report: Report) -> str | None:
    """Why the hub would refuse a report, if it would."""
    size = len(compact(report.document).encode())
    if size > MOST_BYTES:
        return f"the report has {size} bytes, but the hub accepts at most {MOST_BYTES} (--split makes several reports)"
    if (count := lines_of(report.document)) > MOST_LINES:
        return f"the report has {count} lines, but the hub accepts at most {MOST_LINES} (--split makes several reports)"
    if len(report.gates) > MOST_GATES:
        return (f"the report has {len(report.gates)} gates, but the hub accepts at most {MOST_GATES}"
                " (--stricter uses fewer and narrower ones, --split makes several reports)")
    return None


def met(one: tuple[int, int] | None, other: tuple[int, int] | None) -> tuple[int, int] | None:
    """A gate that lets nobody pass whom either of the two refuses."""
    if one is None or other is None or one == other:
        return one or other
    return min(one, other) if one[0] < 4 and other[0] < 4 else (0, 0)


def flat(item: Item, label: str) -> Item:
    """An object without gates and labels inside it, as narrow as the narrowest of them."""
    if isinstance(item, Attribute):
        return item
    gate = item.key.gate
    for each in item.attributes:
        gate = met(gate, each.key.gate)
    labels = [each.key.label for each in item.attributes if each.key.label]
    own = strictest([label, *labels]) if labels else None
    return replace(item, key=Key(gate, None if own == label else own), attributes=tuple(replace(each, key=FREE) for each in item.attributes))


def narrowed(event: Event, items: Sequence[Item]) -> list[Item]:
    """The same items with no more gates than the hub takes, none of them wider."""
    made = [flat(each, event.label) for each in items]
    moved = 0
    while len(built(event, made, 1).gates) > MOST_GATES:
        groups = [(key, group) for key, group in grouped(made) if key.gate and key.gate != (0, 0)] or [
            (key, group) for key, group in grouped(made) if key.gate and key.label
        ]
        smallest = min(groups, key=lambda each: len(each[1]))[0]
        keys = {smallest, *(each.key for each in made if each.key.gate == (0, 0))}
        label = strictest([event.label, *(each.label for each in keys if each.label)])
        moved += sum(each.key == smallest for each in made)
        made = [replace(each, key=Key((0, 0), None if label == event.label else label)) if each.key in keys else each for each in made]
    say(f"made stricter: {moved} attributes and objects are for the source alone")
    return made


def reports_of(event: Event, choices: Choices) -> list[Report]:
    items = list(event.items)
    if choices.stricter and len(built(event, items, 1).gates) > MOST_GATES:
        items = narrowed(event, items)
    whole = built(event, items, 1)
    misfit = misfit_of(whole)
    if misfit is None:
        return [whole]
    if not choices.split:
        raise Unfit(misfit)
    # Those of one key stay together as far as they can.
    parts = [[each for _, group in grouped(items) for each in group]]
    place = 0
    while place < len(parts):
        misfit = misfit_of(built(event, parts[place], LAST_NUMBER))
        if misfit is None:
            place += 1
        elif len(parts[place]) > 1:
            half = len(parts[place]) // 2
            parts[place : place + 1] = [parts[place][:half], parts[place][half:]]
        else:
            raise Unfit(f"one attribute or object alone is too large: {misfit}")
    say(f"split into {len(parts)} reports")
    return [built(event, part, number + 1) for number, part in enumerate(parts)]


def events_of(value: Any) -> Iterator[dict[str, Any]]:
    """The events of an answer, an export or a feed of MISP; without `Event` around them, they are as PyMISP writes them."""
    found = value.get("response", value) if isinstance(value, dict) else value
    if isinstance(found, dict) and found and all(re.fullmatch(UUID, name.lower()) for name in found):
        raise Unfit("that is the manifest of a feed, which has no attributes: give the feed's folder, or one of its files UUID.json")
    for each in found if isinstance(found, list) else [found]:
        is_bare = isinstance(each, dict) and "uuid" in each and "info" in each
        event = each.get("Event", each if is_bare else None) if isinstance(each, dict) else None
        if not isinstance(event, dict):
            raise Unfit('the input must be {"Event": {..}}, the object inside it, or a list of these')
        yield event


def to_iodef(text: bytes, mapping: Mapping, choices: Choices) -> list[Report]:
    made: list[Report] = []
    events = list(events_of(read_json(text)))
    for place, value in enumerate(events):
        try:
            made += reports_of(Reader(mapping, choices).event(value), choices)
        except Unfit as fault:
            raise Unfit(f"event {place}: {fault}" if len(events) > 1 else str(fault)) from None
    return made


def feed_to_iodef(folder: pathlib.Path, mapping: Mapping, choices: Choices) -> list[Report]:
    """The reports of each event that the manifest of a feed names."""
    manifest = read_json(read_file(str(folder / "manifest.json")))
    if not isinstance(manifest, dict) or not all(re.fullmatch(UUID, name.lower()) for name in manifest):
        raise Unfit("manifest.json has members that are not UUIDs")
    made: list[Report] = []
    for name in manifest:
        try:
            made += to_iodef(read_file(str(folder / f"{name}.json")), mapping, choices)
        except Unfit as fault:
            raise Unfit(f"{name}.json: {fault}") from None
    return made


# IODEF to MISP


class Taken:
    """Which members of a report became something in the event, so that the others can be counted."""

    def __init__(self) -> None:
        self.counts: Counter[tuple[int, str]] = Counter()
        self.opened: set[int] = set()

    def all_of(self, value: dict[str, Any], *names: str) -> None:
        for name in names:
            self.counts[id(value), name] = elements_of(value.get(name))

    def one_of(self, value: dict[str, Any], name: str) -> None:
        self.counts[id(value), name] += 1

    def open(self, value: dict[str, Any]) -> None:
        """The class isn't counted as one, even if nothing in it is taken."""
        self.opened.add(id(value))

    def _left_in(self, value: dict[str, Any], name: str) -> int:
        found = value[name]
        is_usual = name in LABEL_MEMBERS or isinstance(found, str) and found in USUAL.get(name, ())
        return 0 if is_usual else max(elements_of(found) - self.counts[id(value), name], 0)

    def left_out(self, value: dict[str, Any], name: str) -> tuple[bool, Counter[str]]:
        """Whether anything of a class is taken; and what isn't: the class as one if nothing is, else what in it isn't. A bare frame has nothing."""
        is_taken = id(value) in self.opened or any(self.counts[id(value), member] for member in value)
        left: Counter[str] = Counter()
        for member in value:
            left[member] += self._left_in(value, member)
            for each in inner_of(value, member):
                is_inner_taken, inner = self.left_out(each, member)
                is_taken = is_taken or is_inner_taken
                left += inner
        return is_taken, left if is_taken or not any(left.values()) else Counter({name: 1})


def elements_of(value: object) -> int:
    """How many values a member has that aren't classes."""
    return sum(not isinstance(each, dict) for each in (value if isinstance(value, list) else [value]))


@dataclass(frozen=True)
class Wording:
    """A text that may have a label of its own, with the member that holds it."""

    text: str
    label: str | None
    holder: dict[str, Any]
    member: str


@dataclass
class Parts:
    """The first value of each kind in an attribute's classes, with the member that holds it and those that say its kind."""

    found: dict[str, str] = field(default_factory=dict)
    holders: dict[str, tuple[dict[str, Any], str, tuple[str, ...]]] = field(default_factory=dict)

    def note(self, name: str, value: object, holder: dict[str, Any], member: str, *beside: str) -> None:
        if isinstance(value, int) and not isinstance(value, bool):
            value = str(value)
        if isinstance(value, str) and name not in self.found:
            self.found[name], self.holders[name] = value, (holder, member, beside)

    def take(self, names: Sequence[str], taken: Taken) -> str:
        """The value that these parts make."""
        for name in names:
            holder, member, beside = self.holders[name]
            taken.one_of(holder, member)
            taken.all_of(holder, *beside)
        return "|".join(self.found[name] for name in names)


def extras_in(value: dict[str, Any]) -> dict[str, list[str]]:
    """What to-iodef writes into AdditionalData, by its name."""
    found: dict[str, list[str]] = {}
    for each in inner_of(value, "AdditionalData"):
        name, text = each.get("name"), each.get("value")
        if isinstance(name, str) and name.startswith("misp-") and isinstance(text, str):
            found.setdefault(name, []).append(text)
    return found


def inner_of(value: dict[str, Any], name: str) -> list[dict[str, Any]]:
    found = value.get(name)
    return [each for each in (found if isinstance(found, list) else [found]) if isinstance(each, dict)]


def texts_of(value: dict[str, Any], name: str) -> list[str]:
    found = value.get(name)
    return [each for each in (found if isinstance(found, list) else [found]) if isinstance(each, str)]


def wordings_of(value: dict[str, Any], name: str, language: str) -> list[Wording]:
    """The texts of a member, plain or with a language: those of this language, or without one, first."""
    found = value.get(name)
    own: list[Wording] = []
    others: list[Wording] = []
    for each in found if isinstance(found, list) else [found]:
        if isinstance(each, str):
            own.append(Wording(each, None, value, name))
        elif isinstance(each, dict) and isinstance(each.get("value"), str):
            spoken = main_language(each.get("lang"))
            (own if not spoken or not language or spoken == language else others).append(Wording(each["value"], label_of(each), each, "value"))
    return own + others


def main_language(tag: object) -> str:
    """`de` for `de-AT`, and empty if the tag isn't a text."""
    return tag.lower().partition("-")[0] if isinstance(tag, str) else ""


def label_of(value: dict[str, Any]) -> str | None:
    """The TLP label that a class is marked with, if it is."""
    label = value.get("restriction")
    if label is None:
        return None
    text = value.get("ext-restriction")
    if label == "ext-value" and isinstance(text, str) and text.lower().startswith("tlp:"):
        name = text.lower().removeprefix("tlp:")
        return "clear" if name == "white" else name if name in LABELS else "red"
    return TLP_OF.get(label, "red") if isinstance(label, str) else "red"


def first(values: dict[str, list[str]], name: str, default: str = "") -> str:
    return values[name][0] if name in values else default


@dataclass
class Found:
    """An attribute of the event that is made."""

    type: str
    value: str
    to_ids: bool
    label: str
    category: str
    comment: str = ""
    tags: tuple[str, ...] = ()
    first_seen: str = ""
    last_seen: str = ""
    relation: str = ""


@dataclass
class FoundThing:
    name: str
    meta_category: str
    template: str
    comment: str
    attributes: list[Found]


# By a class's name: the parts of an attribute that it holds, each with its member and with the members that tell of what kind it is.
MEMBERS: dict[str, tuple[tuple[str, str, tuple[str, ...]], ...]] = {
    "Address": (("Address", "value", ("category",)),), "DomainData": (("Name", "Name", ()),), "Service": (("Port", "Port", ()),),
    "File": (("FileName", "FileName", ()),), "Hash": (("DigestValue", "DigestValue", ("DigestMethod",)),),
    "Key": (("KeyName", "KeyName", ()), ("Value", "Value", ())),
}


@dataclass
class Context:
    label: str
    to_ids: bool
    hold: list[Found]
    system: dict[str, Any] = field(default_factory=dict)  # the nearest


class Writer:
    """Reads what the hub serves of one report, and makes an event of it."""

    def __init__(self, language: str) -> None:
        self.language = language
        self.attributes: list[Found] = []
        self.things: list[FoundThing] = []
        self.taken = Taken()
        self.left_out: Counter[str] = Counter()
        self.noted: Counter[str] = Counter()

    def texts(self, value: dict[str, Any], name: str) -> list[str]:
        """The plain texts of a member, which are taken."""
        found = texts_of(value, name)
        if found:
            self.taken.all_of(value, name)
        return found

    def wordings(self, value: dict[str, Any], name: str) -> list[Wording]:
        return wordings_of(value, name, self.language)

    def take(self, wording: Wording) -> str:
        self.taken.one_of(wording.holder, wording.member)
        if wording.member == "value":
            self.taken.all_of(wording.holder, "lang", "translation-id")
        return wording.text

    def take_extras(self, value: dict[str, Any]) -> None:
        for each in inner_of(value, "AdditionalData"):
            if isinstance(each.get("name"), str) and each["name"] in EXTRAS:
                self.taken.all_of(each, *each)

    def _take_and(self, value: dict[str, Any]) -> None:
        if value.get("operator") == "and":
            self.taken.all_of(value, "operator")

    def read(self, value: dict[str, Any], name: str, context: Context) -> None:
        own = label_of(value)
        if own:
            context = replace(context, label=own)
        if name == "IndicatorExpression" and value.get("operator") == "not":
            self.noted["expressions of `not`, below which nothing is for detection"] += 1
            context = replace(context, to_ids=False)
        extras = extras_in(value)
        is_frame = name in ("IndicatorExpression", "EventData")
        if is_frame and "misp-object" in extras:
            thing = FoundThing(first(extras, "misp-object"), first(extras, "misp-meta-category"), first(extras, "misp-template"), first(extras, "misp-comment"), [])
            self.things.append(thing)
            self.take_extras(value)
            self._take_and(value)
            self._below(value, replace(context, hold=thing.attributes))
        elif is_frame and "misp-type" in extras and (made := self._told(value, extras, context)):
            context.hold.append(made)
        elif name == "BulkObservable":
            self._bulk(value, extras, context)
        else:
            self._plain(value, name, context)
            self._below(value, replace(context, system=value) if name == "System" else context)

    def _below(self, value: dict[str, Any], context: Context) -> None:
        for name in value:
            if name != "AdditionalData":
                for each in inner_of(value, name):
                    self.read(each, name, context)

    def _told(self, value: dict[str, Any], extras: dict[str, list[str]], context: Context) -> Found | None:
        """The attribute of a class that names its type, if what the class holds is of that type."""
        kind = first(extras, "misp-type")
        parts, below, systems = self._parts(value)
        told = parts.found
        if kind in BULK and "bulk" in told:
            names: tuple[str, ...] = ("bulk",)
        elif kind in PARTS and all(part in told for part in PARTS[kind]):
            names = PARTS[kind]
        elif "misp-value" in told:
            names = ("misp-value",)
        else:
            return None
        text = "|".join(told[part] for part in names)
        if "misp-value" not in told and (class_of(kind, text) is None if kind in PARTS else kind not in BULK):
            return None
        parts.take(names, self.taken)
        self.take_extras(value)
        self._take_and(value)
        for each in systems if kind.startswith("ip-") else ():
            self.taken.all_of(each, "category")
        if kind in PARTS and class_of(kind, text) is None or not re.fullmatch(KIND, kind):
            self.noted["values that don't have the form of their type, so they are texts"] += 1
            kind, context = "text", replace(context, to_ids=False)
        comment = first(extras, "misp-comment") or next((self.take(each) for each in self.wordings(value, "Description")), "")
        return self._found(kind, text, extras, replace(context, label=strictest([context.label, *below])), comment)

    def _parts(self, value: dict[str, Any]) -> tuple[Parts, list[str], list[dict[str, Any]]]:
        """What is in a class that names its type: its parts, the labels, and the Systems of a source or a target."""
        parts = Parts()
        labels: list[str] = []
        systems: list[dict[str, Any]] = []
        waiting: list[tuple[str, dict[str, Any]]] = [("", value)]
        while waiting:
            name, each = waiting.pop(0)
            labels += [label for label in [label_of(each)] if label]
            for part, member, beside in MEMBERS.get(name, ()):
                parts.note(part, each.get(member), each, member, *beside)
            if name == "System" and each.get("category") in ("source", "target"):
                systems.append(each)
            if name == "Reference":
                parts.note("URL", next(iter(texts_of(each, "URL")), None), each, "URL")
                for wording in self.wordings(each, "Description")[:1]:
                    parts.note("Reference", wording.text, wording.holder, wording.member, *(("lang", "translation-id") if wording.member == "value" else ()))
            if name == "BulkObservable":
                parts.note("bulk", next(iter(texts_of(each, "BulkObservableList")), None), each, "BulkObservableList", "type")
            if name == "AdditionalData" and each.get("name") == "misp-value":
                parts.note("misp-value", each.get("value"), each, "value", "name", "dtype")
            waiting += [(inner, one) for inner in each for one in inner_of(each, inner) if inner not in ("EventData", "IndicatorExpression")]
        return parts, labels, systems

    def _found(self, kind: str, text: str, extras: dict[str, list[str]], context: Context, comment: str = "") -> Found:
        category = first(extras, "misp-category", DEFAULT_CATEGORY.get(kind, "Other"))
        tags = tuple(each for each in extras.get("misp-tag", []) if tlp_of(each) is None)
        return Found(
            kind, text, context.to_ids and first(extras, "misp-to-ids") != "0", context.label, category if category in CATEGORIES else "Other", comment, tags,
            first(extras, "misp-first-seen"), first(extras, "misp-last-seen"), first(extras, "misp-relation"),
        )

    def _bulk(self, value: dict[str, Any], extras: dict[str, list[str]], context: Context) -> None:
        form = value.get("type")
        told = first(extras, "misp-type")
        values = self.texts(value, "BulkObservableList")
        if values:
            self.taken.all_of(value, "type")
        if isinstance(value.get("BulkObservableList"), str):
            values = values[0].splitlines()
        for text in values:
            if told in BULK and bulk_of(told, text) == form:
                self.take_extras(value)
                context.hold.append(self._found(told, text, extras, context))
            elif form == "file-hash":
                kind = next((name for name, (length, _) in HASHES.items() if len(text) == length and class_of(name, text)), None)
                self._add(kind, text, context)
            else:
                self._add(TYPE_OF.get(form) if isinstance(form, str) else None, text, context)

    def _add(self, kind: str | None, text: str, context: Context) -> None:
        """Adds a value whose type follows from its place alone; if its form is another, it is a text."""
        if kind == "ip-dst" and context.system.get("category") in ("source", "target"):
            self.taken.all_of(context.system, "category")
            kind = "ip-src" if context.system["category"] == "source" else kind
        if kind is None or kind in PARTS and class_of(kind, text) is None:
            kind = "text"
        context.hold.append(self._found(kind, text, {}, context if kind != "text" else replace(context, to_ids=False)))

    def _plain(self, value: dict[str, Any], name: str, context: Context) -> None:
        """Reads what a class says directly, in a report from another program."""
        if name == "Address" and isinstance(value.get("value"), str):
            category = value.get("category")
            self.taken.all_of(value, "value", "category")
            self._add(TYPE_OF.get(category) if isinstance(category, str) else None, value["value"], context)
        elif name == "DomainData":
            for text in self.texts(value, "Name"):
                self._add("domain", text, context)
        elif name == "File":
            self._file(value, context)
        elif name == "Key" and isinstance(value.get("KeyName"), str):
            data = value.get("Value")
            self.taken.all_of(value, "KeyName", *(["Value"] if isinstance(data, str) else []))
            self._add("regkey|value" if isinstance(data, str) else "regkey", value["KeyName"] + (f"|{data}" if isinstance(data, str) else ""), context)
        elif name == "Reference":
            self._vulnerability(value, context)
            for url in self.texts(value, "URL"):
                self._add("link", url, replace(context, to_ids=False))
        elif name == "RecordData":
            for url in self.texts(value, "URL"):
                self._add("url", url, context)
        elif name == "EmailData":
            for member, kind in (("EmailSubject", "email-subject"), ("EmailX-Mailer", "email-x-mailer"), ("EmailFrom", "email-src"), ("EmailTo", "email-dst")):
                for text in self.texts(value, member):
                    self._add(kind, text, context)
        elif name == "IndicatorExpression" and (operands_in(value) < 2 or context.hold is not self.attributes):
            self._take_and(value)  # of one operand, or the object's own
        if name in ("EventData", "Indicator", "RecordData"):
            for each in self.wordings(value, "Description"):
                self._add(None, self.take(each), replace(context, label=each.label or context.label))

    def _vulnerability(self, reference: dict[str, Any], context: Context) -> None:
        """The CVE's number that a ReferenceName has, as XML's reports name it."""
        for each in inner_of(reference, "ReferenceName"):
            for text in texts_of(each, "ID"):
                if CVE.fullmatch(text):
                    self.taken.all_of(each, "ID")
                    label = max(label_of(each) or context.label, context.label, key=ORDER.index)
                    self._add("vulnerability", text.upper(), replace(context, to_ids=False, label=label))

    def _file(self, value: dict[str, Any], context: Context) -> None:
        names = texts_of(value, "FileName")
        kinds = []
        for each in [each for data in inner_of(value, "HashData") for each in inner_of(data, "Hash")]:
            for kind, told in [(HASH_OF.get(method), told) for method in texts_of(each, "DigestMethod") for told in texts_of(each, "DigestValue")]:
                self.taken.all_of(each, "DigestMethod", "DigestValue")
                digest = hex_of(kind, told)
                self._add(f"filename|{kind}" if kind and names else kind, f"{names[0]}|{digest}" if kind and names else digest, context)
                kinds.append(kind)
        if names and not kinds:
            self._add("filename", names[0], context)
        if names and (any(kinds) or not kinds):
            self.taken.one_of(value, "FileName")


def operands_in(value: dict[str, Any]) -> int:
    return sum(len(inner_of(value, name)) for name in value if name != "AdditionalData")


def to_misp(text: bytes, mapping: Mapping, sharing_group: int | None = None) -> dict[str, Any]:
    """The event for what `iodef-hub-ask --json show` prints."""
    view = read_json(text)
    if not isinstance(view, dict) or not isinstance(view.get("document"), dict) or type(view.get("source")) is not int or type(view.get("number")) is not int:
        raise Unfit("the input must be the hub's answer for one incident, with document, number and source")
    document = view["document"]
    incidents = inner_of(document, "Incident")
    if len(incidents) != 1:
        raise Unfit("the document must have one Incident")
    incident = incidents[0]
    org = next((each for each in mapping.orgs if each.number == view["source"]), None)
    if org is None:
        raise Unfit(f"the organisation {view['source']} has no entry in the mapping")
    writer = Writer(main_language(incident.get("lang")) or main_language(document.get("lang")))
    writer.taken.open(document)
    writer.taken.open(incident)
    writer.taken.all_of(document, "version", "lang")
    writer.taken.all_of(incident, "lang")
    own = label_of(incident) or ("red" if any(_is_plain(each) for each in incident.values()) else None)
    for member in [each for each in incident if each in ("Indicator", "EventData", "Method")]:
        for each in inner_of(incident, member):
            writer.read(each, member, Context(own or "red", member == "Indicator", writer.attributes))
    event_uuid = _event_uuid(incident, f"iodef-hub:{mapping.hub}#{view['source']}", view["number"], writer.taken)
    event = _event(incident, event_uuid, own, writer)
    if not event["info"]:
        event["info"] = f"Incident {view['number']} of {org.name}"
    event["Orgc"] = {"uuid": org.uuid, "name": org.name}
    if sharing_group is not None:
        event |= {"distribution": "4", "sharing_group_id": str(sharing_group)}
    withheld = view.get("withheld")
    if isinstance(withheld, list) and withheld:
        say(f"something is withheld from you in {len(withheld)} places")
    if writer.noted:
        say("noted: " + counted(writer.noted))
    left_out = writer.left_out + writer.taken.left_out(document, "document")[1]
    if any(left_out.values()):
        say("left out: " + counted(left_out))
    return {"Event": event}


def _event_uuid(incident: dict[str, Any], source: str, number: int, taken: Taken) -> uuid.UUID:
    ident: dict[str, Any] = next(iter(inner_of(incident, "IncidentID")), {})
    if isinstance(ident.get("id"), str) and isinstance(ident.get("name"), str):
        taken.all_of(ident, "id", "name")
        name = json.dumps([ident["name"], ident["id"]], separators=(",", ":"), ensure_ascii=False)
    else:
        name = str(number)
        say("the IncidentID is withheld, so the event's UUID is made from the hub's number")
    return uuid.uuid5(uuid.NAMESPACE_URL, f"{source}/{name}")


def _event(incident: dict[str, Any], event_uuid: uuid.UUID, own: str | None, writer: Writer) -> dict[str, Any]:
    extras = extras_in(incident)
    writer.take_extras(incident)
    things = [each for each in writer.things if each.attributes]
    # A text that is stricter than the Incident isn't its info.
    infos = [each for each in writer.wordings(incident, "Description") if each.text and (own is None or strictest([own, each.label or own]) == own)]
    info = writer.take(infos[0]) if infos else ""
    shown = [each.label for each in [*writer.attributes, *(one for thing in things for one in thing.attributes)]]
    label = own or strictest([*shown, *(each.label or "red" for each in infos[:1])] or ["red"])
    if own is None:
        say(f"the Incident's own label is withheld, so the event is tagged like its strictest attribute, tlp:{label}")
    event: dict[str, Any] = {
        "uuid": str(event_uuid), "info": info,
        "threat_level_id": _known(first(extras, "misp-threat-level"), "1234", "4"), "analysis": _known(first(extras, "misp-analysis"), "012", "0"),
        "distribution": "0", "published": False,
        "Tag": [{"name": f"tlp:{label}"}] + [{"name": each} for each in extras.get("misp-tag", []) if tlp_of(each) is None],
        "Attribute": [_attribute(each, event_uuid, "", label) for each in once(writer.attributes, writer)],
        "Object": _objects(things, event_uuid, label, writer),
    }
    for member in ("StartTime", "GenerationTime"):
        text = incident.get(member)
        if "date" not in event and isinstance(text, str) and _is_day(text[:10]):
            event["date"] = text[:10]
            writer.taken.all_of(incident, member)
    if (stamp := _stamp(incident.get("GenerationTime"))) is not None:
        event["timestamp"] = stamp
        writer.taken.all_of(incident, "GenerationTime")
    return event


def _objects(things: Sequence[FoundThing], event_uuid: uuid.UUID, label: str, writer: Writer) -> list[dict[str, Any]]:
    made = []
    seen: Counter[str] = Counter()
    for thing in things:
        attributes = once(thing.attributes, writer)
        base = json.dumps([thing.name, sorted([each.relation, each.type, each.value] for each in attributes)])
        seen[base] += 1
        thing_uuid = uuid.uuid5(event_uuid, f"{base}#{seen[base]}")
        value: dict[str, Any] = {"uuid": str(thing_uuid), "name": thing.name, "comment": thing.comment, "distribution": "5",
                                 "Attribute": [_attribute(each, event_uuid, str(thing_uuid), label) for each in attributes]}
        if thing.meta_category:
            value["meta-category"] = thing.meta_category
        template = re.fullmatch(r"([0-9a-f-]{36}) ([0-9]*)", thing.template)
        if template:
            value |= {"template_uuid": template[1], "template_version": template[2]}
        made.append(value)
    return made


def _is_plain(value: object) -> bool:
    """A member that a frame doesn't have."""
    return not isinstance(value, dict) and not (isinstance(value, list) and all(isinstance(each, dict) for each in value))


def _is_day(text: str) -> bool:
    try:
        return datetime.date.fromisoformat(text).isoformat() == text
    except ValueError:
        return False


def _known(text: str, known: str, default: str) -> str:
    return text if len(text) == 1 and text in known else default


def _stamp(text: object) -> str | None:
    if not isinstance(text, str):
        return None
    try:
        moment = datetime.datetime.fromisoformat(text)
        return str(max(int(moment.timestamp()), 0)) if moment.tzinfo else None
    except (ValueError, OverflowError):
        return None


def once(attributes: Sequence[Found], writer: Writer) -> list[Found]:
    """Each type, value, category and relation once, as MISP requires, with the strictest label of those alike."""
    kept: dict[tuple[str, ...], Found] = {}
    for each in attributes:
        if len(each.value.encode(errors="replace")) > LONGEST_VALUE or not each.value:
            writer.left_out["values that are empty or too long for MISP"] += 1
            continue
        key = (each.type, each.value, each.category, each.relation)
        before = kept.get(key)
        kept[key] = each if before is None else replace(before, to_ids=before.to_ids or each.to_ids, label=strictest([before.label, each.label]))
    return list(kept.values())


def _attribute(found: Found, event_uuid: uuid.UUID, thing: str, label: str) -> dict[str, Any]:
    name = json.dumps([thing, found.type, found.value, found.category, found.relation])
    tags = ([{"name": f"tlp:{found.label}"}] if found.label != label else []) + [{"name": each} for each in found.tags]
    value: dict[str, Any] = {
        "uuid": str(uuid.uuid5(event_uuid, name)), "type": found.type, "category": found.category, "value": found.value, "to_ids": found.to_ids,
        "comment": found.comment, "distribution": "5", "Tag": tags,
    }
    for member, text in (("first_seen", found.first_seen), ("last_seen", found.last_seen), ("object_relation", found.relation)):
        if text:
            value[member] = text
    return value


# The command


def read_file(name: str) -> bytes:
    return sys.stdin.buffer.read(LONGEST_INPUT + 1) if name == "-" else pathlib.Path(name).read_bytes()


def number(text: str) -> int:
    if not re.fullmatch(r"[1-9][0-9]{0,9}", text):
        raise argparse.ArgumentTypeError("it must be a whole number of at least 1")
    return int(text)


def words() -> argparse.ArgumentParser:
    parser = argparse.ArgumentParser(prog="iodef-hub-misp", description="MISP events to IODEF reports for iodef-hub, and back.")
    ways = parser.add_subparsers(dest="way", required=True, metavar="to-iodef|to-misp")
    there = ways.add_parser("to-iodef", help="lines for iodef-hub-ask post-all, one for each report")
    there.add_argument("--untagged", choices=ORDER, default="red", help="the TLP label of an event without a TLP tag (default: %(default)s)")
    there.add_argument("--own-tags", action="store_true",
                       help="an attribute's own TLP tag applies even if it is wider than the event's (default: the stricter of the two applies)")
    there.add_argument("--stricter", action="store_true", help="if more than 16 gates are needed, some attributes are for the source alone")
    there.add_argument("--split", action="store_true", help="make several reports of an event that is too large for one or has too many gates")
    there.add_argument("--unpublished", action="store_true", help="accept an event that isn't published")
    there.add_argument("--distribution", type=int, choices=range(4), metavar="NUMBER",
                       help="MISP's distribution, 0 to 3, for an event that has none, such as those of a feed; an event's own always applies")
    there.add_argument("--community", type=number, metavar="NUMBER", help="the hub's community that green is meant for (default: any community of the source)")
    back = ways.add_parser("to-misp", help="the event for what iodef-hub-ask --json show prints")
    back.add_argument("--sharing-group", type=number, metavar="ID",
                      help="the number in your MISP of the sharing group that gets the event (default: your organisation only)")
    for each, what in ((there, "EVENT"), (back, "ANSWER")):
        each.add_argument("--map", required=True, metavar="FILE", help="organisations and sharing groups of MISP and of the hub")
        each.add_argument("file", nargs="?", default="-", metavar=what, help="a file, or standard input" + (", or the folder of a MISP feed" if each is there else ""))
    return parser


def main() -> int:
    """Returns 0 done, 1 refused, 2 usage or a file that can't be read."""
    given = words().parse_args()
    try:
        mapping = Mapping.read(read_file(given.map))
        if given.way == "to-iodef":
            choices = Choices(given.untagged, given.own_tags, given.stricter, given.split, given.unpublished, given.distribution)
            folder = pathlib.Path(given.file)
            made = feed_to_iodef(folder, mapping, choices) if folder.is_dir() else to_iodef(read_file(given.file), mapping, choices)
            lines = [each.line(given.community) for each in made]
        else:
            lines = [json.dumps(to_misp(read_file(given.file), mapping, given.sharing_group), indent=1, ensure_ascii=False)]
        sys.stdout.buffer.write("".join(each + "\n" for each in lines).encode())
        sys.stdout.buffer.flush()
    except Unfit as fault:
        say(f"refused: {fault}")
        return 1
    except (RecursionError, UnicodeError):
        say("refused: the input is nested too deeply, or has a text that can't be written")
        return 1
    except OSError as fault:
        say(str(fault))
        return 2
    return 0


if __name__ == "__main__":
    sys.exit(main())
