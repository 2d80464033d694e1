"""Rules of STIX 2.1, written down from memory and not from the program: `faults_of` says what of a list of objects breaks them.

Required and known properties by type, the forms of timestamps and ids, the grammar of patterns, references that resolve, no empty
lists, no nulls.
"""
from __future__ import annotations

import datetime
import re
from collections.abc import Iterator, Sequence
from typing import Any

Object = dict[str, Any]
UUID = r"[0-9a-f]{8}-[0-9a-f]{4}-[1-5][0-9a-f]{3}-[89ab][0-9a-f]{3}-[0-9a-f]{12}"
ID = re.compile(rf"([a-z][a-z0-9-]*[a-z0-9])--{UUID}")
MOMENT = re.compile(r"[0-9]{4}-[0-9]{2}-[0-9]{2}T[0-9]{2}:[0-9]{2}:[0-9]{2}(\.[0-9]+)?Z")
COMMON = {"type", "spec_version", "id", "created", "modified", "created_by_ref", "revoked", "labels", "confidence", "lang",
          "external_references", "object_marking_refs", "granular_markings", "extensions"}
# By type, the properties that must be there, and others that may.
DOMAIN: dict[str, tuple[set[str], set[str]]] = {
    "identity": ({"name"}, {"description", "roles", "identity_class", "sectors", "contact_information"}),
    "indicator": ({"pattern", "pattern_type", "valid_from"},
                  {"name", "description", "indicator_types", "pattern_version", "valid_until", "kill_chain_phases"}),
    "note": ({"content", "object_refs"}, {"abstract", "authors"}),
    "observed-data": ({"first_observed", "last_observed", "number_observed", "object_refs"}, set()),
    "report": ({"name", "published", "object_refs"}, {"description", "report_types"}),
    "vulnerability": ({"name"}, {"description"}),
    "relationship": ({"relationship_type", "source_ref", "target_ref"}, {"description", "start_time", "stop_time"}),
}
OBSERVABLE: dict[str, tuple[set[str], set[str]]] = {
    "ipv4-addr": ({"value"}, {"resolves_to_refs", "belongs_to_refs"}), "ipv6-addr": ({"value"}, {"resolves_to_refs", "belongs_to_refs"}),
    "domain-name": ({"value"}, {"resolves_to_refs"}), "url": ({"value"}, set()),
    "email-addr": ({"value"}, {"display_name", "belongs_to_ref"}),
    "mac-addr": ({"value"}, set()), "autonomous-system": ({"number"}, {"name", "rir"}), "mutex": ({"name"}, set()),
    "file": (set(), {"hashes", "name", "size"}), "windows-registry-key": (set(), {"key", "values"}),
    "user-account": (set(), {"user_id", "account_login"}), "email-message": ({"is_multipart"}, {"subject", "from_ref", "to_refs"}),
}
ONE_OF = {"file": {"hashes", "name"}, "windows-registry-key": {"key", "values"}, "user-account": {"user_id", "account_login"}}
MOMENTS = {"created", "modified", "valid_from", "valid_until", "published", "first_observed", "last_observed"}
TEXTS = {"name", "description", "content", "pattern", "value", "key", "user_id", "subject", "contact_information", "identity_class",
         "relationship_type"}
HASHES = {"MD5": 32, "SHA-1": 40, "SHA-256": 64, "SHA-512": 128}


def faults_of(objects: Sequence[Object], are_whole: bool = True) -> list[str]:
    """What breaks the rules. Of a whole list each reference resolves; a page of a collection may name what is on another one."""
    found = []
    known = {each.get("id") for each in objects}
    versions = [(each.get("id"), each.get("modified")) for each in objects]
    if len(set(versions)) < len(versions):
        found.append("a version of an object is there twice")
    for each in objects:
        found += [f"{each.get('id')}: {fault}" for fault in _of_object(each)]
        found += [f"{each.get('id')}: {ref} isn't there" for ref in references_of(each) if are_whole and ref not in known]
    return found


def references_of(value: Object) -> Iterator[str]:
    for name, it in value.items():
        if name.endswith("_ref"):
            yield it
        elif name.endswith("_refs"):
            yield from it


def _of_object(value: Object) -> Iterator[str]:
    kind = value.get("type")
    read = ID.fullmatch(value.get("id", ""))
    if read is None or read[1] != kind:
        yield "the id isn't the type and a UUID"
    if value.get("spec_version") != "2.1":
        yield "spec_version isn't 2.1"
    if kind == "marking-definition":
        yield from _of_marking(value)
    elif kind in DOMAIN or kind in OBSERVABLE:
        yield from _of_members(value, kind)
        yield from _of_references(value)
        yield from _of_moments(value)
        yield from _of_kind(value, kind)
    else:
        yield f"the type {kind} isn't known"
    yield from _empty_in(value, "")


def _of_marking(value: Object) -> Iterator[str]:
    if not {"type", "spec_version", "id", "created"} <= set(value) or "modified" in value:
        yield "a marking definition without what it must have"
    if not ("definition" in value and "definition_type" in value) and "extensions" not in value:
        yield "a marking definition that defines nothing"
    if not MOMENT.fullmatch(value.get("created", "")):
        yield "created isn't a timestamp"


def _of_members(value: Object, kind: str) -> Iterator[str]:
    must, may = DOMAIN.get(kind) or OBSERVABLE[kind]
    common = COMMON if kind in DOMAIN else COMMON - {"created", "modified", "created_by_ref", "revoked", "labels", "confidence", "lang",
                                                     "external_references"}
    must = must | ({"created", "modified"} if kind in DOMAIN else set())
    yield from (f"{name} is missing" for name in sorted(must - set(value)))
    yield from (f"{name} isn't a property of it" for name in sorted(set(value) - must - may - common))
    if kind in ONE_OF and not ONE_OF[kind] & set(value):
        yield "it has none of what it must have one of"
    yield from (f"{name} isn't a text" for name in TEXTS & set(value) if not isinstance(value[name], str))
    yield from (f"{name} isn't a property's name" for name in value if not re.fullmatch(r"[a-z0-9_]{1,250}", name))


def _of_references(value: Object) -> Iterator[str]:
    for name, it in value.items():
        many = it if name.endswith("_refs") else [it] if name.endswith("_ref") else []
        if not isinstance(many, list) or not all(isinstance(each, str) and ID.fullmatch(each) for each in many):
            yield f"{name} isn't of ids"
            continue
        types = {each.partition("--")[0] for each in many}
        allowed = {"object_marking_refs": {"marking-definition"}, "created_by_ref": {"identity"}}.get(name)
        if value["type"] == "observed-data" and name == "object_refs":
            allowed = set(OBSERVABLE) | {"relationship"}
        if allowed is not None and not types <= allowed:
            yield f"{name} names {sorted(types - allowed)}"
    for each in value.get("external_references", []):
        if not isinstance(each.get("source_name"), str) or not {"description", "url", "external_id"} & set(each):
            yield "an external reference without what it must have"


def moment_of(text: object) -> datetime.datetime | None:
    """The moment that a timestamp says."""
    if not isinstance(text, str) or not MOMENT.fullmatch(text):
        return None
    try:
        return datetime.datetime.fromisoformat(text)
    except ValueError:
        return None


def _of_moments(value: Object) -> Iterator[str]:
    told = {name: moment_of(value[name]) for name in MOMENTS & set(value)}
    yield from (f"{name} isn't a timestamp: {value[name]}" for name, each in told.items() if each is None)
    yield from (f"{name} has no milliseconds" for name in ("created", "modified") if name in value
                and not re.search(r"\.[0-9]{3,}Z", str(value[name])))
    for first, last in (("created", "modified"), ("first_observed", "last_observed")):
        one, other = told.get(first), told.get(last)
        if one and other and one > other:
            yield f"{last} is before {first}"
    one, other = told.get("valid_from"), told.get("valid_until")
    if one and other and one >= other:
        yield "valid_until isn't after valid_from"


def _of_kind(value: Object, kind: str) -> Iterator[str]:
    if kind == "indicator":
        if value.get("pattern_type") != "stix":
            yield "pattern_type isn't stix"
        elif (fault := fault_of_pattern(str(value.get("pattern")))) is not None:
            yield f"the pattern {value['pattern']!r}: {fault}"
    if kind == "observed-data" and not (type(value.get("number_observed")) is int and 1 <= value["number_observed"] <= 999_999_999):
        yield "number_observed isn't a count"
    if kind == "autonomous-system" and type(value.get("number")) is not int:
        yield "number isn't a whole number"
    if kind == "mac-addr" and not re.fullmatch(r"[0-9a-f]{2}(:[0-9a-f]{2}){5}", value["value"]):
        yield "the address isn't of colons and small letters"
    for name, digest in value.get("hashes", {}).items():
        if HASHES.get(name) != len(digest) or not re.fullmatch(r"[0-9A-Fa-f]+", digest):
            yield f"{name} isn't a digest of that kind"
    if kind == "relationship" and value["relationship_type"] == "based-on":
        ends = value["source_ref"].partition("--")[0], value["target_ref"].partition("--")[0]
        if ends != ("indicator", "observed-data"):
            yield f"based-on is of {ends}"


def _empty_in(value: object, path: str) -> Iterator[str]:
    if value is None or value == [] or value == {}:
        yield f"{path} is empty"
    for name, each in value.items() if isinstance(value, dict) else enumerate(value) if isinstance(value, list) else ():
        yield from _empty_in(each, f"{path}/{name}")


# The grammar of patterns: [ comparisons ], joined by AND, OR and FOLLOWEDBY, in parentheses, with qualifiers.

TOKEN = re.compile(r"""\s*(?:
    (?P<text>'(?:[^'\\]|\\'|\\\\)*') | (?P<path>[a-zA-Z0-9_-]+:(?:[a-zA-Z0-9_-]+|'(?:[^'\\]|\\'|\\\\)*')
        (?:\.(?:[a-zA-Z0-9_-]+|'(?:[^'\\]|\\'|\\\\)*')|\[(?:\*|[0-9]+)\])*)
    | (?P<number>-?[0-9]+(?:\.[0-9]+)?) | (?P<word>[A-Za-z]+) | (?P<mark>[\[\]()]|=|!=|<=|>=|<|>|,) )""", re.X)
OPERATORS = {"=", "!=", "<", ">", "<=", ">=", "IN", "LIKE", "MATCHES", "ISSUBSET", "ISSUPERSET"}


class _Bad(Exception):
    pass


class _Reader:
    def __init__(self, text: str) -> None:
        self.tokens: list[tuple[str, str]] = []
        place = 0
        while place < len(text.rstrip()):
            found = TOKEN.match(text, place)
            if found is None:
                raise _Bad(f"nothing begins at {text[place:place + 20]!r}")
            self.tokens.append((str(found.lastgroup), found[str(found.lastgroup)]))
            place = found.end()
        self.tokens.append(("end", ""))

    def take(self, *wanted: str) -> bool:
        """Takes the next token if its text is one of these."""
        if self.tokens[0][0] in ("mark", "word") and self.tokens[0][1] in wanted:
            self.tokens.pop(0)
            return True
        return False

    def need(self, *wanted: str) -> None:
        if not self.take(*wanted):
            raise _Bad(f"{self.tokens[0][1]!r} isn't {' or '.join(wanted)}")

    def need_kind(self, *kinds: str) -> str:
        kind, text = self.tokens.pop(0)
        if kind not in kinds:
            raise _Bad(f"{text!r} isn't a {' or a '.join(kinds)}")
        return text

    def observations(self) -> None:
        self.observation()
        while self.take("AND", "OR", "FOLLOWEDBY"):
            self.observation()

    def observation(self) -> None:
        if self.take("("):
            self.observations()
            self.need(")")
        else:
            self.need("[")
            self.comparisons()
            self.need("]")

    def comparisons(self) -> None:
        self.comparison()
        while self.take("AND", "OR"):
            self.comparison()

    def comparison(self) -> None:
        if self.take("("):
            self.comparisons()
            self.need(")")
            return
        path = self.need_kind("path")
        self.take("NOT")
        operator = self.tokens[0][1]
        self.need(*OPERATORS)
        if operator in ("LIKE", "MATCHES", "ISSUBSET", "ISSUPERSET"):
            self.need_kind("text")
        else:
            self.need_kind("text", "number")
        if operator.startswith("ISSU") and path not in ("ipv4-addr:value", "ipv6-addr:value") and not path.endswith("_ref.value"):
            raise _Bad(f"{operator} is of addresses")


def fault_of_pattern(text: str) -> str | None:
    """What is wrong with a pattern, if anything is."""
    try:
        reader = _Reader(text)
        reader.observations()
        reader.need_kind("end")
    except _Bad as fault:
        return str(fault)
    return None


def texts_in_pattern(text: str) -> list[str]:
    """The texts that a pattern compares with, without their escapes."""
    return [re.sub(r"\\(.)", r"\1", each[1:-1]) for kind, each in _Reader(text).tokens if kind == "text"]
