"""A bundle of STIX 2.1 objects, read from JSON: which of its objects count, and their members by kind."""
from __future__ import annotations

import re
from collections import Counter
from collections.abc import Mapping
from typing import Any

from iodef_hub_misp import Unfit, read_json

from .excerpt import moment

ID = re.compile(r"[a-z0-9][a-z0-9-]{1,248}--[0-9a-f]{8}(-[0-9a-f]{4}){3}-[0-9a-f]{12}")
Object = dict[str, Any]
MOST_OBJECTS = 100_000


def where(value: Mapping[str, Any]) -> str:
    return f"object {value['id']}"


def text_in(value: Object, name: str) -> str:
    """A text of an object; empty if there is none."""
    found = value.get(name, "")
    if not isinstance(found, str):
        raise Unfit(f"{where(value)}: {name} is not a text")
    return found


def texts_in(value: Object, name: str) -> list[str]:
    found = value.get(name, [])
    if not isinstance(found, list) or not all(isinstance(each, str) for each in found):
        raise Unfit(f"{where(value)}: {name} is not a list of texts")
    return found


def moment_in(value: Object, name: str) -> str | None:
    """A moment of an object; None if there is none."""
    if name not in value:
        return None
    told = moment(value[name])
    if told is None:
        raise Unfit(f"{where(value)}: {name} is not a moment")
    return told


def objects_in(text: bytes) -> dict[str, Object]:
    """The objects of a bundle, or of an envelope of TAXII, by their ids; of several versions of one the last."""
    value = read_json(text)
    if not isinstance(value, dict) or value.get("type", "bundle") != "bundle" or not isinstance(value.get("objects"), list):
        raise Unfit("the input must be a bundle of STIX, with a list of objects")
    if len(value["objects"]) > MOST_OBJECTS:
        raise Unfit(f"the bundle has more than {MOST_OBJECTS} objects")
    found: dict[str, Object] = {}
    newest: dict[str, str] = {}
    for place, each in enumerate(value["objects"]):
        name = _named(each, place)
        modified = moment_in(each, "modified") or ""
        if modified >= newest.get(name, ""):
            found[name], newest[name] = each, modified
    return found


def _named(value: object, place: int) -> str:
    if not isinstance(value, dict):
        raise Unfit(f"object {place} of the bundle is not an object")
    type_, name = value.get("type"), value.get("id")
    if not isinstance(type_, str) or not isinstance(name, str) or not ID.fullmatch(name) or name.partition("--")[0] != type_:
        raise Unfit(f"object {place} of the bundle has no type, or no id of its type and a UUID")
    if value.get("spec_version", "2.1") != "2.1":
        raise Unfit(f"object {place} of the bundle is not of STIX 2.1")
    return name


def counted(objects: dict[str, Object], left_out: Counter[str]) -> dict[str, Object]:
    """The objects that count: not those that are revoked, and not the marking definitions."""
    kept = {}
    for name, each in objects.items():
        if each.get("revoked", False) not in (True, False):
            raise Unfit(f"{where(each)}: revoked is neither true nor false")
        if each.get("revoked", False):
            left_out["objects that are revoked"] += 1
        elif each["type"] != "marking-definition":
            kept[name] = each
    return kept
