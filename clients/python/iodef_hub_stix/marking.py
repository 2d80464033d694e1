"""Labels of TLP as STIX's marking definitions, and back.

The ids are fixed by their specifications and are from memory: those of TLP 2.0 are of the extension that STIX 2.1 has for it, those of
TLP 1 are of STIX 2.1 itself and are only read. What isn't known, or isn't there, is RED.
"""
from __future__ import annotations

from collections.abc import Iterable, Mapping, Sequence
from typing import Any

from iodef_hub_misp import LABELS, ORDER

EXTENSION = "extension-definition--60a3c5c5-0d10-413e-aab3-9e08dde9e88d"
# The labels from the widest audience to the narrowest are those of iodef_hub_misp.
MARKING_IDS = {
    "clear": "marking-definition--94868c89-83c2-464b-929b-a1a8aa3c8487",
    "green": "marking-definition--bab4a63c-aed9-4cf5-a766-dfca5abac2bb",
    "amber": "marking-definition--55d920b0-5e8b-4f79-9ee9-91f868d9b421",
    "amber+strict": "marking-definition--939a9414-2ddd-4d32-a0cd-375ea402b003",
    "red": "marking-definition--e828b379-4e03-4974-9ac4-e53a884c97c1",
}
# TLP 1's AMBER is read as the stricter of the two that it may mean.
OLD_MARKING_IDS = {
    "marking-definition--613f2e26-407d-48c7-9eca-b8e91df99dc9": "clear",
    "marking-definition--34098fce-860f-48ae-8e50-ebd3cc5e41da": "green",
    "marking-definition--f88d31f6-486f-44da-b317-01333bde0b82": "amber+strict",
    "marking-definition--5e57c739-391a-4eb3-b6be-7d15ca92d5ed": "red",
}
LABEL_OF_ID = {**{name: label for label, name in MARKING_IDS.items()}, **OLD_MARKING_IDS}


def strictest(labels: Iterable[str]) -> str:
    """The strictest label; RED if there is none."""
    return max(labels, key=ORDER.index, default="red")


def definition_of(label: str) -> dict[str, Any]:
    """The marking definition of a label of TLP 2.0, as its specification writes it."""
    return {
        "type": "marking-definition", "spec_version": "2.1", "id": MARKING_IDS[label], "created": "2022-10-01T00:00:00.000Z",
        "name": f"TLP:{label.upper()}", "extensions": {EXTENSION: {"extension_type": "property-extension", "tlp_2_0": label}},
    }


def definitions_of(objects: Sequence[Mapping[str, Any]]) -> list[dict[str, Any]]:
    """The marking definitions that the objects name."""
    named = {ref for each in objects for ref in each.get("object_marking_refs", ())}
    return [definition_of(label) for label, name in MARKING_IDS.items() if name in named]


def refs_of(value: Mapping[str, Any]) -> list[object]:
    """The markings that an object names for all of it or for a part. What isn't a list is one that nobody knows."""
    whole, parts = value.get("object_marking_refs", []), value.get("granular_markings", [])
    if not isinstance(whole, list) or not isinstance(parts, list):
        return [None]
    granular = [each.get("marking_ref") if isinstance(each, dict) else None for each in parts if not _is_language(each)]
    return [*whole, *granular]


def _is_language(part: object) -> bool:
    return isinstance(part, dict) and "lang" in part and "marking_ref" not in part


def label_of_object(value: Mapping[str, Any]) -> str:
    """The strictest of an object's markings. A marking that isn't one of TLP's fixed ids counts as RED."""
    return strictest(LABEL_OF_ID.get(ref, "red") if isinstance(ref, str) else "red" for ref in refs_of(value))


def restriction_of(label: str) -> dict[str, str]:
    """What IODEF writes for a label."""
    return dict(LABELS[label])
