"""What a report is, and which of its faults is the first: docs/HTTP.md, "Details of `B1`" and "Limits", and docs/DECISIONS.md,
"Documents" and "Markings". Written from the documents alone.

A document is what `json.loads` makes of it: dicts, lists, texts, whole numbers, truths and None, and a `NotWhole` for any other number.
A path is a tuple of members' names (str) and places in arrays (int).
"""
from __future__ import annotations

import json
import math
from collections.abc import Iterator
from typing import Any

Path = tuple[Any, ...]

INCIDENTS = 16
DEPTH = 32
LINES = 4096
NESTING = 127
REQUIRED = ("Contact", "GenerationTime", "IncidentID", "purpose")
RESTRICTIONS = {"public", "white", "partner", "green", "need-to-know", "amber", "private", "red", "default", "ext-value"}


class Fault(Exception):
    """A fault by its name, and its place: None if the documents give it none, or don't say which."""

    def __init__(self, name: str, place: str | None = None, about: str = "") -> None:
        super().__init__(name)
        self.name, self.place, self.about = name, place, about


class NotWhole:
    """A number that isn't a whole one of 64 bits."""


# JSON (DECISIONS, "What a report is")


def whole(text: str) -> Any:
    """A number without fraction and exponent. `-0` counts as floating point, and one that is out of range is no JSON."""
    if text == "-0" or not -(2**63) <= int(text) < 2**64:
        return fraction(text)
    return int(text)


def fraction(text: str) -> NotWhole:
    if math.isinf(float(text)):
        raise ValueError("out of range")
    return NotWhole()


def constant(text: str) -> Any:
    raise ValueError(f"{text} is no JSON")


def nesting(text: str) -> int:
    """How deep the arrays and objects of a JSON text nest."""
    deepest = now = 0
    in_text = escaped = False
    for letter in text:
        if in_text:
            in_text, escaped = escaped or letter != '"', not escaped and letter == "\\"
        elif letter == '"':
            in_text = True
        elif letter in "[{":
            now += 1
            deepest = max(deepest, now)
        elif letter in "]}":
            now -= 1
    return deepest


def parsed(data: bytes, most: int, members: Any = dict) -> Any:
    """The value of a JSON text in UTF-8 that nests at most so deep, else a ValueError. A repeated member keeps its last value."""
    text = data.decode()
    if nesting(text) > most:
        raise ValueError("too deep")
    value = json.loads(text, parse_int=whole, parse_float=fraction, parse_constant=constant, object_pairs_hook=members)
    spelled(value)
    return value


def spelled(value: Any) -> None:
    """Each text can be written in UTF-8, which half a pair of surrogates can't."""
    if isinstance(value, str):
        value.encode()
    elif isinstance(value, dict):
        for name, inner in value.items():
            spelled(name)
            spelled(inner)
    elif isinstance(value, list):
        for inner in value:
            spelled(inner)


def compact(value: Any) -> str:
    """Compact JSON with members in the byte order of their names, which is that of their code points."""
    return json.dumps(value, ensure_ascii=False, separators=(",", ":"), sort_keys=True)


# Paths (RFC 6901)


def is_pointer(text: str) -> bool:
    """Empty, or a slash first; `0` or `1` after each `~`."""
    return text == "" or text[0] == "/" and all(rest[:1] in {"0", "1"} for rest in text.split("~")[1:])


def pointer(path: Path) -> str:
    return "".join("/" + str(step).replace("~", "~0").replace("/", "~1") for step in path)


# Classes, in stored order (POLICY, "Words": a class is a JSON object inside a report)


def classes_in(node: dict[str, Any]) -> Iterator[tuple[Path, dict[str, Any]]]:
    """The classes that an object directly holds, each with its steps from there."""
    for name in sorted(node):
        value = node[name]
        if isinstance(value, dict):
            yield (name,), value
        elif isinstance(value, list):
            yield from (((name, place), each) for place, each in enumerate(value) if isinstance(each, dict))


def classes(node: dict[str, Any], path: Path = ()) -> Iterator[tuple[Path, dict[str, Any]]]:
    """The classes below the root, each before those in it."""
    for steps, child in classes_in(node):
        yield path + steps, child
        yield from classes(child, path + steps)


def documents(report: dict[str, Any]) -> list[dict[str, Any]]:
    """The document of each Incident: the Incident alone, with a copy of everything else at the root."""
    return [{**report, "Incident": [each]} for each in report["Incident"]]


# Faults (HTTP, "Details of `B1`"; all of one kind come before those of the next)


def read(data: bytes) -> dict[str, Any]:
    """The report, or its first fault."""
    try:
        report = parsed(data, NESTING)
    except ValueError:
        raise Fault("NotJson", "") from None
    is_document(report)
    lacks_nothing(report)
    for path, value in values(report):
        if isinstance(value, NotWhole):
            raise Fault("NotWhole", pointer(path))
    nests_no_class(report)
    for name, is_over in (("TooDeep", too_deep), ("TooManyLines", too_many_lines)):
        if any(is_over(each) for each in documents(report)):
            raise Fault(name, "")
    return report


def is_document(report: Any) -> None:
    if not isinstance(report, dict):
        raise Fault("NotDocument")
    incidents = report.get("Incident")
    if not isinstance(incidents, list) or not 1 <= len(incidents) <= INCIDENTS:
        raise Fault("NotDocument")
    if not all(isinstance(each, dict) for each in incidents):
        raise Fault("NotDocument")


def lacks_nothing(report: dict[str, Any]) -> None:
    for place, incident in enumerate(report["Incident"]):
        for name in REQUIRED:
            if name not in incident:
                raise Fault("Missing", f"/Incident/{place}/{name}", f"/Incident/{place} {name}")


def values(value: Any, path: Path = ()) -> Iterator[tuple[Path, Any]]:
    """Each value with its path, in stored order."""
    yield path, value
    if isinstance(value, dict):
        for name in sorted(value):
            yield from values(value[name], (*path, name))
    elif isinstance(value, list):
        for place, each in enumerate(value):
            yield from values(each, (*path, place))


def nests_no_class(report: dict[str, Any]) -> None:
    """No object is in an array inside an array."""
    for path, value in values(report):
        if isinstance(value, dict) and [type(step) for step in path[-2:]] == [int, int]:
            raise Fault("NestedClass", pointer(path))


def too_deep(node: dict[str, Any], objects: int = 1) -> bool:
    """Whether a member is inside more than 32 objects, the root included, or an element of an array nests more than 32 arrays."""
    if node and objects > DEPTH:
        return True
    elements = [each for value in node.values() if isinstance(value, list) for each in value]
    return any(arrays(each) > DEPTH for each in elements) or any(too_deep(each, objects + 1) for _, each in classes_in(node))


def arrays(value: Any) -> int:
    """The depth of a value in its own text: `[]` is one deep."""
    return 1 + max(map(arrays, value), default=0) if isinstance(value, list) else 0


def lines(node: dict[str, Any]) -> int:
    """One for each object below the root, each other element of an array, and each other member that isn't an array or is an empty one."""
    count = 0
    for value in node.values():
        for each in value if isinstance(value, list) and value else [value]:
            count += 1 + (lines(each) if isinstance(each, dict) else 0)
    return count


def too_many_lines(document: dict[str, Any]) -> bool:
    return lines(document) > LINES


# The marking rule (POLICY, "Labels"; DECISIONS, "Markings")


def breaks_marking(node: dict[str, Any]) -> bool:
    """Any other `restriction` than the ten texts; `ext-value` without `ext-restriction`; one that is alone or no text."""
    restriction, text = node.get("restriction"), node.get("ext-restriction")
    if "restriction" in node and not (isinstance(restriction, str) and restriction in RESTRICTIONS):
        return True
    if restriction == "ext-value" and "ext-restriction" not in node:
        return True
    return "ext-restriction" in node and (not isinstance(text, str) or "restriction" not in node)


def bad_marking(report: dict[str, Any]) -> tuple[int, Path] | None:
    """The first Incident with such a class, and the class's path in its document."""
    for place, document in enumerate(documents(report)):
        for path, node in classes(document):
            if breaks_marking(node):
                return place, path
    return None
