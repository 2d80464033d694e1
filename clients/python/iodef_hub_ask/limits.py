"""What a hub accepts of a report, by docs/HTTP.md, and how it counts."""
from __future__ import annotations

from typing import Any

MOST_BYTES, MOST_LINES, MOST_DEPTH, MOST_INCIDENTS, MOST_GATES = 262_144, 4_096, 32, 16, 16


def lines_of(value: dict[str, Any]) -> int:
    """How many lines a document has, as the hub counts them: one for each member, and one for each element of an array."""
    count = 0
    for each in value.values():
        elements = each if isinstance(each, list) and each else [each]
        count += len(elements) + sum(lines_of(one) for one in elements if isinstance(one, dict))
    return count


def most_lines(document: dict[str, Any]) -> int:
    """The lines of the Incident that has most, with the root's other members."""
    incidents = document.get("Incident")
    if not isinstance(incidents, list):
        return lines_of(document)
    rest = lines_of({name: each for name, each in document.items() if name != "Incident"})
    return rest + max((lines_of({"Incident": [one]}) for one in incidents), default=0)


def depth_of(value: dict[str, Any]) -> int:
    """How many members deep the deepest line is."""
    inner = [one for each in value.values() for one in (each if isinstance(each, list) else [each]) if isinstance(one, dict)]
    return (1 if value else 0) + max(map(depth_of, inner), default=0)
