"""Labels: the members `restriction` and `ext-restriction` of a class."""
from __future__ import annotations

from collections.abc import Mapping

from .faults import Unfit

LABELS = ("public", "partner", "need-to-know", "private", "default", "white", "green", "amber", "red", "ext-value")
RESTRICTION, EXTENDED = "restriction", "ext-restriction"
MEMBERS = (RESTRICTION, EXTENDED)


def mark_of(value: Mapping[str, object], place: str) -> dict[str, str]:
    """The label that a class has of its own, as its members; a label that a hub refuses is a fault."""
    label, text = value.get(RESTRICTION), value.get(EXTENDED)
    for member in MEMBERS:
        if member in value and not isinstance(value[member], str):
            raise Unfit("BadMarking", f"{member} isn't a text", place)
    if RESTRICTION not in value:
        if EXTENDED in value:
            raise Unfit("BadMarking", f"{EXTENDED} has no {RESTRICTION} beside it", place)
        return {}
    if label not in LABELS:
        raise Unfit("BadMarking", f"{RESTRICTION} isn't one of {', '.join(LABELS)}", place)
    if label == "ext-value" and text is None:
        raise Unfit("BadMarking", f"ext-value has no {EXTENDED} beside it", place)
    return {member: str(value[member]) for member in MEMBERS if member in value}


def looks_like_mark(name: str) -> bool:
    """Whether a name, with a namespace or without, is that of a label but for its namespace and its capital letters."""
    return name.rpartition("}")[2].lower() in MEMBERS
