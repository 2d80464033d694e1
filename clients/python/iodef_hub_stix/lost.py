"""What of a STIX object isn't in the class that is made of it: its members, by name."""
from __future__ import annotations

import re
from collections.abc import Iterator, Set

from .reading import Object
from .table import VALUES

# What says what an object is, of which version, by whom, how marked, and how it hangs together: it is read, or has no counterpart.
FRAME = {"type", "id", "spec_version", "created", "modified", "created_by_ref", "revoked", "object_marking_refs", "granular_markings",
         "object_refs"}
# By type the members that are carried.
CARRIED = {
    "indicator": {"pattern", "pattern_type", "description", "valid_from", "valid_until"},
    "identity": {"name", "identity_class", "roles", "contact_information"},
    "note": {"content"}, "vulnerability": {"name"}, "observed-data": {"first_observed", "labels"}, "report": {"description", "published"},
}
# Members that tell no more than their absence would.
PLAIN = (("number_observed", 1), ("pattern_version", "2.1"), ("is_multipart", False))
NAME = re.compile(r"[a-z0-9_]{1,250}")


def members_lost(value: Object) -> Iterator[str]:
    """The names of an object's members that are in no class, each with the object's type."""
    kind = value["type"]
    carried = FRAME | (CARRIED[kind] if kind in CARRIED else _observed(value))
    if kind in ("indicator", "report") and not value.get("description"):
        carried |= {"name"}  # it is the Description
    for name, it in value.items():
        is_same = name == "last_observed" and it == value.get("first_observed")
        if name not in carried and it not in (None, "", [], {}) and (name, it) not in PLAIN and not is_same:
            yield f"{name if NAME.fullmatch(name) else 'other members'} of objects of type {kind}"


def _observed(value: Object) -> Set[str]:
    """The member of a cyber-observable object that becomes a value: the first of the table that is there. Of several hashes the others
    are lost."""
    of_type = [row.member.split("\0")[0] for row in VALUES if row.type == value["type"]]
    found = next((name for name in of_type if name in value), "")
    held = value.get(found)
    return {found} if not isinstance(held, dict) or len(held) < 2 else set()
