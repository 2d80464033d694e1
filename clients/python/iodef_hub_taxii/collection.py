"""A reader's collection: its pages, what is revoked, and the objects that each collection has."""
from __future__ import annotations

import json
import uuid
from collections.abc import Sequence
from dataclasses import dataclass
from typing import Any

from iodef_hub_stix.marking import MARKING_IDS, definition_of

from .looking import Reader, stamp
from .store import Row, Store, Wanted, has_versions

Object = dict[str, Any]
MEDIA = "application/stix+json;version=2.1"
MOST_OBJECTS = 200  # in one answer
MOST_BYTES = 4 * 1024 * 1024  # of one answer, but for its last object
GONE = "withdrawn"  # the text of a member that an object which is revoked must have
NOTHING: Object = {
    "type": "mutex", "spec_version": "2.1", "id": f"mutex--{uuid.uuid5(uuid.NAMESPACE_URL, 'iodef-hub-taxii:' + GONE)}", "name": GONE,
    "object_marking_refs": [MARKING_IDS["clear"]],
}
FIXED: dict[str, Object] = {each["id"]: each for each in (*(definition_of(label) for label in MARKING_IDS), NOTHING)}
# What an object which is revoked must have, by its type; there is nothing of the excerpt in it.
MUST_HAVE: dict[str, Object] = {
    "identity": {"name": GONE},
    "indicator": {"pattern": f"[mutex:name = '{GONE}']", "pattern_type": "stix"},
    "note": {"content": GONE, "object_refs": [NOTHING["id"]]},
    "observed-data": {"number_observed": 1, "object_refs": [NOTHING["id"]]},
    "report": {"name": GONE, "object_refs": [NOTHING["id"]]},
    "vulnerability": {"name": GONE},
    "relationship": {"relationship_type": "related-to", "source_ref": NOTHING["id"], "target_ref": NOTHING["id"]},
}
MOMENTS = {"indicator": ("valid_from",), "observed-data": ("first_observed", "last_observed"), "report": ("published",)}


@dataclass(frozen=True)
class Entry:
    """An object of a page, when it was added, and its version: moments as they are written."""

    object: Object
    added: str
    version: str


@dataclass(frozen=True)
class Page:
    """A part of a collection. `next` is where a further one begins, if there is one."""

    entries: Sequence[Entry]
    next: int | None


def added_stamp(microseconds: int) -> str:
    """A moment in the form of TAXII, with microseconds."""
    return stamp(microseconds // 1000).removesuffix("Z") + f"{microseconds % 1000:03d}Z"


def revoked(row: Row) -> Object:
    """An object that is seen no more: its id and its moments, and fixed words."""
    kind, created = row.id.partition("--")[0], stamp(row.created)
    return {
        "type": kind, "spec_version": "2.1", "id": row.id, "created": created, "modified": stamp(row.modified), "revoked": True,
        **MUST_HAVE[kind], **{name: created for name in MOMENTS.get(kind, ())}, "object_marking_refs": [MARKING_IDS["red"]],
    }


def _entry(row: Row, value: Object) -> Entry:
    added = added_stamp(row.added)
    version = value["modified"] if has_versions(row.id) else value.get("created", added)
    return Entry(value, added, version)


class Collection:
    def __init__(self, store: Store, reader: Reader) -> None:
        self._store, self._reader = store, reader

    def page(self, wanted: Wanted, count: int) -> Page:
        """The first objects that are wanted, as the hub serves them now. One that has another version by now is behind all others."""
        entries: list[Entry] = []
        size, after = 0, wanted.after
        for row in self._store.rows(self._reader.number, wanted, count):
            if size > MOST_BYTES:
                break
            value, after = self._value(row), row.added
            if value is not None:
                entries.append(_entry(row, value))
                size += len(json.dumps(value))
        has_more = self._store.rows(self._reader.number, Wanted(after, wanted.types, wanted.ids), 1)
        return Page(entries, after if has_more else None)

    def _value(self, row: Row) -> Object | None:
        """The object of a row; None if it isn't any more what the row says."""
        if row.incident == 0:
            return FIXED[row.id]
        if row.revoked:
            return revoked(row)
        found = next((each for each in self._reader.objects(row.incident) if each["id"] == row.id), None)
        if found is None:
            return None
        kept = self._store.rows(self._reader.number, Wanted(row.added - 1, ids=frozenset([row.id])), 1)
        return found if kept and kept[0] == row else None
