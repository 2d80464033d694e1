"""Generated reports whose sharing changes: behind each change a reader's XML has the values that the hub serves, and no other."""
from __future__ import annotations

import copy
import datetime
import json
import random
import time
import urllib.parse
from collections import Counter
from collections.abc import Iterator
from typing import Any

from iodef_hub_xml import documents, to_xml, tree
from iodef_hub_xml.faults import Notes, Unfit
from small_hub import Hub

from . import xml_generated as generated
from .context import same
from .stix_reports import objects_in

# What is done to a report, and done back.
KINDS = ("grant and withdraw", "gate of a class", "gate of the report", "address and unaddress", "replace", "an end that passes")
NEAR, FAR = 5, 36_000  # seconds until an end
Words = tuple[tuple[str, object], ...]


def until(seconds: float) -> str:
    return (datetime.datetime.now(datetime.timezone.utc) + datetime.timedelta(seconds=seconds)).strftime("%Y-%m-%dT%H:%M:%SZ")


def needles_of(answer: bytes) -> tuple[set[str], set[str] | None]:
    """The needles that the hub's answer has, and those of its XML; None if XML can't hold a label that the hub added."""
    excerpt, _ = documents.document_of(answer)
    served = {needle for needle, _ in generated.labels_in_json(excerpt)}
    try:
        text = tree.document_text(to_xml.root_of(excerpt, Notes()))
    except Unfit as fault:
        if fault.name == "LabelNotHeld":
            return served, None
        raise
    return served, set(generated.NEEDLE.findall(text))


class Changes:
    """What each reader's XML has behind each change. `source` is the key of the source, and `readers` are the others'; `before` has the
    needles that each reader saw of a report at last."""

    def __init__(self, hub: Hub, source: str, readers: tuple[str, ...]) -> None:
        self.hub, self.source, self.readers = hub, source, readers
        self.before: dict[tuple[int, str], set[str]] = {}
        self.faults: list[str] = []
        self.ending: dict[int, str] = {}
        self.changed: Counter[str] = Counter()
        self.looked = self.refused = 0

    def look(self, number: int, kind: str) -> None:
        for key in self.readers:
            status, answer = self.hub.ask(key, "GET", f"/incidents/{number}")
            served, found = needles_of(answer) if status == 200 else (set[str](), set[str]())
            self.looked += 1
            self.refused += found is None
            if found is not None and found != served:
                self.faults.append(f"report {number} for {key} behind {kind}: {sorted(found ^ served)[:3]}")
            if served != self.before[number, key]:
                self.changed[kind] += 1
            self.before[number, key] = served

    def _do(self, number: int, what: str, *words: tuple[str, object]) -> None:
        status, told = self.hub.ask(self.source, "POST", f"/incidents/{number}/{what}", urllib.parse.urlencode(words).encode())
        # S1 and S2: it is so.
        assert status == 200 or json.loads(told)["code"] in ("S1", "S2"), (what, words, told)

    def _replace(self, number: int, revision: int, document: dict[str, Any], path: str, label: str) -> None:
        """The class at a path is marked anew."""
        changed = copy.deepcopy(document)
        value: Any = changed
        for step in path.split("/")[1:]:
            value = value[int(step) if isinstance(value, list) else step]
        value.pop("ext-restriction", None)
        value["restriction"] = label
        self.hub.done(self.source, "PUT", f"/incidents/{number}?level=3&revision={revision}", json.dumps(changed).encode())

    def change(self, number: int, document: dict[str, Any], path: str) -> None:
        """Makes and unmakes a change of the kind whose turn it is."""
        kind = KINDS[number % len(KINDS)]
        at: Words = (("revision", 1), ("path", path))
        if kind == KINDS[0]:
            self._do(number, "grant", *at, ("org", 3))
            self.look(number, kind)
            self._do(number, "withdraw", ("path", path), ("org", 3))
        elif kind in KINDS[1:3]:
            at = at if kind == KINDS[1] else (("revision", 1), ("path", ""))
            self._do(number, "gate", *at, ("level", 0))
            self.look(number, kind)
            self._do(number, "gate", *at, ("level", 5 if kind == KINDS[1] else 3))
        elif kind == KINDS[3]:
            self._do(number, "address", ("person", 3))
            self.look(number, kind)
            self._do(number, "unaddress", ("person", 3))
        elif kind == KINDS[4]:
            self._replace(number, 1, document, path, "default")
            self.look(number, kind)
            self._replace(number, 2, document, path, "white")
        else:
            self._do(number, "grant", *at, ("org", 3), ("until", until(FAR)))
            self.ending[number] = path
        self.look(number, kind)

    def told(self) -> Iterator[tuple[bool, str]]:
        """Lets the permissions end that have an end, and tells what was found."""
        for number, path in self.ending.items():
            self._do(number, "grant", ("revision", 1), ("path", path), ("org", 3), ("until", until(NEAR)))
        time.sleep(NEAR + 1)
        for number in self.ending:
            self.look(number, KINDS[5])
        yield same(f"of {self.looked} excerpts behind changes the XML has the values that the hub serves, or is refused",
                   (self.faults[:5], self.refused < self.looked / 10), ([], True))
        # Of few reports not each kind does.
        yield same("and each kind of change changed some", sorted(set(KINDS) - set(self.changed)) if len(self.before) >= 200 else [], [])


def path_in(document: dict[str, Any], chance: random.Random, number: int, paths: list[str]) -> str:
    """A class to change, whose label a revision may change: one whose own label lets the change show, if there is one."""
    free = {each for each in paths if not each.endswith("/IncidentID")}
    is_gate = KINDS[number % len(KINDS)] == KINDS[1]
    wanted = ("public", "white", "partner", "green") if is_gate else ("need-to-know", "amber", "private", "red")
    held = {path: value for path, value in objects_in(document) if path in free and generated.NEEDLE.search(str(value))}
    marked = [path for path, value in held.items() if value.get("restriction") in wanted]
    return chance.choice(marked or sorted(held) or sorted(free))
