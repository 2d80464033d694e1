"""Reports whose classes each hold a text of their own, and which clearance reaches each, by the labels alone."""
from __future__ import annotations

import json
import random
from dataclasses import dataclass, field
from typing import Any

CLEARANCES = ("CLEAR", "GREEN", "AMBER", "STRICT", "RED")
TLP = ("TLP:CLEAR", "TLP:GREEN", "TLP:AMBER", "TLP:AMBER+STRICT", "TLP:RED")
# Each label with the place of its handling in CLEARANCES, by docs/POLICY.md; a class without one has that of the class around.
WORDS = {"public": 0, "white": 0, "partner": 1, "green": 1, "need-to-know": 3, "amber": 3, "private": 4, "red": 4, "default": 4}
LABELS: tuple[tuple[dict[str, str], int | None], ...] = (
    ({}, None),
    *(({"restriction": word}, at) for word, at in WORDS.items()),
    *(({"restriction": "ext-value", "ext-restriction": word}, at) for at, word in enumerate(TLP)),
)


@dataclass
class Report:
    """A report, and the handling of each text that a class of it holds directly."""

    document: dict[str, Any] = field(default_factory=dict)
    needles: dict[str, int] = field(default_factory=dict)

    def text(self) -> bytes:
        return json.dumps(self.document).encode()

    def classes(self, clearance: int) -> tuple[int, int]:
        """How many classes the clearance reaches, and how many not."""
        reached = sum(handling <= clearance for handling in self.needles.values())
        return reached, len(self.needles) - reached

    def label(self, clearance: int) -> str:
        """The highest label that it reaches."""
        return TLP[max(handling for handling in self.needles.values() if handling <= clearance)]


def generated(seed: int, number: int) -> Report:
    chance = random.Random(f"{seed} mail {number}")
    made = Report()

    def one(around: int, depth: int, members: dict[str, Any], needle_in: str) -> dict[str, Any]:
        label, handling = chance.choice(LABELS)
        own = around if handling is None else handling
        needle = f"needle{number}n{len(made.needles)}x"
        made.needles[needle] = own
        inner = [] if depth == 0 else [one(own, depth - 1, {}, "Description") for _ in range(chance.randrange(4))]
        held = {needle_in: [needle] if needle_in == "Description" else needle}
        return {**label, **members, **held, **({"EventData": inner} if inner else {})}

    incident = one(4, 0, {"purpose": "reporting", "GenerationTime": "2026-04-16T10:02:11Z"}, "Description")
    own = next(iter(made.needles.values()))
    incident["IncidentID"] = one(own, 0, {"name": "csirt.example.com"}, "id")
    incident["Contact"] = [{**one(own, 0, {"role": "creator", "type": "person"}, "Description")}]
    incident["EventData"] = [one(own, 3, {}, "Description") for _ in range(1 + chance.randrange(4))]
    made.document = {"version": "2.0", "Incident": [incident]}
    return made
