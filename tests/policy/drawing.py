"""Draws by a seed, and reports, labels and readers made of them."""
from __future__ import annotations

import json
import random
from collections.abc import Sequence
from typing import Any, TypeVar

Thing = TypeVar("Thing")
Json = dict[str, Any]


class Draws:
    """Numbers by a seed. Only `random.random` is used, which is the same in each version of Python."""

    def __init__(self, seed: str) -> None:
        self._random = random.Random(seed)

    def below(self, most: int) -> int:
        return int(self._random.random() * most)

    def chance(self, of: int, in_: int) -> bool:
        return self.below(in_) < of

    def one(self, things: Sequence[Thing]) -> Thing:
        return things[self.below(len(things))]

    def some(self, things: Sequence[Thing], most: int) -> list[Thing]:
        """Up to so many different ones, in their order."""
        left = list(range(len(things)))
        taken = sorted(left.pop(self.below(len(left))) for _ in range(min(self.below(most + 1), len(things))))
        return [things[each] for each in taken]


# Labels, as members of a class

PLAIN = ("public", "white", "partner", "green", "need-to-know", "amber", "private", "red", "default")
TLP = ("TLP:CLEAR", "TLP:WHITE", "TLP:GREEN", "TLP:AMBER", "TLP:AMBER+STRICT", "TLP:RED")
ODD_TEXTS = (
    "tlp:clear",
    "Tlp:White",
    "tlp:GREEN",
    "TLP:amber",
    "tLp:aMbEr+StRiCt",
    "tlp:red",
    "",
    " ",
    "TLP:GREEN ",
    " TLP:CLEAR",
    "TLP: GREEN",
    "GREEN",
    "TLP:AMBER+",
    "TLP:AMBER STRICT",
    "TLP:STRICT",
    "TLP:GREE",
    "TLP:GREENS",
    "TLP:WH\u0131TE",
    "TLP:AMBER+\u017fTRICT",
    "green",
    "TLP-GREEN",
    "TLP:AMBER+STRICT+",
    "ext-value",
    "\u0000",
    "TLP:CLEAR\n",
    "a\"b\\c",
)
SPELLINGS: tuple[Json, ...] = (
    *({"restriction": each} for each in PLAIN),
    *({"restriction": "ext-value", "ext-restriction": each} for each in (*TLP, *ODD_TEXTS)),
    {"restriction": "green", "ext-restriction": "TLP:RED"},
    {"restriction": "red", "ext-restriction": "TLP:CLEAR"},
    {"restriction": "default", "ext-restriction": ""},
)
FIVE: dict[str, Json] = {
    "CLEAR": {"restriction": "white"},
    "GREEN": {"restriction": "green"},
    "AMBER": {"restriction": "ext-value", "ext-restriction": "TLP:AMBER"},
    "STRICT": {"restriction": "amber"},
    "RED": {"restriction": "red"},
}
COMMON: tuple[Json, ...] = (*FIVE.values(), {"restriction": "default"}, {}, {})


def label(draws: Draws) -> Json:
    """A label or none; mostly a common one."""
    return dict(draws.one(COMMON) if draws.chance(5, 6) else draws.one(SPELLINGS))


# Reports


def report(*incidents: Json, **root: Any) -> Json:
    return {"Incident": list(incidents), **root}


def incident(contacts: Any = None, **members: Any) -> Json:
    """An Incident with what it must have."""
    return {
        "Contact": [{"role": "creator"}] if contacts is None else contacts,
        "GenerationTime": "2026-01-01T00:00:00Z",
        "IncidentID": {"id": "1", "name": "a"},
        "purpose": "other",
        **members,
    }


NAMES = ("Email", "a", "b", "Z", "x~y", "p/q", "\u00e9", "", "\U0001d11e", "\uffee", "lang", "-", "0", "a\"b", "Contact", "tab\there")
TEXTS = ("x", "needle", "", "a\"b\\", "\n\r\t\b\f", "\u0001\u001f\u007f", "\u00e9\u2028", "\U0001d11e", "/", "<&>", "Needle", "nee dle")
VALUES: tuple[Any, ...] = (*TEXTS, 0, -1, 2**63, -(2**63), 2**64 - 1, True, False, None, 10)


def value(draws: Draws) -> Any:
    return draws.one(TEXTS) if draws.chance(1, 2) else draws.one(VALUES)


def some_class(draws: Draws, levels: int) -> Json:
    """A class with up to four members, and classes so many levels below it."""
    node = label(draws)
    for _ in range(draws.below(3 if levels else 2) + (1 if levels else 0)):
        node[draws.one(NAMES)] = member(draws, levels)
    return node


def member(draws: Draws, levels: int) -> Any:
    kind = draws.below(10)
    if levels and kind < 3:
        return some_class(draws, levels - 1)
    if levels and kind < 7:
        mixed = draws.chance(1, 4)
        return [value(draws) if mixed and draws.chance(1, 2) else some_class(draws, levels - 1) for _ in range(1 + draws.below(3))]
    if kind < 8:
        return draws.one(([], [[]], ["x", 1], [["x"], []], ["needle"], [None, True]))
    return value(draws)


def some_report(draws: Draws) -> Json:
    """A report whose classes have labels of all kinds, and lists of which parts are withheld."""
    contacts = [{**label(draws), **({} if draws.chance(1, 2) else some_class(draws, 1))} for _ in range(1 + draws.below(3))]
    made = incident(contacts, **label(draws))
    made["IncidentID"] |= label(draws) if draws.chance(1, 3) else {}
    for _ in range(1 + draws.below(2)):
        made[draws.one(("EventData", "a", "\u00e9", "", "x~y", "p/q", "Assessment"))] = [
            some_class(draws, 2) for _ in range(1 + draws.below(3))
        ]
    root: Json = {"version": "2.0"} if draws.chance(1, 2) else {}
    if draws.chance(1, 4):
        root[draws.one(("Extra", "z", "", "\u00e9"))] = draws.one(
            (some_class(draws, 1), [some_class(draws, 1), "x", some_class(draws, 0)])
        )
    if draws.chance(1, 8):
        root |= draws.one(({"restriction": "white"}, {"restriction": 7}, {"ext-restriction": []}))
    return report(made, **root)


def spelled(draws: Draws, value: Any) -> str:
    """A JSON text of a value: members in any order, blanks here and there, characters escaped or not, a repeated member now and then."""
    blank = draws.one(("", "", "", " ", "\n")) if draws.chance(1, 6) else ""
    if isinstance(value, dict):
        left = list(value.items())
        parts = []
        while left:
            name, inner = left.pop(draws.below(len(left)))
            if draws.chance(1, 60):
                parts.append(f"{spelled(draws, name)}:{draws.one(('1.5', 'null', '[{}]', '{}'))}")
            parts.append(f"{spelled(draws, name)}{blank}:{spelled(draws, inner)}")
        return "{" + blank + ",".join(parts) + blank + "}"
    if isinstance(value, list):
        return "[" + blank + f"{blank},".join(spelled(draws, each) for each in value) + "]"
    if isinstance(value, str) and draws.chance(1, 6):
        return json.dumps(value).replace("/", "\\/")
    return json.dumps(value, ensure_ascii=False)


# Views


def short(cleared: str, **members: Any) -> Json:
    return {"clearance": cleared, **members}


def gate(level: int, path: str = "", group: int | None = None) -> Json:
    return {"path": path, "level": level, **({} if group is None else {"group": group})}


def case(*gates: Json, **members: Any) -> Json:
    return {"source": 1, "gates": list(gates) or [gate(3)], **members}


def reader(**members: Any) -> Json:
    return {"who": 9, "org": 5, **members}


def long(case: Json, reader: Json, **members: Any) -> Json:
    return {"case": case, "reader": reader, **members}


TRUTHS = ("source", "person", "nominated", "addressed", "client", "community", "peer", "connected")
GRANTEES = ("person", "org", "community", "group")

# A reader of each clearance, with a named community, and one that is of the source
CLEARED: dict[str, Json] = {
    "CLEAR": {},
    "GREEN": {"community": True, "peer": True},
    "AMBER": {"nominated": True, "client": True},
    "STRICT": {"nominated": True, "addressed": True},
    "RED": {"person": True},
}
NOW = "2026-06-01T00:00:00Z"
ENDS = (
    "2026-06-01T00:00:00Z",
    "2026-06-01T00:00:01Z",
    "2026-05-31T23:59:59Z",
    "2026-06-01T02:00:00+02:00",
    "2026-06-01T02:00:01+02:00",
    "2026-05-31T19:30:00-04:30",
    "2026-05-31T19:30:01-04:30",
    "2027-01-01T00:00:00Z",
    "1970-01-01T00:00:00Z",
    "2026-06-01T00:00:01.000Z",
    "2026-05-31T23:59:60Z",
    "2026-06-01t00:00:01z",
    "1969-12-31T23:59:59Z",
    "2024-02-29T12:00:00Z",
    "2026-06-01T00:00:00-00:00",
    "9999-12-30T22:00:00Z",
)


def some_reader(draws: Draws, is_named: bool) -> Json:
    made = reader()
    for name in ("person", "nominated", "addressed", "client", "community", "peer", "connected"):
        if draws.chance(1, 8 if name == "person" else 3):
            made[name] = True
    if not is_named:
        made["peer"] = made.get("community", False)
    if draws.chance(1, 2):
        made["arrangement"] = draws.one(("CLEAR", "GREEN", "AMBER", "STRICT", "RED", *TLP))
    if draws.chance(2, 3):
        made["groups"] = draws.some((1, 2, 3), 3)
        made["active_groups"] = draws.some(made["groups"], 2)
    if draws.chance(1, 2):
        made["communities"] = draws.some((1, 2, 3), 2)
    if draws.chance(1, 20):
        made |= {"source": True, "org": 1}
    return made


def some_case(draws: Draws, paths: Sequence[str]) -> Json:
    def some_gate(path: str) -> Json:
        level = draws.one((3, 3, 3, 1, 2, 4, 0) if path == "" else (0, 1, 2, 3, 4, 4, 5))
        return gate(level, path, 1 + draws.below(3) if level == 4 else None)

    gates = [some_gate(path) for path in ("", *draws.some(paths, 2))]
    given = [
        {
            "path": path,
            draws.one(("person", "org", "community", "group")): draws.one((1, 2, 5, 9)),
            **({"until": draws.one(ENDS)} if draws.chance(1, 2) else {}),
        }
        for path in draws.some(paths, 2)
    ]
    made = case(*gates)
    if given:
        made["permissions"] = given
    if draws.chance(1, 3):
        made["community"] = 1 + draws.below(3)
    return made
