"""The policy: who sees which class of a report, by which rule, and what is served. Written from docs/POLICY.md, REDACT.md, HTTP.md,
COMMAND-LINE.md and DECISIONS.md alone, by somebody who has not read the crates. Each part names its section.
"""
from __future__ import annotations

import dataclasses
from typing import Any

from report import Path, classes, compact, pointer

INCIDENT: Path = ("Incident", 0)
HANDLINGS = ("CLEAR", "GREEN", "AMBER", "STRICT", "RED")  # from the widest audience to the narrowest
NAMES = {"CLEAR": "TLP:CLEAR", "GREEN": "TLP:GREEN", "AMBER": "TLP:AMBER", "STRICT": "TLP:AMBER+STRICT", "RED": "TLP:RED"}


GRANTEES = ("person", "org", "community", "group")


@dataclasses.dataclass(frozen=True)
class Gate:
    level: int
    group: int = 0


@dataclasses.dataclass(frozen=True)
class Permission:
    path: str
    kind: str  # person, org, community or group
    grantee: int
    until: int | None = None


@dataclasses.dataclass(frozen=True)
class Case:
    """What an Incident is judged by. A gate is at a pointer; that of the root is empty."""

    source: int | None
    gates: dict[str, Gate]
    permissions: tuple[Permission, ...] = ()
    community: int | None = None


@dataclasses.dataclass(frozen=True)
class Reader:
    """The truths of a reader that REDACT.md lists. Of the short form's reader no number is known."""

    who: int | None
    org: int | None
    source: bool = False
    person: bool = False
    nominated: bool = False
    addressed: bool = False
    client: bool = False
    community: bool = False
    peer: bool = False
    connected: bool = False
    arrangement: str | None = None
    groups: tuple[int, ...] = ()
    active_groups: tuple[int, ...] = ()
    communities: tuple[int, ...] = ()


@dataclasses.dataclass(frozen=True)
class View:
    """A reader, a case and a moment; the path of each class that is looked at is one of `document`."""

    document: dict[str, Any]
    case: Case
    reader: Reader
    now: int | None  # known if a permission has an end


# POLICY, "Labels"

HANDLED = {
    "public": "CLEAR",
    "white": "CLEAR",
    "partner": "GREEN",
    "green": "GREEN",
    "need-to-know": "STRICT",
    "amber": "STRICT",
    "private": "RED",
    "red": "RED",
}
EXTENDED = {"TLP:CLEAR": "CLEAR", "TLP:WHITE": "CLEAR", "TLP:GREEN": "GREEN", "TLP:AMBER": "AMBER", "TLP:AMBER+STRICT": "STRICT"}


@dataclasses.dataclass(frozen=True)
class Label:
    restriction: str
    text: str | None = None  # of `ext-value` alone

    def __str__(self) -> str:
        return self.restriction if self.text is None else f"{self.restriction} {self.text}"

    def members(self) -> dict[str, str]:
        text = {} if self.text is None else {"ext-restriction": self.text}
        return {"restriction": self.restriction, **text}


def written(node: dict[str, Any]) -> Label | None:
    """The label that is written in a class."""
    if "restriction" not in node:
        return None
    restriction = node["restriction"]
    return Label(restriction, node["ext-restriction"] if restriction == "ext-value" else None)


def on_the_way(document: dict[str, Any], path: Path) -> list[tuple[Path, dict[str, Any]]]:
    """The classes above a class, and the class itself."""
    found, node = [], document
    for steps, step in enumerate(path, 1):
        node = node[step]
        if isinstance(node, dict):
            found.append((path[:steps], node))
    return found


def label_at(document: dict[str, Any], path: Path) -> tuple[Path, Label]:
    """The label that holds for a class, and where it is: written in the class or the nearest one above, else `private`, which is the
    Incident's and the root's (DECISIONS, "Markings")."""
    for above, node in reversed(on_the_way(document, path)):
        label = written(node)
        if label is not None:
            return above, label
    return (INCIDENT if path[: len(INCIDENT)] == INCIDENT else ()), Label("private")


def small(text: str) -> str:
    """ASCII's letters as capitals."""
    return "".join(chr(ord(letter) - 32) if "a" <= letter <= "z" else letter for letter in text)


def handling(label: Label, arrangement: str | None) -> str:
    if label.restriction == "default":
        return arrangement or "RED"
    if label.restriction == "ext-value":
        return EXTENDED.get(small(label.text or ""), "RED")
    return HANDLED[label.restriction]


# POLICY, "Who sees a class": clearance, gates, permissions, the decision


def clearance(reader: Reader) -> tuple[str, str]:
    """The first row that fits: up to which handling, and the rule."""
    if reader.person:
        return "RED", "P"
    if reader.nominated and reader.addressed:
        return "STRICT", "O"
    if reader.nominated and reader.client:
        return "AMBER", "C"
    if reader.peer:
        return "GREEN", "M"
    return "CLEAR", "A"


def refused_by(gate: Gate, reader: Reader) -> str | None:
    """The rule by which a gate refuses a reader."""
    if gate.level == 0:
        return None if reader.source else "G0"
    if gate.level == 1:
        return None if reader.community else "G1"
    if gate.level == 2:
        return None if reader.community or reader.connected else "G2"
    if gate.level == 4:
        if gate.group not in reader.groups:
            return "G4"
        return None if gate.group in reader.active_groups else "G4X"
    return None


def gates_on_the_way(view: View, path: Path) -> list[tuple[str, Gate]]:
    """The gates at the root, at each class above, and at the class itself."""
    places = ["", *(pointer(above) for above, _ in on_the_way(view.document, path))]
    return [(place, view.case.gates[place]) for place in places if place in view.case.gates]


def includes(permission: Permission, reader: Reader) -> bool:
    if permission.kind == "person":
        return permission.grantee == reader.who
    if permission.kind == "org":
        return permission.grantee == reader.org
    if permission.kind == "community":
        return permission.grantee in reader.communities
    return permission.grantee in reader.active_groups


def reaches(permission: Permission, view: View, path: Path) -> bool:
    """Its class and all below, except each class below in which a label is written, and all below that."""
    way = on_the_way(view.document, path)
    places = [pointer(above) for above, _ in way]
    if permission.path not in places:
        return False
    below = way[places.index(permission.path) + 1 :]
    return all(written(node) is None for _, node in below)


def lasts(permission: Permission, now: Any) -> bool:
    """Before its end, and not in the second of its end."""
    return permission.until is None or now < permission.until


def covering(view: View, path: Path) -> list[Permission]:
    """By the places of their classes from the root on, the kinds of grantees and their numbers (COMMAND-LINE, "`explain`")."""
    given = [each for each in view.case.permissions if includes(each, view.reader)]
    found = [each for each in given if reaches(each, view, path) and lasts(each, view.now)]
    return sorted(found, key=lambda each: (len(each.path), GRANTEES.index(each.kind), each.grantee))


def handling_at(view: View, path: Path) -> str:
    return handling(label_at(view.document, path)[1], view.reader.arrangement)


def decision(view: View, path: Path) -> tuple[bool, str]:
    """Whether the reader sees the class, and the rule."""
    if view.reader.source:
        return True, "SRC"
    for _, gate in gates_on_the_way(view, path):
        rule = refused_by(gate, view.reader)
        if rule is not None:
            return False, rule
    wanted = handling_at(view, path)
    cleared, row = clearance(view.reader)
    if HANDLINGS.index(wanted) <= HANDLINGS.index(cleared):
        return True, row
    if covering(view, path):
        return True, "X"
    return False, f"H-{wanted}"


# POLICY, "What the reader gets"


@dataclasses.dataclass
class Excerpt:
    document: dict[str, Any]
    classes: int
    label: str
    withheld: list[tuple[str, str]]


def excerpt(view: View) -> Excerpt | None:
    """The excerpt, or None if no class is visible."""
    shown = {path: decision(view, path) for path, _ in classes(view.document)}
    visible = {path for path, (is_shown, _) in shown.items() if is_shown}
    if not visible:
        return None
    withheld: set[tuple[str, str]] = set()

    def holds_visible(path: Path) -> bool:
        return any(each[: len(path)] == path for each in visible)

    def part(node: dict[str, Any], path: Path, place: Path, above: Path, above_shown: bool) -> dict[str, Any] | None:
        """What is served of a class: the class, a frame or nothing."""
        if not holds_visible(path):
            withheld.add((pointer(above), shown[path][1]))
            return None
        if path not in visible:
            withheld.add((pointer(place), shown[path][1]))
            return inside(node, path, place, False)
        served = inside(node, path, place, True)
        if written(node) is None and not above_shown:
            served |= label_at(view.document, path)[1].members()
        return served

    def inside(node: dict[str, Any], path: Path, place: Path, has_values: bool) -> dict[str, Any]:
        """The members that are served of a class or of the root. Lists close up."""
        served: dict[str, Any] = {}
        is_shown = path in visible
        for name in sorted(node):
            value = node[name]
            if isinstance(value, dict):
                piece = part(value, (*path, name), (*place, name), place, is_shown)
                if piece is not None:
                    served[name] = piece
            elif isinstance(value, list):
                kept: list[Any] = []
                for at, each in enumerate(value):
                    if isinstance(each, dict):
                        each = part(each, (*path, name, at), (*place, name, len(kept)), place, is_shown)
                        if each is not None:
                            kept.append(each)
                    elif has_values:
                        kept.append(each)
                if kept or (has_values and not value):
                    served[name] = kept
            elif has_values:
                served[name] = value
        return served

    document = inside(view.document, (), (), True)
    highest = max((handling_at(view, path) for path in visible), key=HANDLINGS.index)
    return Excerpt(document, len(visible), NAMES[highest], sorted(withheld))


# POLICY, "What the reader gets": Search looks only at texts that visible classes directly hold; REDACT, `finds`


def texts_of(node: dict[str, Any]) -> list[str]:
    """The texts that a class directly holds: its members', and those that are elements of its arrays."""
    values = [each for value in node.values() for each in (value if isinstance(value, list) else [value])]
    return [each for each in values if isinstance(each, str)]


def name_of(path: Path) -> str:
    """A class's name is its member's."""
    return [step for step in path if isinstance(step, str)][-1]


def finds(view: View, text: str, name: str | None = None) -> bool:
    for path, node in classes(view.document):
        if name is None or name_of(path) == name:
            if any(text in each for each in texts_of(node)) and decision(view, path)[0]:
                return True
    return False


# COMMAND-LINE, "`explain`" and "`mark`"


def explain(view: View, path: Path) -> str:
    is_shown, rule = decision(view, path)
    place, label = label_at(view.document, path)
    cleared, row = clearance(view.reader)
    told = [f"verdict {'Shown' if is_shown else 'Hidden'} {rule}", f"path {compact(pointer(path))}"]
    if view.case.community is not None:
        told.append(f"community {view.case.community}")
    for at, gate in gates_on_the_way(view, path):
        told.append(f"gate {compact(at)} {gate.level} {gate.group} {refused_by(gate, view.reader) or 'pass'}")
    told.append(f"site {compact(pointer(place))} {compact(str(label))} {handling_at(view, path)}")
    told.append(f"clearance {cleared} {row}")
    for each in covering(view, path):
        end = "" if each.until is None else f" until {each.until}"
        told.append(f"permission {compact(each.path)} {each.kind} {each.grantee}{end}")
    return "".join(line + "\n" for line in told)


def marks(document: dict[str, Any]) -> str:
    """For each class its path, the label that holds, the handling without an arrangement, and the path of the label."""
    told = []
    for path, _ in classes(document):
        place, label = label_at(document, path)
        told.append(compact([pointer(path), str(label), handling(label, None), pointer(place)]))
    return "".join(line + "\n" for line in told)


def class_at(document: dict[str, Any], place: str) -> Path | None:
    """The path of the class at a pointer. The root is none."""
    return next((path for path, _ in classes(document) if pointer(path) == place), None)
