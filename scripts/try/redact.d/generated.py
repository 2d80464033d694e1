"""Reports, view descriptions and cases at random: the same for the same seed.

Most are sound. The others have one or several faults, so that each fault comes and so does the order of two of them.
"""
from __future__ import annotations

import copy
import json
import random
import urllib.parse
from collections.abc import Callable, Iterator
from dataclasses import dataclass
from typing import Any

HANDLINGS = ("CLEAR", "GREEN", "AMBER", "STRICT", "RED")
WORDS = ("public", "white", "partner", "green", "need-to-know", "amber", "private", "red", "default")
CLEARANCES = {
    "CLEAR": "CLEAR", "GREEN": "GREEN", "AMBER": "AMBER", "STRICT": "STRICT", "RED": "RED", "TLP:CLEAR": "CLEAR", "TLP:WHITE": "CLEAR",
    "TLP:GREEN": "GREEN", "TLP:AMBER": "AMBER", "TLP:AMBER+STRICT": "STRICT", "TLP:RED": "RED",
}
TLP = ("TLP:CLEAR", "TLP:WHITE", "TLP:GREEN", "TLP:AMBER", "TLP:AMBER+STRICT", "TLP:RED", "tlp:amber", "Tlp:Green", " TLP:CLEAR", "own")
NAMES = ("EventData", "Indicator", "Assessment", "History", "Method", "AdditionalData", "Node", "Address", "a/b", "a~b", "é", "", "x y", '"', "withheld")
TEXTS = ("x", "src.example", "ä@src.example", "198.51.100.23", "two\nlines", 'a "quoted" \\', "\u0000\u001f\u007f", "\U0001f600", "", "TLP:RED", "x" * 90)
NUMBERS = (0, 1, -1, 7, 2**31, 2**63 - 1, -(2**63), 2**64 - 1)
FLAGS = ("source", "person", "nominated", "addressed", "client", "community", "peer", "connected")
LISTS = ("groups", "active_groups", "communities")
GRANTEES = ("person", "org", "community", "group")
MOMENTS = ("2026-01-01T00:00:00Z", "2026-06-01T00:00:00Z", "2026-06-01T02:00:00+02:00", "2026-05-31T23:59:59Z", "9999-12-30T22:00:00Z", "2026-06-30T23:59:60Z")
# Moments, but not as RFC 3339 writes them, or not of a whole second.
BAD_MOMENTS = (
    "soon", "", "2026-01-01", "2026-01-01T00:00:00", "2026-01-01T00:00:00.5Z", "2026-02-30T00:00:00Z", "20260101T000000Z", "2026-01-01T00Z",
    "2026-01-01T00:00Z", "2026-01-01T00:00:00+02", "2026-01-01T00:00:00+25:59", "+002026-01-01T00:00:00Z", "2026-01-01T00:00:00+01:00[Europe/Vienna]",
)
MISFITS: tuple[Any, ...] = (None, True, "", "x", -1, 1.5, 2**32, [], {}, [1], {"a": 1}, 4, 0)
IDENTIFIERS = ((b"", None), (b"7", b"x.example"), (b"an id", b""), (b"", "ä".encode()), (b"\xff", b"x"), (b"7", b"\xfe"))  # id and name
REQUIRED = ("Contact", "GenerationTime", "IncidentID", "purpose")

Document = dict[str, Any]


@dataclass(frozen=True)
class Asked:
    """A call and what it is asked of: `word` is the needle, the pointer or the id of an identifier, and `name` that of a class or of
    the identifier. `sound` is the view where it is a sound one."""

    verb: str
    report: bytes
    view: bytes = b""
    word: bytes = b""
    name: bytes | None = None
    incident: int = 0
    sound: Document | None = None

    def lines(self) -> str:
        """The report's line and the call's, as the table of redaction_cases writes them."""
        return f"report {quoted(self.report)}\n{self.verb} {self.words()}{str(self.incident) if self.verb == 'marks' else quoted(self.view)}\n"

    def words(self) -> str:
        """What is between the verb and the view."""
        if self.verb == "whole":
            return "- - " if self.name is None else f"{quoted(self.name)} {quoted(self.word)} "
        if self.verb not in ("finds", "explain"):
            return ""
        return quoted(self.word) + ("" if self.name is None else f"@{quoted(self.name)}") + " "


def quoted(text: bytes) -> str:
    return urllib.parse.quote_from_bytes(text, safe='/{}[]",:')


def classes_of(value: Document, path: str = "") -> Iterator[tuple[str, str]]:
    """The JSON pointer and the name of each class: of each object below the root that no array in an array holds."""
    for name, member in value.items():
        place = f"{path}/{name.replace('~', '~0').replace('/', '~1')}"
        parts = [(place, member)] if isinstance(member, dict) else []
        if isinstance(member, list):
            parts = [(f"{place}/{at}", each) for at, each in enumerate(member) if isinstance(each, dict)]
        for pointer, each in parts:
            yield pointer, name
            yield from classes_of(each, pointer)


class Maker:
    """Makes reports, views and cases. What it makes is the same for the same seed and the same calls."""

    def __init__(self, seed: int) -> None:
        self.random = random.Random(seed)

    def is_so(self, chance: float) -> bool:
        return self.random.random() < chance

    # Reports

    def label(self) -> Document:
        """What a class has of a label."""
        if not self.is_so(0.4):
            return {}
        if self.is_so(0.25):
            return {"restriction": "ext-value", "ext-restriction": self.random.choice(TLP)}
        stray = {"ext-restriction": self.random.choice(TLP)} if self.is_so(0.05) else {}
        return {"restriction": self.random.choice(WORDS), **stray}

    def plain(self) -> Any:
        kind = self.random.randrange(8)
        if kind < 4:
            return self.random.choice(TEXTS)
        if kind < 6:
            return self.random.choice(NUMBERS)
        return self.random.choice((None, True, False, []))

    def array(self, depth: int) -> list[Any]:
        """Classes, what is no class, or both."""
        items: list[Any] = []
        for _ in range(self.random.randrange(4)):
            plain = self.random.choice((self.plain(), [self.plain()]))
            items.append(self.members(depth + 1) if self.is_so(0.75) else plain)
        return items

    def members(self, depth: int) -> Document:
        """The members of a class."""
        made = self.label()
        for _ in range(self.random.randrange(4 if depth < 4 else 2)):
            kind = self.random.randrange(5)
            member = self.plain() if kind < 2 or depth > 5 else self.members(depth + 1) if kind == 2 else self.array(depth)
            made[self.random.choice(NAMES)] = member
        return made

    def incident(self, ident: str) -> Document:
        made = self.members(1)
        for _ in range(self.random.randrange(3)):
            made[self.random.choice(NAMES)] = self.array(1)
        made["purpose"] = self.random.choice(("reporting", "watch"))
        made["GenerationTime"] = "2026-01-01T00:00:00Z"
        made["IncidentID"] = {"id": ident, "name": "src.example", **self.label()} if self.is_so(0.8) else ident
        made["Contact"] = self.array(1) if self.is_so(0.8) else self.members(2)
        return made

    def report(self, ident: str, most: int = 3) -> Document:
        """A sound report of 1 to so many Incidents, mostly of one."""
        count = self.random.choice((1, 1, 1, 1, *range(1, most + 1)))
        made: Document = {"Incident": [self.incident(f"{ident}-{at}") for at in range(count)]}
        if self.is_so(0.5):
            made["version"] = "2.0"
        if self.is_so(0.1):
            made[self.random.choice(NAMES)] = self.members(3)
        return made

    def shuffled(self, value: Any) -> Any:
        """The same value, the members of its objects in another order."""
        if isinstance(value, list):
            return [self.shuffled(each) for each in value]
        if not isinstance(value, dict):
            return value
        names = self.random.sample(list(value), len(value))
        return {name: self.shuffled(value[name]) for name in names}

    def text(self, value: Any) -> bytes:
        """The value as one of its JSON texts."""
        separators = self.random.choice(((",", ":"), (", ", ": "), (" ,\t", " : ")))
        indent = self.random.choice((None, None, 1))
        text = json.dumps(self.shuffled(value), ensure_ascii=self.is_so(0.5), separators=separators, indent=indent)
        return text.encode()

    def cut(self, text: bytes) -> bytes:
        """Bytes that are no JSON text."""
        return self.random.choice((text[: self.random.randrange(len(text))], b"\xef\xbb\xbf" + text, text + b"\xff", text + b" x", b"", b"[" * 200))

    def spoiled_incident(self, one: Document) -> None:
        """Gives an Incident one of its faults."""
        kind = self.random.randrange(6)
        name = self.random.choice(NAMES[:6])
        if kind == 0:
            del one[self.random.choice(REQUIRED)]
        elif kind == 1:
            one[name] = [self.random.choice((0.5, -0.0, 2**64, -(2**63) - 1, 1e30))]
        elif kind == 2:
            one[name] = [[{"x": 1}]]
        elif kind == 3:
            one[name] = nested(40)
        elif kind == 4:
            one[name] = [1] * 4096
        else:
            bad = ({"restriction": "secret"}, {"ext-restriction": "own"}, {"restriction": "ext-value"}, {"restriction": ["red"]}, {"restriction": 1})
            one[name] = [self.random.choice(bad)]

    def spoiled_report(self, report: Document) -> bytes:
        """The report with a fault or two."""
        made: Any = copy.deepcopy(report)
        kind = self.random.randrange(8)
        if kind < 5:
            for one in self.random.sample(made["Incident"], min(len(made["Incident"]), self.random.choice((1, 1, 2)))):
                self.spoiled_incident(one)
        elif kind == 5:
            made["Incident"] = self.random.choice((made["Incident"][0], [], [1], made["Incident"] * 17))
        elif kind == 6:
            made = self.random.choice((made["Incident"], {}, "x", None))
        text = self.text(made)
        return self.cut(text) if kind == 7 else text

    # Views

    def number(self) -> int:
        return self.random.randrange(1, 5)

    def gates(self, paths: list[str]) -> list[Document]:
        made = []
        for path in ["", *self.random.sample(paths, min(len(paths), self.random.choice((0, 0, 1, 2, 4))))]:
            level = self.random.choice((3, 3, 3, 1, 2, 4, 5 if path else 3, 0))
            made.append({"path": path, "level": level, **({"group": self.number()} if level == 4 else {})})
        self.random.shuffle(made)
        return made

    def permissions(self, paths: list[str]) -> list[Document]:
        """At most one for a path and a grantee."""
        made = {}
        for path in self.random.choices(paths, k=self.random.choice((0, 0, 1, 2, 5))):
            until = {"until": self.random.choice(MOMENTS)} if self.is_so(0.4) else {}
            kind, number = self.random.choice(GRANTEES), self.number()
            made[path, kind, number] = {"path": path, kind: number, **until}
        return list(made.values())

    def reader(self, case: Document) -> Document:
        made: Document = {"who": self.number(), "org": self.number()}
        for name in FLAGS[1:]:
            if self.is_so(0.35):
                made[name] = self.is_so(0.85)
        if "community" not in case:
            made["peer"] = made.get("community", False)
        if made["org"] == case["source"]:
            made["source"] = True
        for name in LISTS:
            if self.is_so(0.6):
                numbers = made.get("groups", []) if name == "active_groups" else range(1, 5)
                made[name] = self.random.sample(numbers, self.random.randrange(min(len(numbers), 3) + 1))
        if self.is_so(0.4):
            made["arrangement"] = self.random.choice(HANDLINGS)
        return made

    def view(self, paths: list[str], place: int) -> Document:
        """A sound view, of the Incident at a place, whose classes have these paths."""
        at = {"incident": place} if place or self.is_so(0.2) else {}
        if self.is_so(0.25):
            now = {"now": self.random.choice(MOMENTS)} if self.is_so(0.3) else {}
            return {"clearance": self.random.choice(tuple(CLEARANCES)), **at, **now}
        source, permissions = self.number(), self.permissions(paths)
        case: Document = {"source": source, "gates": self.gates(paths)}
        if permissions or self.is_so(0.1):
            case["permissions"] = permissions
        if self.is_so(0.3):
            case["community"] = self.number()
        ends = any("until" in each for each in permissions)
        now = {"now": self.random.choice(MOMENTS)} if ends or self.is_so(0.1) else {}
        return {**now, **at, "case": case, "reader": self.reader(case)}

    def places(self, value: Any) -> Iterator[tuple[Any, Any]]:
        """Each object or list of a view, with a name or a place in it."""
        for name, member in list(value.items() if isinstance(value, dict) else enumerate(value) if isinstance(value, list) else ()):
            yield value, name
            yield from self.places(member)

    def spoil_at(self, holder: Any, name: Any) -> None:
        """Changes what is under a name of an object or at a place of a list, or what is beside it."""
        old = holder[name]
        kind = self.random.randrange(5)
        if kind == 0:
            del holder[name]
        elif kind == 1 and isinstance(holder, dict):
            holder[self.random.choice((*FLAGS, *GRANTEES, "until", "level", "clearance", "x"))] = copy.deepcopy(self.random.choice((1, True, old)))
        elif kind == 2 and isinstance(holder, list):
            holder += copy.deepcopy([old] * self.random.choice((1, 1, 70)))
        elif kind == 3 and isinstance(old, str):
            holder[name] = self.random.choice(("/~", "x", "/Incident", "/Incident/0/none", "soon", "2026-01-01", "2026-01-01T00:00:00.5Z", "", old.lower()))
        else:
            holder[name] = copy.deepcopy(self.random.choice(MISFITS))

    def spoil_member(self, made: Document) -> None:
        """Gives a long form one fault that chance alone would seldom give: a moment, a path, or what doesn't agree."""
        kind = self.random.randrange(4)
        if kind == 0:
            made["now"] = self.random.choice(BAD_MOMENTS)
        elif kind == 1:
            path = self.random.choice(("/~", "x", "Incident/0", "/Incident", "/Incident/0/none", "/Incident/1"))
            where, rest = self.random.choice((("gates", "level"), ("permissions", "org")))
            made["case"].setdefault(where, []).append({"path": path, rest: 3})
        elif kind == 2:
            made["reader"]["org"] = made["case"]["source"] + self.random.randrange(2)
            made["reader"]["source"] = made["reader"]["org"] != made["case"]["source"]
        else:
            self.spoil_agreement(made["case"], made["reader"])

    def spoil_agreement(self, case: Document, reader: Document) -> None:
        """Doubles a gate or a permission, or gives a reader what no reader of the case has."""
        kind = self.random.randrange(4)
        if kind == 0:
            case["gates"].append({"path": self.random.choice(case["gates"])["path"], "level": 3})
        elif kind == 1:
            given = case.setdefault("permissions", []) or [{"path": "/Incident/0", "org": 3}]
            case["permissions"] = given + [{name: value for name, value in given[0].items() if name != "until"}]
        elif kind == 2:
            reader["active_groups"] = [9]
        else:
            case.pop("community", None)
            reader["peer"] = not reader.get("community", False)

    def spoiled_view(self, view: Document) -> bytes:
        """The view with a fault or some."""
        made = copy.deepcopy(view)
        kind = self.random.randrange(10)
        if kind == 0:
            return self.text(self.random.choice(([made], [], "GREEN", None, 1)))
        if kind in (1, 2):
            return self.cut(self.text(made)) if kind == 1 else self.doubled(self.text(made))
        if kind < 6 and "case" in made:
            self.spoil_member(made)
        for _ in range(self.random.choice((1, 1, 2, 3)) if kind > 4 else 0):
            places = list(self.places(made))
            if places:
                self.spoil_at(*self.random.choice(places))
        return self.text(made)

    def doubled(self, text: bytes) -> bytes:
        """The text, one of whose objects has a member twice."""
        starts = [at for at, byte in enumerate(text) if byte == ord("{")]
        at = self.random.choice(starts) + 1
        return text[:at] + b'"path":"","path":"",' + text[at:]

    # Cases

    def word(self, verb: str, paths: list[str]) -> bytes:
        """A needle or a pointer."""
        if self.is_so(0.2):
            return self.random.choice((b"\xff", b"x\xfe", b"none", b"/Incident/0/none", b"", b"/~", b"/Incident", b"x"))
        if verb == "explain":
            return self.random.choice(paths).encode()
        text = self.random.choice(TEXTS).replace("\0", "")
        return text[self.random.randrange(len(text) + 1):].encode()

    def class_name(self, names: list[str]) -> bytes | None:
        if self.is_so(0.6):
            return None
        return b"\xff" if self.is_so(0.1) else self.random.choice(names).encode()

    def whole_of_many_lines(self) -> Asked:
        """A whole excerpt of a report that is near the limit of 4,096 lines. It may have too many with its placeholders."""
        contact = {"restriction": "red"}
        one = {"purpose": "watch", "GenerationTime": "g", "IncidentID": "1", "restriction": "green", "Contact": [contact], "x": [1] * self.random.randrange(4085, 4091)}
        view = {"clearance": "GREEN", "now": self.random.choice(MOMENTS)}
        return Asked("whole", self.text({"Incident": [one]}), self.text(view), sound=view)

    def asked(self, ident: str) -> Asked:
        """A case: a report, a view, and what is asked."""
        if self.is_so(0.003):
            return self.whole_of_many_lines()
        report = self.report(ident)
        place = self.random.randrange(len(report["Incident"]))
        one = {**report, "Incident": [report["Incident"][place]]}
        found = list(classes_of(one))
        paths, names = [path for path, _ in found], [name for _, name in found]
        view = self.view(paths, place)
        has_view_fault, has_report_fault = self.is_so(0.25), self.is_so(0.1)
        if self.is_so(0.02):
            view["incident"], has_view_fault = self.random.choice((len(report["Incident"]), 2**32 - 1)), False
        text = self.spoiled_report(report) if has_report_fault else self.text(report)
        verb = self.random.choice(("excerpt", "excerpt", "excerpt", "document", "reads", "whole", "whole", "fault", "faultd", "finds", "explain", "marks"))
        if verb == "marks":
            return Asked(verb, text, incident=place if self.is_so(0.9) else len(report["Incident"]))
        if verb in ("whole", "faultd") and self.is_so(0.9):
            view.setdefault("now", self.random.choice(MOMENTS))
        described = self.spoiled_view(view) if has_view_fault else self.text(view)
        sound = None if has_view_fault else view
        if verb in ("excerpt", "document", "reads", "fault", "faultd"):
            return Asked(verb, text, described, sound=sound)
        if verb == "whole":
            return Asked(verb, text, described, *self.random.choice(IDENTIFIERS), sound=sound)
        name = self.class_name(names) if verb == "finds" else None
        return Asked(verb, text, described, self.word(verb, paths), name, sound=sound)


def nested(depth: int) -> Document:
    """So many classes in one another."""
    made: Document = {"x": 1}
    for _ in range(depth):
        made = {"x": made}
    return made


def asked_all(seed: int, count: int, tell: Callable[[], None] = lambda: None) -> list[Asked]:
    """So many cases. A case is the same whatever the count is."""
    made = []
    for at in range(count):
        made.append(Maker(seed * 1_000_003 + at).asked(str(at)))
        tell()
    return made
