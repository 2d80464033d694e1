"""A view description and its faults: docs/REDACT.md, "A view description" and "Faults"; and the calls of the engine. Written from the
documents alone.
"""
from __future__ import annotations

import calendar
import datetime
import re
from collections.abc import Callable
from typing import Any

import policy
import report as reports
from policy import Case, Gate, Permission, Reader, View
from report import Fault, Path, compact, pointer

NUMBERS = 2**32
WORDS = {
    **{each: each for each in policy.HANDLINGS},
    "TLP:CLEAR": "CLEAR",
    "TLP:WHITE": "CLEAR",
    "TLP:GREEN": "GREEN",
    "TLP:AMBER": "AMBER",
    "TLP:AMBER+STRICT": "STRICT",
    "TLP:RED": "RED",
}
GRANTEES = policy.GRANTEES
TRUTHS = ("source", "person", "nominated", "addressed", "client", "community", "peer", "connected")
LISTS = ("groups", "active_groups", "communities")
MOST_GATES, MOST_PERMISSIONS, MOST_IN_A_LIST = 16, 64, 1000
NESTING = 128
LATEST = 253_402_207_200  # 9999-12-30T22:00:00Z
FOUR_CENTURIES = 146_097 * 86_400

# The members of each object of a view, in the order of the tables: those that are required, and the kind of each.
SHORT = ({"clearance"}, {"clearance": "text", "incident": "number", "now": "text"})
LONG = ({"case", "reader"}, {"now": "text", "incident": "number", "case": "object", "reader": "object"})
CASE = ({"source", "gates"}, {"source": "number", "community": "number", "gates": "objects", "permissions": "objects"})
GATE = ({"path", "level"}, {"path": "text", "level": "number", "group": "number"})
PERMISSION = ({"path"}, {"path": "text", **{each: "number" for each in GRANTEES}, "until": "text"})
READER = (
    {"who", "org"},
    {
        **{each: "truth" for each in TRUTHS},
        "who": "number",
        "org": "number",
        "arrangement": "text",
        **{each: "numbers" for each in LISTS},
    },
)
KINDS: dict[str, Callable[[Any], bool]] = {
    "text": lambda value: isinstance(value, str),
    "truth": lambda value: isinstance(value, bool),
    "number": lambda value: isinstance(value, int) and not isinstance(value, bool),
    "object": lambda value: isinstance(value, dict),
    "objects": lambda value: isinstance(value, list),
    "numbers": lambda value: isinstance(value, list),
}
Found = list[Path | None]  # where a fault is; None if the documents don't say which place it has


def moment(text: str) -> int | None:
    """The second that a moment of RFC 3339 names: date, time and offset. A fraction has zeros alone; second 60 is read as 59."""
    found = re.fullmatch(r"(\d{4})-(\d\d)-(\d\d)[Tt](\d\d):(\d\d):(\d\d)(?:\.0{1,9})?(?:[Zz]|([+-])(\d\d):(\d\d))", text, re.ASCII)
    if not found:
        return None
    year, month, day, hour, minute, second = map(int, found.groups()[:6])
    sign, hours, minutes = found.groups()[6:]
    try:
        there = datetime.datetime(year or 400, month, day, hour, minute, 59 if second == 60 else second)
    except ValueError:
        return None
    if sign and (int(hours) > 23 or int(minutes) > 59):
        return None
    ahead = (int(hours) * 3600 + int(minutes) * 60) * (-1 if sign == "-" else 1) if sign else 0
    passed = calendar.timegm(there.timetuple()) - ahead - (0 if year else FOUR_CENTURIES)  # datetime has no year 0
    return passed if passed <= LATEST else None


# The objects of a view


def objects_of(view: dict[str, Any]) -> list[tuple[Path, Any, Any]]:
    """Each object with its path and what its members are, as far as what is around it is of the right kind."""
    if "clearance" in view:
        return [((), view, SHORT)]
    found: list[tuple[Path, Any, Any]] = [((), view, LONG)]
    case = view.get("case")
    if isinstance(case, dict):
        found.append((("case",), case, CASE))
        for name, members in (("gates", GATE), ("permissions", PERMISSION)):
            listed = case.get(name)
            for place, each in enumerate(listed if isinstance(listed, list) else []):
                if isinstance(each, dict):
                    found.append((("case", name, place), each, members))
    if isinstance(view.get("reader"), dict):
        found.append((("reader",), view["reader"], READER))
    return found


def in_order(path: Path, members: Any) -> list[int]:
    """Where a fault is in the order of the tables; an unknown member is before all others, in the order of the text."""
    found = []
    for step in path:
        found.append(step if isinstance(step, int) else list(members).index(step) if step in members else -1)
        members = {"case": CASE[1], "reader": READER[1], "gates": GATE[1], "permissions": PERMISSION[1]}.get(step, members)
    return found


def unknown(view: dict[str, Any]) -> Found:
    return [(*path, name) for path, node, (_, members) in objects_of(view) for name in node if name not in members]


def missing(view: dict[str, Any], dated: bool) -> Found:
    """A required member; also `group` at level 4, the grantee of a permission, and `now`."""
    found: Found = []
    is_dated = dated
    for path, node, (required, members) in objects_of(view):
        found += [(*path, name) for name in required if name not in node]
        if node.get("level") == 4 and "group" not in node:
            found.append((*path, "group"))
        if members is PERMISSION[1]:
            is_dated = is_dated or "until" in node
            if not any(each in node for each in GRANTEES):
                found.append(None)
    if is_dated and "now" not in view:
        found.append(("now",))
    return found


def of_wrong_kind(view: dict[str, Any]) -> Found:
    found: Found = []
    for path, node, (_, members) in objects_of(view):
        for name, value in node.items():
            if not KINDS[members[name]](value):
                found.append((*path, name))
            elif members[name] in {"objects", "numbers"}:
                kind = KINDS["object" if members[name] == "objects" else "number"]
                found += [(*path, name, place) for place, each in enumerate(value) if not kind(each)]
    return found


def out_of_range(view: dict[str, Any]) -> Found:
    found: Found = []
    for path, node, (_, members) in objects_of(view):
        for name, value in node.items():
            if members[name] == "number" and not 0 <= value < NUMBERS:
                found.append((*path, name))
            if members[name] == "numbers":
                found += [(*path, name)] if len(value) > MOST_IN_A_LIST else []
                found += [(*path, name, place) for place, each in enumerate(value) if not 0 <= each < NUMBERS]
            if name in {"clearance", "arrangement"} and value not in WORDS:
                found.append((*path, name))
    if "case" in view:
        found += gates_out_of_range(view["case"]["gates"]) + permissions_out_of_range(view["case"].get("permissions", []))
        found += reader_out_of_range(view)
    return found


def gates_out_of_range(gates: list[dict[str, Any]]) -> Found:
    found: Found = []
    if len([each for each in gates if each["path"] != ""]) > MOST_GATES:
        found.append(("case", "gates"))
    if not any(each["path"] == "" for each in gates):
        found.append(None)
    for place, each in enumerate(gates):
        at = ("case", "gates", place)
        if not 0 <= each["level"] <= (5 if each["path"] else 4):
            found.append((*at, "level"))
        elif each["level"] != 4 and "group" in each:
            found.append(None)
    paths = [each["path"] for each in gates]
    if len(set(paths)) < len(paths) and all(map(reports.is_pointer, paths)):
        found.append(None)
    return found


def permissions_out_of_range(permissions: list[dict[str, Any]]) -> Found:
    found: Found = []
    if len(permissions) > MOST_PERMISSIONS:
        found.append(("case", "permissions"))
    named = [[(each["path"], kind, each[kind]) for kind in GRANTEES if kind in each] for each in permissions]
    if any(len(each) > 1 for each in named):
        found.append(None)
    keys = [key for each in named for key in each]
    are_good = all(
        reports.is_pointer(each["path"]) and ("until" not in each or moment(each["until"]) is not None) for each in permissions
    )
    if len(set(keys)) < len(keys) and are_good:
        found.append(None)
    return found


def reader_out_of_range(view: dict[str, Any]) -> Found:
    reader, case = view["reader"], view["case"]
    groups = reader.get("groups", [])
    found: Found = [None for each in reader.get("active_groups", []) if each not in groups]
    if (
        "community" not in case
        and reader.get("peer", False) != reader.get("community", False)
        and not bad_pointers(view) + bad_moments(view)
    ):
        found.append(None)
    return found


def bad_pointers(view: dict[str, Any]) -> Found:
    return [(*path, "path") for path, node, _ in objects_of(view) if "path" in node and not reports.is_pointer(node["path"])]


def bad_moments(view: dict[str, Any]) -> Found:
    named = [((*path, name), node[name]) for path, node, _ in objects_of(view) for name in ("now", "until") if name in node]
    return [path for path, text in named if moment(text) is None]


def source_unsaid(view: dict[str, Any]) -> Found:
    """`source` isn't true exactly if the reader's organisation is the source."""
    if "case" not in view:
        return []
    reader = view["reader"]
    return [] if reader.get("source", False) == (reader["org"] == view["case"]["source"]) else [("reader", "source")]


def members_once(pairs: list[tuple[str, Any]]) -> dict[str, Any]:
    if len(dict(pairs)) < len(pairs):
        raise Fault("DoubledMember", "")
    return dict(pairs)


def checked(data: bytes, dated: bool, place: str = "") -> dict[str, Any]:
    """The view, or the first fault of it and of POINTER: of all kinds in their order, and of one kind in the order of the tables."""
    try:
        reports.parsed(data, NESTING)
    except ValueError:
        raise Fault("ViewNotJson", "") from None
    view = reports.parsed(data, NESTING, members_once)
    if not isinstance(view, dict):
        raise Fault("NotObject", "")
    kinds: list[tuple[str, Callable[[], Found]]] = [
        ("UnknownMember", lambda: unknown(view)),
        ("MissingMember", lambda: missing(view, dated)),
        ("WrongKind", lambda: of_wrong_kind(view)),
        ("OutOfRange", lambda: out_of_range(view)),
        ("BadPointer", lambda: bad_pointers(view)),
        ("BadMoment", lambda: bad_moments(view)),
        ("SourceUnsaid", lambda: source_unsaid(view)),
    ]
    for name, found in kinds:
        paths = found()
        said = sorted(
            (each for each in paths if each is not None), key=lambda each: in_order(each, (SHORT if "clearance" in view else LONG)[1])
        )
        if name == "BadPointer" and not reports.is_pointer(place):
            raise Fault(name, None if paths else "")
        if paths:
            raise Fault(name, pointer(said[0]) if len(said) == len(paths) else None)
    return view


# The facts of a view


def short_reader(cleared: str) -> Reader:
    """A reader of whom only the clearance is known; the root's gate lets everybody pass."""
    is_peer = cleared == "GREEN"
    return Reader(
        who=None,
        org=None,
        person=cleared == "RED",
        nominated=cleared in {"AMBER", "STRICT"},
        addressed=cleared == "STRICT",
        client=cleared == "AMBER",
        community=is_peer,
        peer=is_peer,
    )


def reader_of(view: dict[str, Any]) -> Reader:
    if "clearance" in view:
        return short_reader(WORDS[view["clearance"]])
    said = dict(view["reader"])
    if "arrangement" in said:
        said["arrangement"] = WORDS[said["arrangement"]]
    return Reader(**said | {each: tuple(said.get(each, ())) for each in LISTS})


def case_of(view: dict[str, Any]) -> Case:
    if "clearance" in view:
        return Case(None, {"": Gate(3)})
    case = view["case"]
    gates = {each["path"]: Gate(each["level"], each.get("group", 0)) for each in case["gates"]}
    return Case(case["source"], gates, tuple(map(permission_of, case.get("permissions", []))), case.get("community"))


def permission_of(said: dict[str, Any]) -> Permission:
    kind = next(each for each in GRANTEES if each in said)
    return Permission(said["path"], kind, said[kind], moment(said["until"]) if "until" in said else None)


# The calls (REDACT, "From the shell"; "Faults" has their order)


def seen(report: bytes, view: bytes, dated: bool = False, place: str | None = None) -> View:
    """What a call looks at, or the first fault of the view, of POINTER and of the report."""
    described = checked(view, dated, place or "")
    read = whole_report(report)
    number = described.get("incident", 0)
    if number >= len(read["Incident"]):
        raise Fault("NoIncident", "/incident")
    document = reports.documents(read)[number]
    for name in ("gates", "permissions"):
        for at, each in enumerate(described.get("case", {}).get(name, [])):
            is_root = name == "gates" and each["path"] == ""
            if not is_root and policy.class_at(document, each["path"]) is None:
                raise Fault("NoClass", None)
    if place is not None and policy.class_at(document, place) is None:
        raise Fault("NoClass")
    return View(document, case_of(described), reader_of(described), moment(described.get("now", "")))


def whole_report(report: bytes) -> dict[str, Any]:
    read = reports.read(report)
    marked = reports.bad_marking(read)
    if marked is not None:
        number, path = marked
        raise Fault("BadMarking", pointer(("Incident", number, *path[2:]) if path[0] == "Incident" else path))
    return read


def excerpt_of(view: View) -> policy.Excerpt:
    served = policy.excerpt(view)
    if served is None:
        raise Fault("NothingVisible", None)
    return served


def is_readable(document: dict[str, Any]) -> bool:
    """Whether a document is a report again."""
    try:
        whole_report(compact(document).encode())
    except Fault:
        return False
    return True


def excerpt(report: bytes, view: bytes) -> str:
    served = excerpt_of(seen(report, view))
    told = {
        "classes": served.classes,
        "document": served.document,
        "label": served.label,
        "readable": is_readable(served.document),
        "withheld": served.withheld,
    }
    return compact(told)


def document(report: bytes, view: bytes) -> str:
    return compact(excerpt_of(seen(report, view)).document)


def explain(report: bytes, view: bytes, place: str) -> str:
    looked = seen(report, view, place=place)
    path = policy.class_at(looked.document, place)
    assert path is not None
    return policy.explain(looked, path)


def finds(report: bytes, view: bytes, text: str, name: str | None = None) -> str:
    return "true" if policy.finds(seen(report, view), text, name) else "false"


def marks(report: bytes, number: int) -> str:
    read = whole_report(report)
    if number >= len(read["Incident"]):
        raise Fault("NoIncident")
    return policy.marks(reports.documents(read)[number])


# `--whole`


def whole(report: bytes, view: bytes, name: str | None = None, identifier: str | None = None) -> str:
    """The excerpt as a report again: placeholders replace the members that a report must have and that are withheld."""
    served = excerpt_of(seen(report, view, dated=True)).document
    incident = served.setdefault("Incident", [{}])[0]
    if "IncidentID" not in incident:
        if identifier is None:
            raise Fault("IdMissing", None)
        incident["IncidentID"] = {"id": identifier, "name": name}
    if "purpose" not in incident:
        incident |= withheld("purpose")
    incident.setdefault("GenerationTime", reports.parsed(view, NESTING)["now"])
    incident.setdefault("Contact", [{"ContactName": ["withheld"], **withheld("role"), **withheld("type")}])
    if reports.too_deep(served) or reports.too_many_lines(served):
        raise Fault("NotReadable", None)
    return compact(served)


def withheld(member: str) -> dict[str, str]:
    return {member: "ext-value", f"ext-{member}": "withheld"}
