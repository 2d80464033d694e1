"""What a reader may see of an incident report, without a hub: the library libiodef_redact for Python 3.11's standard library alone.

    import iodef_redact
    seen = iodef_redact.excerpt(report, to="GREEN")
    print(seen.label, seen.document, seen.withheld)
    partners = iodef_redact.excerpts(report, to=["GREEN", "TLP:AMBER"])

A report is an IODEF v2 document in JSON (RFC 7970 and RFC 8727), as bytes or str. `to` says for whom it is redacted:

- a clearance (one of CLEARANCES, such as GREEN or TLP:GREEN): a reader with that one and nothing stricter;
- a Reader, with a Case. What a Reader leaves out doesn't apply, and what a Case leaves out isn't granted;
- a View: a view description as its JSON text.

A call that has no answer raises the Fault of that name, and one with a word of another type than its signature's a TypeError. A call
lets other threads run, and calls may run in parallel. In the forked child of a process that had threads no call may be made: start
processes by "spawn" or "forkserver".

The module loads the library from the file that IODEF_REDACT_LIBRARY names; else from libiodef_redact.so.1 beside the module, where a
wheel has it; else by that name, as the system finds it.
"""
from __future__ import annotations

import ctypes
import datetime
import functools
import json
import operator
import os
from collections.abc import Iterable, Sequence
from dataclasses import dataclass, field
from typing import Any, ClassVar, SupportsIndex, TypeVar

LIBRARY = "libiodef_redact.so.1"
HANDLINGS = ("CLEAR", "GREEN", "AMBER", "STRICT", "RED")
CLEARANCES = (*HANDLINGS, "TLP:CLEAR", "TLP:WHITE", "TLP:GREEN", "TLP:AMBER", "TLP:AMBER+STRICT", "TLP:RED")

# The words of each export but `excerpts`, in their order. `incident` and `dated` are numbers, and each other word is a text: its start
# and its length.
EXPORTS: dict[str, tuple[str, ...]] = {
    "excerpt": ("report", "view"),
    "document": ("report", "view"),
    "whole": ("report", "view"),
    "whole_with_id": ("report", "view", "name", "id"),
    "first_fault": ("report", "view", "dated"),
    "finds": ("report", "view", "text"),
    "finds_in_class": ("report", "view", "text", "class_name"),
    "explain": ("report", "view", "pointer"),
    "marks": ("report", "incident"),
}
NUMBERS = ("incident", "dated")
DATED = ("whole", "whole_with_id")  # the exports whose view must have `now`
FIRST_ROOM = 2**24  # the most bytes that are taken for the answers of several views before they are known to need more

Kind = TypeVar("Kind")


class Fault(Exception):
    """Why a call has no answer. If there are several faults, the one with the lowest number is raised; NoMemory may replace any
    answer.

    `place` is the JSON pointer of what is at fault: in the view up to SourceUnsaid, and for NoIncident and NoClass; else in the report.
    It is empty if all of it is at fault, and None if the fault has no place there, as one of another word."""

    number: ClassVar[int] = 0
    reason: ClassVar[str] = ""

    def __init__(self, place: str | None = None) -> None:
        super().__init__(place)
        self.place = place

    def __str__(self) -> str:
        return f"{self.reason}: {self.place}" if self.place else self.reason


class NoMemory(Fault):
    number, reason = 1, "memory ran out"


class ViewNotJson(Fault):
    number, reason = 2, "the view is no JSON text in UTF-8"


class DoubledMember(Fault):
    number, reason = 3, "an object of the view has a member twice"


class NotObject(Fault):
    number, reason = 4, "the view is no object"


class UnknownMember(Fault):
    number, reason = 5, "an object of the view has an unknown member"


class MissingMember(Fault):
    number, reason = 6, "an object of the view lacks a member"


class WrongKind(Fault):
    number, reason = 7, "a value of the view is of the wrong kind"


class OutOfRange(Fault):
    number, reason = 8, "a value of the view is out of range"


class BadPointer(Fault):
    number, reason = 9, "a path is no JSON pointer"


class BadMoment(Fault):
    number, reason = 10, "a moment of the view is no whole second with an offset"


class SourceUnsaid(Fault):
    number, reason = 11, "`source` isn't true exactly if the reader's organisation is the source"


class NotUtf8(Fault):
    number, reason = 12, "a word isn't UTF-8"


class NotJson(Fault):
    number, reason = 13, "the report is no JSON text in UTF-8"


class NotDocument(Fault):
    number, reason = 14, "the report is no IODEF document"


class Missing(Fault):
    number, reason = 15, "an Incident lacks a member"


class NotWhole(Fault):
    number, reason = 16, "a number is no whole one of 64 bits"


class NestedClass(Fault):
    number, reason = 17, "an object is in an array inside an array"


class TooDeep(Fault):
    number, reason = 18, "a member is too deep"


class TooManyLines(Fault):
    number, reason = 19, "an Incident has too many lines"


class BadMarking(Fault):
    number, reason = 20, "a class breaks the marking rule"


class NoIncident(Fault):
    number, reason = 21, "there is no Incident at that place"


class NoClass(Fault):
    number, reason = 22, "there is no class at a path"


class NothingVisible(Fault):
    number, reason = 23, "no class is visible"


class NotReadable(Fault):
    number, reason = 24, "the excerpt has too many lines for a report, or is too deep"


class IdMissing(Fault):
    number, reason = 25, "the IncidentID is withheld, and none is given"


FAULTS: dict[int, type[Fault]] = {each.number: each for each in Fault.__subclasses__()}


@dataclass(frozen=True)
class Gate:
    """A gate of the class at `path` and what is below it; the path of the root is empty. `level`: 0 the source alone, 1 its communities, 2
    those connected to them too, 3 everybody, 4 the members of `group`, 5 as above."""

    level: int
    path: str = ""
    group: int | None = None


@dataclass(frozen=True)
class Permission:
    """A permission for the class at `path` and what is below it, until the moment `until` (RFC 3339). It is given to one `person`,
    one `org`, the members of one `community` or those of one `group`."""

    path: str
    person: int | None = None
    org: int | None = None
    community: int | None = None
    group: int | None = None
    until: str | datetime.datetime | None = None


@dataclass(frozen=True)
class Case:
    """What decides who may see an Incident. `source` is the organisation that it is from. One gate must be at the root."""

    source: int
    gates: Sequence[Gate]
    permissions: Sequence[Permission] = ()
    community: int | None = None


@dataclass(frozen=True)
class Reader:
    """A person, and the person's relation to the source and to the Incident.

    `who` is its number, `org` that of its organisation. `source`: its organisation is the source; it must be true if `org` is the
    case's `source`, and false if it isn't. `person`: it is addressed itself. `nominated`: its organisation nominated it. `addressed`:
    its organisation is addressed. `client`: its organisation is a client of the source, or of an organisation that is addressed.
    `community`: its organisation and the source are in one community. `peer`: its organisation is in the community that the case
    names; if it names none, it must be as `community`. `connected`: its organisation is in a community that is connected to one of the
    source's. `arrangement`: the handling that the source arranged with its organisation for the label `default`. `groups` are the
    groups of its organisation, `active_groups` those of them that are active, and `communities` its communities."""

    who: int
    org: int
    source: bool = False
    person: bool = False
    nominated: bool = False
    addressed: bool = False
    client: bool = False
    community: bool = False
    peer: bool = False
    connected: bool = False
    arrangement: str | None = None
    groups: Sequence[int] = ()
    active_groups: Sequence[int] = ()
    communities: Sequence[int] = ()


@dataclass(frozen=True)
class View:
    """A view description as its JSON text, such as the program iodef-redact reads from a file."""

    text: bytes | str


@dataclass(frozen=True)
class Identifier:
    """An IncidentID for a report whose own one is withheld: the `id`, and the `name` of who gives it, such as a domain name."""

    name: bytes | str
    id: bytes | str


@dataclass(frozen=True)
class Withheld:
    """At `place` of an excerpt (a JSON pointer) something is withheld, by `rule`."""

    place: str
    rule: str


@dataclass(frozen=True)
class Excerpt:
    """What a reader may see: how many classes, the report without the others, the highest label of these classes (a TLP name such as
    TLP:AMBER+STRICT), whether the document is a report again, and where something is withheld. `text` is the JSON text of all of
    them as the library gives it."""

    classes: int
    document: dict[str, Any]
    label: str
    readable: bool
    withheld: tuple[Withheld, ...]
    text: bytes = field(repr=False)


def excerpt(
    report: bytes | str, to: str | Reader | View, case: Case | None = None, *, incident: int | None = None, now: str | datetime.datetime | None = None
) -> Excerpt:
    """What the reader may see of the Incident at the place `incident`, the first one if it isn't given. `now` is the moment that
    decides whether a permission has ended, and is required if one has `until`."""
    return _excerpt(_answer("excerpt", report, _described(to, case, incident, now)))


def excerpts(
    report: bytes | str, to: Iterable[str | Reader | View], case: Case | None = None, *, incident: int | None = None,
    now: str | datetime.datetime | None = None,
) -> list[Excerpt | Fault]:
    """What each of these readers may see, in their order: an Excerpt, or the Fault that excerpt() would raise. The report is read
    once. A fault of the report is raised, whatever faults the views have."""
    given = [_text("view", _described(each, case, incident, now))[0] for each in _items("to", to, object)]
    return [_excerpt(answer) if isinstance(answer, bytes) else answer for answer in _answers(report, given)]


def document(
    report: bytes | str, to: str | Reader | View, case: Case | None = None, *, incident: int | None = None, now: str | datetime.datetime | None = None
) -> bytes:
    """The document of that excerpt, alone, as its JSON text. It may lack what a report must have."""
    return _answer("document", report, _described(to, case, incident, now))


def whole(
    report: bytes | str, to: str | Reader | View, case: Case | None = None, *, identifier: Identifier | None = None, incident: int | None = None,
    now: str | datetime.datetime | None = None,
) -> bytes:
    """That document made a report again. Placeholders replace the members that a report must have and that are withheld: most say
    "withheld", GenerationTime is `now`, which is required, and IncidentID is `identifier`."""
    view = _described(to, case, incident, now)
    if identifier is None:
        return _answer("whole", report, view)
    given = _checked("identifier", identifier, Identifier)
    return _answer("whole_with_id", report, view, given.name, given.id)


def finds(
    report: bytes | str, text: bytes | str, to: str | Reader | View, case: Case | None = None, *, class_name: bytes | str | None = None,
    incident: int | None = None, now: str | datetime.datetime | None = None,
) -> bool:
    """Whether a class that the reader may see directly holds a text that contains `text`; with `class_name`, a class of that name,
    which may be empty."""
    view = _described(to, case, incident, now)
    if class_name is None:
        return _answer("finds", report, view, text) == b"true"
    return _answer("finds_in_class", report, view, text, class_name) == b"true"


def explain(
    report: bytes | str, pointer: bytes | str, to: str | Reader | View, case: Case | None = None, *, incident: int | None = None,
    now: str | datetime.datetime | None = None,
) -> str:
    """Why the reader sees the class at the JSON pointer, or doesn't, as lines."""
    return _answer("explain", report, _described(to, case, incident, now), pointer).decode()


def marks(report: bytes | str, incident: int = 0) -> str:
    """For each class of an Incident a line: the JSON array of its path, its label, the label's handling, and the path of the class
    that has that label."""
    return _answer("marks", report, incident).decode()


def _checked(name: str, value: object, kind: type[Kind]) -> Kind:
    """The value, if it is of that kind."""
    if not isinstance(value, kind):
        raise TypeError(f"{name} must be {kind.__name__}, not {type(value).__name__}")
    return value


def _items(name: str, items: object, kind: type[Kind]) -> list[Kind]:
    """The items of a list, each of that kind. To Python bytes are a list of numbers; here no text is a list."""
    if isinstance(items, (str, bytes, bytearray)) or not isinstance(items, Iterable):
        raise TypeError(f"{name} must be a sequence, not {type(items).__name__}")
    return [_checked(f"an item of {name}", each, kind) for each in items]


def _moment(name: str, moment: object) -> str:
    """A moment as RFC 3339 writes it."""
    if isinstance(moment, str):
        return moment
    if not isinstance(moment, datetime.datetime):
        raise TypeError(f"{name} must be str or datetime, not {type(moment).__name__}")
    if moment.tzinfo is None:
        raise ValueError(f"{moment!r} has no time zone")
    if moment.microsecond:
        raise ValueError(f"{moment!r} is not a whole second")
    return moment.isoformat()


def _given(**members: object) -> dict[str, object]:
    """The members that are given. Each may be left out, which is None here and would be a fault in a view."""
    return {name: value for name, value in members.items() if value is not None}


def _gate(gate: Gate) -> dict[str, object]:
    return {"path": gate.path, "level": gate.level, **_given(group=gate.group)}


def _permission(given: Permission) -> dict[str, object]:
    until = None if given.until is None else _moment("until", given.until)
    return {"path": given.path, **_given(person=given.person, org=given.org, community=given.community, group=given.group, until=until)}


def _case(case: Case) -> dict[str, object]:
    gates = [_gate(each) for each in _items("gates", case.gates, Gate)]
    permissions = [_permission(each) for each in _items("permissions", case.permissions, Permission)]
    return {"source": case.source, "gates": gates, "permissions": permissions, **_given(community=case.community)}


def _reader(reader: Reader) -> dict[str, object]:
    """What is said of the reader. The library judges it, member by member."""
    members = vars(reader)
    lists = {name: _items(name, members[name], object) for name in ("groups", "active_groups", "communities")}
    arrangement = {} if reader.arrangement is None else {"arrangement": reader.arrangement}
    return {name: value for name, value in members.items() if name != "arrangement"} | lists | arrangement


def _described(to: object, case: object, incident: object, now: object) -> object:
    """The view description as a JSON text."""
    moment = None if now is None else _moment("now", now)
    if isinstance(to, Reader):
        if case is None:
            raise TypeError("a Reader needs a Case")
        return json.dumps({**_given(now=moment, incident=incident), "case": _case(_checked("case", case, Case)), "reader": _reader(to)})
    if isinstance(to, View):
        if case is not None or incident is not None or now is not None:
            raise TypeError("a View says all of it: case, incident and now go with a Reader")
        return to.text
    if not isinstance(to, str):
        raise TypeError(f"to must be str, Reader or View, not {type(to).__name__}")
    if to not in CLEARANCES:
        raise ValueError(f"{to!r} is not one of {', '.join(CLEARANCES)}")
    if case is not None:
        raise TypeError("a Case goes with a Reader")
    return json.dumps({"clearance": to, **_given(incident=incident, now=moment)})


def _file() -> str:
    """The library's file, or its name for the system."""
    beside = os.path.join(os.path.dirname(os.path.abspath(__file__)), LIBRARY)
    return os.environ.get("IODEF_REDACT_LIBRARY") or (beside if os.path.isfile(beside) else LIBRARY)


class _View(ctypes.Structure):
    """One of several views, and what is told of it."""

    _fields_ = [("view", ctypes.c_char_p), ("view_length", ctypes.c_size_t), ("needed", ctypes.c_size_t), ("fault", ctypes.c_uint32)]


@functools.cache
def _library() -> ctypes.CDLL:
    """The library. The signature of each export is set here, and stays the same whatever a call is given."""
    library = ctypes.CDLL(_file())
    number, text = (ctypes.c_uint32,), (ctypes.c_char_p, ctypes.c_size_t)
    for name, words in EXPORTS.items():
        function = getattr(library, f"iodef_redact_{name}_into")
        taken = [kind for word in words for kind in (number if word in NUMBERS else text)]
        function.argtypes = [*taken, ctypes.c_void_p, ctypes.c_size_t, ctypes.POINTER(ctypes.c_size_t)]
        function.restype = ctypes.c_uint32
    together = library.iodef_redact_excerpts_into
    sizes = (ctypes.c_size_t, ctypes.POINTER(ctypes.c_size_t))
    together.argtypes = [*text, ctypes.POINTER(_View), ctypes.c_size_t, ctypes.c_void_p, *sizes]
    together.restype = ctypes.c_uint32
    return library


def _text(name: str, word: object) -> tuple[bytes, int]:
    """A text as the library takes it, without a copy of bytes."""
    if isinstance(word, str):
        word = word.encode()
    if not isinstance(word, bytes):
        raise TypeError(f"{name} must be str or bytes, not {type(word).__name__}")
    # A class derived from bytes may say another length than it has.
    plain = word if type(word) is bytes else bytes(memoryview(word))
    return plain, len(plain)


def _number(name: str, word: object) -> int:
    """A number as the library takes it. To Python a truth is a number; here it isn't."""
    if isinstance(word, bool) or not isinstance(word, SupportsIndex):
        raise TypeError(f"{name} must be int, not {type(word).__name__}")
    number = operator.index(word)
    if not 0 <= number < 2**32:
        raise ValueError(f"{name} must be a number from 0 to {2**32 - 1}")
    return number


def _words(name: str, given: Sequence[object]) -> list[bytes | int]:
    """The words of a call as the library takes them. None is of another type than the export's signature has."""
    taken: list[bytes | int] = []
    for word, value in zip(EXPORTS[name], given, strict=True):
        if word in NUMBERS:
            taken.append(_number(word, value))
        else:
            taken.extend(_text(word, value))
    return taken


def _asked(name: str, words: Sequence[bytes | int]) -> tuple[int, bytes]:
    """The number that the library returns, and its answer. If that is longer than the first room for it, the library is called
    again."""
    function = getattr(_library(), f"iodef_redact_{name}_into")
    needed = ctypes.c_size_t(4096 + sum(len(each) for each in words if isinstance(each, bytes)))
    while True:
        room = needed.value
        out = ctypes.create_string_buffer(room or 1)
        number = function(*words, out, room, ctypes.byref(needed))
        if needed.value <= room:
            return number, ctypes.string_at(out, needed.value)


def _place(number: int, name: str, given: Sequence[object]) -> str | None:
    """Where the fault of a call is, if the view and the report have it as their first one. Otherwise it is of another word. A call
    without a view asks with any one. Of NothingVisible and those behind it none is a first fault."""
    if number >= NothingVisible.number:
        return None
    view = '{"clearance":"RED"}' if name == "marks" else given[1]
    missing, told = _asked("first_fault", _words("first_fault", (given[0], view, int(name in DATED))))
    found, _, place = told.decode().partition(" ")
    return None if missing or found != str(number) else place


def _fault(number: int, name: str, given: Sequence[object]) -> Fault:
    """The fault of a call."""
    return FAULTS.get(number, Fault)(_place(number, name, given))


def _answer(name: str, *given: object) -> bytes:
    """The library's answer."""
    number, answer = _asked(name, _words(name, given))
    if number:
        raise _fault(number, name, given)
    return answer


def _excerpt(text: bytes) -> Excerpt:
    """What the JSON text of an excerpt says."""
    told = json.loads(text)
    withheld = tuple(Withheld(place, rule) for place, rule in told["withheld"])
    return Excerpt(told["classes"], told["document"], told["label"], told["readable"], withheld, text)


def _asked_together(report: bytes, asked: ctypes.Array[_View]) -> tuple[int, bytes]:
    """What the library returns for several views, and their answers one behind the other."""
    function = _library().iodef_redact_excerpts_into
    needed = ctypes.c_size_t(min(len(asked) * (4096 + len(report)), FIRST_ROOM))
    while True:
        room = needed.value
        out = ctypes.create_string_buffer(room or 1)
        number = function(report, len(report), asked, len(asked), out, room, ctypes.byref(needed))
        if needed.value <= room:
            return number, ctypes.string_at(out, needed.value)


def _answers(report: object, views: Sequence[bytes]) -> list[bytes | Fault]:
    """The library's answer for each view, or its fault."""
    text, _ = _text("report", report)
    asked = (_View * len(views))(*(_View(view, len(view)) for view in views))
    number, told = _asked_together(text, asked)
    if number:
        # a call without a view, as the fault is the report's
        raise _fault(number, "marks", (text,))
    answers: list[bytes | Fault] = []
    at = 0
    for view, each in zip(views, asked, strict=True):
        answers.append(_fault(each.fault, "excerpt", (text, view)) if each.fault else told[at:at + each.needed])
        at += each.needed
    return answers
