#!/usr/bin/env python3
"""What comes of each word of iodef_redact, where it is of each kind: an answer, or an exception.

    kinds.py

It makes each call of the table and prints a line for each, first in the table's order and then in the other one, so that it also
shows what a call did to later ones. A line is printed at once: if a call ends the process, it is the one behind the last line.
scripts/try/redact starts it as a process of its own, and compares what it prints with `wanted`.
"""
from __future__ import annotations

import dataclasses
import enum
import functools
import inspect
from collections.abc import Callable, Iterator
from typing import Any

import iodef_redact
from iodef_redact import Case, Gate, Identifier, Permission, Reader, View


class Place(enum.IntEnum):
    FIRST = 0


class Long(bytes):
    """Bytes that say they are longer than they are: who believed it would read what is behind them."""

    def __len__(self) -> int:
        return 2**40


VALUES: tuple[Any, ...] = (0, "0", b"0", None, True, False, Place.FIRST, -1, 2**32, Long(b"0"))
HEADS = ("0", "'0'", "b'0'", "None", "True", "False", "Place.FIRST", "-1", "2**32", "Long(b'0')")

# What comes of a word with each of these values. The last outcome of a line is that of all further values.
WORDS = {
    "report": "TypeError NotDocument NotDocument TypeError",
    "text": "TypeError answer answer TypeError",
    "class_name": "TypeError answer answer answer TypeError",
    "pointer": "TypeError BadPointer BadPointer TypeError",
    "to": "TypeError ValueError TypeError",
    "case": "TypeError",
    "incident": "answer WrongKind TypeError answer WrongKind WrongKind answer OutOfRange OutOfRange",
    "now": "TypeError BadMoment TypeError MissingMember TypeError",
    "identifier": "TypeError TypeError TypeError answer TypeError",
    "incident of marks": "answer TypeError TypeError TypeError TypeError TypeError answer ValueError ValueError",
}
NUMBER = "answer WrongKind TypeError WrongKind WrongKind WrongKind answer OutOfRange OutOfRange"
GIVEN_NUMBER = NUMBER.replace("TypeError WrongKind", "TypeError answer")
GRANTEE = NUMBER.replace("TypeError WrongKind", "TypeError MissingMember")
TRUTH = "WrongKind WrongKind TypeError WrongKind answer answer WrongKind"
PATH = "WrongKind BadPointer TypeError WrongKind"
LIST = "TypeError"
MEMBERS = {
    "View": {"text": "TypeError NotObject NotObject TypeError"},
    "Identifier": {"name": "TypeError answer answer TypeError", "id": "TypeError answer answer TypeError"},
    "Gate": {"level": NUMBER, "path": PATH, "group": GRANTEE},
    "Permission": {
        "path": PATH, "person": GRANTEE, "org": GRANTEE, "community": GRANTEE, "group": GRANTEE,
        "until": "TypeError BadMoment TypeError answer TypeError",
    },
    "Case": {"source": NUMBER, "gates": LIST, "gates[0]": LIST, "permissions": LIST, "permissions[0]": LIST, "community": GIVEN_NUMBER},
    "Reader": {
        "who": NUMBER, "org": NUMBER, "source": TRUTH.replace("answer answer", "answer SourceUnsaid"), "person": TRUTH, "nominated": TRUTH,
        "addressed": TRUTH, "client": TRUTH, "community": TRUTH, "peer": TRUTH, "connected": TRUTH,
        "arrangement": "WrongKind OutOfRange TypeError answer WrongKind",
        "groups": LIST, "groups[0]": NUMBER, "active_groups": LIST, "active_groups[0]": NUMBER, "communities": LIST, "communities[0]": NUMBER,
    },
}

REPORT = '{"Incident":[{"purpose":"watch","IncidentID":"1","GenerationTime":"g","restriction":"public","Contact":[]}]}'
ROOT, CLASS, MOMENT = Gate(3), "/Incident/0", "2026-06-01T00:00:00Z"
GRANTEES = ("person", "org", "community", "group")
CASE = Case(1, [ROOT], [Permission(CLASS, org=5, until=MOMENT)], community=7)
SOURCE, READER = Reader(9, 1, source=True), Reader(9, 5)


def one_of_several(report: Any, to: Any, case: Any = None, *, incident: Any = None, now: Any = None) -> object:
    """A call over several readers, of whom there is one."""
    told, = iodef_redact.excerpts(report, [to], case, incident=incident, now=now)
    if isinstance(told, iodef_redact.Fault):
        raise told
    return told


CALLS: tuple[Callable[..., object], ...] = (
    iodef_redact.excerpt, one_of_several, iodef_redact.document, iodef_redact.whole, iodef_redact.finds, iodef_redact.explain, iodef_redact.marks,
)
SOUND: dict[str, Any] = {"report": REPORT, "text": "1", "class_name": "Contact", "pointer": CLASS, "to": READER, "case": CASE, "now": MOMENT}


def seen_by(to: Reader, case: Case) -> object:
    return iodef_redact.excerpt(REPORT, to, case, now=MOMENT)


def of_case(value: Case) -> object:
    return seen_by(READER, value)


def of_gate(gate: Gate) -> object:
    return seen_by(SOURCE, Case(1, [gate] if gate.path == "" else [ROOT, gate]))


def of_reader(reader: Reader) -> object:
    return seen_by(reader, CASE)


def made(kind: type[Any], name: str, value: Any) -> Any:
    """One of the module's types with this value, and sound ones beside it. With NAME[0] the value is an item of a list."""
    member, is_item, _ = name.partition("[")
    given: dict[str, Any] = {member: [value] if is_item else value}
    beside: dict[str, Any] = {}
    if kind is Identifier:
        beside = {"name": "x.example", "id": "9"}
    if kind is Gate:
        beside = {"level": 4 if member == "group" else 3}
    if kind is Permission:
        beside = {"path": CLASS} | ({} if member in GRANTEES else {"org": 5})
    if kind is Case:
        beside = {"source": 1, "gates": [ROOT]}
    if kind is Reader:
        beside = {"who": 9, "org": 1 if member == "source" else 5} | ({"groups": [value]} if name == "active_groups[0]" else {})
    return kind(**{**beside, **given})


def answer_of(kind: type[Any], name: str, value: Any) -> object:
    one = made(kind, name, value)
    if kind is View:
        return iodef_redact.excerpt(REPORT, one)
    if kind is Identifier:
        return iodef_redact.whole(REPORT, READER, CASE, identifier=one, now=MOMENT)
    if kind is Permission:
        return of_case(Case(1, [ROOT], [one]))
    return of_gate(one) if kind is Gate else of_case(one) if kind is Case else of_reader(one)


def called(call: Callable[..., object], name: str, value: Any) -> object:
    """A call with this value, and sound ones beside it."""
    words = {each: SOUND[each] for each in inspect.signature(call).parameters if each in SOUND}
    if name == "to":
        words = {each: word for each, word in words.items() if each not in ("case", "now")}
    return call(**{**words, name: value})


def outcome_of(call: Callable[[], object]) -> str:
    try:
        call()
    except Exception as fault:
        return type(fault).__name__
    return "answer"


Line = tuple[str, str, Callable[[], object]]


def line(what: str, outcomes: str, at: int, call: Callable[[], object]) -> Line:
    each, like = outcomes.split(), HEADS.index("b'0'") if isinstance(VALUES[at], Long) else at
    return f"{what} = {HEADS[at]}", each[min(like, len(each) - 1)], call


def lines() -> Iterator[Line]:
    """Each word of each call and each member of each type, with each value: what it is, what comes of it, and the call."""
    for call in CALLS:
        for name in inspect.signature(call).parameters:
            outcomes = WORDS.get(f"{name} of {call.__name__}", WORDS.get(name, "untried"))
            for at, value in enumerate(VALUES):
                yield line(f"{call.__name__}: {name}", outcomes, at, functools.partial(called, call, name, value))
    for kind in (View, Identifier, Gate, Permission, Case, Reader):
        members = {each.name: "untried" for each in dataclasses.fields(kind)} | MEMBERS[kind.__name__]
        for name, outcomes in members.items():
            for at, value in enumerate(VALUES):
                yield line(f"{kind.__name__}.{name}", outcomes, at, functools.partial(answer_of, kind, name, value))


def in_both_orders() -> Iterator[Line]:
    yield from lines()
    yield from reversed(list(lines()))


def wanted() -> str:
    return "".join(f"{what}: {outcome}\n" for what, outcome, _ in in_both_orders())


def main() -> None:
    for what, _, call in in_both_orders():
        print(f"{what}: {outcome_of(call)}", flush=True)


if __name__ == "__main__":
    main()
