"""The readers of a preview: the words that name them, and what the engine gets of each."""
from __future__ import annotations

import argparse
import json
import pathlib
from dataclasses import dataclass

from iodef_hub import Gate

from .engine import Engine
from .telling import Unseen, Usage

NO_ORGANISATION = 0  # stands for the source, as organisations are numbered from 1
READER = {"who": 1, "org": 1}  # somebody of another one
# How the reader's organisation is related to yours. Without a named community `peer` is as `community`.
RELATIONS: dict[str, dict[str, object]] = {
    "unconnected": {}, "connected": {"connected": True}, "partner": {"community": True}, "named": {"community": True, "peer": True},
}
STATUSES: dict[str, dict[str, object]] = {
    "-": {}, "client": {"client": True, "nominated": True}, "organisation": {"addressed": True},
    "addressed": {"addressed": True, "nominated": True}, "person": {"person": True},
}
MEANINGS = {
    "unconnected": "of an organisation that shares no community with yours, and is in none that is connected to one of yours",
    "connected": "of one that shares none, and is in a community that is connected to one of yours",
    "partner": "of one that shares a community with yours; with --community, another one than that",
    "named": "of one in the community of --community",
    "-": "none of what follows",
    "client": "nominated, and of a client of yours or of a recipient",
    "organisation": "not nominated, and of an organisation that is a recipient",
    "addressed": "nominated, and of an organisation that is a recipient",
    "person": "a recipient in person",
}
READER_HELP = (
    "everyone: one table of all readers; or one of them, RELATION, STATUS or RELATION+STATUS: "
    + "; ".join(f"{word}: {means}" for word, means in MEANINGS.items() if word != "-") + "; stranger: unconnected or connected. A STATUS alone is that of a partner. Or a file with a JSON object, such as"
    ' {"who":4,"org":2,"community":true,"peer":true}'
)
Reader = dict[str, object]


def file_reader(name: str) -> Reader:
    """The reader in a file: a JSON object with `who`, `org` and what holds of the reader."""
    text = pathlib.Path(name).read_bytes()
    try:
        value, pairs = json.loads(text), json.loads(text, object_pairs_hook=list)
    except (ValueError, RecursionError):
        raise Usage(f"{name} is not JSON") from None
    if not isinstance(value, dict):
        raise Usage(f"{name} is not a JSON object")
    if len(pairs) > len(value):
        raise Usage(f"{name} has a member twice")
    return value


def reader_of(relation: str, status: str, has_community: bool) -> Reader:
    is_peer = {"peer": True} if relation == "partner" and not has_community else {}
    return {**READER, **RELATIONS[relation], **is_peer, **STATUSES[status]}


def relations_of(has_community: bool) -> list[str]:
    return [each for each in RELATIONS if each != "named" or has_community]


def readers_called(text: str, has_community: bool) -> dict[str, Reader] | None:
    """The readers that a word may mean, by the words that say which; None if it isn't such a word."""
    first, plus, second = text.partition("+")
    relation, status = (first, second) if plus else ("partner", first) if first in STATUSES and first != "-" else (first, "-")
    meant = {"stranger": ["unconnected", "connected"], "partner": ["partner", "named"] if has_community else ["partner"]}.get(relation, [relation])
    if not set(meant) <= set(RELATIONS) or status not in STATUSES:
        return None
    if not has_community and "named" in meant:
        raise Usage("named is for a report with --community")
    return {each + (f"+{status}" if status != "-" else ""): reader_of(each, status, has_community) for each in meant}


@dataclass
class Asked:
    """What is asked of the engine: the report, and the case by which each reader is judged."""

    engine: Engine
    case: dict[str, object]
    incident: int
    groups: list[int]  # of which each reader is a member, by --in-group

    def description(self, reader: Reader) -> dict[str, object]:
        mine = {"groups": self.groups, "active_groups": self.groups} if self.groups and "groups" not in reader else {}
        return {"incident": self.incident, "case": self.case, "reader": {**reader, **mine}}

    def excerpt(self, reader: Reader) -> bytes | None:
        return self.engine.excerpt(self.description(reader))


def asked_of(given: argparse.Namespace, report: bytes) -> Asked:
    """The report's gates as `post` would store them, and no permissions."""
    gates = [Gate(given.level, given.group or 0, ""), *given.gate]
    told = [{"path": each.path, "level": each.level, **({"group": each.group} if each.level == 4 else {})} for each in gates]
    named = {} if given.community is None else {"community": given.community}
    return Asked(Engine(given.engine, report), {"source": NO_ORGANISATION, **named, "gates": told}, given.incident, given.in_group)


def only_view(asked: Asked, readers: dict[str, Reader]) -> bytes:
    """What the readers get that a word may mean. Raises Usage if that isn't the same, and Unseen if it is nothing."""
    views = [asked.excerpt(each) for each in readers.values()]
    if len(set(views)) > 1:
        raise Usage(f"{' or '.join(readers)}? They don't get the same, so say which, or ask --for everyone")
    if views[0] is None:
        raise Unseen("such a reader would get nothing")
    return views[0]
