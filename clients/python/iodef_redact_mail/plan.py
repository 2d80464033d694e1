"""What each recipient gets of a report, before anything is sent."""
from __future__ import annotations

import hashlib
import json
from collections.abc import Sequence
from dataclasses import dataclass

from . import keys
from .engine import Engine, Identifier, Refused, Seen, seen_of
from .faults import Failed, Unfit
from .journal import SENDING, SENT, Entry, Journal
from .partners import LABELS, Partner, same_address

WIDEST_PLAIN = LABELS.index("TLP:GREEN")  # stricter labels want a key, or the word of the partners' file
OF_ONE = ("NotReadable", "IdMissing")  # faults of one recipient's excerpt; all others are the report's, or the words'
# What the reason lacks, as the engine doesn't know this command's words.
HELP = {"IdMissing": ": --id and --id-name give one, which a recipient needs who sees the frame of the report without its IncidentID"}
OF_WORDS = ("BadMoment", "NotUtf8", "NoIncident")  # faults of words: --now, --id and --id-name, --incident
HEAD = ("recipient", "clearance", "label", "shown", "withheld", "mail", "state")


def digest(text: bytes) -> str:
    return hashlib.sha256(text).hexdigest()


@dataclass(frozen=True)
class Asked:
    """The words of a run that decide what is seen. `file` is the report's name, for its faults."""

    file: str
    report: bytes
    incident: int
    now: str
    identifier: Identifier | None

    def view(self, clearance: str) -> bytes:
        """The view description of a recipient."""
        return json.dumps({"clearance": clearance, "incident": self.incident, "now": self.now}, separators=(",", ":")).encode()


@dataclass(frozen=True)
class Excerpt:
    """What a clearance reaches: nothing, a document, or a fault for which there is none."""

    view: bytes
    seen: Seen | None = None
    document: bytes = b""
    fault: Failed | None = None


@dataclass(frozen=True)
class Due:
    """A recipient with its excerpt, the fault for which it gets no message, and the entry of an earlier run."""

    partner: Partner
    excerpt: Excerpt
    withheld: int
    fault: Failed | None
    before: Entry | None
    again: bool

    def is_failed(self) -> bool:
        """Whether it gets no message, though something is for it."""
        return self.state() not in ("to send", "again", "sent before", "nothing visible")

    def is_due(self) -> bool:
        return self.state() in ("to send", "again")

    def state(self) -> str:
        if self.before is not None and self.before.what == SENT:
            return "sent before"
        if self.before is not None and self.before.what == SENDING and not self.again:
            return "cut"
        if self.fault is not None:
            return self.fault.name
        if self.excerpt.seen is None:
            return "nothing visible"
        return "again" if self.before is not None and self.before.what == SENDING else "to send"

    def cells(self, state: str) -> tuple[str, ...]:
        """Its row of the table, with this state."""
        seen = self.excerpt.seen
        how = "-" if seen is None else "encrypted" if self.partner.key else "plain"
        how = "-" if self.fault is not None else how
        label, classes = (seen.label, seen.classes) if seen else ("-", 0)
        return self.partner.party.address, self.partner.clearance, label, str(classes), str(self.withheld), how, state


def excerpt_of(engine: Engine, asked: Asked, clearance: str) -> Excerpt:
    """What a clearance reaches. Raises Refused for a fault that all recipients have."""
    view = asked.view(clearance)
    try:
        seen = seen_of(engine.excerpt(view))
    except Refused as refusal:
        if refusal.name == "NothingVisible":
            return Excerpt(view)
        raise
    try:
        return Excerpt(view, seen, engine.whole(view, asked.identifier))
    except Refused as refusal:
        if refusal.name in OF_ONE:
            return Excerpt(view, seen, fault=Failed(refusal.name, refusal.reason + HELP.get(refusal.name, "")))
        raise


def key_fault(partner: Partner, seen: Seen) -> Failed | None:
    """Why a recipient's message can't be sent as its label wants."""
    if partner.key is not None:
        try:
            keys.check(partner.key)
        except Failed as fault:
            return fault
    elif LABELS.index(seen.label) > WIDEST_PLAIN and not partner.plain:
        return Failed("KeyWanted", f'{seen.label} is sent encrypted: the recipient has neither "key" nor "plain"')
    return None


def plan(engine: Engine, asked: Asked, partners: Sequence[Partner], journal: Journal, again: bool) -> list[Due]:
    """What each recipient gets. Raises Unfit for a fault of the report or the words."""
    found: dict[str, Excerpt] = {}
    made = []
    try:
        classes = len(engine.marks(asked.incident).splitlines())
        for partner in partners:
            if partner.clearance not in found:
                found[partner.clearance] = excerpt_of(engine, asked, partner.clearance)
            made.append(due(partner, found[partner.clearance], classes, asked, journal, again))
    except Refused as refusal:
        raise Unfit("the words" if refusal.name in OF_WORDS else asked.file, refusal.name, refusal.reason) from None
    return made


def due(partner: Partner, excerpt: Excerpt, classes: int, asked: Asked, journal: Journal, again: bool) -> Due:
    fault = excerpt.fault or (key_fault(partner, excerpt.seen) if excerpt.seen else None)
    before = journal.last.get((same_address(partner.party.address), partner.clearance, digest(asked.report), asked.incident))
    return Due(partner, excerpt, classes - (excerpt.seen.classes if excerpt.seen else 0), fault, before, again)


class Table:
    """The lines of a table, in columns. The last column, the state, may be known only when its line is printed."""

    def __init__(self, found: Sequence[Due]) -> None:
        rows = [HEAD, *(each.cells("") for each in found)]
        self.widths = [max(len(row[at]) for row in rows) for at in range(len(HEAD))]

    def line(self, row: Sequence[str]) -> str:
        return "  ".join(cell.ljust(width) for cell, width in zip(row, self.widths)).rstrip()
