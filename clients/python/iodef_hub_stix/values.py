"""The values of a class, each with its kind in the table, and their cyber-observable objects."""
from __future__ import annotations

from dataclasses import dataclass
from typing import Any

from iodef_hub_misp import HASH_OF, HASHES, hex_of, texts_of

from .excerpt import Place
from .table import BY_KIND, MEMBERS, Row, quoted


@dataclass(frozen=True)
class Value:
    """A value in its usual spelling, and the member of the class that holds it."""

    kind: str
    text: str
    member: str

    @property
    def row(self) -> Row:
        return BY_KIND[self.kind]

    def comparison(self) -> str:
        """The comparison of a pattern that an object with this value fits."""
        if self.kind == "asn":
            return f"{self.row.path} = {self.text}"
        return f"{self.row.path} {'ISSUBSET' if self.kind.endswith('-net') else '='} {quoted(self.text)}"

    def properties(self) -> dict[str, Any]:
        """What its object has besides type, id and markings."""
        *outer, last = self.row.member.split("\0")
        made: dict[str, Any] = {last: int(self.text) if self.kind == "asn" else self.text}
        for name in reversed(outer):
            made = {name: made}
        return {**made, "is_multipart": False} if self.row.type == "email-message" else made


def spelled(kind: str | None, text: str) -> str | None:
    """The usual spelling of a value of a kind; None if it isn't one, or the kind isn't in the table."""
    row = BY_KIND.get(kind or "")
    if row is None or not row.fits(text):
        return None
    if kind == "mac":
        return text.lower().replace("-", ":")
    if kind == "asn":
        return str(int(text.upper().removeprefix("AS")))
    return text.lower() if kind in HASHES else text


def hash_kind(text: str, method: object = None) -> str | None:
    """The kind of a digest by the name of its method, else by its length."""
    if isinstance(method, str) and method in HASH_OF:
        return HASH_OF[method]
    return next((name for name, (length, _) in HASHES.items() if len(text) == length and name in BY_KIND), None)


def _kind_of(place: Place, told: str | None, text: str) -> str | None:
    if told is not None:
        return told
    by = place.members.get({"Address": "category", "BulkObservable": "type"}.get(place.name, "DigestMethod"))
    if place.name == "Hash" or by == "file-hash":
        return hash_kind(text, by)
    return by if isinstance(by, str) else None


def _texts(place: Place, member: str) -> list[str]:
    found = texts_of(place.members, member)
    if member == "BulkObservableList" and isinstance(place.members.get(member), str):
        return found[0].splitlines()
    return found


def _held(place: Place) -> list[tuple[str, str | None, str]]:
    """The texts of the members that hold values, each with its member and its kind, if one is told."""
    found = [(each, text) for each in MEMBERS if each.of == place.name for text in _texts(place, each.name)]
    told = [(each.name, _kind_of(place, each.kind, text), text) for each, text in found]
    return [(member, kind, hex_of(kind, text) if place.name == "Hash" else text) for member, kind, text in told]


def values_of(place: Place) -> list[Value]:
    """The values that a class itself holds, each once. What hasn't the form of its kind isn't one."""
    found: dict[Value, None] = {}
    for member, kind, text in _held(place):
        told = spelled(kind, text)
        if kind is not None and told is not None:
            found[Value(kind, told, member)] = None
    return list(found)


def unfit_in(place: Place) -> int:
    """How many texts of the members that hold values haven't the form of their kind; of kinds that aren't in the table, none."""
    return sum(kind in BY_KIND and spelled(kind, text) is None for _, kind, text in _held(place))


def is_whole(place: Place) -> bool:
    """Whether each text of the members that hold values is a value."""
    return all(spelled(kind, text) is not None for _, kind, text in _held(place))
