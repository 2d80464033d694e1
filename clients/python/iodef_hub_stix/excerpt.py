"""An excerpt of a report: what the hub served a key, or what iodef-redact let through; and its classes with their labels."""
from __future__ import annotations

import datetime
from collections.abc import Iterator, Mapping
from dataclasses import dataclass, field
from typing import Any

from iodef_hub_misp import Unfit, label_of

LAST = datetime.datetime(9999, 12, 31, tzinfo=datetime.timezone.utc)
FIRST = datetime.datetime(1, 1, 2, tzinfo=datetime.timezone.utc)


@dataclass(frozen=True)
class Excerpt:
    """`incident` names the report at the hub: its number. `withheld` are the places of the excerpt at which something is withheld."""

    hub: str
    incident: str
    document: Mapping[str, Any]
    withheld: tuple[str, ...]
    source: str
    name: str = field(default="")  # of the source, if it is known

    @staticmethod
    def of_answer(value: object, hub: str, incident: str = "", names: Mapping[str, str] | None = None) -> Excerpt:
        """Reads the answer of a hub for one incident, or what `iodef-redact excerpt` prints, which has no number and no source."""
        if not isinstance(value, dict) or not isinstance(value.get("document"), dict):
            raise Unfit("the input must be a hub's answer for one incident, or what iodef-redact excerpt prints, with a document")
        withheld = value.get("withheld")
        if not isinstance(withheld, list) or not all(isinstance(each, list) and each and isinstance(each[0], str) for each in withheld):
            raise Unfit("withheld is not a list of pairs")
        number, source = value.get("number"), value.get("source")
        if any(each is not None and type(each) is not int for each in (number, source)):
            raise Unfit("number or source is not a whole number")
        if number is not None and incident not in ("", str(number)):
            raise Unfit(f"the answer is of incident {number}, and another one is named")
        if not (named := incident or ("" if number is None else str(number))):
            raise Unfit("the input doesn't tell its incident's number (--incident NUMBER names it)")
        told = "" if source is None else str(source)
        return Excerpt(hub, named, value["document"], tuple(each[0] for each in withheld), told, (names or {}).get(told, ""))


@dataclass(frozen=True)
class Place:
    """A class of an excerpt, with the label that holds for it; RED if none does."""

    path: str
    name: str
    members: dict[str, Any]
    label: str
    above: Place | None

    def nearest(self, name: str) -> Place | None:
        """The class itself or the nearest one above that has this name."""
        place: Place | None = self
        while place is not None and place.name != name:
            place = place.above
        return place

    def is_frame(self) -> bool:
        """Whether the class has no value of its own."""
        return not any(_is_plain(each) for each in self.members.values())


def _is_plain(value: object) -> bool:
    return not isinstance(value, dict) and not (isinstance(value, list) and value and all(isinstance(each, dict) for each in value))


def token(name: str) -> str:
    """A member's name in a JSON pointer."""
    return name.replace("~", "~0").replace("/", "~1")


def inner_places(path: str, members: Mapping[str, Any], above: Place | None) -> list[Place]:
    """The classes that a class, or the root, directly holds."""
    around = above.label if above else "red"
    held = [(at, name, each) for name, value in members.items() for at, each in _placed(f"{path}/{token(name)}", value)]
    return [Place(at, name, each, label_of(each) or around, above) for at, name, each in held if isinstance(each, dict)]


def _placed(path: str, value: object) -> list[tuple[str, object]]:
    """A member's value, or each element of its list, with its place."""
    return [(f"{path}/{place}", one) for place, one in enumerate(value)] if isinstance(value, list) else [(path, value)]


def places(document: Mapping[str, Any]) -> Iterator[Place]:
    """Each class of a document in stored order."""
    waiting = inner_places("", document, None)[::-1]
    while waiting:
        place = waiting.pop()
        yield place
        waiting += inner_places(place.path, place.members, place)[::-1]


def moment(value: object) -> str | None:
    """A date and time of IODEF in the form of STIX: UTC, with milliseconds; None if it isn't one, or has no offset."""
    if not isinstance(value, str) or "T" not in value:
        return None
    try:
        read = datetime.datetime.fromisoformat(value)
    except ValueError:
        return None
    if read.tzinfo is None or not FIRST < read < LAST:
        return None
    told = read.astimezone(datetime.timezone.utc)
    return told.strftime("%Y-%m-%dT%H:%M:%S.").rjust(20, "0") + f"{told.microsecond // 1000:03d}Z"
