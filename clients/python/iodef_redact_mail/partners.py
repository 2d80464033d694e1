"""The file of partners: who sends, by which mail server, and to whom."""
from __future__ import annotations

import json
import re
import unicodedata
from collections.abc import Callable, Iterator, Mapping
from dataclasses import dataclass
from typing import Any

from iodef_hub_ask.characters import shown_exactly
from iodef_redact import CLEARANCES, HANDLINGS

from .faults import Unfit

# Each label of an excerpt, from the widest to the strictest, in the order of HANDLINGS.
LABELS = ("TLP:CLEAR", "TLP:GREEN", "TLP:AMBER", "TLP:AMBER+STRICT", "TLP:RED")
TLS = ("none", "starttls", "implicit")
THIS_HOST = ("localhost", "127.0.0.1", "::1")
MOST_PARTNERS = 1_000
LONGEST_ADDRESS, LONGEST_LOCAL, LONGEST_NAME = 254, 64, 100
# An address without quotes and comments, in ASCII: no part of it can end a header or a line of SMTP.
ATOM = r"[A-Za-z0-9!#$%&'*+/=?^_`{|}~-]+"
LABEL = r"[A-Za-z0-9](?:[A-Za-z0-9-]{0,61}[A-Za-z0-9])?"
ADDRESS = re.compile(rf"({ATOM}(?:\.{ATOM})*)@({LABEL}(?:\.{LABEL})*)")
HOST = re.compile(rf"{LABEL}(?:\.{LABEL})*|[0-9A-Fa-f:]+")
FINGERPRINT = re.compile(r"[0-9A-F]{40}|[0-9A-F]{64}")


@dataclass(frozen=True)
class Party:
    """Who a message is from or to."""

    address: str
    name: str = ""


@dataclass(frozen=True)
class Partner:
    """A recipient. `clearance` is a label. `key` is the fingerprint of its key, if it has one, and `plain` says that it gets any
    label without encryption."""

    party: Party
    clearance: str
    key: str | None = None
    plain: bool = False


@dataclass(frozen=True)
class Route:
    """The mail server."""

    host: str = "localhost"
    port: int | None = None
    tls: str | None = None

    def way(self) -> str:
        """How the connection is encrypted: where nothing is said, by STARTTLS to any other host."""
        return self.tls or ("none" if self.host in THIS_HOST else "starttls")

    def number(self) -> int:
        return self.port or (465 if self.way() == "implicit" else 25)


@dataclass(frozen=True)
class Partners:
    sender: Party | None
    route: Route
    recipients: tuple[Partner, ...]


class Doubled(Exception):
    """A member that an object has twice."""


def once(members: list[tuple[str, Any]]) -> dict[str, Any]:
    found = dict(members)
    if len(found) < len(members):
        names = [name for name, _ in members]
        raise Doubled(next(name for name in names if names.count(name) > 1))
    return found


class Reader:
    """Reads the file, and raises Unfit with the place of the first fault. `given` are settings by words, which replace its own."""

    def __init__(self, file: str) -> None:
        self.file = file

    def unfit(self, name: str, reason: str, place: str = "") -> Unfit:
        return Unfit(self.file, name, reason, place)

    def value_of(self, text: bytes) -> Any:
        try:
            return json.loads(text.decode(), object_pairs_hook=once)
        except Doubled as fault:
            raise self.unfit("DoubledMember", f"an object has the member {json.dumps(str(fault))} twice") from None
        except RecursionError:
            raise self.unfit("NotJson", "it is nested too deeply") from None
        except ValueError:
            raise self.unfit("NotJson", "it isn't JSON in UTF-8") from None

    def members(self, value: Any, place: str, needed: tuple[str, ...], others: tuple[str, ...]) -> dict[str, Any]:
        """An object that has no other members than these."""
        if not isinstance(value, dict):
            raise self.unfit("WrongKind", "an object is wanted", place)
        for name in value:
            if name not in needed + others:
                raise self.unfit("UnknownMember", f"there is no member {json.dumps(name)}", place)
        for name in needed:
            if name not in value:
                raise self.unfit("MissingMember", f"the member {name} is required", place)
        return value

    def text(self, value: Any, place: str) -> str:
        if not isinstance(value, str):
            raise self.unfit("WrongKind", "a text is wanted", place)
        return value

    def address(self, value: Any, place: str) -> str:
        found = ADDRESS.fullmatch(self.text(value, place))
        if found is None or len(found[0]) > LONGEST_ADDRESS or len(found[1]) > LONGEST_LOCAL:
            raise self.unfit("BadAddress", "it isn't one plain mail address in ASCII, such as team@example.org", place)
        return found[0]

    def name(self, value: Any, place: str) -> str:
        """A name for a header: no character ends a line, hides or reorders others."""
        found = self.text(value, place)
        odd = [each for each in found if unicodedata.category(each) in ("Cc", "Cf", "Cs", "Co", "Cn", "Zl", "Zp")]
        # `=?` begins a text that a reader of mail decodes, to whatever characters.
        if odd or "=?" in found or shown_exactly(found) != found or len(found) > LONGEST_NAME:
            reason = f"it has a character that isn't printed, or =?, or more than {LONGEST_NAME} characters"
            raise self.unfit("BadName", reason, place)
        return found

    def choice(self, value: Any, place: str, known: tuple[str, ...]) -> str:
        if self.text(value, place) not in known:
            raise self.unfit("OutOfRange", f"it isn't one of {', '.join(known)}", place)
        return str(value)

    def number(self, value: Any, place: str) -> int:
        if isinstance(value, bool) or not isinstance(value, int):
            raise self.unfit("WrongKind", "a number is wanted", place)
        if not 1 <= value <= 65535:
            raise self.unfit("OutOfRange", "a port is a number from 1 to 65535", place)
        return value

    def host(self, value: Any, place: str) -> str:
        if not HOST.fullmatch(self.text(value, place)):
            raise self.unfit("OutOfRange", "it is no name or address of a host", place)
        return str(value)

    def truth(self, value: Any, place: str) -> bool:
        if not isinstance(value, bool):
            raise self.unfit("WrongKind", "true or false is wanted", place)
        return value

    def key(self, value: Any, place: str) -> str:
        found = self.text(value, place).replace(" ", "").upper()
        if not FINGERPRINT.fullmatch(found):
            raise self.unfit("BadKey", "it isn't the whole fingerprint of a key: 40 or 64 hexadecimal digits", place)
        return found

    def party(self, value: Any, place: str) -> Party:
        found = self.members(value, place, ("address",), ("name",))
        return Party(self.address(found["address"], f"{place}/address"), self.name(found.get("name", ""), f"{place}/name"))

    def route(self, value: Any, place: str) -> Route:
        found = self.members(value, place, (), ("host", "port", "tls"))
        read: dict[str, Callable[[Any, str], Any]] = {
            "host": self.host,
            "port": self.number,
            "tls": lambda each, where: self.choice(each, where, TLS),
        }
        return Route(**{name: read[name](each, f"{place}/{name}") for name, each in found.items()})

    def partner(self, value: Any, place: str) -> Partner:
        found = self.members(value, place, ("address", "clearance"), ("name", "key", "plain"))
        party = self.party({name: found[name] for name in ("address", "name") if name in found}, place)
        clearance = label_of(self.choice(found["clearance"], f"{place}/clearance", CLEARANCES))
        key = self.key(found["key"], f"{place}/key") if "key" in found else None
        plain = self.truth(found.get("plain", False), f"{place}/plain")
        if key and plain:
            raise self.unfit("KeyAndPlain", "a recipient with a key gets nothing plain", place)
        return Partner(party, clearance, key, plain)

    def recipients(self, value: Any) -> Iterator[Partner]:
        if not isinstance(value, list):
            raise self.unfit("WrongKind", "a list is wanted", "/recipients")
        if not 1 <= len(value) <= MOST_PARTNERS:
            raise self.unfit("OutOfRange", f"there are 1 to {MOST_PARTNERS} recipients", "/recipients")
        known: set[str] = set()
        for at, each in enumerate(value):
            found = self.partner(each, f"/recipients/{at}")
            if same_address(found.party.address) in known:
                raise self.unfit("Twice", "an earlier recipient has the same address", f"/recipients/{at}/address")
            known.add(same_address(found.party.address))
            yield found


def same_address(address: str) -> str:
    """What two spellings of an address have in common."""
    return address.lower()


def label_of(clearance: str) -> str:
    """A clearance as a label."""
    if clearance in HANDLINGS:
        return LABELS[HANDLINGS.index(clearance)]
    return "TLP:CLEAR" if clearance == "TLP:WHITE" else clearance


def partners_of(file: str, text: bytes) -> Partners:
    """What the file says. Raises Unfit."""
    reader = Reader(file)
    value: Mapping[str, Any] = reader.members(reader.value_of(text), "", ("recipients",), ("from", "smtp"))
    sender = reader.party(value["from"], "/from") if "from" in value else None
    route = reader.route(value.get("smtp", {}), "/smtp")
    return Partners(sender, route, tuple(reader.recipients(value["recipients"])))
