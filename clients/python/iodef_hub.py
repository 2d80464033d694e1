#!/usr/bin/env python3
"""A client of iodef-hub, for programs: the classes Hub and Hubs. The command iodef-hub-ask is made of it. Needs Python 3.11 only.

    import iodef_hub
    hub = iodef_hub.Hub("https://hub.example.org", key)
    for entry in hub.every_incident():
        print(hub.view(entry.number).document)

A call is one request. If the hub refuses it, the call raises Refused, with the code, reason and detail. A read is sent again if the
connection is lost or the hub is busy, a limited number of times. A change is sent again only if it surely wasn't taken. If that
can't be known, MayBeTaken says what the answer to the same request means.
"""
from __future__ import annotations

import codecs
import copy
import hashlib
import http.client
import ipaddress
import json
import secrets
import ssl
import time
import urllib.parse
from collections.abc import Callable, Iterator, Mapping, Sequence
from dataclasses import dataclass
from typing import Any, NamedTuple, TypeVar

__version__ = "1.0.0"

LAST_NUMBER = 2**32 - 1
PAGE = 100  # incidents in one answer
LONGEST_REPLY = 64 * 1024 * 1024
GRANTEES = ("person", "org", "community", "group")
RECIPIENTS = ("person", "org")
ROLES = ("administrator", "coordinator", "poster", "reader")
HANDLINGS = ("CLEAR", "GREEN", "AMBER", "STRICT", "RED")
RULES = {
    "G0": "kept within the source's own organisation",
    "G1": "for organisations that share a community with the source",
    "G2": "for the source's communities and those connected to them",
    "G4": "for a sharing group that your organisation isn't a member of",
    "G4X": "for a sharing group that is switched off",
    "H-GREEN": "marked GREEN, for the source's communities, or for the one that the incident names",
    "H-AMBER": "marked AMBER, for addressed persons, and nominated persons of addressed organisations and of clients of these or of the source",
    "H-STRICT": "marked AMBER+STRICT, for addressed persons, and nominated persons of addressed organisations",
    "H-RED": "marked RED, for addressed persons",
}

# What the answer to the same change means, asked again after one that may have been taken.
AGAIN_POST = "S1 means that the report was posted, and its detail is the number; any other answer is the answer to a first request"
AGAIN_REPLACE = "S3 means that there is a later revision, its detail: yours if nobody else of your organisation replaces the incident; look before you go on"
AGAIN_PUT = "S1 means that the change is in place: it was taken, or was in place before"
AGAIN_PUT_REVISED = AGAIN_PUT + "; S3 means that the stored revision is another one, whose number is its detail, and that it doesn't have this change"
AGAIN_TAKE = "S2 means that there is nothing to remove: the change was taken, or there was nothing before"


class HubError(Exception):
    """Why a request has no useful answer."""

    def __init__(self, code: str, reason: str, detail: str = "") -> None:
        super().__init__(f"{code}: {reason}" + (f" ({detail})" if detail else ""))
        self.code, self.reason, self.detail = code, reason, detail


class Refused(HubError):
    """A refusal by the hub, or by the proxy in front of it, with its code. A refused request changes nothing."""

    def __init__(self, status: int, code: str, reason: str, detail: str = "") -> None:
        super().__init__(code, reason, detail)
        self.status = status


class Unreachable(HubError):
    """The hub wasn't reached, or a read wasn't answered. Nothing was changed."""


class MayBeTaken(HubError):
    """A change was sent and its answer is lost. `detail` says what the answer to the same request means."""


class NotHub(HubError):
    """What answered is not a hub."""


@dataclass(frozen=True)
class Caller:
    """The person that the key belongs to."""

    number: int
    name: str
    org: int
    role: str
    nominated: bool


@dataclass(frozen=True)
class Group:
    """A sharing group. `extend` says whether the caller's organisation may add others."""

    number: int
    name: str
    owner: int
    releasability: str
    active: bool
    extend: bool


@dataclass(frozen=True)
class Entry:
    """An incident in a list. `source` is the organisation that posted it."""

    number: int
    revision: int
    source: int


class Place(NamedTuple):
    """An incident of a circle that has several hubs: the hub, counted from 1 for the oldest, and the number that this hub gave it."""

    hub: int
    number: int

    def __str__(self) -> str:
        return f"{self.hub}/{self.number}"


@dataclass(frozen=True)
class Withheld:
    """A rule that hides something below a place of the excerpt. `RULES` has the rules in words."""

    place: str
    rule: str


@dataclass(frozen=True)
class View:
    """An incident as the caller may read it. `classes` counts the classes that the document shows."""

    number: int
    revision: int
    source: int
    classes: int
    document: dict[str, Any]
    withheld: tuple[Withheld, ...]


@dataclass(frozen=True)
class Gate:
    """A gate at a class, by its path in the posted report."""

    level: int
    group: int
    path: str

    def __str__(self) -> str:
        return f"{self.level}:{self.group}:{self.path}"


@dataclass(frozen=True)
class Community:
    """A community of the caller's organisation, the numbers of its members, and of the communities that are connected to it."""

    number: int
    name: str
    members: tuple[int, ...]
    connected: tuple[int, ...]


@dataclass(frozen=True)
class Permission:
    """A permission at a class. `until` is its end in seconds since 1970, or None; `ended` says whether the end has come."""

    path: str
    kind: str
    target: int
    until: int | None
    ended: bool


@dataclass(frozen=True)
class Sharing:
    """How a report of the caller's organisation is shared. The first gate is the root's, whose path is empty. A recipient is its kind and
    its number, and `community` is 0 if none is named. `ident` is the report's IncidentID as JSON."""

    number: int
    revision: int
    community: int
    ident: str
    gates: tuple[Gate, ...]
    recipients: tuple[tuple[str, int], ...]
    permissions: tuple[Permission, ...]


T = TypeVar("T", int, str, bool)


def _stranger(what: str) -> NotHub:
    return NotHub("NotHub", "the answer isn't a hub's", what)


def _member(value: object, name: str, kind: type[T]) -> T:
    found = value.get(name) if isinstance(value, dict) else None
    if type(found) is not kind:
        raise _stranger(name)
    return found


def _list(value: object, name: str) -> list[Any]:
    found = value.get(name) if isinstance(value, dict) else None
    if not isinstance(found, list):
        raise _stranger(name)
    return found


def _refusal(status: int, value: object) -> Refused | None:
    """The refusal, if the value has the shape of one and the status is that of a failure."""
    told = [value.get(name) for name in ("code", "reason", "detail")] if isinstance(value, dict) else []
    texts = [each for each in told if isinstance(each, str)]
    return Refused(status, *texts) if len(texts) == 3 and status >= 400 else None


def _numbers(value: object) -> tuple[int, ...]:
    found = _list(value, "numbers")
    if not found or not all(type(each) is int for each in found):
        raise _stranger("numbers")
    return tuple(found)


def _one_number(value: object) -> int:
    return _numbers(value)[0]


def _done(value: object) -> None:
    if not _member(value, "done", bool):
        raise _stranger("done")


def _entry(value: object) -> Entry:
    return Entry(_member(value, "number", int), _member(value, "revision", int), _member(value, "source", int))


def _page(value: object) -> tuple[Entry, ...]:
    return tuple(_entry(each) for each in _list(value, "incidents"))


def _group(value: object) -> Group:
    return Group(
        _member(value, "number", int), _member(value, "name", str), _member(value, "owner", int),
        _member(value, "releasability", str), _member(value, "active", bool), _member(value, "extend", bool),
    )


def _withheld(value: object) -> Withheld:
    if not (isinstance(value, list) and len(value) == 2 and all(isinstance(each, str) for each in value)):
        raise _stranger("withheld")
    return Withheld(value[0], value[1])


def _whole_numbers(value: object, name: str) -> tuple[int, ...]:
    found = _list(value, name)
    if not all(type(each) is int for each in found):
        raise _stranger(name)
    return tuple(found)


def _community(value: object) -> Community:
    return Community(
        _member(value, "number", int), _member(value, "name", str), _whole_numbers(value, "members"), _whole_numbers(value, "connected"),
    )


def _row(value: object, name: str, *kinds: tuple[type, ...]) -> list[Any]:
    """A row of an answer, whose values are of these kinds."""
    if not (isinstance(value, list) and len(value) == len(kinds) and all(type(each) in kind for each, kind in zip(value, kinds))):
        raise _stranger(name)
    return value


def _gate(value: object) -> Gate:
    path, level, group = _row(value, "gates", (str,), (int,), (int,))
    return Gate(level, group, path)


def _recipient(value: object) -> tuple[str, int]:
    kind, target = _row(value, "recipients", (str,), (int,))
    return kind, target


def _permission(value: object) -> Permission:
    return Permission(*_row(value, "permissions", (str,), (str,), (int,), (int, type(None)), (bool,)))


def new_key() -> str:
    """A key that nobody can guess."""
    return secrets.token_urlsafe(32)


def digest_of(key: str) -> str:
    """The SHA-256 of a key, by which `add_person` gives the key to the hub."""
    return hashlib.sha256(key.encode()).hexdigest()


# What is sent of a report

Report = dict[str, Any] | bytes | str

OF_A_FILE = "for a file, give pathlib.Path(NAME).read_bytes()"
BYTE_ORDER_MARKS = (
    (codecs.BOM_UTF8, "UTF-8", "tail -c +4 FILE"),
    (codecs.BOM_UTF32_LE, "UTF-32", "iconv -f UTF-32 -t UTF-8 FILE"),  # before that of UTF-16, with which it begins
    (codecs.BOM_UTF32_BE, "UTF-32", "iconv -f UTF-32 -t UTF-8 FILE"),
    (codecs.BOM_UTF16_LE, "UTF-16", "iconv -f UTF-16 -t UTF-8 FILE"),
    (codecs.BOM_UTF16_BE, "UTF-16", "iconv -f UTF-16 -t UTF-8 FILE"),
)


def _unmarked(text: bytes) -> bytes:
    """Returns the text, or raises ValueError if it begins with a byte order mark."""
    for mark, encoding, helps in BYTE_ORDER_MARKS:
        if text.startswith(mark):
            raise ValueError(
                f"the report begins with a {encoding} byte order mark, which the hub can't read: save it as UTF-8 without one, for example with `{helps}`"
            )
    return text


def _utf8(text: str) -> bytes:
    try:
        return text.encode()
    except UnicodeEncodeError as fault:
        raise ValueError(f"the report contains half a character, {text[fault.start]!r}, which UTF-8 can't encode") from None


def _no_json(value: object) -> Any:
    raise TypeError(f"a report may contain strings, whole numbers, true, false, null, lists and dicts, but not {type(value).__name__}")


def _check_numbers(report: dict[str, Any]) -> None:
    """Raises ValueError for a number that the hub refuses. It changes none: only the caller knows whether 1000.0 is 1000 or a string."""
    waiting: list[tuple[str, object]] = [("", report)]
    while waiting:
        path, value = waiting.pop()
        if isinstance(value, dict):
            waiting += [(f"{path}/{_token(str(name))}", each) for name, each in value.items()]
        elif isinstance(value, (list, tuple)):
            waiting += [(f"{path}/{place}", each) for place, each in enumerate(value)]
        elif isinstance(value, float):
            helps = f"write {int(value)}" if value.is_integer() and abs(value) < 2**53 else "write it as a string"
            raise ValueError(f"{path} is {value!r}, and the hub accepts no number with a fraction or an exponent: {helps}")
        elif isinstance(value, int) and not -(2**63) <= value < 2**64:
            raise ValueError(f"{path} is {value}, and the hub accepts no number of more than 64 bits: write it as a string")


def report_bytes(report: Report) -> bytes:
    """Returns the bytes that are sent for a report: the JSON of a dict, the UTF-8 of a str, and bytes unchanged.

    Raises TypeError for anything else. Raises ValueError for a byte order mark at the beginning, for a str that doesn't begin with
    a JSON object (such as the name of a file), and for a number in a dict that the hub refuses. The hub checks everything else.
    """
    if isinstance(report, dict):
        text = json.dumps(report, ensure_ascii=False, separators=(",", ":"), default=_no_json)
        _check_numbers(report)
        return _utf8(text)
    if isinstance(report, str):
        whole = _unmarked(_utf8(report))
        if not whole.lstrip(b" \t\r\n").startswith(b"{"):
            raise ValueError(f"a str must be the JSON of a report, which begins with {{; {OF_A_FILE}")
        return whole
    if isinstance(report, bytes):
        return _unmarked(report)
    raise TypeError(f"a report must be a dict, or its JSON as bytes or str, not {type(report).__name__}; {OF_A_FILE}")


class Doubled(NamedTuple):
    """A label that an object of a report has twice. `held` is the last of its values, by which the hub handles the class."""

    path: str
    member: str
    held: object


class _Pairs(dict[str, Any]):
    """The object of these members, as JSON reads it, and those labels of which it has more than one."""

    def __init__(self, pairs: list[tuple[str, Any]]) -> None:
        super().__init__(pairs)
        names = [name for name, _ in pairs]
        self.doubled = [name for name in LABEL_MEMBERS if names.count(name) > 1]


def doubled_labels(report: Report) -> list[Doubled]:
    """Returns the labels that an object of a report has twice, in the report's order; of what isn't JSON, none.

    Python and the hub read the last one without a word, which may be wider than the first.
    """
    if isinstance(report, dict):
        return []
    try:
        value = json.loads(report, object_pairs_hook=_Pairs)
    except (ValueError, RecursionError):
        return []
    found = classes(value) if isinstance(value, dict) else ()
    return [Doubled(path, name, each[name]) for path, _, each in found for name in getattr(each, "doubled", ())]


def _is_this_host(name: str) -> bool:
    try:
        return ipaddress.ip_address(name).is_loopback
    except ValueError:
        return name == "localhost"


def _check_key(key: str) -> None:
    if not 1 <= len(key) <= 128 or not all("!" <= each <= "~" for each in key):
        raise ValueError("a key must be 1 to 128 bytes from ! to ~")


class Hub:
    """A hub, as the person with this key sees it. Each call is one request, except `every_..`, which makes one for each page.

    A call raises Refused if the hub refuses it, Unreachable if nothing was changed, MayBeTaken if a change may have been taken,
    and NotHub if something else answers. Each of these is a HubError. `ca` is a file of certificates to trust instead of the
    system's, `timeout` is how many seconds a connection may go without a byte, `tries` is the most times that a request is sent,
    `pause` is the seconds before the second try, and `longest` is the most bytes of an answer.
    """

    def __init__(
        self, url: str, key: str, ca: str | None = None, timeout: float = 70, tries: int = 5, pause: float = 1,
        longest: int = LONGEST_REPLY,
    ) -> None:
        parts = urllib.parse.urlsplit(url)
        if parts.scheme not in ("http", "https") or not parts.hostname or parts.query or parts.fragment or "@" in parts.netloc:
            raise ValueError("the hub's address must be https://NAME[:PORT][/PATH]")
        if parts.scheme == "http" and not _is_this_host(parts.hostname):
            raise ValueError("a key is sent only over https, except to this host")
        if not all("!" <= each <= "~" for each in parts.path):
            raise ValueError("the path of the hub's address must be ASCII without spaces")
        _check_key(key)
        # Over plain HTTP the name of this host is not looked up: a key must not leave it by a strange table of names.
        self._host = "127.0.0.1" if parts.scheme == "http" and parts.hostname == "localhost" else parts.hostname
        self._port, self._path = parts.port, parts.path.rstrip("/")
        port = parts.port or (443 if parts.scheme == "https" else 80)
        self.url = f"{parts.scheme}://{self._host}:{port}{self._path}"
        """The hub's address with its port, written in one way."""
        self._key, self._timeout, self._tries, self._pause, self._longest = key, timeout, max(tries, 1), pause, longest
        self._tls = ssl.create_default_context(cafile=ca) if parts.scheme == "https" else None
        self.heard = b""
        """The bytes of the newest answer's body, as received."""
        self.failed = False
        """Whether F1 or F2 answered a try of the newest request. If the hub's machine stops then, a change may be there all the same."""

    def with_key(self, key: str) -> Hub:
        """The same hub, as the person with this key sees it."""
        _check_key(key)
        other = copy.copy(self)
        other._key, other.heard = key, b""
        return other

    def _connection(self) -> http.client.HTTPConnection:
        if self._tls:
            return http.client.HTTPSConnection(self._host, self._port, timeout=self._timeout, context=self._tls)
        return http.client.HTTPConnection(self._host, self._port, timeout=self._timeout)

    def _once(self, method: str, target: str, body: bytes | None) -> tuple[int, str | None, bytes] | HubError:
        """Status, Retry-After and body of the answer; or Unreachable if the request surely wasn't taken, or MayBeTaken if it was
        sent in full and the answer is lost."""
        connection = self._connection()
        try:
            try:
                connection.connect()
            except ssl.SSLCertVerificationError as fault:
                return Unreachable("Certificate", "the hub's certificate isn't trusted", fault.verify_message)
            except OSError as fault:
                return Unreachable("Unreachable", "the hub wasn't reached", str(fault))
            unsent: OSError | None = None
            try:
                connection.request(method, target, body, {"Authorization": f"Bearer {self._key}"})
            except OSError as fault:
                unsent = fault  # some bytes were never handed over; a refusal may have come meanwhile
            try:
                answer = connection.getresponse()
                text = answer.read(self._longest + 1)
                # A read with a bound doesn't tell by itself that the reply ended early.
                if len(text) <= self._longest and answer.length:
                    raise http.client.IncompleteRead(text, answer.length)
            except (OSError, http.client.HTTPException) as fault:
                if unsent:
                    return Unreachable("Unreachable", "the request wasn't sent in full", str(unsent))
                return MayBeTaken("MayBeTaken", "the answer is lost", str(fault) or type(fault).__name__)
            if len(text) > self._longest:
                return _stranger(f"more than {self._longest} bytes")
            return answer.status, answer.getheader("Retry-After"), text
        finally:
            connection.close()

    def _ask(
        self, method: str, path: str, query: Sequence[tuple[str, object]] = (), body: bytes | None = None, again: str = ""
    ) -> Any:
        """The value of the answer. `again` says what the answer to a change means if it is sent again; a read has none."""
        # Slashes and colons as they are: 16 gates are to fit a head.
        target = self._path + path + ("?" + urllib.parse.urlencode(query, safe="/:") if query else "")
        self.failed = False
        for left in range(self._tries - 1, -1, -1):
            pause = self._pause * 2 ** (self._tries - 1 - left)
            heard = self._once(method, target, body)
            if isinstance(heard, HubError):
                is_safe = not again or isinstance(heard, Unreachable)
                if left and is_safe and heard.code != "Certificate" and not isinstance(heard, NotHub):
                    time.sleep(min(pause, 30))
                    continue
                if is_safe and isinstance(heard, MayBeTaken):
                    raise Unreachable("Unreachable", "the read wasn't answered", heard.detail)
                if not is_safe:
                    raise MayBeTaken("MayBeTaken", "the change was sent and its answer is lost", f"ask again: {again}")
                raise heard
            status, wait, self.heard = heard
            try:
                value = json.loads(self.heard)
            except (ValueError, RecursionError):
                value = None
            if status == 200 and isinstance(value, dict):
                return value
            refusal = _refusal(status, value)
            # By F1 and F2 the hub says that nothing was changed, by 429 a proxy that the hub wasn't asked.
            is_given_up = status == 503 and refusal is not None and refusal.code in ("F1", "F2")
            self.failed |= is_given_up
            is_untaken = status == 429 or is_given_up
            if left and (is_untaken or not again and status in (502, 503, 504)):
                time.sleep(min(int(wait) if wait and wait.isascii() and wait.isdigit() and len(wait) < 6 else pause, 30))
                continue
            if again and not is_untaken and (status == 200 or status >= 500 and status != 501):
                raise MayBeTaken("MayBeTaken", f"something on the way answered the change with status {status}", f"ask again: {again}")
            raise refusal or _stranger(f"status {status}")
        raise AssertionError("the last try answers or raises")

    def _change(self, path: str, again: str, *fields: tuple[str, object]) -> Any:
        """Sends a change, with its parameters as a form."""
        return self._ask("POST", path, body=urllib.parse.urlencode(fields).encode(), again=again)

    def _told(self, read: Callable[[Any], Any], value: Any, again: str) -> Any:
        """Reads the answer to a change. If the answer has another shape, the change may have been taken or not."""
        try:
            return read(value)
        except NotHub:
            raise MayBeTaken("MayBeTaken", "what answered the change is not a hub", f"ask again: {again}") from None

    def _do(self, path: str, again: str, *fields: tuple[str, object]) -> None:
        self._told(_done, self._change(path, again, *fields), again)

    def _make(self, path: str, again: str, *fields: tuple[str, object]) -> int:
        return int(self._told(_one_number, self._change(path, again, *fields), again))

    # Reading, by every active person

    def me(self) -> Caller:
        """Who the hub says the caller is."""
        value = self._ask("GET", "/me")
        return Caller(
            _member(value, "number", int), _member(value, "name", str), _member(value, "org", int),
            _member(value, "role", str), _member(value, "nominated", bool),
        )

    def groups(self) -> tuple[Group, ...]:
        """The sharing groups of the caller's organisation."""
        return tuple(_group(each) for each in _list(self._ask("GET", "/me/groups"), "groups"))

    def communities(self) -> tuple[Community, ...]:
        """The communities of the caller's organisation, with their members and the communities that are connected to them."""
        return tuple(_community(each) for each in _list(self._ask("GET", "/me/communities"), "communities"))

    def sharing(self, number: int) -> Sharing:
        """How a report of the caller's organisation is shared: its gates, its recipients, and its permissions, ended ones too."""
        value = self._ask("GET", f"/incidents/{number}/sharing")
        return Sharing(
            _member(value, "number", int), _member(value, "revision", int), _member(value, "community", int), _member(value, "ident", str),
            tuple(map(_gate, _list(value, "gates"))), tuple(map(_recipient, _list(value, "recipients"))),
            tuple(map(_permission, _list(value, "permissions"))),
        )

    def addressed(self, after: int = 0) -> tuple[Entry, ...]:
        """The first 100 incidents above a number that address the caller or its organisation."""
        return _page(self._ask("GET", "/me/addressed", [("after", after)]))

    def incidents(self, after: int = 0) -> tuple[Entry, ...]:
        """The first 100 incidents above a number that show the caller a class."""
        return _page(self._ask("GET", "/incidents", [("after", after)]))

    def view(self, number: int) -> View:
        """What the caller may read of an incident, and where something is withheld, by which rule."""
        value = self._ask("GET", f"/incidents/{number}")
        document = value.get("document")
        if not isinstance(document, dict):
            raise _stranger("document")
        return View(
            _member(value, "number", int), _member(value, "revision", int), _member(value, "source", int),
            _member(value, "classes", int), document, tuple(_withheld(each) for each in _list(value, "withheld")),
        )

    def search(self, needle: str, class_name: str | None = None, after: int = 0) -> tuple[Entry, ...]:
        """The first 100 incidents above a number in which a class that the caller may read holds a text."""
        named = [("class", class_name)] if class_name is not None else []
        return _page(self._ask("GET", "/search", [("needle", needle), *named, ("after", after)]))

    def every_addressed(self, after: int = 0) -> Iterator[Entry]:
        """Yields each incident above a number that addresses the caller or its organisation."""
        return _every(self.addressed, after)

    def every_incident(self, after: int = 0) -> Iterator[Entry]:
        """Yields each incident above a number that shows the caller a class."""
        return _every(self.incidents, after)

    def every_found(self, needle: str, class_name: str | None = None, after: int = 0) -> Iterator[Entry]:
        """Yields each incident above a number in which a class that the caller may read holds a text."""
        return _every(lambda last: self.search(needle, class_name, last), after)

    # The own key, by every active person

    def new_key(self, digest: str) -> None:
        """Exchanges the caller's key for the one with this digest. This Hub keeps the old key, which is nobody's then."""
        self._do("/me/key", "K1 means that it was done, so ask with the new key", ("key", digest))

    # Reports, by a poster or a coordinator

    def post(
        self, report: Report, level: int, group: int | None = None, gates: Sequence[Gate] = (), *, community: int | None
    ) -> tuple[int, ...]:
        """Posts a report and returns the numbers of its Incidents. What is marked green in it is for the members of `community`, or
        of any community of the source if it is None. It must be given, as leaving it out would widen the report. Raises TypeError
        and ValueError as `report_bytes` does, before anything is sent."""
        value = self._ask("POST", "/incidents", _spread(level, group, gates, community), report_bytes(report), AGAIN_POST)
        return tuple(self._told(_numbers, value, AGAIN_POST))

    def replace(
        self, number: int, revision: int, report: Report, level: int, group: int | None = None, *, gates: Sequence[Gate],
        community: int | None,
    ) -> int:
        """Replaces the revision that was seen with a new one, and returns its number.

        This call says who may read the new revision, whatever applied to the one before: `gates` are all gates at its classes, and
        what is marked green is for the members of `community`, or of any community of the source if it is None. Both must be given,
        as leaving one out would widen the report. All permissions are removed; the recipients stay. Raises TypeError and ValueError
        as `report_bytes` does, before anything is sent.
        """
        query = [("revision", revision), *_spread(level, group, gates, community)]
        value = self._ask("PUT", f"/incidents/{number}", query, report_bytes(report), AGAIN_REPLACE)
        return int(self._told(lambda told: _member(told, "revision", int), value, AGAIN_REPLACE))

    def redistribute(self, number: int, revision: int, path: str, level: int, group: int | None = None) -> None:
        """Sets a gate at the root (the empty path) or at a class."""
        grouped = [("group", group)] if group is not None else []
        fields = [("revision", revision), ("path", path), ("level", level), *grouped]
        self._do(f"/incidents/{number}/gate", AGAIN_PUT_REVISED, *fields)

    def address(self, number: int, kind: str, target: int) -> None:
        """Adds a recipient: a `person` or an `org`, by its number."""
        self._do(f"/incidents/{number}/address", AGAIN_PUT, (kind, target))

    def unaddress(self, number: int, kind: str, target: int) -> None:
        """Removes a recipient: a `person` or an `org`, by its number."""
        self._do(f"/incidents/{number}/unaddress", AGAIN_TAKE, (kind, target))

    def grant(self, number: int, revision: int, path: str, kind: str, target: int, until: str | None = None) -> None:
        """Permits a `person`, an `org`, a `community` or a `group` to see a class, for ever or until a moment (RFC 3339, with offset)."""
        ended = [("until", until)] if until is not None else []
        fields = [("revision", revision), ("path", path), (kind, target), *ended]
        self._do(f"/incidents/{number}/grant", AGAIN_PUT_REVISED, *fields)

    def withdraw(self, number: int, path: str, kind: str, target: int) -> None:
        """Removes the permission of a `person`, an `org`, a `community` or a `group` at a class, whether it has ended or not."""
        self._do(f"/incidents/{number}/withdraw", AGAIN_TAKE, ("path", path), (kind, target))

    # The circle, by an administrator

    def explain(self, person: int, incident: int, path: str) -> str:
        """Why a person sees a class or doesn't, as lines."""
        query = [("person", person), ("incident", incident), ("path", path)]
        return _member(self._ask("GET", "/explain", query), "trace", str)

    def add_org(self, name: str) -> int:
        """Adds an organisation and returns its number."""
        return self._make("/orgs", AGAIN_PUT, ("name", name))

    def add_client(self, org: int, client: int) -> None:
        """Makes an organisation a client of another."""
        self._do(f"/orgs/{org}/clients", AGAIN_PUT, ("client", client))

    def remove_client(self, org: int, client: int) -> None:
        """Removes a client of an organisation."""
        self._do(f"/orgs/{org}/clients/remove", AGAIN_TAKE, ("client", client))

    def add_person(self, org: int, name: str, role: str, digest: str) -> int:
        """Adds a person whose key has this digest (see `new_key` and `digest_of`), and returns the person's number."""
        return self._make("/persons", AGAIN_PUT, ("org", org), ("name", name), ("role", role), ("key", digest))

    def suspend(self, person: int) -> None:
        """Suspends a person: the hub refuses the key from then on. This can't be undone."""
        self._do(f"/persons/{person}/suspend", AGAIN_PUT)

    def add_community(self, name: str) -> int:
        """Adds a community and returns its number."""
        return self._make("/communities", AGAIN_PUT, ("name", name))

    def join(self, community: int, org: int) -> None:
        """Puts an organisation into a community."""
        self._do(f"/communities/{community}/join", AGAIN_PUT, ("org", org))

    def leave(self, community: int, org: int) -> None:
        """Removes an organisation from a community."""
        self._do(f"/communities/{community}/leave", AGAIN_TAKE, ("org", org))

    def link(self, community: int, other: int) -> None:
        """Connects two communities."""
        self._do(f"/communities/{community}/link", AGAIN_PUT, ("other", other))

    def unlink(self, community: int, other: int) -> None:
        """Ends the connection of two communities."""
        self._do(f"/communities/{community}/unlink", AGAIN_TAKE, ("other", other))

    # Groups, arrangements and nominations, by a coordinator

    def nominate(self, person: int) -> None:
        """Nominates a person of the caller's organisation to receive what is for the organisation."""
        self._do(f"/persons/{person}/nominate", AGAIN_PUT)

    def unnominate(self, person: int) -> None:
        """Ends a nomination."""
        self._do(f"/persons/{person}/unnominate", AGAIN_TAKE)

    def new_group(self, name: str, releasability: str = "") -> int:
        """Creates a sharing group of the caller's organisation and returns its number."""
        return self._make("/groups", AGAIN_PUT, ("name", name), ("releasability", releasability))

    def group_add(self, group: int, org: int, extend: bool = False) -> None:
        """Puts an organisation into a group; with `extend` it may add others."""
        self._do(f"/groups/{group}/add", AGAIN_PUT, ("org", org), ("extend", int(extend)))

    def group_remove(self, group: int, org: int) -> None:
        """Removes an organisation from a group."""
        self._do(f"/groups/{group}/remove", AGAIN_TAKE, ("org", org))

    def group_active(self, group: int, active: bool) -> None:
        """Switches a group on or off."""
        self._do(f"/groups/{group}/active", AGAIN_PUT, ("active", int(active)))

    def arrange(self, org: int, handling: str) -> None:
        """Sets what the label `default` of the caller's organisation means to another organisation: one of `HANDLINGS`."""
        self._do("/arrangements", AGAIN_PUT, ("org", org), ("handling", handling))

    def cancel_arrange(self, org: int) -> None:
        """Ends the arrangement with another organisation."""
        self._do("/arrangements/cancel", AGAIN_TAKE, ("org", org))


class Hubs:
    """The hubs of one circle that has more than one, the oldest first, for one key.

    Each hub numbers its own incidents, so an incident is a `Place`. Persons, organisations, communities and groups have the same
    numbers in each. `at(1)`, `at(2)` and so on are the single hubs; a new report is posted at `newest`. The arguments after `urls`
    are those of `Hub`.
    """

    def __init__(
        self, urls: Sequence[str], key: str, ca: str | None = None, timeout: float = 70, tries: int = 5, pause: float = 1
    ) -> None:
        if not urls:
            raise ValueError("a circle has at least one hub")
        self.all = tuple(Hub(url, key, ca, timeout, tries, pause) for url in urls)

    @property
    def newest(self) -> Hub:
        """The hub at which new reports are posted."""
        return self.all[-1]

    def at(self, hub: int) -> Hub:
        """The hub at this place, counted from 1. Raises ValueError if there is none."""
        if not 1 <= hub <= len(self.all):
            raise ValueError(f"there is no hub {hub}: the hubs are 1 to {len(self.all)}")
        return self.all[hub - 1]

    def view(self, place: Place) -> View:
        """What the caller may read of an incident, and where something is withheld, by which rule."""
        return self.at(place.hub).view(place.number)

    def every_addressed(self) -> Iterator[tuple[Place, Entry]]:
        """Yields each incident that addresses the caller or its organisation, those of the oldest hub first."""
        return self._each(lambda hub: hub.every_addressed())

    def every_incident(self) -> Iterator[tuple[Place, Entry]]:
        """Yields each incident that shows the caller a class, those of the oldest hub first."""
        return self._each(lambda hub: hub.every_incident())

    def every_found(self, needle: str, class_name: str | None = None) -> Iterator[tuple[Place, Entry]]:
        """Yields each incident in which a class that the caller may read holds a text, those of the oldest hub first."""
        return self._each(lambda hub: hub.every_found(needle, class_name))

    def _each(self, entries: Callable[[Hub], Iterator[Entry]]) -> Iterator[tuple[Place, Entry]]:
        for at, hub in enumerate(self.all, 1):
            for entry in entries(hub):
                yield Place(at, entry.number), entry


def _every(page: Callable[[int], tuple[Entry, ...]], after: int) -> Iterator[Entry]:
    while True:
        found = page(after)
        yield from found
        if len(found) < PAGE or found[-1].number <= after:
            return
        after = found[-1].number


def _spread(level: int, group: int | None, gates: Sequence[Gate], community: int | None) -> list[tuple[str, object]]:
    named = [("community", community)] if community is not None else []
    grouped = [("group", group)] if group is not None else []
    return [*named, ("level", level), *grouped, *(("gate", str(gate)) for gate in gates)]


# What is in a document


def _token(name: str) -> str:
    """A member's name in a JSON pointer."""
    return name.replace("~", "~0").replace("/", "~1")


def classes(document: Mapping[str, Any]) -> Iterator[tuple[str, str, dict[str, Any]]]:
    """Each class of a document with its pointer and its name, in stored order."""
    waiting: list[tuple[str, str, dict[str, Any]]] = [("", "", dict(document))]
    while waiting:
        path, name, each = waiting.pop()
        if path:
            yield path, name, each
        inner = []
        for member, value in each.items():
            here = f"{path}/{_token(member)}"
            many = [(f"{here}/{place}", item) for place, item in enumerate(value)] if isinstance(value, list) else [(here, value)]
            inner += [(place, member, item) for place, item in many if isinstance(item, dict)]
        waiting += reversed(inner)


LABEL_MEMBERS = ("restriction", "ext-restriction")
ARRANGED = "as arranged, else TLP:RED"
UNLABELLED = "TLP:RED"  # what a class has if no label is written in it or above
# The texts of `restriction`, each with the label of TLP 2.0 by which the hub handles it.
LABELS = {
    "public": "TLP:CLEAR", "white": "TLP:CLEAR", "partner": "TLP:GREEN", "green": "TLP:GREEN", "need-to-know": "TLP:AMBER+STRICT",
    "amber": "TLP:AMBER+STRICT", "private": "TLP:RED", "red": "TLP:RED", "default": ARRANGED,
}
TEXTS = {"TLP:CLEAR": "TLP:CLEAR", "TLP:WHITE": "TLP:CLEAR", "TLP:GREEN": "TLP:GREEN", "TLP:AMBER": "TLP:AMBER", "TLP:AMBER+STRICT": "TLP:AMBER+STRICT"}


def label_of(each: Mapping[str, Any]) -> str | None:
    """Returns the label that is written in a class, by its name in TLP 2.0, or None if none is."""
    restriction, text = each.get("restriction"), each.get("ext-restriction")
    if restriction == "ext-value" and isinstance(text, str):
        return TEXTS.get(text.upper() if text.isascii() else "", UNLABELLED)
    return LABELS.get(restriction) if isinstance(restriction, str) else None


class Labelled(NamedTuple):
    """A class of a document, and the label that holds for it: the one in it, else in the nearest class above that has one."""

    path: str
    name: str
    members: dict[str, Any]
    label: str


def labelled_classes(document: Mapping[str, Any]) -> Iterator[Labelled]:
    """Yields each class of a document with the label that holds for it, in stored order."""
    above: list[tuple[str, str]] = []  # the classes around, the nearest last
    for path, name, each in classes(document):
        while above and not path.startswith(above[-1][0]):
            above.pop()
        label = label_of(each) or (above[-1][1] if above else UNLABELLED)
        above.append((path + "/", label))
        yield Labelled(path, name, each, label)


# Class name, the member that holds the value, and the kind where the class doesn't tell it.
HOLDERS = {
    "Address": ("value", "address"), "DomainData": ("Name", "domain-name"), "Hash": ("DigestValue", "file-hash"),
    "File": ("FileName", "file-name"), "Key": ("KeyName", "windows-reg-key"),
}


class Indicator(NamedTuple):
    """A value in a document, its role there, and the label that holds for it, by its name in TLP 2.0.

    `role` is `indicator` below a class Indicator; `source`, `target` or another category inside a System; and `-` if the document
    gives none. If both apply, it has both, as in `indicator:target`. A System that the report calls spoofed adds `:spoofed`, as in
    `source:spoofed`.
    """

    kind: str
    value: str
    path: str
    role: str
    label: str


def _found_in(name: str, each: dict[str, Any]) -> Iterator[tuple[str, str]]:
    """The kinds and values that a class itself holds."""
    holder = HOLDERS.get(name)
    if holder and isinstance(value := each.get(holder[0]), str):
        kind = each.get("category", holder[1])
        yield kind if name == "Address" and isinstance(kind, str) else holder[1], value
    if name == "BulkObservable":
        values = each.get("BulkObservableList", [])
        kind = each.get("type")
        for value in values.split() if isinstance(values, str) else values if isinstance(values, list) else []:
            if isinstance(value, str):
                yield kind if isinstance(kind, str) else "bulk", value
    urls = each.get("URL") if name != "Reference" else None
    for url in urls if isinstance(urls, list) else [urls]:
        if isinstance(url, str):
            yield "url", url


def _part_of(system: dict[str, Any]) -> str:
    """The role of a System in what happened (RFC 7970 section 3.17). A spoofed one is probably not of its category."""
    category = system.get("category")
    part = category if isinstance(category, str) else "-"
    return f"{part}:spoofed" if system.get("spoofed") == "yes" else part


def indicators(document: Mapping[str, Any], every: bool = False) -> Iterator[Indicator]:
    """Yields what to block or look for: addresses, domain names, hashes, files, registry keys, bulk lists and URLs below a class
    Indicator, or in a System of the category source that isn't spoofed. The URL of a Reference isn't one.

    With `every` it yields those of all places, including the addresses of victims: look at `role` before you block one.
    """
    systems: list[tuple[str, str]] = []  # those around, the nearest last
    for path, name, each, label in labelled_classes(document):
        while systems and not path.startswith(systems[-1][0]):
            systems.pop()
        if name == "System":
            systems.append((path + "/", _part_of(each)))
        is_indicator = "Indicator" in path.split("/")
        part = systems[-1][1] if systems else "-"
        role = part if not is_indicator else "indicator" if part == "-" else f"indicator:{part}"
        if every or is_indicator or part == "source":
            for kind, value in _found_in(name, each):
                yield Indicator(kind, value, path, role, label)


if __name__ == "__main__":
    import importlib

    raise SystemExit(importlib.import_module("iodef_hub_ask.words").main())
