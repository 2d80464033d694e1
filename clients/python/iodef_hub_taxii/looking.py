"""Reading a hub for one key: what is listed, and each excerpt, one request at a time with pauses, so that the hub serves others between."""
from __future__ import annotations

import contextlib
import hashlib
import hmac
import json
import sqlite3
import threading
import time
from collections import deque
from collections.abc import Callable, Iterator, Mapping
from dataclasses import dataclass
from typing import Any, TypeVar

import iodef_hub
from iodef_hub_stix.excerpt import Excerpt, moment
from iodef_hub_stix.making import made_of

from .store import Store

# What is made of an answer: another form makes each anew, and only what is another one then is a new version.
ANSWER_FORM, CONTENT_FORM = b"3", b"1"
LONGEST_EXCERPT = 4 * 1024 * 1024  # bytes of an answer; the hub's own limit of a report is 256 KiB
PAGE = 100
MOST_FRESH = 2
ROOM = 4  # excerpts in hand at once, of all requests
T = TypeVar("T")
Object = dict[str, Any]


class Busy(Exception):
    """The hub isn't asked in time, as others wait too."""


class Turns:
    """Requests to the hub, one after another in the order in which they were wanted. Between two is a pause at least as long as the first
    took; who asked works on its answer meanwhile."""

    def __init__(self, pause: float, patience: float) -> None:
        self._pause, self._patience = pause, patience
        self._waiting: deque[threading.Event] = deque()  # whose turn it is, or will be, the first first
        self._room = threading.BoundedSemaphore(ROOM)
        self._lock = threading.Lock()
        self._free = 0.0  # when the pause ends
        self.asked = 0

    @contextlib.contextmanager
    def room(self) -> Iterator[None]:
        """Room for an excerpt, which may be large."""
        if not self._room.acquire(timeout=self._patience):
            raise Busy
        try:
            yield
        finally:
            self._room.release()

    def __call__(self, ask: Callable[[], T]) -> T:
        self._wait()
        time.sleep(max(self._free - time.monotonic(), 0))
        began = time.monotonic()
        try:
            return ask()
        finally:
            now = time.monotonic()
            self._free = now + max(self._pause, min(now - began, 1))
            with self._lock:
                self.asked += 1
                self._waiting.popleft()
                self._call_next()

    def _wait(self) -> None:
        turn = threading.Event()
        with self._lock:
            self._waiting.append(turn)
            self._call_next()
        if turn.wait(self._patience):
            return
        with self._lock:
            if not turn.is_set():
                self._waiting.remove(turn)
                raise Busy

    def _call_next(self) -> None:
        if self._waiting:
            self._waiting[0].set()


@dataclass(frozen=True)
class Settings:
    """`name` is the hub's, of which ids are made; `look_seconds` is how long a request may read before it answers, with `more` if it has
    not read all; an excerpt that was read within `again_seconds` before a poll isn't read again."""

    url: str
    name: str
    names: Mapping[str, str]
    look_seconds: float = 20
    again_seconds: float = 60


def stamp(milliseconds: int) -> str:
    """A moment in the form of STIX."""
    told = moment(time.strftime("%Y-%m-%dT%H:%M:%S", time.gmtime(milliseconds // 1000)) + f".{milliseconds % 1000:03d}+00:00")
    assert told is not None
    return told


class Reader:
    """The hub as one key sees it, for one request."""

    def __init__(self, settings: Settings, store: Store, turns: Turns, key: str) -> None:
        self._settings, self._store, self._turns, self._key = settings, store, turns, key.encode()
        self._hub = iodef_hub.Hub(settings.url, key, timeout=15, tries=2, pause=0.2, longest=LONGEST_EXCERPT)
        caller = turns(self._hub.me)
        self.number, self.name = caller.number, caller.name
        self._fresh: dict[int, list[Object]] = {}  # the objects of the last few excerpts that were read for this request
        self.unfit = 0

    def look(self, before: int, is_first: bool) -> None:
        """Reads what was read last before a moment, in milliseconds, for as long as a request may; at first it lists what the hub shows."""
        deadline = time.monotonic() + self._settings.look_seconds
        self._store.greet(self.number)
        if is_first:
            self._store.listed(self.number, self._listed())
        self._read_due(deadline, before)

    def _listed(self) -> dict[int, int]:
        found: dict[int, int] = {}
        after = 0
        while True:
            page = self._turns(lambda: self._hub.incidents(after))
            found |= {each.number: each.revision for each in page}
            if len(page) < PAGE or page[-1].number <= after:
                return found
            after = page[-1].number

    def _read_due(self, deadline: float, before: int) -> None:
        while time.monotonic() < deadline and (due := self._store.due(self.number, before, 1)):
            self._note(due[0], keep=False)

    def objects(self, incident: int) -> list[Object]:
        """The objects of an incident as the hub serves it now, by their ids of this collection; none if it serves nothing."""
        if incident not in self._fresh:
            while len(self._fresh) >= MOST_FRESH:
                del self._fresh[next(iter(self._fresh))]
            self._fresh[incident] = self._note(incident, keep=True)
        return self._fresh[incident]

    def _note(self, number: int, keep: bool) -> list[Object]:
        """Reads an excerpt, and notes a new version if its content is another one than before. Returns its objects, if they are kept."""
        with self._turns.room():
            excerpt = self._excerpt(number)
            try:
                if excerpt is not None:
                    self._note_content(excerpt, number)
                    return self._served(excerpt, number) if keep else []
            except sqlite3.Error:
                raise
            except Exception:  # whatever a report is, the others are served; the metrics count it
                self.unfit += 1
        self._store.hide(self.number, number)
        return []

    def _note_content(self, excerpt: Excerpt, number: int) -> None:
        kept = self._store.kept(self.number, number)
        # Most answers are the same as before, so their bytes are compared first; the source's name isn't in them.
        answer = self._digest(ANSWER_FORM, json.dumps(excerpt.name).encode() + self._hub.heard)
        if kept is not None and kept.answer == answer:
            self._store.same(self.number, number, answer)
            return
        created = stamp(kept.created if kept else 0)
        made = made_of(excerpt, created, created)
        # Moments that stand for one that the report doesn't tell are no content.
        told = [{name: it for name, it in each.items() if it != created} for each in made]
        content = self._digest(CONTENT_FORM, json.dumps(told, sort_keys=True, separators=(",", ":"), ensure_ascii=False).encode())
        if kept is not None and kept.content == content:
            self._store.same(self.number, number, answer)
        else:
            self._store.version(self.number, number, answer, content, [each["id"] for each in made])

    def _served(self, excerpt: Excerpt, number: int) -> list[Object]:
        kept = self._store.kept(self.number, number)
        if kept is None:
            return []
        made = made_of(excerpt, stamp(kept.modified), stamp(kept.created))
        return with_names(made, self._store.renamed(self.number, number))

    def _excerpt(self, number: int) -> Excerpt | None:
        """What the hub serves of an incident; None if nothing, or nothing that can be written as STIX."""
        try:
            view = self._turns(lambda: self._hub.view(number))
        except iodef_hub.Refused as refusal:
            if refusal.code != "N1":
                raise
            return None
        except iodef_hub.NotHub as fault:
            if not fault.detail.startswith("more than"):  # something on the way answered
                raise
            self.unfit += 1
            return None
        withheld = tuple(sorted({each.place for each in view.withheld}))
        told = str(view.source)
        return Excerpt(self._settings.name, str(number), view.document, withheld, told, self._settings.names.get(told, ""))

    def _digest(self, form: bytes, told: bytes) -> bytes:
        """An HMAC by the reader's key, which isn't kept: who has the file alone can't try out contents."""
        return hmac.new(self._key, form + told, hashlib.sha256).digest()


def with_names(objects: list[Object], names: Mapping[str, str]) -> list[Object]:
    """The objects with other ids, also where they name each other."""
    if not names:
        return objects

    def named(member: str, value: Any) -> Any:
        if member == "id" or member.endswith("_ref"):
            return names.get(value, value)
        return [names.get(each, each) for each in value] if member.endswith("_refs") else value

    return [{member: named(member, value) for member, value in each.items()} for each in objects]
