"""What iodef-hub-taxii keeps, in one file of SQLite: of each reader and incident ids, times, and an HMAC by the reader's key; no content.

A version is of an excerpt: its moment is when this reader first saw this content. All versions of a reader have moments that differ, in
microseconds, so that `added_after` never skips one. An object that has versions and is seen no more becomes one that is revoked.
If it is seen again, it gets another id, as nothing follows a revocation.
"""
from __future__ import annotations

import pathlib
import sqlite3
import threading
import time
import uuid
from collections import Counter
from collections.abc import Iterable, Mapping, Sequence
from dataclasses import dataclass

# The types of objects by number; numbers stay. Those behind the dash have no versions.
TYPES = (
    "identity", "indicator", "note", "observed-data", "report", "vulnerability", "relationship", "-",
    "marking-definition", "ipv4-addr", "ipv6-addr", "domain-name", "url", "email-addr", "mac-addr", "autonomous-system", "file",
    "windows-registry-key", "mutex", "user-account", "email-message",
)
UNVERSIONED = TYPES.index("-")
TABLES = """
CREATE TABLE meta (hub TEXT NOT NULL, version INTEGER NOT NULL);
CREATE TABLE reader (number INTEGER PRIMARY KEY, last INTEGER NOT NULL, polled INTEGER NOT NULL);
CREATE TABLE excerpt (
    reader INTEGER NOT NULL, incident INTEGER NOT NULL, revision INTEGER NOT NULL, shown INTEGER NOT NULL, looked INTEGER NOT NULL,
    created INTEGER NOT NULL, modified INTEGER NOT NULL, answer BLOB, content BLOB, PRIMARY KEY (reader, incident)) WITHOUT ROWID;
CREATE INDEX due ON excerpt (reader, shown, looked);
CREATE TABLE object (
    reader INTEGER NOT NULL, added INTEGER NOT NULL, id BLOB NOT NULL, incident INTEGER NOT NULL, revoked INTEGER NOT NULL, base BLOB,
    PRIMARY KEY (reader, added)) WITHOUT ROWID;
CREATE UNIQUE INDEX named ON object (reader, id);
CREATE INDEX of_incident ON object (reader, incident);
"""
VERSION = 1
OF_ONE = "WHERE reader = ? AND incident = ?"


class WrongFile(Exception):
    """A file of state that can't be used, and why."""


@dataclass(frozen=True)
class Row:
    """An object of the collection: when it was added, in microseconds, and the moments of its excerpt, in milliseconds."""

    added: int
    id: str
    incident: int
    revoked: bool
    created: int
    modified: int


@dataclass(frozen=True)
class Kept:
    """What is kept of an excerpt."""

    created: int
    modified: int
    answer: bytes | None
    content: bytes | None


@dataclass(frozen=True)
class Wanted:
    """Which objects of a reader are asked for: behind a moment, of these types and ids; None is any."""

    after: int = -1
    types: frozenset[str] | None = None
    ids: frozenset[str] | None = None


def packed(name: str) -> bytes:
    kind, _, number = name.partition("--")
    return bytes([TYPES.index(kind)]) + uuid.UUID(number).bytes


def unpacked(told: bytes) -> str:
    return f"{TYPES[told[0]]}--{uuid.UUID(bytes=told[1:])}"


def again(name: str, turn: int) -> str:
    """The id of an object that was revoked so many times."""
    kind, _, number = name.partition("--")
    return f"{kind}--{uuid.uuid5(uuid.UUID(number), f'again-{turn}')}" if turn else name


def has_versions(name: str) -> bool:
    return TYPES.index(name.partition("--")[0]) < UNVERSIONED


class Store:
    """The file. Each call is one transaction; calls of several threads follow one another."""

    def __init__(self, file: pathlib.Path, hub: str, fixed: Sequence[str]) -> None:
        self.file, self._fixed, self._lock = file, fixed, threading.Lock()
        is_new = not file.exists()
        try:
            self._db = sqlite3.connect(file, check_same_thread=False, isolation_level=None)
            self._db.execute("PRAGMA journal_mode = WAL")
            if is_new:
                self._db.executescript(f"BEGIN; {TABLES} COMMIT")
                self._db.execute("INSERT INTO meta VALUES (?, ?)", (hub, VERSION))
            told = self._db.execute("SELECT hub, version FROM meta").fetchall()
        except sqlite3.DatabaseError as fault:
            raise WrongFile(f"{file} is no state of iodef-hub-taxii: {fault}") from None
        if told != [(hub, VERSION)]:
            raise WrongFile(f"{file} is of another hub or of another version")
        self._db.execute("PRAGMA synchronous = NORMAL")

    def close(self) -> None:
        with self._lock:
            self._db.close()

    def _change(self) -> _Change:
        return _Change(self._db, self._lock)

    def greet(self, reader: int) -> None:
        """A reader polls; a new one gets the objects that every collection has."""
        with self._change() as db:
            now = time.time_ns() // 1_000_000
            if db.execute("UPDATE reader SET polled = ? WHERE number = ?", (now, reader)).rowcount == 0:
                db.execute("INSERT INTO reader VALUES (?, 0, ?)", (reader, now))
                _put(db, reader, 0, _next(db, reader), self._fixed)

    def listed(self, reader: int, entries: Mapping[int, int]) -> None:
        """The incidents that the hub lists, each with its revision: new and changed ones are due, and those that are gone are revoked."""
        with self._change() as db:
            known = {number: (revision, shown) for number, revision, shown in db.execute(
                "SELECT incident, revision, shown FROM excerpt WHERE reader = ?", (reader,))}
            _hide_all(db, reader, [each for each, (_, shown) in known.items() if shown and each not in entries])
            for number, revision in entries.items():
                if number not in known:
                    db.execute("INSERT INTO excerpt VALUES (?, ?, ?, 1, 0, 0, 0, NULL, NULL)", (reader, number, revision))
                elif known[number] != (revision, 1):
                    db.execute(f"UPDATE excerpt SET revision = ?, shown = 1, looked = 0 {OF_ONE}", (revision, reader, number))

    def due(self, reader: int, before: int, count: int) -> list[int]:
        """The incidents that were read last before a moment, the longest ago first."""
        with self._lock:
            found = self._db.execute("SELECT incident FROM excerpt WHERE reader = ? AND shown = 1 AND looked < ? ORDER BY looked, incident "
                                     "LIMIT ?", (reader, before, count))
            return [number for number, in found]

    def kept(self, reader: int, incident: int) -> Kept | None:
        with self._lock:
            told = self._db.execute(f"SELECT created, modified, answer, content FROM excerpt {OF_ONE}", (reader, incident)).fetchone()
        return Kept(*told) if told else None

    def same(self, reader: int, incident: int, answer: bytes) -> None:
        """An excerpt was read and has the content that is kept."""
        with self._change() as db:
            db.execute(f"UPDATE excerpt SET looked = ?, answer = ? {OF_ONE}", (_now(), answer, reader, incident))

    def hide(self, reader: int, incident: int) -> None:
        """The hub serves nothing of an incident."""
        with self._change() as db:
            _hide(db, reader, incident)

    def version(self, reader: int, incident: int, answer: bytes, content: bytes, names: Sequence[str]) -> None:
        """A new version of an excerpt, with the ids of its objects."""
        with self._change() as db:
            moment = _next(db, reader)
            created = "CASE created WHEN 0 THEN ? ELSE created END"
            db.execute(f"UPDATE excerpt SET looked = ?, answer = ?, content = ?, modified = ?, created = {created}, shown = 1 {OF_ONE}",
                       (_now(), answer, content, moment, moment, reader, incident))
            _put(db, reader, incident, moment, names)

    def rows(self, reader: int, wanted: Wanted, count: int) -> list[Row]:
        """The first objects that are asked for, by when they were added."""
        values: list[object]
        asked, values = "object.reader = ? AND added > ?", [reader, wanted.after]
        if wanted.types is not None:
            asked += f" AND hex(substr(object.id, 1, 1)) IN ({', '.join('?' * len(wanted.types))})"
            values += [_code(each) for each in wanted.types]
        if wanted.ids is not None:
            known = [packed(each) for each in wanted.ids if each.partition("--")[0] in TYPES]
            asked += f" AND object.id IN ({', '.join('?' * len(known))})"
            values += known
        with self._lock:
            found = self._db.execute(
                "SELECT added, object.id, object.incident, revoked, COALESCE(created, 0), COALESCE(modified, 0) FROM object "
                f"LEFT JOIN excerpt USING (reader, incident) WHERE {asked} ORDER BY added LIMIT ?", (*values, count)).fetchall()
        return [Row(added, unpacked(name), incident, bool(revoked), created, added // 1000 if revoked else modified)
                for added, name, incident, revoked, created, modified in found]

    def renamed(self, reader: int, incident: int) -> dict[str, str]:
        """The objects of an incident that have another id, as one with theirs was revoked."""
        with self._lock:
            asked = f"SELECT base, id FROM object {OF_ONE} AND revoked = 0 AND base IS NOT NULL"
            found = self._db.execute(asked, (reader, incident)).fetchall()
        return {unpacked(base): unpacked(name) for base, name in found}

    def counts(self) -> dict[str, int]:
        """What there is, for the metrics; of readers that polled within an hour, also how long ago the excerpt was read that is next."""
        with self._lock:
            made = {f"{name}s": self._db.execute(f"SELECT count(*) FROM {name}").fetchone()[0] for name in ("reader", "excerpt")}
            of_reader = "SELECT min(looked) FROM excerpt WHERE excerpt.reader = number AND shown = 1 AND looked > 0"
            oldest = self._db.execute(f"SELECT min(({of_reader})) FROM reader WHERE polled > ?", (_now() - 3_600_000,)).fetchone()[0]
        return {**made, "oldest_read_seconds": (_now() - oldest) // 1000 if oldest else 0, "store_bytes": self.file.stat().st_size}


def _code(kind: str) -> str:
    return f"{TYPES.index(kind) if kind in TYPES else 255:02X}"


def _now() -> int:
    return time.time_ns() // 1_000_000


class _Change:
    """A transaction."""

    def __init__(self, db: sqlite3.Connection, lock: threading.Lock) -> None:
        self._db, self._lock = db, lock

    def __enter__(self) -> sqlite3.Connection:
        self._lock.acquire()
        try:
            self._db.execute("BEGIN IMMEDIATE")
        except BaseException:
            self._lock.release()
            raise
        return self._db

    def __exit__(self, kind: object, *rest: object) -> None:
        try:
            self._db.execute("ROLLBACK" if kind else "COMMIT")
        finally:
            self._lock.release()


def _next(db: sqlite3.Connection, reader: int) -> int:
    """A moment, in milliseconds, behind all versions of a reader: the clock's, unless it went back."""
    last: int = db.execute("SELECT last FROM reader WHERE number = ?", (reader,)).fetchone()[0]
    return max(_now(), last // 1000 + 1)


def _put(db: sqlite3.Connection, reader: int, incident: int, moment: int, names: Iterable[str]) -> None:
    """Adds the objects of an excerpt anew, and revokes or removes those that it hasn't any more."""
    known = [(unpacked(name), unpacked(base), bool(revoked)) for name, base, revoked in db.execute(
        f"SELECT id, COALESCE(base, id), revoked FROM object {OF_ONE}", (reader, incident))]
    shown = {base: name for name, base, revoked in known if not revoked}
    turns = Counter(base for _, base, revoked in known if revoked)
    added = moment * 1000
    for base in names:
        name = shown.pop(base, None)
        if name is not None:
            db.execute("UPDATE object SET added = ? WHERE reader = ? AND id = ?", (added, reader, packed(name)))
        else:
            turn = turns[base]
            db.execute("INSERT INTO object VALUES (?, ?, ?, ?, 0, ?)",
                       (reader, added, packed(again(base, turn)), incident, packed(base) if turn else None))
        added += 1
    _end(db, reader, list(shown.values()), added)


def _end(db: sqlite3.Connection, reader: int, names: Sequence[str], added: int) -> None:
    """Revokes the objects of these ids, or removes them if they have no versions."""
    for name in names:
        if has_versions(name):
            db.execute("UPDATE object SET added = ?, revoked = 1 WHERE reader = ? AND id = ?", (added, reader, packed(name)))
            added += 1
        else:
            db.execute("DELETE FROM object WHERE reader = ? AND id = ?", (reader, packed(name)))
    db.execute("UPDATE reader SET last = max(last, ?) WHERE number = ?", (added, reader))


def _hide_all(db: sqlite3.Connection, reader: int, incidents: Iterable[int]) -> None:
    for incident in incidents:
        _hide(db, reader, incident)


def _hide(db: sqlite3.Connection, reader: int, incident: int) -> None:
    names = [unpacked(name) for name, in db.execute(f"SELECT id FROM object {OF_ONE} AND revoked = 0", (reader, incident))]
    _end(db, reader, names, _next(db, reader) * 1000)
    db.execute(f"UPDATE excerpt SET shown = 0, looked = ?, answer = NULL, content = NULL {OF_ONE}", (_now(), reader, incident))
