"""What the tools of deploy/bin refuse: wrong words, and stores and copies that aren't what they must be. By hand: of each the status and
a word of what is said. Whatever a tool refuses, no file is another. The machine is that of disks.py."""
from __future__ import annotations

import contextlib
import pathlib
import re
import sqlite3
import subprocess
import typing
from collections.abc import Callable, Iterator

import disks
from disks import BACKUPS, BIN, CIRCLE, HOME, SECONDS, STORE, Place, circle, circle_and_copy, files_of, nothing, older_circle

COPY = str(BACKUPS / "copy.db")


class Refusal(typing.NamedTuple):
    """A tool with what is put there and its words; its status, and what it says."""

    tool: str
    prepare: Callable[[Place], None]
    words: tuple[str, ...]
    status: int
    said: str


def change(store: str | pathlib.Path, statement: str) -> None:
    with contextlib.closing(sqlite3.connect(store)) as rows, rows:
        rows.execute(statement)


def broken_copy(place: Place) -> None:
    """A person of an organisation that isn't there."""
    circle_and_copy(place)
    change(COPY, "UPDATE person SET org = 99 WHERE number = 1")


def copy_with_log(place: Place) -> None:
    circle_and_copy(place)
    (BACKUPS / "copy.db-wal").write_bytes(b"x" * 42)


def copy_with_empty_log(place: Place) -> None:
    circle_and_copy(place)
    (BACKUPS / "copy.db-wal").write_bytes(b"x" * 41)


def no_copy(place: Place) -> None:
    circle(place)
    BACKUPS.mkdir()
    (BACKUPS / "copy.db").write_text("text")


def key_of_two(place: Place) -> None:
    """The key of the administrator is the one that is asked for."""
    circle(place)
    change(STORE, f"UPDATE person SET key = X'{'0' * 64}' WHERE number = 2")


def suspended(place: Place) -> None:
    circle(place)
    change(STORE, "UPDATE person SET active = 0 WHERE number = 2")


def settings(place: Place) -> None:
    pathlib.Path(f"/etc/iodef-hub/{CIRCLE}.conf").write_text("PORT=21010\n")


def port_of_another(place: Place) -> None:
    pathlib.Path("/etc/iodef-hub/other.conf").write_text("PORT=21010\n")


REFUSALS = [
    Refusal("restore", circle_and_copy, (), 2, "usage: iodef-hub-restore CIRCLE COPY"),
    Refusal("restore", circle_and_copy, (CIRCLE, COPY, "--all"), 2, "usage: "),
    Refusal("restore", circle_and_copy, ("Payments", COPY), 2, "CIRCLE is the name of a circle"),
    Refusal("restore", circle_and_copy, ("other", COPY), 1, "there is no circle other"),
    Refusal("restore", circle, (CIRCLE, COPY), 1, "there is no copy "),
    Refusal("restore", copy_with_log, (CIRCLE, COPY), 1, "the copy has a log beside it"),
    Refusal("restore", copy_with_empty_log, (CIRCLE, COPY), 0, "^$"),
    Refusal("restore", no_copy, (CIRCLE, COPY), 1, "can't be read as a store"),
    Refusal("restore", broken_copy, (CIRCLE, COPY), 1, "person number 1: there is no organisation 99.*\n.*the copy has broken rows"),
    Refusal("restore", broken_copy, (CIRCLE, COPY, "--anyway"), 0, "person number 1: there is no organisation 99"),
    Refusal("migrate", older_circle, (), 2, "usage: iodef-hub-migrate CIRCLE"),
    Refusal("migrate", older_circle, ("Payments",), 2, "CIRCLE is the name of a circle"),
    Refusal("migrate", older_circle, ("other",), 1, "there is no circle other"),
    Refusal("rekey", circle, (STORE,), 2, "usage: iodef-hub-rekey STORE PERSON"),
    Refusal("rekey", circle, (STORE, "0"), 2, "PERSON is the number of a person"),
    Refusal("rekey", circle, (STORE, "1", "0" * 63), 2, "DIGEST is 64 hexadecimal digits"),
    Refusal("rekey", nothing, (STORE, "1"), 1, "there is no store "),
    Refusal("rekey", older_circle, (STORE, "1"), 1, "tables are of version 3"),
    Refusal("rekey", circle, (STORE, "99"), 1, "there is no active person 99"),
    Refusal("rekey", suspended, (STORE, "2"), 1, "there is no active person 2"),
    Refusal("rekey", key_of_two, (STORE, "1", "0" * 64), 1, "a person has that key already"),
    Refusal("setup", nothing, (CIRCLE, "21010"), 2, "usage: iodef-hub-setup CIRCLE PORT NAME"),
    Refusal("setup", nothing, ("2payments", "21010", "Hub"), 2, "CIRCLE is a letter"),
    Refusal("setup", nothing, (CIRCLE, "22000", "Hub"), 2, "PORT is 21000 to 21999"),
    Refusal("setup", settings, (CIRCLE, "21010", "Hub"), 1, "the circle was set up before"),
    Refusal("setup", circle, (CIRCLE, "21010", "Hub"), 1, "hub.db exists: write its settings again"),
    Refusal("setup", port_of_another, (CIRCLE, "21010", "Hub"), 1, "has port 21010 already"),
    Refusal("backup", circle, (STORE,), 2, "usage: iodef-hub-backup"),
    Refusal("shrink", circle, (STORE, "2", "3", "2", "--yes"), 2, "LAST is below FIRST"),
    Refusal("costly", circle, (STORE, "--yes"), 2, "--yes needs --close"),
    Refusal("costly", circle, (STORE, "--close", "0", "--yes"), 2, "N is the number of an incident"),
    Refusal("drill", nothing, (STORE, COPY), 1, "there is no "),
]


def fault(it: Refusal, place: Place) -> str | None:
    """What is wrong with how a tool refuses."""
    with disks.Disks(place) as around:
        it.prepare(place)
        before = files_of(around.at.values())
        words = [BIN / f"iodef-hub-{it.tool}", *it.words]
        ran = subprocess.run(words, env=place.environment(), stdin=subprocess.DEVNULL, capture_output=True, text=True, timeout=SECONDS)
        after = files_of(around.at.values())
    if ran.returncode != it.status or not re.search(it.said, ran.stderr):
        return f"status {ran.returncode}, {ran.stderr[:200]!r}"
    return "a file is another" if it.status and before != after else None


def cases(place: Place, only: str | None) -> Iterator[tuple[bool, str]]:
    """Each refusal of each tool, or only of one."""
    for it in REFUSALS:
        if only in (None, f"iodef-hub-{it.tool}"):
            wrong = fault(it, place)
            words = " ".join(it.words).replace(STORE, "STORE").replace(COPY, "COPY")
            yield wrong is None, f"iodef-hub-{it.tool} {words} of {it.prepare.__name__.replace('_', ' ')}" + (f": {wrong}" if wrong else "")
