"""iodef-hub-room: when it stops the posts to a circle, what it writes, and what it says. In place of limit-memory and HAProxy stand programs
that answer by hand; stores and copies are files whose heads have the pages that count."""

from __future__ import annotations

import contextlib
import os
import pathlib
import re
import socket
import sqlite3
import subprocess
import tempfile
import threading
import time
import typing
from collections.abc import Callable, Iterator

from asking import DEPLOY, Check, Checks, run, same

MIB = 1 << 20
# What the hubs of two circles need over their copies, and may take: of the second there is no limit.
LIMITS = """#!/bin/sh
case "$1 $2" in
    "--needs "*/payments/hub-*) echo $((700 << 20)) 7 ;;
    --needs*) echo 5000 7 ;;
    *payments*) echo $((1000 << 20)) ;;
    *) echo 0 ;;
esac
"""
ROWS = """CREATE TABLE incident (number, source); CREATE TABLE item (incident); INSERT INTO incident VALUES (1, 4), (2, 9), (3, 4);
INSERT INTO item VALUES (1), (1), (2), (3)"""
PATIENCE = 40


class Haproxy(threading.Thread):
    """Has a list of circles, and does what it is told of it. Without a list it says that there is none."""

    def __init__(self, path: pathlib.Path) -> None:
        super().__init__(daemon=True)
        self.names, self.told, self.has_list = ["/"], list[str](), True
        self.listener = socket.socket(socket.AF_UNIX)
        self.listener.bind(str(path))
        self.listener.listen()
        self.start()

    def run(self) -> None:
        with contextlib.suppress(OSError):
            while True:
                with self.listener.accept()[0] as it:
                    it.sendall(self.answer(it.recv(1000).decode().split()).encode())

    def answer(self, words: list[str]) -> str:
        if words[:2] == ["show", "acl"]:
            return "".join(f"0x7f{at} {name}\n" for at, name in enumerate(self.names)) if self.has_list else "Unknown ACL identifier.\n"
        self.told.append(" ".join(words))
        self.names = [*self.names, words[-1]] if words[0] == "add" else [it for it in self.names if it != words[-1]]
        return "\n"


class Room(typing.NamedTuple):
    """A running tool with its folder, its HAProxy, and what it said."""

    folder: pathlib.Path
    haproxy: Haproxy
    said: list[str]

    @property
    def store(self) -> pathlib.Path:
        return self.folder / "stores" / "payments" / "hub.db"


def put(file: pathlib.Path, content: bytes, mode: int = 0o644) -> None:
    file.parent.mkdir(parents=True, exist_ok=True)
    file.write_bytes(content)
    file.chmod(mode)


def grown(store: pathlib.Path, copy: bytes, more: int, free_pages: int = 0) -> None:
    """The store has so many bytes more than the copy, and so many free pages of 4,096 bytes."""
    head = bytearray(copy[:100])
    head[36:40] = free_pages.to_bytes(4, "big")
    put(store, bytes(head))
    os.truncate(store, len(copy) + more)


@contextlib.contextmanager
def started(folder: pathlib.Path) -> Iterator[Room]:
    put(folder / "bin" / "iodef-hub-room", (DEPLOY / "lib" / "iodef-hub-room").read_bytes(), 0o755)
    put(folder / "bin" / "limit-memory", LIMITS.encode(), 0o755)
    for circle in ("payments", "health"):
        put(folder / "settings" / f"{circle}.conf", b"")
    copies = folder / "copies" / "payments"
    copies.mkdir(parents=True)
    put(copies / "hub-1.db", b"none")
    with contextlib.closing(sqlite3.connect(copies / "hub-2.db")) as rows:
        rows.executescript(ROWS)
    haproxy, said = Haproxy(folder / "haproxy"), list[str]()
    grown(folder / "stores" / "payments" / "hub.db", (copies / "hub-2.db").read_bytes(), 0)
    around = {f"IODEF_HUB_{name}": str(folder / place) for name, place in (("SETTINGS", "settings"), ("STORES", "stores"), ("COPIES", "copies"), ("HAPROXY", "haproxy"))}
    words = [folder / "bin" / "iodef-hub-room", folder / "told.prom"]
    with subprocess.Popen(words, env={**os.environ, **around}, stderr=subprocess.PIPE, text=True) as tool:
        threading.Thread(target=lambda: said.extend(tool.stderr or ()), daemon=True).start()
        try:
            yield Room(folder, haproxy, said)
        finally:
            tool.kill()
            haproxy.listener.close()


def until(holds: Callable[[], bool]) -> bool:
    end = time.monotonic() + PATIENCE
    while not (is_so := holds()) and time.monotonic() < end:
        time.sleep(0.1)
    return is_so


def metrics(room: Room) -> dict[str, str]:
    file = room.folder / "told.prom"
    is_there = until(file.exists)
    return dict(re.findall(r"^iodef_hub_(\S+) (\S+)$", file.read_text() if is_there else "", re.M))


def wanted(needed: int, is_stopped: int) -> dict[str, str]:
    mine, other = '{circle="payments"}', '{circle="health"}'
    return {f"next_start_bytes{mine}": str(needed), f"next_start_limit_bytes{mine}": str(1000 * MIB), f"posts_stopped{mine}": str(is_stopped),
            f"next_start_bytes{other}": "5000", f"next_start_limit_bytes{other}": "0", f"posts_stopped{other}": "0",
            'rows{circle="payments",source="4"}': "3", 'rows{circle="payments",source="9"}': "1"}


def stops(room: Room, copy: bytes) -> Checks:
    """At 80 % posts are taken, and above they aren't: each byte that the store has grown is seven."""
    yield same("a store that is as its newest copy needs what the copy does", wanted(700 * MIB, 0), metrics(room))
    step = 100 * MIB // 7 + 1
    grown(room.store, copy, step)
    yield Check("above 80 % of what the next start may take the circle is in HAProxy's list", "" if until(lambda: room.haproxy.names == ["/", "payments"]) else f"{room.haproxy.told}")
    yield same("which is told with both numbers", True, until(lambda: any("posts to payments are stopped: the next start needs 800 MiB of 1000" in it for it in room.said)))
    yield same("and written at once", True, until(lambda: metrics(room) == wanted(700 * MIB + 7 * step, 1)))
    file = room.folder / "told.prom"
    yield same("it can be read by everybody", 0o644, file.stat().st_mode & 0o777 if file.exists() else None)
    room.haproxy.names = ["/"]
    yield same("a HAProxy that started anew is told again", True, until(lambda: room.haproxy.names == ["/", "payments"]))
    grown(room.store, copy, step, free_pages=1)
    yield same("free pages don't count, and what is in the list by its settings stays", True, until(lambda: room.haproxy.names == ["/"]))
    put(room.store.with_name("hub.db-wal"), b"x" * 8192)
    yield same("the log beside it counts", True, until(lambda: room.haproxy.names == ["/", "payments"]))
    os.unlink(room.store.with_name("hub.db-wal"))
    yield same("posts are taken again", True, until(lambda: any("posts to payments are taken again" in it for it in room.said)))


def without_list(room: Room) -> Checks:
    room.haproxy.has_list = False
    is_told = until(lambda: any("HAProxy has no list #21" in it for it in room.said))
    time.sleep(2.5)
    yield same("a HAProxy without the list is told, once", (True, 1), (is_told, sum("has no list" in it for it in room.said)))


def refused() -> Checks:
    """Words that are none."""
    tool = DEPLOY / "lib" / "iodef-hub-room"
    for words in (("--all",), ("one", "two")):
        ran = run(tool, *words, timeout=60)
        yield same(f"{len(words)} words that it doesn't take are refused", (1, "usage: iodef-hub-room [FILE]\n"), (ran.returncode, ran.stderr))


def room() -> Checks:
    yield from refused()
    with tempfile.TemporaryDirectory() as name, started(pathlib.Path(name)) as it:
        copy = (it.folder / "copies" / "payments" / "hub-2.db").read_bytes()
        yield from stops(it, copy)
        yield from without_list(it)
