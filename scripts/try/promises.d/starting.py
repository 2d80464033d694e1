"""How systemd learns that a hub opens its store: `wait-ready` beside a program that opens as slowly as is wanted."""

from __future__ import annotations

import contextlib
import os
import pathlib
import re
import socket
import subprocess
import sys
import tempfile
from collections.abc import Iterator

from asking import DEPLOY, Checks, same
from measured import put

# Works or rests for some seconds, and then listens on a port.
OPENING = """
import socket, sys, time
end = time.monotonic() + float(sys.argv[3])
while time.monotonic() < end:
    if sys.argv[2] == "rests":
        time.sleep(float(sys.argv[3]))
listener = socket.create_server(("127.0.0.1", int(sys.argv[1])))
time.sleep(60)
"""
EXTENDED = "EXTEND_TIMEOUT_USEC=60000000"


def free_port() -> int:
    with socket.create_server(("127.0.0.1", 0)) as it:
        return int(it.getsockname()[1])


@contextlib.contextmanager
def opening(how: str, seconds: int) -> Iterator[tuple[subprocess.Popen[bytes], int]]:
    """A program that works or rests so long before it listens, and its port."""
    port = free_port()
    hub = subprocess.Popen([sys.executable, "-c", OPENING, str(port), how, str(seconds)])
    try:
        yield hub, port
    finally:
        hub.kill()
        hub.wait()


def waiting(room: pathlib.Path, hub: int, port: int) -> subprocess.Popen[str]:
    """wait-ready, which waits for a process; what it notifies goes into a file of the room."""
    put(room / "bin" / "systemd-notify", f'#!/bin/sh\necho "$*" >>"{room}/notified"\n', 0o755)
    around = {**os.environ, "PATH": f"{room / 'bin'}:{os.environ['PATH']}", "MAINPID": str(hub), "NOTIFY_SOCKET": "/run/nobody"}
    return subprocess.Popen([DEPLOY / "lib" / "wait-ready", str(port)], env=around, stderr=subprocess.PIPE, text=True)


def notified(room: pathlib.Path) -> list[str]:
    """What it notified, with N for each count of seconds."""
    return [re.sub(r"for \d+ s", "for N s", line) for line in (room / "notified").read_text().splitlines()]


def waited() -> Checks:
    with tempfile.TemporaryDirectory() as one, tempfile.TemporaryDirectory() as two:
        busy, idle = pathlib.Path(one), pathlib.Path(two)
        with opening("works", 12) as (works, at_work), opening("rests", 12) as (rests, at_rest):
            waits = waiting(busy, works.pid, at_work), waiting(idle, rests.pid, at_rest)
            ends = [it.wait() for it in waits]
        status = f"STATUS=opening the store for N s {EXTENDED}"
        of_busy = notified(busy)
        yield same("a hub that works for twelve seconds before it listens has two more minutes, and then no status",
                   (0, [status, status], ["STATUS="]), (ends[0], of_busy[:2], of_busy[-1:]))
        yield same("one that rests has one more minute", (0, [status, "STATUS="]), (ends[1], notified(idle)))
