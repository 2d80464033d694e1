"""The two programs as a user starts them: where they listen, what they may read, for whom they redact, and how they end. By hand."""

from __future__ import annotations

import contextlib
import hashlib
import json
import os
import pathlib
import pwd
import shutil
import socket
import subprocess
import sys
import tempfile
import time
from collections.abc import Iterator

from asking import TOP, Check, Checks, Missing, program, repeated, run, same

sys.path.insert(0, str(TOP / "scripts" / "try"))

import common  # noqa: E402

KEY = "admin-key"
DIGEST = hashlib.sha256(KEY.encode()).hexdigest()
# Of a report of four texts what two readers see: behind a gate of another group; by a permission that has ended; by one of the
# reader's group; and by the report's label alone.
DATA = TOP / "crates" / "test_suite" / "data"
TEXTS = ("gated", "ended", "grouped", "plain")
SEEN = {"view.json": ["grouped", "plain"], "view-red.json": list(TEXTS)}
HELD = b"POST /incidents?level=3 HTTP/1.1\r\nContent-Length: 262145\r\n\r\n"
BAD = f"POST /orgs HTTP/1.1\r\nAuthorization: Bearer {KEY}\r\nContent-Length: 3\r\n\r\n%ZZ".encode()
ASKED = f"GET /me HTTP/1.1\r\nAuthorization: Bearer {KEY}\r\n\r\n".encode()


@contextlib.contextmanager
def room() -> Iterator[pathlib.Path]:
    """A folder that each user may enter."""
    with tempfile.TemporaryDirectory() as name:
        pathlib.Path(name).chmod(0o755)
        yield pathlib.Path(name)


def served(hub: str, store: pathlib.Path, port: int) -> subprocess.Popen[str]:
    process = subprocess.Popen([hub, "serve", str(store), str(port), "1000"], stdout=subprocess.PIPE, text=True)
    if process.stdout is None or process.stdout.readline() != f"listening {port}\n":
        raise ValueError("the hub doesn't serve")
    return process


def listens(hub: str) -> Checks:
    """Where it listens, and how long those wait who come behind another."""
    ss = program("ss", "iproute2")
    with room() as folder:
        store, port = folder / "hub.db", common.free_port()
        run(hub, "init", store, "Hub", DIGEST, check=True)
        process = served(hub, store, port)
        try:
            told = [line.split()[3] for line in run(ss, "-Hltn", f"sport = :{port}").stdout.split("\n") if line]
            yield same("the hub is reached by this machine alone", [f"127.0.0.1:{port}"], told)
            yield from repeated(lambda: waits(port))
        finally:
            process.terminate()
            process.wait()


def waits(port: int) -> Checks:
    for promise, request, least, most in (
        ("a caller that is refused while it sends holds the hub for a second", HELD, 0.8, 2.5),
        ("one that is refused for its whole request doesn't", BAD, 0, 0.7),
        ("nor does one that is answered and stays", ASKED, 0, 0.7),
    ):
        with socket.create_connection(("127.0.0.1", port), timeout=60) as first, socket.create_connection(("127.0.0.1", port), timeout=60) as second:
            begun = time.monotonic()
            first.sendall(request)
            second.sendall(ASKED)
            status = second.recv(12)
            seconds = time.monotonic() - begun
        yield Check(promise, "" if status == b"HTTP/1.1 200" and least <= seconds <= most else f"{status!r} after {seconds:.2f} s")


def ended(hub: str, *words: object, given: str = "", **more: object) -> tuple[int, str]:
    """Status and standard error, in one line."""
    ran = run(hub, *words, input=given, **more)
    return ran.returncode, ran.stderr.strip().replace("\n", ": ")


def endings(hub: str) -> Checks:
    with room() as folder:
        store = folder / "hub.db"
        umask = os.umask(0)
        run(hub, "init", store, "Hub", DIGEST, check=True)
        os.umask(umask)
        yield same("a new store is for its owner alone", 0o600, store.stat().st_mode & 0o777)
        yield same("words that are none end with status 2", 2, ended(hub, "none")[0])
        ran = run(hub, "view", store, "1", input=KEY)
        yield same("a refusal ends with status 1, and is told as an answer", (1, "", "N1"), (ran.returncode, ran.stderr, json.loads(ran.stdout)["code"]))
        yield same("a name that is none ends with status 1", (1, "B1"), ended(hub, "init", folder / "other.db", "", DIGEST))
        yield same("a store that isn't there ends with status 3", (3, "Failed: no such file"), ended(hub, "view", folder / "none.db", "1", given=KEY))
        (folder / "text.db").write_text("text")
        yield same("so does a file that is no store", 3, ended(hub, "view", folder / "text.db", "1", given=KEY)[0])
    yield from closed(hub)


def for_all(file: str, folder: pathlib.Path) -> str:
    """A copy of a program that each user may start."""
    return str(shutil.copy(file, folder / "program"))


def nobody() -> dict[str, object]:
    """How a process is started that may not read what root has closed."""
    if os.geteuid() != 0:
        return {}
    try:
        who = pwd.getpwnam("nobody")
    except KeyError as fault:
        raise Missing("there is no user nobody") from fault
    return {"user": who.pw_uid, "group": who.pw_gid, "extra_groups": []}


def closed(hub: str) -> Checks:
    """A store in a folder that the caller may not enter, and a disk that is full."""
    with room() as folder:
        shut, hub = folder / "shut", for_all(hub, folder)
        shut.mkdir()
        run(hub, "init", shut / "hub.db", "Hub", DIGEST, check=True)
        shut.chmod(0o000)
        yield same("a store without permission is told so", (3, "Failed: no permission"), ended(hub, "view", shut / "hub.db", "1", given=KEY, **nobody()))
        yield same("also if it should be made", (3, "Failed: no permission"), ended(hub, "init", shut / "new.db", "Hub", DIGEST, **nobody()))
        shut.chmod(0o700)
        if os.geteuid() != 0:
            raise Missing("only root can make a disk that is full")
        script = 'mount -t tmpfs -o size=64k tmpfs "$1" && head -c 61440 /dev/zero >"$1/fill"; shift; exec "$@"'
        told = ended("unshare", "--mount", "sh", "-c", script, "sh", shut, hub, "init", shut / "new.db", "Hub", DIGEST)
        yield same("a full disk is told so", (3, "Failed: disk full"), told)
        for kilobytes in (8, 64, 200):
            # the file can be made, but no tables
            script = 'mount -t tmpfs -o size="$4k" tmpfs "$1"; "$2" init "$1/new.db" Hub "$3" 2>&1; echo "status $?"; ls "$1"'
            left = run("unshare", "--mount", "sh", "-c", script, "sh", shut, hub, DIGEST, kilobytes).stdout
            yield same(f"also with {kilobytes} KB left, and the file is removed", "Failed\ndisk full\nstatus 3\n", left)
        run(hub, "init", folder / "linked.db", "Hub", DIGEST, check=True)
        (folder / "other.db").hardlink_to(folder / "linked.db")
        yield same("a second hard link is told so", (3, "Failed: a second hard link"), ended(hub, "view", folder / "linked.db", "1", given=KEY))


def redacted(redact: str) -> Checks:
    report = (DATA / "shared.json").read_text()
    for view, seen in SEEN.items():
        told = run(redact, "excerpt", "--for", DATA / view, input=report)
        yield same(f"what the reader of {view} sees", (0, seen), (told.returncode, [text for text in TEXTS if f'"{text}"' in told.stdout]))
    with room() as folder:
        shut, redact = folder / "view.json", for_all(redact, folder)
        shut.write_bytes((DATA / "view.json").read_bytes())
        shut.chmod(0o000)
        told = run(redact, "excerpt", "--for", shut, input=report, **nobody())
        said = (told.returncode, told.stdout, told.stderr.split("\n")[:2])
        yield same("a view without permission is told so, and nothing is printed", (3, "", ["ReadFailed", "no permission"]), said)
        told = run(redact, "excerpt", "--for", folder / "none.json", input=report)
        yield same("one that isn't there is told so", (3, "", ["ReadFailed", "no such file"]), (told.returncode, told.stdout, told.stderr.split("\n")[:2]))
