"""What runs before a server starts: nginx-prepare, over settings, logs and a firewall of its own; the folders that systemd makes; and
wait-ready, which waits for a hub."""

from __future__ import annotations

import contextlib
import os
import pathlib
import subprocess
import sys
import tempfile
import time
import typing
from collections.abc import Iterator

from asking import DEPLOY, TOP, Check, Checks, Missing, program, run, same

sys.path.insert(0, str(TOP / "scripts" / "try"))

import common  # noqa: E402

LIB = DEPLOY / "lib"
# In mounts of their own: /etc/nginx with these settings, its logs, and an nft that keeps what it is asked and knows a table or not.
PREPARE = """
set -e
mount -t tmpfs tmpfs /etc/nginx
mount -t tmpfs tmpfs /var/log/nginx
mkdir "$1/bin"
printf '#!/bin/sh\\necho "$*" >>"%s/asked"\\n[ "$1" != list ] || exit %s\\n' "$1" "$2" >"$1/bin/nft"
chmod +x "$1/bin/nft"
printf '%s\\n' "$3" >/etc/nginx/nginx.conf
[ -z "$4" ] || : >/etc/nginx/iodef-hub-callers.nft
PATH=$1/bin:$PATH sh "$0"
cat /etc/nginx/iodef-hub-nginx.conf | grep -v '^#' >"$1/made"
stat -c '%n %a %U %G' /var/log/nginx/* >"$1/logs"
"""
# The folders of receipts, as systemd makes them when the machine starts.
FOLDERS = """
set -e
mount -t tmpfs tmpfs /run
mount -t tmpfs tmpfs /var/log
systemd-tmpfiles --create "$0" >&2
stat -c '%n %a %U %G' /run/iodef-hub-receipts /var/log/iodef-hub-receipts
"""
LOGS = "".join(f"/var/log/nginx/iodef-hub{it}.log 640 www-data adm\n" for it in ("-error", ""))
SHIPPED, OWN = "/usr/share/iodef-hub/nftables/iodef-hub-callers.nft", "/etc/nginx/iodef-hub-callers.nft"
LISTENER = "import socket, sys, time; time.sleep(1); it = socket.create_server(('127.0.0.1', int(sys.argv[1]))); time.sleep(60)"


def prepare(line: str, has_table: bool, has_own: bool) -> tuple[str, str, list[str], str]:
    """The settings that are made of a line, the logs, what nft was asked, and what is said."""
    with tempfile.TemporaryDirectory() as name:
        room = pathlib.Path(name)
        words = ["unshare", "--mount", "sh", "-c", PREPARE, LIB / "nginx-prepare", room, int(not has_table), line, "own" if has_own else ""]
        ran = run(*words)
        told = [(room / it).read_text() if (room / it).exists() else "" for it in ("made", "logs", "asked")]
        return told[0], told[1], told[2].splitlines(), ran.stderr


def nginx() -> Checks:
    if os.geteuid() != 0:
        raise Missing("only root can have mounts of its own")
    asked = "list table inet iodef_hub"
    for what, line, wanted in (
        ("few connections become 4,096", "    worker_connections 768;", "    worker_connections 4096;"),
        ("so do 999", "  worker_connections  999;", "  worker_connections 4096;"),
        ("a thousand stay", "    worker_connections 1000;", "    worker_connections 1000;"),
    ):
        yield same(what, (f"{wanted}\n", LOGS, [asked], ""), prepare(line, True, False))
    made, logs, nft, said = prepare("worker_processes 1;", False, False)
    yield same("without a limit of connections of an address it loads the shipped one", ([asked, f"-f {SHIPPED}"], LOGS), (nft, logs))
    yield Check("settings without connections are told", "" if "no line with worker_connections" in said else said[:200])
    yield same("an own limit goes before the shipped one", [asked, f"-f {OWN}"], prepare("", False, True)[2])


def folders() -> Checks:
    program("systemd-tmpfiles", "systemd")
    told = run("unshare", "--mount", "sh", "-c", FOLDERS, DEPLOY / "receipts" / "tmpfiles.conf")
    wanted = "/run/iodef-hub-receipts 750 root haproxy\n/var/log/iodef-hub-receipts 700 root root\n"
    yield same("the folders of receipts are for root, and the socket's for HAProxy, too", (wanted, ""), (told.stdout, told.stderr))


def waited(process: subprocess.Popen[bytes], port: int, most: float = 5) -> tuple[int | None, float, str]:
    """How wait-ready ends for a process and a port within so many seconds, and after which time; None if it still waits."""
    begun = time.monotonic()
    try:
        ran = run("sh", LIB / "wait-ready", port, env={**os.environ, "MAINPID": str(process.pid)}, timeout=most)
    except subprocess.TimeoutExpired:
        return None, time.monotonic() - begun, ""
    return ran.returncode, time.monotonic() - begun, ran.stderr.strip()


@contextlib.contextmanager
def process(*words: object, **more: typing.Any) -> Iterator[subprocess.Popen[bytes]]:
    it = subprocess.Popen([str(word) for word in words], **more)
    try:
        yield it
    finally:
        it.kill()
        it.wait()


def ready() -> Checks:
    """It waits for the port of the hub's own user, not for another port or another user's, nor for a hub that has ended."""
    nobody = {"user": 65534, "group": 65534, "extra_groups": []} if os.geteuid() == 0 else {}
    port = common.free_port()
    with process(sys.executable, "-c", LISTENER, port) as hub, process("sleep", "60", **nobody) as other:
        status, seconds, _ = waited(hub, port, 60)
        yield Check("a hub is waited for until it listens", "" if status == 0 and seconds > 0.5 else f"status {status} after {seconds:.1f} s")
        yield same("another port isn't the hub's", None, waited(hub, port + 1)[0])
        if nobody:
            yield same("nor is that of another user", None, waited(other, port)[0])
    told = waited(hub, port + 1, 60)
    yield same("a hub that has ended is told so", (1, f"the hub ended before it listened on port {port + 1}"), (told[0], told[2]))


def prepared() -> Checks:
    yield from nginx()
    yield from folders()
    yield from ready()
