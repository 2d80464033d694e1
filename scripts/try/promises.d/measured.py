"""The tools that measure: each metric by a situation whose number is known by hand, and the memory that a start needs.

What the metrics ask of the system is answered here by programs of the same names in front of it.
"""

from __future__ import annotations

import contextlib
import datetime
import os
import pathlib
import re
import socket
import sqlite3
import subprocess
import tempfile
import threading
from collections.abc import Iterator

from asking import DEPLOY, Check, Checks, compared, program, run, same
from edge import Hub

MIB = 1 << 20
# Of which of the last hour each has another count.
WHYS = ("rate", "connections", "turns", "posts", "room", "slow", "away", "F1", "F2")
# What iodef-hub-taxii says of itself, in other numbers each.
TAXII = {name: str(count) for count, name in enumerate(
    ("requests_total", "refused_total", "failed_total", "unfit_total", "hub_requests_total", "readers", "excerpts", "oldest_read_seconds", "store_bytes"), 11)}
FAULTS = {"Truncated": 2, "ReadFailed": 3, "WriteFailed": 4, "NoMemory": 5, "ListenFailed": 6, "Failed": 7, "NotOurs": 8, "WrongVersion": 9}
# Of a line of nginx's log the status, and what follows the bytes.
LOGGED = {
    "rate": (429, "limits=REJECTED,- code=-"),
    "connections": (503, "limits=PASSED,REJECTED code=-"),
    "turns": (429, "limits=PASSED,PASSED code=turns"),
    "posts": (429, "limits=DELAYED,PASSED code=posts"),
    "room": (429, "limits=PASSED,PASSED code=room"),
    "slow": (408, "limits=PASSED,PASSED code=-"),
    "away": (504, "limits=PASSED,PASSED code=-"),
    "F1": (503, "limits=PASSED,PASSED code=F1"),
    "F2": (503, "limits=PASSED,PASSED code=F2"),
}
QUEUES = """# pxname,svname,qcur,qmax,qtime,
payments,FRONTEND,,,,
payments,hub,9,9,9000,
payments,BACKEND,4,50,2500,

"""
SITE = """server {
    server_name payments.hub.example;
    set $iodef_hub_circle payments;
}
"""


def line(whose: str, status: int, more: str, minutes: int = 0) -> str:
    moment = datetime.datetime.now().astimezone() - datetime.timedelta(minutes=minutes)
    return f"{moment.isoformat(timespec='seconds')} {whose} 192.0.2.1 GET /me {status} 61 seconds=0.0 hub=- {more}\n"


def log() -> str:
    """Of each cause one more than of the one before, one that is too old, and what is no refusal."""
    told = "".join(line("payments", *LOGGED[why]) * count for count, why in enumerate(WHYS, 1) if why != "slow")
    told += line("payments", *LOGGED["slow"]) * 4 + line("@payments.hub.example", 408, "limits=-,- code=-") * 2
    told += "".join(line("payments", *LOGGED[why], minutes=62) for why in WHYS)
    return told + line("payments", 200, "limits=PASSED,PASSED code=-") + line("payments", 404, "limits=PASSED,PASSED code=-")


def put(file: pathlib.Path, text: str, mode: int = 0o644) -> pathlib.Path:
    file.parent.mkdir(parents=True, exist_ok=True)
    file.write_text(text)
    file.chmod(mode)
    return file


def haproxy(path: pathlib.Path) -> socket.socket:
    """Answers each question at a socket with the queues."""
    it = socket.socket(socket.AF_UNIX)
    it.bind(str(path))
    it.listen()

    def serve() -> None:
        with contextlib.suppress(OSError):
            while True:
                with it.accept()[0] as asked:
                    asked.recv(100)
                    asked.sendall(QUEUES.encode())

    threading.Thread(target=serve, daemon=True).start()
    return it


def of_taxii() -> socket.socket:
    """Answers each request with the numbers of iodef-hub-taxii, and a line that nobody asked for."""
    it = socket.create_server(("127.0.0.1", 0))
    body = "".join(f"{name} {value}\n" for name, value in TAXII.items()) + "other 9\n"

    def serve() -> None:
        with contextlib.suppress(OSError):
            while True:
                with it.accept()[0] as asked:
                    asked.recv(1000)
                    asked.sendall(f"HTTP/1.1 200 OK\r\nContent-Length: {len(body)}\r\nConnection: close\r\n\r\n{body}".encode())

    threading.Thread(target=serve, daemon=True).start()
    return it


def situation(room: pathlib.Path, ports: dict[str, int], processes: dict[str, int]) -> dict[str, str]:
    """The files of two circles, and the environment in which the tool finds them."""
    for circle, port in ports.items():
        put(room / "settings" / f"{circle}.conf", f"PORT={port}\n")
    put(room / "stores" / "payments" / "hub.db", "x" * 5000)
    put(room / "stores" / "payments" / "hub.db-wal", "x" * 700)
    for moment, name in ((1_700_003_600, "hub-2.db"), (1_700_000_000, "hub-9.db"), (1_700_009_999, "other.db")):
        os.utime(put(room / "copies" / "payments" / name, ""), (moment, moment))
    put(room / "nginx" / "sites-enabled" / "hub", SITE)
    put(room / "logs" / "iodef-hub.log", log())
    told = "\n".join(f"{name}\n" * count for name, count in FAULTS.items())
    put(room / "bin" / "journalctl", f"#!/bin/sh\ncase \"$*\" in *iodef-hub@payments.service*--since*-1h*) cat <<'E'\n{told}\nFailed to start\nE\nesac\n", 0o755)
    cases = "".join(f"*MainPID*iodef-hub@{circle}.service) echo {process} ;;\n" for circle, process in processes.items())
    cases += f"*NRestarts*payments*) echo 7 ;;\n*NRestarts*) echo 0 ;;\n*MemoryMax*) echo {300 * MIB} ;;\n"
    put(room / "bin" / "systemctl", f'#!/bin/sh\ncase "$*" in\n{cases}esac\n', 0o755)
    places = {"SETTINGS": "settings", "STORES": "stores", "COPIES": "copies", "HAPROXY": "haproxy", "SITES": "nginx", "LOGS": "logs", "TAXII": "taxii"}
    return {**os.environ, "PATH": f"{room / 'bin'}:{os.environ['PATH']}", **{f"IODEF_HUB_{name}": str(room / place) for name, place in places.items()}}


@contextlib.contextmanager
def processes() -> Iterator[dict[str, int]]:
    """A process with a limit of data, and one without."""
    each = {"payments": subprocess.Popen(["prlimit", f"--data={200 * MIB}", "sleep", "9999"]), "health": subprocess.Popen(["sleep", "9999"])}
    try:
        yield {name: it.pid for name, it in each.items()}
    finally:
        for it in each.values():
            it.kill()
            it.wait()


def field(process: int, name: str) -> str:
    """A number of the kernel's, of a process, in bytes."""
    found = re.search(rf"^{name}:\s*(\d+) kB", pathlib.Path(f"/proc/{process}/status").read_text(), re.M)
    return str(int(found[1]) * 1024) if found else ""


def wanted(process: dict[str, int]) -> dict[str, str]:
    """By hand, but for the memory of the two processes."""
    told = {"up": "1", "restarts_total": "7", "store_bytes": "5000", "log_bytes": "700", "memory_limit_bytes": str(200 * MIB), "waiting": "0", "queue": "4",
            "queue_seconds": "2.5", "backup_timestamp_seconds": "1700003600", "memory_bytes": field(process["payments"], "VmData")}
    told |= {f'faults_last_hour fault="{name}"': str(count) for name, count in FAULTS.items()}
    told |= {f'refused_last_hour why="{why}"': str(count) for count, why in enumerate(WHYS, 1)}
    other = {"up": "0", "restarts_total": "0", "store_bytes": "0", "log_bytes": "0", "memory_limit_bytes": str(300 * MIB), "waiting": "4", "queue": "0",
             "queue_seconds": "0", "backup_timestamp_seconds": "0", "memory_bytes": field(process["health"], "RssAnon")}
    other |= {f'faults_last_hour fault="{name}"': "0" for name in FAULTS} | {f'refused_last_hour why="{why}"': "0" for why in WHYS}
    told |= {"taxii_up": "1"} | {f"taxii_{name}": value for name, value in TAXII.items()}
    other |= {"taxii_up": "0"}
    return {f"payments {name}": value for name, value in told.items()} | {f"health {name}": value for name, value in other.items()}


def metrics() -> Checks:
    """Of one circle the hub answers; the other's port takes connections and answers none."""
    program("curl", "curl"), program("ss", "iproute2")
    with tempfile.TemporaryDirectory() as name, processes() as process, socket.create_server(("127.0.0.1", 0)) as silent, contextlib.ExitStack() as callers:
        room = pathlib.Path(name)
        hub = Hub(0)
        hub.start()
        around = situation(room, {"payments": hub.port, "health": silent.getsockname()[1]}, process)
        taxii = callers.enter_context(of_taxii())
        put(room / "taxii" / "payments.conf", f"PORT={taxii.getsockname()[1]}\n")
        put(room / "taxii" / "health.conf", "PORT=1\n")
        for _ in range(3):
            callers.enter_context(socket.create_connection(silent.getsockname()))
        with haproxy(room / "haproxy"):
            ran = run(DEPLOY / "lib" / "iodef-hub-metrics", room / "told.prom", env=around)
        hub.close()
        file = room / "told.prom"
        told = file.read_text() if file.exists() else ""
        yield Check("the tool ends well", "" if ran.returncode == 0 else f"status {ran.returncode}: {ran.stderr[-200:]}")
        found = {f"{circle} {metric}{more and f' {more[1:]}'}": value for metric, circle, more, value in
                 re.findall(r'^iodef_hub_(\w+)\{circle="(\w+)"((?:,[^}]*)?)\} (\S+)$', told, re.M)}
        seconds = [float(found.pop(f"{circle} answer_seconds", "nan")) for circle in ("payments", "health")]
        yield compared("each metric has its number", wanted(process), found)
        yield Check("the answer's time is told, up to ten seconds", "" if 0 < seconds[0] < 5 and 9.5 < seconds[1] < 12 else f"{seconds}")
        yield same("everybody may read the file, and only root may write it", 0o644, file.stat().st_mode & 0o777 if file.exists() else None)


# The tables that limit-memory counts, with the columns that it reads.
TABLES = """
CREATE TABLE item (incident, name, text);
CREATE TABLE gate (incident, path);
CREATE TABLE permission (incident, path);
CREATE TABLE incident (number, ident);
CREATE TABLE recipient (incident);
CREATE TABLE pair (kind);
INSERT INTO item VALUES (1, 'abc', 'défg'), (1, 'h', ''), (2, '', 'ijkl'), (2, 'm', 'nop'), (2, 'q', 'r');
INSERT INTO gate VALUES (1, '/ab'), (1, '');
INSERT INTO permission VALUES (1, '/abcd');
INSERT INTO incident VALUES (1, '0123456789'), (2, 'é');
INSERT INTO recipient VALUES (1), (2), (2);
INSERT INTO pair VALUES ('m');
"""
# 144 MiB, 220 for each of 14 rows, the names of lines (6 bytes) and twice each text (26); for each of 3 gates and
# permissions 200, and for their paths 56 for each of 2 parts and four times their 8 bytes; for each of 2 incidents 800 and four times the
# bytes of the identities (12). docs/OPERATIONS.md, Sizes.
NEEDED = 144 * MIB + 14 * 220 + 6 + 26 + 3 * 200 + 2 * 56 + 4 * 8 + 2 * 800 + 4 * 12


def memory() -> Checks:
    program("sqlite3", "sqlite3")
    with tempfile.TemporaryDirectory() as name:
        store, groups = pathlib.Path(name) / "payments" / "hub.db", pathlib.Path(name) / "groups"
        store.parent.mkdir()
        with contextlib.closing(sqlite3.connect(store)) as rows:
            rows.executescript(TABLES)
        tool = DEPLOY / "lib" / "limit-memory"
        yield same("a start needs 144 MiB, 220 bytes a row, the texts, and more for sketches and paths", f"{NEEDED} 8\n", run(tool, "--needs", store).stdout)
        put(store.with_name("hub.db-wal"), "x" * 1000)
        yield same("and eight times the log", f"{NEEDED + 8000} 8\n", run(tool, "--needs", store).stdout)
        own = pathlib.Path("/proc/self/cgroup").read_text()
        group = next((line[3:] for line in own.split("\n") if line.startswith("0::")), "/")
        limit, around = groups / group.strip("/") / "memory.max", {**os.environ, "IODEF_HUB_CGROUPS": str(groups)}
        start = [tool, store, "sh", "-c", "ulimit -d"]
        for most, told in ((1024 * MIB, (0, f"{960 * 1024}\n")), (NEEDED + 8000 + 64 * MIB, (0, f"{(NEEDED + 8000) // 1024}\n"))):
            put(limit, f"{most}\n")
            ran = run(*start, env=around)
            yield same(f"with {most:,} bytes allowed it starts, with 64 MiB less of data", told, (ran.returncode, ran.stdout))
        put(limit, f"{NEEDED + 7999 + 64 * MIB}\n")
        ran = run(*start, env=around)
        said = re.sub(r"\d+", "N", ran.stderr.partition("iodef-hub: ")[2].partition(" \"[")[0])
        yield same("with one byte less it ends with status 78 and says so",
                   (78, "", "the store needs N MiB of memory and N MiB are allowed: write"), (ran.returncode, ran.stdout, said.strip()))
        put(limit, "max\n")
        yield same("without a limit it sets none", "unlimited\n", run(*start, env=around).stdout)
        write = [tool, store, "sh", "-c", f"ulimit -f 1; head -c 9000 /dev/zero >{store}.new; echo $?"]
        yield same("a write beyond a limit of the system is refused, and ends nobody", "1\n", run(*write, env=around).stdout)


def copies() -> Checks:
    """What is on the disk when a copy has its name: the copy itself, and then its name in the folder."""
    program("sqlite3", "sqlite3")
    with tempfile.TemporaryDirectory() as name:
        room = pathlib.Path(name)
        store = room / "hub.db"
        with contextlib.closing(sqlite3.connect(store)) as rows:
            rows.executescript("PRAGMA journal_mode = wal; CREATE TABLE person (number); INSERT INTO person VALUES (1);")
        # Of its tools those are others here that could lose a copy, and the check, as this is no store.
        tool = put(room / "bin" / "iodef-hub-backup", (DEPLOY / "bin" / "iodef-hub-backup").read_text(), 0o755)
        put(room / "bin" / "iodef-hub-check", "#!/bin/sh\necho whole\n", 0o755)
        for command in ("sync", "mv"):
            put(room / "bin" / command, f'#!/bin/sh\necho "{command} $*" >>"{room}/done"\nexec {program(command, "coreutils")} "$@"\n', 0o755)
        ran = run(tool, store, room / "copies", env={**os.environ, "PATH": f"{room / 'bin'}:{os.environ['PATH']}"})
        done = (room / "done").read_text().split("\n") if (room / "done").exists() else []
        steps = [re.sub(r"\S*/hub\.db\b", "COPY", re.sub(r"\S*/hub-\S+", "NAME", line)).replace(f"{room}/copies", "FOLDER") for line in done if line]
        yield same(f"a copy is on the disk before it has its name, and its name before it is told ({ran.stderr.strip()[:80]})",
                   ["sync COPY", "mv -- COPY NAME", "sync FOLDER"], steps)
        found = [(it.stat().st_mode & 0o777, (room / "copies").stat().st_mode & 0o777) for it in (room / "copies").glob("hub-*.db")]
        yield same("it is for its owner alone, as its folder is", [(0o600, 0o700)], found)
