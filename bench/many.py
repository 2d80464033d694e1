"""Stores of many reports for sizes.py, load.py and passing.py, and a hub that serves them, with its use of a processor and of memory.

The hub itself stores the first reports. The others are rows like theirs, each with an identity of its own, inserted by SQL: a
hundred thousand posts would take long.
"""

import dataclasses
import datetime
import hashlib
import http.client
import json
import os
import pathlib
import re
import signal
import socket
import sqlite3
import statistics
import subprocess
import sys
import time
from collections.abc import Callable, Iterable

TOP = pathlib.Path(__file__).resolve().parent.parent
DEPLOY = TOP / "deploy"
# As many reports are put into a store by one transaction.
CHUNK = 2_000
# The name beside the `id` in the identity of each report.
ISSUER = "csirt.example.com"
# Whoever sees more data than a machine has (kB) sees an address sanitizer's shadow.
SHADOW = 1 << 30

LINES = """
    CREATE TEMP TABLE line AS SELECT incident AS template, place, depth, name, in_array, kind, text, 0 AS own FROM item;
    CREATE INDEX temp.line_of ON line (template, place);
    CREATE TEMP TABLE wanted (number INTEGER PRIMARY KEY, template INTEGER, source INTEGER, level INTEGER, grp INTEGER, old TEXT, own TEXT, text TEXT);
"""
PUT = (
    """INSERT INTO incident (number, source, ident, revision) SELECT number, source, replace(ident, old, own), 1 FROM
        (SELECT w.number, w.source, i.ident, w.old, w.own FROM temp.wanted AS w JOIN main.incident AS i ON i.number = w.template ORDER BY w.number)""",
    """INSERT INTO item (incident, place, depth, name, in_array, kind, text)
        SELECT w.number, l.place, l.depth, l.name, l.in_array, l.kind, CASE l.own WHEN 1 THEN replace(l.text, w.old, w.own) WHEN 2 THEN w.text ELSE l.text END
        FROM temp.wanted AS w CROSS JOIN temp.line AS l ON l.template = w.template ORDER BY w.number, l.place""",
    "INSERT INTO gate (incident, path, level, grp) SELECT number, '', level, grp FROM temp.wanted ORDER BY number",
)


@dataclasses.dataclass(frozen=True)
class Report:
    """A report of a store that is filled: the stored one whose lines it has, its organisation, its level, its group, and the text
    that it has in the place of that one's."""

    template: int
    source: int
    level: int
    group: int | None = None
    text: str = ""


def digest(key: str) -> str:
    return hashlib.sha256(key.encode()).hexdigest()


def identity(number: int) -> str:
    """The `id` of the report with this number in a filled store."""
    return f"report-{number:09}"


def fill(store: pathlib.Path, last: int, report_of: Callable[[int], Report]) -> None:
    """Reports behind those of a store that nobody serves, up to this number."""
    rows = sqlite3.connect(store, isolation_level=None)
    rows.execute("PRAGMA synchronous = OFF")
    (begin,) = rows.execute("SELECT max(number) + 1 FROM incident").fetchone()
    templates = {report_of(number).template for number in range(begin, min(last, begin + 5_000) + 1)}
    if not templates:
        rows.close()
        return
    rows.executescript(LINES.replace("FROM item;", f"FROM item WHERE incident IN ({','.join(map(str, sorted(templates)))}) ORDER BY incident, place;"))
    for template in templates:
        rows.execute("UPDATE line SET own = 1 WHERE template = ? AND instr(text, ?)", (template, identity(template)))
        rows.execute("UPDATE line SET own = 2 WHERE template = ? AND text <> '' AND text = ?", (template, report_of(template).text))
    for first in range(begin, last + 1, CHUNK):
        numbers = range(first, min(first + CHUNK, last + 1))
        rows.execute("BEGIN")
        rows.execute("DELETE FROM temp.wanted")
        rows.executemany("INSERT INTO temp.wanted VALUES (?, ?, ?, ?, ?, ?, ?, ?)", (_wanted(number, report_of(number)) for number in numbers))
        for statement in PUT:
            rows.execute(statement)
        rows.execute("COMMIT")
    rows.execute("PRAGMA wal_checkpoint(TRUNCATE)")
    rows.close()


def _wanted(number: int, report: Report) -> tuple[object, ...]:
    return number, report.template, report.source, report.level, report.group, identity(report.template), identity(number), report.text


def fill_peer(rows: sqlite3.Connection, numbers: Iterable[int], report_of: Callable[[int], Report], body_of: Callable[[int], bytes]) -> None:
    """Reports of the peer's store, each with the gate at its root."""
    for number in numbers:
        report = report_of(number)
        ident = compact({"id": identity(number), "name": ISSUER}).decode()
        rows.execute("INSERT INTO incident VALUES (?, ?, ?, 1, ?)", (number, report.source, ident, body_of(number).decode()))
        rows.execute("INSERT INTO gate VALUES (?, '', ?, ?)", (number, report.level, report.group))


# ---- a hub


@dataclasses.dataclass(frozen=True)
class Cost:
    """Seconds of a processor and by the clock."""

    processor: float
    clock: float


def middle(costs: list[Cost]) -> Cost:
    return Cost(statistics.median(it.processor for it in costs), statistics.median(it.clock for it in costs))


def processor_seconds(pid: int) -> float:
    """What the threads of a process have taken of the processors, but those that ended, by nanoseconds if the kernel counts them."""
    try:
        return sum(int(it.read_text().split()[0]) for it in pathlib.Path(f"/proc/{pid}/task").glob("*/schedstat")) / 1e9
    except (OSError, ValueError, IndexError):
        return all_seconds(pid)


def all_seconds(pid: int) -> float:
    """What all threads of a process have taken of the processors, to the hundredth of a second."""
    fields = pathlib.Path(f"/proc/{pid}/stat").read_text().rpartition(")")[2].split()
    return (int(fields[11]) + int(fields[12])) / os.sysconf("SC_CLK_TCK")


def is_program(name: str) -> bool:
    return os.access(name, os.X_OK) and pathlib.Path(name).is_file()


def data_megabytes(pid: int) -> float:
    """The data of a process (VmData), which is what a limit of data counts; 0 if it isn't known, as with an address sanitizer."""
    try:
        found = re.search(r"^VmData:\s+(\d+) kB$", pathlib.Path(f"/proc/{pid}/status").read_text(), re.M)
    except OSError:
        return 0.0
    size = int(found[1]) if found else 0
    return size / 1024 if size < SHADOW else 0.0


def free_port() -> int:
    with socket.socket() as free:
        free.bind(("127.0.0.1", 0))
        return int(free.getsockname()[1])


class Unserved(Exception):
    """A program that ended before it listened, with its status."""


class Hub:
    """`serve` over a store, and what it cost until it listened. `before` are words in front of the program, which end in an exec."""

    def __init__(self, program: str, store: pathlib.Path, port: int, before: Iterable[str] = (), environment: dict[str, str] | None = None) -> None:
        self.port = port
        begun = time.perf_counter()
        words = [*before, program, "serve", str(store), str(port), "4294967295"]
        self.process = subprocess.Popen(words, stdout=subprocess.PIPE, stderr=subprocess.DEVNULL, text=True, env={**os.environ, **(environment or {})})
        assert self.process.stdout is not None
        if self.process.stdout.readline() != f"listening {port}\n":
            raise Unserved(f"the program doesn't serve {store}: status {self.process.wait()}")
        self.opened = Cost(self.seconds(), time.perf_counter() - begun)

    def seconds(self) -> float:
        return processor_seconds(self.process.pid)

    def memory(self) -> float:
        return data_megabytes(self.process.pid)

    def ask(self, key: str, method: str, target: str, body: bytes = b"") -> tuple[int, bytes]:
        return ask(self.port, key, method, target, body)

    def done(self, key: str, method: str, target: str, body: bytes = b"") -> bytes:
        status, told = self.ask(key, method, target, body)
        if status != 200:
            sys.exit(f"{method} {target[:80]}: {status} {told[:200]!r}")
        return told

    def cost(self, key: str, method: str, target: str, body: bytes = b"") -> Cost:
        """What one request costs that is answered by 200."""
        return self.answer(key, method, target, body)[0]

    def answer(self, key: str, method: str, target: str, body: bytes = b"") -> tuple[Cost, bytes]:
        """The same with the answer."""
        worked, begun = self.seconds(), time.perf_counter()
        told = self.done(key, method, target, body)
        return Cost(self.seconds() - worked, time.perf_counter() - begun), told

    def close(self) -> None:
        self.process.kill()
        self.process.wait()


def ask(port: int, key: str, method: str, target: str, body: bytes = b"") -> tuple[int, bytes]:
    connection = http.client.HTTPConnection("127.0.0.1", port, timeout=3_600)
    connection.request(method, target, body=None if method == "GET" else body, headers={"Authorization": f"Bearer {key}"})
    answer = connection.getresponse()
    told = answer.read()
    connection.close()
    return answer.status, told


# ---- other commands


def finished(words: list[str], environment: dict[str, str] | None = None) -> subprocess.CompletedProcess[str]:
    """What a command came to. If the script is ended meanwhile, the command ends with all that it started."""
    pipe = subprocess.PIPE
    run = subprocess.Popen(words, stdin=subprocess.DEVNULL, stdout=pipe, stderr=pipe, text=True, env=environment, start_new_session=True)
    try:
        said, fault = run.communicate()
    except BaseException:
        os.killpg(run.pid, signal.SIGTERM)
        run.wait()
        raise
    return subprocess.CompletedProcess(words, run.returncode, said, fault)


# ---- what a table is of


def processor_name() -> str:
    found = re.search(r"^model name\s*: (.*)$", pathlib.Path("/proc/cpuinfo").read_text(), re.M)
    return " ".join(found[1].split()) if found else "a processor without a name"


def commit() -> str:
    """The short name of the commit of the tree, with `+` where the tree has changes."""
    words = ["git", "-C", str(TOP), "describe", "--always", "--dirty=+", "--exclude=*", "--abbrev=8"]
    run = subprocess.run(words, capture_output=True, text=True)
    return run.stdout.strip() or "no commit"


def provenance(program: str) -> str:
    """Commit, program, machine and time, for the line before a table."""
    memory = os.sysconf("SC_PAGE_SIZE") * os.sysconf("SC_PHYS_PAGES") / 2**30
    made = hashlib.sha256(pathlib.Path(program).read_bytes()).hexdigest()[:16]
    now = datetime.datetime.now(datetime.timezone.utc)
    return (
        f"commit {commit()}; program {pathlib.Path(program).name}, SHA-256 {made}..; {os.cpu_count()} processors ({processor_name()}), "
        f"{memory:.0f} GB of memory, load {os.getloadavg()[0]:.1f} at the start; {now:%Y-%m-%d %H:%M} UTC"
    )


class Checks:
    """Counts checks, and prints those that fail."""

    def __init__(self) -> None:
        self.passed = 0
        self.failed = 0

    def same(self, what: str, got: object, wanted: object = True) -> None:
        if got == wanted:
            self.passed += 1
        else:
            self.failed += 1
            print(f"FAILED: {what}: {repr(got)[:300]}, wanted {repr(wanted)[:300]}", flush=True)

    def end(self) -> None:
        """The last line, and the status."""
        print(f"{self.passed} passed, {self.failed} failed")
        sys.exit(bool(self.failed))


def end_in_order() -> None:
    """Lets a script that is killed end what it started."""
    signal.signal(signal.SIGTERM, lambda number, frame: sys.exit(128 + number))


def compact(value: object) -> bytes:
    return json.dumps(value, separators=(",", ":"), sort_keys=True).encode()
