#!/usr/bin/env python3
"""What a hub and the operator's commands cost by the number of reports in the store, and how many reports fit hubs of 1, 2 and 4 GB.

usage: bench/sizes.py --program FILE [--reports N,N,..] [--kilobytes 4,13] [--longest SECONDS] [--memory GB] [--port N]
                      [--no-limits] [--folder FOLDER]

For each size and length of a report it measures, as a row of a table:

- the store's file; the opening, by the processor and by the clock; the data of the process after it (VmData), which is what the
  unit's limit of data counts;
- a list's page of 100 reports, by a reader of another organisation; a search that finds nothing, by the source, which reads each
  report; a View for the first time and again, when the document is kept; a post. Each is the median of several, by the processor,
  and a post also by the clock;
- the operator's commands as they are in deploy/bin, by the clock: iodef-hub-backup while the hub serves, with and without the
  lines of reports; iodef-hub-drill of the hub and a copy, with one key; iodef-hub-restore; iodef-hub-migrate from version 3. The
  last two run in a mount namespace of their own, over a folder in the place of /var/lib/private, with a systemctl that starts and
  stops the hub: this needs root, and leaves the machine as it is. `iodef-hub migrate` is also measured alone.

A step that would take longer than --longest, by what it took at the size before, isn't measured, nor is a size whose memory
exceeds --memory or what the machine has left. Such figures are computed from the two sizes before, and are marked by `~`; those of
a page, a View and a post are of the size before.

The last column says how a row grows: `the same` if the figure of the largest size is below one and a half of that of the smallest;
`linear` if one more report costs the same at the largest sizes as at the smallest, within a quarter; else by what factor it costs
more. For a page, a View and a post, which shouldn't grow, it has the factor of the whole.

The table of limits has the number of reports at which deploy/lib/limit-memory refuses to start the hub, by its own estimate, and
the one at which the limit of data itself ends an opening, by the slope of the memory. For MemoryMax=1G both are tried: the first 3 %
below and 3 % above, the second a tenth below and 3 % above, as a list that grows has its old and its new place for a moment. With an
address sanitizer the memory isn't known, so these are left out.

It checks each store, copy, restored and migrated store by what is served of it, and ends with `N passed, M failed`. Needs: Python
3.11, sqlite3, GNU tools. 1,000 and 10,000 reports of 4 KB take about a minute; disk: four times the largest store.
"""

import argparse
import collections
import dataclasses
import json
import os
import pathlib
import resource
import shutil
import sqlite3
import subprocess
import sys
import tempfile
import threading
import time
from collections.abc import Callable

import many
from opening import document

sys.path.insert(0, str(many.TOP / "scripts"))
import progress  # noqa: E402
import record  # noqa: E402

ADMIN, POSTER, READER = "admin", "poster", "reader"
# `EventData` classes of a report, by its kilobytes.
EVENTS = {4: 20, 13: 74}
VIEWS, POSTS, LISTS = 10, 10, 5
PAGE = 100
CIRCLE = "sizes"
MIB = 1 << 20
# As deploy/lib/limit-memory has them.
BESIDE, REQUESTS, PROGRAM, ROW, INCIDENT, POLICY = 64, 128, 16, 220, 800, 200
GIGABYTES = (1, 2, 4)

FILE, OPENED, OPENED_CLOCK, DATA = "the store's file", "opening, of a processor", "opening, by the clock", "data behind the opening (VmData)"
LIST, SEARCH, FIRST, AGAIN, POST, POST_CLOCK = "a list's page of 100", "a search that finds nothing", "a View, the first time", "a View again", "a post", "a post, by the clock"
COPY, DAILY, DRILL = "hot copy", "hot copy with the lines of reports", "drill of the hub and a copy, one key"
RESTORE, AWAY = "restore", "of which the hub is away"
MIGRATE, MIGRATE_CLOCK, MIGRATE_DATA = "`iodef-hub migrate` from version 3, of a processor", "the same, by the clock", "its data (VmData)"
BRING = "`iodef-hub-migrate`, the hub away all the time"
UNITS = {FILE: "MB", DATA: "MB", MIGRATE_DATA: "MB", LIST: "ms", FIRST: "ms", AGAIN: "ms", POST: "ms", POST_CLOCK: "ms"}
STEADY = (LIST, FIRST, AGAIN, POST, POST_CLOCK)
ROWS = (FILE, OPENED, OPENED_CLOCK, DATA, LIST, SEARCH, FIRST, AGAIN, POST, POST_CLOCK, COPY, DAILY, DRILL, RESTORE, AWAY, MIGRATE, MIGRATE_CLOCK, MIGRATE_DATA, BRING)

OLDER = """
    CREATE TEMP TABLE kept AS SELECT number, source, ident, revision FROM incident ORDER BY number;
    DROP TABLE incident;
    CREATE TABLE incident (number INTEGER PRIMARY KEY, source INTEGER NOT NULL, ident TEXT NOT NULL, revision INTEGER NOT NULL, UNIQUE (source, ident)) STRICT;
    INSERT INTO incident SELECT number, source, ident, revision FROM temp.kept ORDER BY number;
    UPDATE hub SET version = 3;
"""
SYSTEMCTL = """#!/bin/sh
# stop or start, in the place of systemd: one hub, with its number in the file `pid`.
set -eu
cd "$SIZES"
case $1 in
stop)
    date +%s.%N >stopped
    [ -s pid ] || exit 0
    read -r pid <pid
    kill "$pid" 2>/dev/null || true
    while grep -q '^State:.[^Z]' "/proc/$pid/status" 2>/dev/null; do sleep 0.02; done
    rm pid
    ;;
start)
    : >said
    "$SIZES_PROGRAM" serve /var/lib/private/iodef-hub/sizes/hub.db "$SIZES_PORT" 4294967295 >said 2>/dev/null </dev/null &
    echo $! >pid
    until grep -q '^listening' said; do kill -0 $!; sleep 0.02; done
    date +%s.%N >started
    ;;
esac
"""


@dataclasses.dataclass(frozen=True)
class Figure:
    value: float
    is_reckoned: bool = False


Values = dict[str, float]
Table = dict[str, dict[int, Figure]]


def report(ident: str, kilobytes: int) -> bytes:
    return many.compact(document({"id": ident, "name": "csirt.example.com"}, EVENTS[kilobytes]))


def begin(program: str, store: pathlib.Path, port: int, kilobytes: int) -> None:
    """A store with one report, a poster of its organisation, and a reader of another one."""
    subprocess.run([program, "init", str(store), "Hub", many.digest(ADMIN)], check=True, stdout=subprocess.DEVNULL)
    hub = many.Hub(program, store, port)
    for name in ("Source", "Other"):
        hub.done(ADMIN, "POST", "/orgs", f"name={name}".encode())
    for org, role in ((2, POSTER), (3, READER)):
        hub.done(ADMIN, "POST", "/persons", f"org={org}&name={role}&role={role}&key={many.digest(role)}".encode())
    hub.done(POSTER, "POST", "/incidents?level=3", report(many.identity(1), kilobytes))
    hub.close()


def older(store: pathlib.Path) -> None:
    """Makes a store of version 3 of one of version 4, in which no incident names a community."""
    rows = sqlite3.connect(store)
    rows.execute("PRAGMA synchronous = OFF")
    rows.executescript(OLDER)
    rows.execute("PRAGMA wal_checkpoint(TRUNCATE)")
    rows.close()


def remove(*stores: pathlib.Path) -> None:
    for store in stores:
        for each in store.parent.glob(store.name + "*"):
            each.unlink()


class Watch(threading.Thread):
    """Looks at the data of a process until `stop` is called."""

    def __init__(self, pid: int) -> None:
        super().__init__(daemon=True)
        self.pid, self.most, self.ended = pid, 0.0, threading.Event()

    def run(self) -> None:
        while not self.ended.wait(0.01):
            self.most = max(self.most, many.data_megabytes(self.pid))

    def stop(self) -> float:
        self.ended.set()
        self.join()
        return self.most


def children() -> float:
    used = resource.getrusage(resource.RUSAGE_CHILDREN)
    return used.ru_utime + used.ru_stime


class Circle:
    """A circle's folder at the path that the operator's commands use, in a mount namespace of its own."""

    def __init__(self, program: str, folder: pathlib.Path, port: int) -> None:
        self.program, self.folder, self.port = program, folder, port
        self.home = folder / "private" / "iodef-hub" / CIRCLE
        self.home.mkdir(parents=True)
        (folder / "bin").mkdir()
        systemctl = folder / "bin" / "systemctl"
        systemctl.write_text(SYSTEMCTL)
        systemctl.chmod(0o755)
        self.store = self.home / "hub.db"

    def is_possible(self) -> bool:
        return os.geteuid() == 0 and pathlib.Path("/var/lib/private").is_dir() and self.run("true") is not None

    def run(self, *words: str) -> many.Cost | None:
        """Runs a command of deploy/bin, or the systemctl; None if it fails."""
        bound = 'mount --bind "$0" /var/lib/private && exec "$@"'
        environment = {
            **os.environ,
            "PATH": f"{self.folder / 'bin'}:{os.environ['PATH']}",
            "SIZES": str(self.folder),
            "SIZES_PROGRAM": self.program,
            "SIZES_PORT": str(self.port),
            "IODEF_HUB_PROGRAM": self.program,
        }
        worked, begun = children(), time.perf_counter()
        command = ["unshare", "--mount", "sh", "-c", bound, str(self.folder / "private"), *words]
        run = many.finished(command, environment)
        if run.returncode:
            print(f"{' '.join(words)}: status {run.returncode}: {run.stderr[-300:]}", file=sys.stderr)
            return None
        return many.Cost(children() - worked, time.perf_counter() - begun)

    def start(self) -> None:
        self.run("systemctl", "start", "it")

    def away(self) -> float:
        return float((self.folder / "started").read_text()) - float((self.folder / "stopped").read_text())

    def stop(self) -> None:
        self.run("systemctl", "stop", "it")
        remove(self.store)


@dataclasses.dataclass
class Stand:
    """What the steps of one length of report work with."""

    program: str
    kilobytes: int
    port: int
    folder: pathlib.Path
    circle: Circle | None
    checks: many.Checks
    size: int = 0
    hub: many.Hub | None = None

    @property
    def store(self) -> pathlib.Path:
        return self.folder / "hub.db"

    @property
    def copy(self) -> pathlib.Path:
        return self.folder / "copy.db"

    @property
    def served(self) -> many.Hub:
        assert self.hub is not None
        return self.hub

    def close(self) -> None:
        """Ends the hubs of this length."""
        if self.hub is not None:
            self.hub.close()
            self.hub = None
        if self.circle is not None:
            self.circle.stop()

    def is_whole(self, what: str, last: int) -> None:
        """Checks what is served of the store: the last report whole, and the page of a list that ends with it."""
        page = json.loads(many.ask(self.port, POSTER, "GET", f"/incidents?after={last - 1}")[1])
        view = json.loads(many.ask(self.port, POSTER, "GET", f"/incidents/{self.size}")[1])
        wanted = document({"id": many.identity(self.size), "name": "csirt.example.com"}, EVENTS[self.kilobytes])
        self.checks.same(f"{what}: the list's end", [it["number"] for it in page["incidents"]], [last])
        self.checks.same(f"{what}: a report", (view["document"], view["withheld"]), (wanted, []))


# ---- the steps


def opening(stand: Stand) -> Values:
    many.fill(stand.store, stand.size, lambda number: many.Report(1, 2, 3))
    length = stand.store.stat().st_size / 1e6
    stand.hub = many.Hub(stand.program, stand.store, stand.port)
    stand.is_whole(f"a store of {stand.size}", stand.size)
    return {FILE: length, OPENED: stand.hub.opened.processor, OPENED_CLOCK: stand.hub.opened.clock, DATA: stand.hub.memory()}


def asking(stand: Stand) -> Values:
    hub, size = stand.served, stand.size
    page = json.loads(hub.done(READER, "GET", f"/incidents?after={size // 2}"))["incidents"]
    stand.checks.same("a list's page", [it["number"] for it in page], list(range(size // 2 + 1, min(size // 2 + PAGE, size) + 1)))
    lists = [hub.cost(READER, "GET", f"/incidents?after={size // 2}") for _ in range(LISTS)]
    viewed = [size * at // (VIEWS + 1) + 1 for at in range(1, VIEWS + 1)]
    first = [hub.cost(READER, "GET", f"/incidents/{number}") for number in viewed]
    for number in viewed:
        hub.done(READER, "GET", f"/incidents/{number}")
    again = [hub.cost(READER, "GET", f"/incidents/{number}") for number in viewed]
    return {LIST: thousandths(lists), FIRST: thousandths(first), AGAIN: thousandths(again)}


def searching(stand: Stand) -> Values:
    times = 3 if stand.size <= 10_000 else 1
    return {SEARCH: many.middle([stand.served.cost(POSTER, "GET", f"/search?needle=in-no-report-{at}") for at in range(times)]).processor}


def posting(stand: Stand) -> Values:
    bodies = [report(f"posted-{stand.size}-{at}", stand.kilobytes) for at in range(POSTS)]
    posts = [stand.served.cost(POSTER, "POST", "/incidents?level=3", body) for body in bodies]
    return {POST: thousandths(posts), POST_CLOCK: many.middle(posts).clock * 1e3}


def thousandths(costs: list[many.Cost]) -> float:
    return many.middle(costs).processor * 1e3


class CommandFailed(Exception):
    """A command of deploy/bin that ended otherwise than well."""


def command(name: str, *words: str) -> float:
    """Seconds by the clock of a command of deploy/bin that has to end well."""
    begun = time.perf_counter()
    run = many.finished([str(many.DEPLOY / "bin" / name), *words])
    if run.returncode:
        raise CommandFailed(f"{name}: status {run.returncode}: {run.stderr[-300:]}{run.stdout[-300:]}")
    return time.perf_counter() - begun


def copying(stand: Stand) -> Values:
    """A copy that isn't the first of its day, which stays for the next steps."""
    copies = stand.folder / "copies"
    copies.mkdir()
    today = time.strftime("hub-%Y%m%dT000000Z.db", time.gmtime())
    (copies / today).touch()
    took = command("iodef-hub-backup", str(stand.store), str(copies))
    (copies / today).unlink()
    (made,) = copies.glob("hub-*.db")
    made.rename(stand.copy)
    shutil.rmtree(copies)
    return {COPY: took}


def copying_daily(stand: Stand) -> Values:
    copies = stand.folder / "copies"
    took = command("iodef-hub-backup", str(stand.store), str(copies))
    shutil.rmtree(copies)
    return {DAILY: took}


def drilling(stand: Stand) -> Values:
    keys = stand.folder / "keys"
    keys.write_text(POSTER + "\n")
    return {DRILL: command("iodef-hub-drill", f"http://127.0.0.1:{stand.port}", str(stand.copy), "--keys", str(keys), "--program", stand.program)}


def restoring(stand: Stand) -> Values:
    circle = stand.circle
    if circle is None:
        return {}
    shutil.copyfile(stand.store, circle.store)
    circle.start()
    cost = circle.run(str(many.DEPLOY / "bin" / "iodef-hub-restore"), CIRCLE, str(stand.copy))
    stand.checks.same("iodef-hub-restore ends well", cost is not None)
    if cost is None:
        return {}
    stand.is_whole("a restored store", stand.size + POSTS)
    took = {RESTORE: cost.clock, AWAY: circle.away()}
    circle.stop()
    return took


def migrating(stand: Stand) -> Values:
    copy = stand.folder / "older.db"
    shutil.copyfile(stand.copy, copy)
    older(copy)
    begun = time.perf_counter()
    run = subprocess.Popen([stand.program, "migrate", str(copy)], stdout=subprocess.PIPE, text=True)
    watch = Watch(run.pid)
    watch.start()
    assert run.stdout is not None
    said = run.stdout.read()
    _, status, used = os.wait4(run.pid, 0)
    took = {MIGRATE: used.ru_utime + used.ru_stime, MIGRATE_CLOCK: time.perf_counter() - begun, MIGRATE_DATA: watch.stop()}
    stand.checks.same("iodef-hub migrate ends well", (status, said), (0, "version 4\n"))
    hub = many.Hub(stand.program, copy, stand.port)
    stand.is_whole("a migrated store", stand.size + POSTS)
    hub.close()
    remove(copy)
    return took


def bringing(stand: Stand) -> Values:
    circle = stand.circle
    if circle is None:
        return {}
    shutil.copyfile(stand.copy, circle.store)
    older(circle.store)
    cost = circle.run(str(many.DEPLOY / "bin" / "iodef-hub-migrate"), CIRCLE)
    stand.checks.same("iodef-hub-migrate ends well", cost is not None)
    if cost is None:
        return {}
    stand.is_whole("a store that iodef-hub-migrate brought", stand.size + POSTS)
    circle.stop()
    return {BRING: cost.clock}


@dataclasses.dataclass(frozen=True)
class Step:
    does: Callable[[Stand], Values]
    rows: tuple[str, ...]
    wants_hub: bool = True
    hubs: int = 1     # that serve such a store at once
    is_needed: bool = False     # by the next steps, however long it takes


STEPS = (
    Step(opening, (FILE, OPENED, OPENED_CLOCK, DATA), wants_hub=False),
    Step(asking, (LIST, FIRST, AGAIN)),
    Step(searching, (SEARCH,)),
    Step(posting, (POST, POST_CLOCK)),
    Step(copying, (COPY,), is_needed=True),
    Step(copying_daily, (DAILY,)),
    Step(drilling, (DRILL,), hubs=2),
    Step(restoring, (RESTORE, AWAY), wants_hub=False),
    Step(migrating, (MIGRATE, MIGRATE_CLOCK, MIGRATE_DATA), wants_hub=False),
    Step(bringing, (BRING,), wants_hub=False),
)


# ---- what is reckoned


def reckoned(name: str, row: dict[int, Figure], size: int) -> Figure | None:
    """On the line through the two largest sizes that were measured, or in proportion to the one; of a steady row the last figure."""
    known = sorted((at, figure.value) for at, figure in row.items() if not figure.is_reckoned and at < size)
    if not known:
        return None
    high, more = known[-1]
    if name in STEADY:
        return Figure(more, True)
    if len(known) == 1:
        return Figure(more * size / high, True)
    return Figure(more + max(rise(known[-2], known[-1]), 0) * (size - high), True)


def slope(row: dict[int, Figure]) -> float | None:
    """What a report more adds, by the smallest and the largest size that were measured."""
    known = sorted((at, figure.value) for at, figure in row.items() if not figure.is_reckoned)
    if len(known) < 2:
        return None
    (low, less), (high, more) = known[0], known[-1]
    return (more - less) / (high - low)


def growth(name: str, row: dict[int, Figure]) -> str:
    """How the row grows, as the head of this file says."""
    known = sorted((at, figure.value) for at, figure in row.items() if not figure.is_reckoned)
    if len(known) < 2:
        return ""
    whole = known[-1][1] / max(known[0][1], 1e-9)
    if whole < 1.5:
        return "the same"
    if name in STEADY:
        return f"× {whole:.1f}"
    first, last = (rise(known[at], known[at + 1]) for at in (0, len(known) - 2))
    if len(known) < 3 or first <= 0:
        return ""
    return "linear" if 0.75 < last / first < 1.25 else f"a report more: × {last / first:.1f}"


def rise(low: tuple[int, float], high: tuple[int, float]) -> float:
    """What a report more adds between two sizes."""
    return (high[1] - low[1]) / (high[0] - low[0])


def memory_left() -> float:
    """Megabytes that the machine has left."""
    for line in pathlib.Path("/proc/meminfo").read_text().split("\n"):
        if line.startswith("MemAvailable:"):
            return int(line.split()[1]) / 1024
    return 0.0


# ---- a length of reports


class Sizes:
    def __init__(self, said: argparse.Namespace, folder: pathlib.Path, checks: many.Checks) -> None:
        self.said, self.folder, self.checks = said, folder, checks
        self.done = 0
        self.rows: dict[int, Rows] = {}
        circle = Circle(said.program, folder / "circle", said.port)
        self.circle = circle if circle.is_possible() else None
        if self.circle is None:
            print("sizes.py: no root, or no mount namespace: iodef-hub-restore and iodef-hub-migrate are left out", file=sys.stderr)

    def measure(self, kilobytes: int) -> Table:
        folder = self.folder / f"of-{kilobytes}"
        folder.mkdir()
        stand = Stand(self.said.program, kilobytes, self.said.port, folder, self.circle, self.checks)
        begin(self.said.program, stand.store, self.said.port, kilobytes)
        self.rows[kilobytes] = row_bytes(stand.store, 1)
        table: Table = collections.defaultdict(dict)
        took: dict[Step, tuple[int, float]] = {}
        try:
            for size in self.said.reports:
                self.measure_size(stand, size, table, took)
        finally:
            stand.close()
        shutil.rmtree(folder)
        return table

    def measure_size(self, stand: Stand, size: int, table: Table, took: dict[Step, tuple[int, float]]) -> None:
        stand.size = size
        most = min(self.said.memory * 1024, memory_left() - 1024)
        expected = reckoned(DATA, table[DATA], size)
        fits = True
        for step in STEPS:
            before, spent = took.get(step, (size, 0.0))
            if not step.wants_hub:
                stand.close()
            has_room = expected is None or expected.value * step.hubs < most
            if fits and has_room and (step.is_needed or spent * size / before <= self.said.longest):
                begun = time.perf_counter()
                try:
                    for name, value in step.does(stand).items():
                        table[name][size] = Figure(value)
                except CommandFailed as fault:
                    self.checks.same(f"{step.does.__name__} over {size:,} reports", str(fault), "")
                    fits = False
                took[step] = (size, time.perf_counter() - begun)
                print(f"{size:,} of {stand.kilobytes} KB: {step.does.__name__} {took[step][1]:.1f} s", file=sys.stderr, flush=True)
            else:
                fits = fits and step.does is not opening
                for name in step.rows:
                    if figure := reckoned(name, table[name], size):
                        table[name][size] = figure
            self.done += 1
        remove(stand.copy)


# ---- the sizes at which hubs end


@dataclasses.dataclass(frozen=True)
class Ends:
    """For one amount of memory and one length, the reports at which the start is refused and at which an opening fails."""

    refused: int
    failed: int


@dataclasses.dataclass(frozen=True)
class Rows:
    """The lines of one report, and the bytes of its texts as deploy/lib/limit-memory counts them."""

    lines: int
    texts: int

    def memory(self) -> int:
        """What that reckons for the report, which has a row in two other tables, too: its naming, and the gate at its root."""
        return (self.lines + 2) * ROW + self.texts + INCIDENT + POLICY


def row_bytes(store: pathlib.Path, number: int) -> Rows:
    """Of a store that nobody serves."""
    rows = sqlite3.connect(store)
    lines, texts = rows.execute(
        "SELECT count(*), sum(length(CAST(name AS BLOB)) + length(CAST(text AS BLOB)) * 2) FROM item WHERE incident = ?", (number,)
    ).fetchone()
    (ident,) = rows.execute("SELECT 4 * length(CAST(ident AS BLOB)) FROM incident WHERE number = ?", (number,)).fetchone()
    rows.close()
    return Rows(lines, texts + ident)


def ends(gigabytes: int, rows: Rows, data: dict[int, Figure]) -> Ends:
    limit = gigabytes * 1024 - BESIDE
    refused = (limit - PROGRAM - REQUESTS) * MIB / rows.memory()
    more = slope(data)
    assert more is not None
    low = min(at for at, figure in data.items() if not figure.is_reckoned)
    return Ends(int(refused), int(low + (limit - data[low].value) / more))


class Limits:
    """Tries what was reckoned for MemoryMax=1G."""

    def __init__(self, said: argparse.Namespace, folder: pathlib.Path, checks: many.Checks) -> None:
        self.said, self.folder, self.checks = said, folder, checks

    def groups(self) -> dict[str, str] | None:
        """A folder in the place of the control groups, in which this process's has 1 GiB."""
        found = [line[3:] for line in pathlib.Path("/proc/self/cgroup").read_text().split("\n") if line.startswith("0::")]
        if not found:
            return None
        group = self.folder / "groups" / found[0].lstrip("/")
        group.mkdir(parents=True, exist_ok=True)
        (group / "memory.max").write_text(f"{1024 * MIB}\n")
        return {"IODEF_HUB_CGROUPS": str(self.folder / "groups")}

    def is_served(self, store: pathlib.Path, before: list[str], environment: dict[str, str] | None = None) -> str:
        """`served` if the hub starts and answers a list, a search, a View and a post; else what it did."""
        try:
            hub = many.Hub(self.said.program, store, self.said.port, before, environment)
        except many.Unserved as ended:
            return str(ended).rpartition(": ")[2]
        asked = [("GET", "/incidents?after=1"), ("GET", "/search?needle=in-no-report"), ("GET", "/incidents/1"), ("GET", "/incidents/1")]
        statuses = {hub.ask(POSTER, method, target)[0] for method, target in asked}
        hub.close()
        return "served" if statuses == {200} else f"answered {sorted(statuses)}"

    def tried(self, kilobytes: int, wanted: Ends) -> dict[str, str]:
        """What came out below and above both numbers."""
        store = self.folder / f"limits-{kilobytes}.db"
        begin(self.said.program, store, self.said.port, kilobytes)
        found = {}
        unit = [str(many.DEPLOY / "lib" / "limit-memory"), str(store)]
        bare = ["prlimit", f"--data={(1024 - BESIDE) * MIB}"]
        environment = self.groups()
        unit_starts = ("as the unit starts it", wanted.refused, unit, (0.97, 1.03))
        limit_alone = ("with the limit of data alone", wanted.failed, bare, (0.9, 1.03))
        for what, count, before, shares in (unit_starts, limit_alone):
            if before is unit and environment is None:
                continue
            for share in shares:
                size = int(count * share)
                many.fill(store, size, lambda number: many.Report(1, 2, 3))
                came = found[f"{size:,} reports, {what}"] = self.is_served(store, before, environment)
                print(f"{size:,} reports of {kilobytes} KB, {what}: {came}", file=sys.stderr, flush=True)
                self.checks.same(f"{size:,} reports of {kilobytes} KB with 1 GB, {what}: {came}; served", came == "served", share < 1)
        remove(store)
        return found


# ---- the tables


def shown(name: str, figure: Figure | None) -> str:
    if figure is None or (UNITS.get(name) == "MB" and figure.value == 0):
        return "–"
    value = figure.value
    text = f"{value:,.0f}" if value >= 100 else f"{value:.1f}" if value >= 10 else f"{value:.2f}"
    return f"{'~ ' if figure.is_reckoned else ''}{text} {UNITS.get(name, 's')}"


def print_table(kilobytes: int, lines: int, sizes: list[int], table: Table) -> None:
    print(f"\n| Reports of {kilobytes} KB, {lines} lines each | {' | '.join(f'{size:,}' for size in sizes)} | |")
    print(f"|---{'|---' * len(sizes)}|---|")
    for name in ROWS:
        row = table.get(name, {})
        print(f"| {name} | {' | '.join(shown(name, row.get(size)) for size in sizes)} | {growth(name, row)} |", flush=True)


def print_ends(found: dict[int, dict[int, Ends]], tried: dict[int, dict[str, str]]) -> None:
    lengths = sorted(found)
    print(f"\n| `MemoryMax=` | {' | '.join(f'{each} KB: the start is refused from | an opening fails from' for each in lengths)} |")
    print(f"|---{'|---|---' * len(lengths)}|")
    for gigabytes in GIGABYTES:
        cells = " | ".join(f"{found[each][gigabytes].refused:,} | {found[each][gigabytes].failed:,}" for each in lengths)
        print(f"| {gigabytes}G | {cells} |")
    for each in lengths:
        print(f"\nTried with 1G and reports of {each} KB: " + "; ".join(f"{what}: {came}" for what, came in tried[each].items()))


def run(said: argparse.Namespace, folder: pathlib.Path, checks: many.Checks) -> None:
    sizes = Sizes(said, folder, checks)
    count = len(said.kilobytes) * len(said.reports) * len(STEPS)
    minutes = sum(said.reports) * sum(said.kilobytes) / 4 / 11_000
    progress.say(max(minutes, 0.5), lambda: sizes.done, count, "steps")
    print(many.provenance(said.program), flush=True)
    tables = {}
    for kilobytes in said.kilobytes:
        tables[kilobytes] = sizes.measure(kilobytes)
        print_table(kilobytes, sizes.rows[kilobytes].lines, said.reports, tables[kilobytes])
    is_told = all(slope(table[DATA]) for table in tables.values())
    if said.no_limits or not is_told:
        print(f"sizes.py: no table of limits: {'--no-limits' if said.no_limits else 'the memory is unknown, or there is only one size'}", file=sys.stderr)
        return
    limits = Limits(said, folder, checks)
    found: dict[int, dict[int, Ends]] = {}
    tried = {}
    for kilobytes, table in tables.items():
        found[kilobytes] = {gigabytes: ends(gigabytes, sizes.rows[kilobytes], table[DATA]) for gigabytes in GIGABYTES}
        tried[kilobytes] = limits.tried(kilobytes, found[kilobytes][1])
    print_ends(found, tried)


def numbers(text: str) -> list[int]:
    return sorted(int(each) for each in text.split(","))


def lengths(text: str) -> list[int]:
    found = numbers(text)
    if unknown := [each for each in found if each not in EVENTS]:
        raise argparse.ArgumentTypeError(f"{unknown[0]} is none of the lengths {', '.join(map(str, EVENTS))}")
    return found


def main() -> None:
    words = argparse.ArgumentParser(description=__doc__, formatter_class=argparse.RawDescriptionHelpFormatter, allow_abbrev=False)
    words.add_argument("--program", metavar="FILE", required=True)
    words.add_argument("--reports", type=numbers, default=numbers("1000,10000,50000,100000"))
    words.add_argument("--kilobytes", type=lengths, default=lengths("4,13"))
    words.add_argument("--longest", type=float, default=300, help="seconds of the longest step that is measured; by default %(default)s")
    words.add_argument("--memory", type=float, default=16, help="gigabytes that a hub may take; by default %(default)s")
    words.add_argument("--port", type=int, default=many.free_port())
    words.add_argument("--no-limits", action="store_true", help="without the table of limits")
    words.add_argument("--folder", help="the folder in which the stores are made and removed")
    said = words.parse_args()
    if not many.is_program(said.program):
        words.error(f"{said.program} is no program")
    if any(more - less < 2 * POSTS for less, more in zip([0, *said.reports], said.reports)):
        words.error(f"the least size, and from one to the next, is {2 * POSTS} reports or more")
    said.program = str(pathlib.Path(said.program).resolve())
    checks = many.Checks()
    many.end_in_order()
    begun = time.monotonic()
    with tempfile.TemporaryDirectory(dir=said.folder) as folder:
        run(said, pathlib.Path(folder), checks)
    print(f"\nit took {(time.monotonic() - begun) / 60:.1f} minutes")
    checks.end()


if __name__ == "__main__":
    record.run(main)
