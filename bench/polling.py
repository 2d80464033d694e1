#!/usr/bin/env python3
"""How long polls by TAXII take, and what the hub's other callers wait meanwhile.

usage: bench/polling.py [--program FILE] [--reports 5000] [--keys 20] [--events 20] [--again 60] [--commands FOLDER]
                        [--folder FOLDER]

A hub has reports of 20 `EventData` (4 KB and 210 lines), of which each reader sees two thirds. The readers are of as many organisations in one
community. iodef-hub-taxii of FOLDER (clients/python) runs over it. All readers poll at once, three times:

    first     of a collection that nobody has read. It asks behind a moment to come, so that all is read, and no object served
    again     the same after more than --again seconds: each excerpt is read again, and nothing has changed
    listed    once more at once: the hub's list alone

and then one reader polls once with all objects. Of each poll there is the time until the first and the last reader had all, the requests
to the hub, and its processor's seconds. Meanwhile another key, of the source, asks for a View and a list's page in turn, five times a second:
the table has the middle, the 95th of 100 and the worst of their times, beside those of an idle hub. It checks that each poll read what it had
to, by the file of state and the count of requests. Needs: Python 3 only.
"""

import argparse
import base64
import http.client
import json
import pathlib
import sqlite3
import statistics
import subprocess
import sys
import tempfile
import threading
import time
from collections.abc import Callable

import many
from opening import document

sys.path.insert(0, str(many.TOP / "scripts"))
import record  # noqa: E402

ADMIN, POSTER, OTHER = "admin", "poster", "other"
LABELS = (None, "green", "red")
MEDIA = "application/taxii+json;version=2.1"
LATER = "2099-01-01T00:00:00Z"
PERIOD = 0.2  # seconds between two requests of the other key


def reader(place: int) -> str:
    return f"reader-{place}"


def make_store(program: str, store: pathlib.Path, port: int, given: argparse.Namespace) -> None:
    """Organisation 2 with its reports, and as many others with a reader each, in one community."""
    subprocess.run([program, "init", str(store), "Hub", many.digest(ADMIN)], check=True, stdout=subprocess.DEVNULL)
    hub = many.Hub(program, store, port)
    people = [(2, POSTER, "poster"), (2, OTHER, "reader"), *((3 + place, reader(place), "reader") for place in range(given.keys))]
    hub.done(ADMIN, "POST", "/communities", b"name=East")
    for org in range(2, given.keys + 3):
        hub.done(ADMIN, "POST", "/orgs", f"name=Organisation+{org}".encode())
        hub.done(ADMIN, "POST", "/communities/1/join", f"org={org}".encode())
    for org, key, role in people:
        hub.done(ADMIN, "POST", "/persons", f"org={org}&name={key}&role={role}&key={many.digest(key)}".encode())
    hub.done(POSTER, "POST", "/incidents?level=3", many.compact(document({"id": many.identity(1), "name": many.ISSUER}, given.events, LABELS)))
    hub.close()
    many.fill(store, given.reports, lambda number: many.Report(1, 2, 3))


# ---- the service


class Service:
    def __init__(self, commands: pathlib.Path, hub: many.Hub, folder: pathlib.Path, again: float) -> None:
        self.port, self.state = many.free_port(), folder / "state.db"
        words = [sys.executable, "-B", str(commands / "iodef-hub-taxii"), "--hub", f"http://127.0.0.1:{hub.port}", "--name", "hub.example.org",
                 "--state", str(self.state), "--port", str(self.port), "--again", str(again)]
        with (folder / "log").open("w") as log:
            self.process = subprocess.Popen(words, stdout=subprocess.PIPE, stderr=log, text=True)
        assert self.process.stdout is not None
        if self.process.stdout.readline() != f"listening {self.port}\n":
            sys.exit(f"polling.py: the service doesn't listen: {(folder / 'log').read_text()}")

    def asked(self) -> int:
        """The requests that it has sent to the hub."""
        told = many.ask(self.port, "", "GET", "/metrics")[1].decode()
        return int(dict(line.split() for line in told.splitlines())["hub_requests_total"])

    def oldest(self) -> int:
        """When the excerpt was read that was read the longest ago, in milliseconds."""
        rows = sqlite3.connect(f"file:{self.state}?mode=ro", uri=True)
        (found,) = rows.execute("SELECT min(looked) FROM excerpt WHERE shown = 1").fetchone()
        rows.close()
        return int(found or 0)

    def get(self, key: str, target: str) -> dict[str, object]:
        """An answer. Where the service is too busy it is asked again after some seconds, as a client would."""
        told = base64.b64encode(f"any:{key}".encode()).decode()
        while True:
            connection = http.client.HTTPConnection("127.0.0.1", self.port, timeout=600)
            connection.request("GET", target, headers={"Accept": MEDIA, "Authorization": f"Basic {told}"})
            answer = connection.getresponse()
            value = json.loads(answer.read())
            connection.close()
            if answer.status == 200:
                assert isinstance(value, dict)
                return value
            if answer.status != 503:
                sys.exit(f"polling.py: {target}: {answer.status} {value}")
            time.sleep(int(answer.getheader("Retry-After") or 10))

    def poll(self, key: str, after: str = "") -> int:
        """Takes all pages, and returns how many objects they had."""
        found = self.get(key, "/taxii2/hub/collections/")["collections"]
        assert isinstance(found, list)
        objects, at = f"/taxii2/hub/collections/{found[0]['id']}/objects/?{after and f'added_after={after}&'}", ""
        count = 0
        while True:
            page = self.get(key, objects + at + ("" if at else "limit=200"))
            served = page.get("objects", [])
            assert isinstance(served, list)
            count += len(served)
            if not page["more"]:
                return count
            at = f"limit=200&next={page['next']}"

    def close(self) -> None:
        self.process.terminate()
        self.process.wait()


def each_of(keys: int, poll: Callable[[str], object]) -> list[float]:
    """The seconds until each of so many readers, who begin at once, has polled."""
    took: list[float] = []
    begun = time.perf_counter()

    def run(place: int) -> None:
        poll(reader(place))
        took.append(time.perf_counter() - begun)

    threads = [threading.Thread(target=run, args=(place,), daemon=True) for place in range(keys)]
    for each in threads:
        each.start()
    for each in threads:
        each.join()
    return sorted(took)


# ---- the other callers


class Other:
    """Another key, which asks the hub for a View and for a list's page in turn while something is done."""

    def __init__(self, hub: many.Hub, reports: int) -> None:
        self._hub, self._reports, self._ended = hub, reports, threading.Event()
        self.times: dict[str, list[float]] = {"View": [], "list": []}
        self._thread = threading.Thread(target=self._ask, daemon=True)

    def __enter__(self) -> "Other":
        self._thread.start()
        return self

    def __exit__(self, *fault: object) -> None:
        self._ended.set()
        self._thread.join()

    def _ask(self) -> None:
        number = 0
        while not self._ended.wait(PERIOD):
            number = (number + 37) % self._reports
            kind, target = ("View", f"/incidents/{number + 1}") if len(self.times["View"]) <= len(self.times["list"]) else (
                "list", f"/incidents?after={number}")
            begun = time.perf_counter()
            self._hub.done(OTHER, "GET", target)
            self.times[kind].append(time.perf_counter() - begun)

    def told(self) -> str:
        return " | ".join(f"{len(each)} | {statistics.median(each) * 1e3:.1f} | {part(each) * 1e3:.1f} | {max(each) * 1e3:.1f}"
                          for each in self.times.values())


def part(times: list[float]) -> float:
    """What 95 of 100 are at most."""
    return sorted(times)[max(0, -(-len(times) * 95 // 100) - 1)]


# ---- the table


class Table:
    def __init__(self, hub: many.Hub, service: Service, reports: int) -> None:
        self.hub, self.service, self.reports = hub, service, reports
        print("| Poll | First had all, s | Last, s | Requests to the hub | Hub's processor, s | Service's, s "
              "| Views | 50th, ms | 95th | worst | Lists | 50th, ms | 95th | worst |\n|" + "---|" * 14, flush=True)

    def row(self, name: str, keys: int, poll: Callable[[str], object]) -> int:
        """Prints a row of a poll of so many readers, and returns the requests to the hub."""
        pids = self.hub.process.pid, self.service.process.pid
        asked, before = self.service.asked(), [many.all_seconds(each) for each in pids]
        with Other(self.hub, self.reports) as other:
            took = each_of(keys, poll)
            time.sleep(max(0, 4 - took[-1]))  # long enough for some requests of the other key
        worked = [many.all_seconds(each) - begun for each, begun in zip(pids, before)]
        asked = self.service.asked() - asked
        print(f"| {name} | {took[0]:.1f} | {took[-1]:.1f} | {asked:,} | {worked[0]:.1f} | {worked[1]:.1f} | {other.told()} |", flush=True)
        return asked


def measure(given: argparse.Namespace, folder: pathlib.Path, checks: many.Checks) -> None:
    store = folder / "hub.db"
    make_store(given.program, store, many.free_port(), given)
    hub = many.Hub(given.program, store, many.free_port())
    service = Service(given.commands, hub, folder, given.again)
    try:
        polls(given, Table(hub, service, given.reports), checks)
    finally:
        service.close()
        hub.close()


def polls(given: argparse.Namespace, table: Table, checks: many.Checks) -> None:
    service, whole = table.service, given.reports * given.keys
    table.row("none", 1, lambda key: time.sleep(10))
    checks.same("the first poll reads all", table.row("first", given.keys, lambda key: service.poll(key, LATER)) >= whole)
    time.sleep(given.again + 0.1)
    begun = time.time_ns() // 1_000_000
    checks.same("so does the second", table.row("again", given.keys, lambda key: service.poll(key, LATER)) >= whole)
    checks.same("and each excerpt was read since it began", service.oldest() >= begun)
    took = time.time_ns() // 1_000_000 - begun
    if took < given.again * 1000:
        checks.same("the third reads none", table.row("listed", given.keys, lambda key: service.poll(key, LATER)) < whole / 10)
    counted: list[int] = []
    table.row("one, with its objects", 1, lambda key: counted.append(service.poll(key)))
    checks.same("which are at least one of each report", counted[0] >= given.reports)


def main() -> None:
    parser = argparse.ArgumentParser(description=__doc__, formatter_class=argparse.RawDescriptionHelpFormatter)
    parser.add_argument("--program", default=str(many.TOP / "out" / "iodef-hub"))
    parser.add_argument("--reports", type=int, default=5000)
    parser.add_argument("--keys", type=int, default=20)
    parser.add_argument("--events", type=int, default=20, help="classes EventData of a report")
    parser.add_argument("--again", type=float, default=60)
    parser.add_argument("--commands", type=pathlib.Path, default=many.TOP / "clients" / "python")
    parser.add_argument("--folder", type=pathlib.Path, help="where the store is, and the file of state; by default a temporary one")
    given = parser.parse_args()
    many.end_in_order()
    checks = many.Checks()
    print(f"{given.reports} reports of {given.events} EventData, {given.keys} keys; {many.provenance(given.program)}")
    with tempfile.TemporaryDirectory(dir=given.folder) as folder:
        measure(given, pathlib.Path(folder), checks)
    print(f"load {pathlib.Path('/proc/loadavg').read_text().split()[0]} at the end")
    checks.end()


if __name__ == "__main__":
    record.run(main, "out/iodef-hub")
