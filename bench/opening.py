#!/usr/bin/env python3
"""What the opening of a store costs: the processor's seconds until `serve` listens, and the peak of its memory, by the number
of reports. On a machine with a free processor the clock gives the same, except for the disk.

usage: bench/opening.py [--program PATH] [--sizes 1000,10000,100000] [--runs 3] [--folder FOLDER]

The program itself makes the store and posts one report of 4 KB; the others are rows like its row, each with an identity of
its own, inserted by SQL, as a hundred thousand posts would take long. Each store is checked by what is served of it: its last
report whole, and the page of a list that ends with it. It prints the fastest opening of the runs and the largest memory, after
the opening and after one search over all reports that finds nothing. Needs: Python 3 only, and 5 KB of disk for each report.
"""

import argparse
import hashlib
import http.client
import json
import os
import pathlib
import socket
import sqlite3
import subprocess
import sys
import tempfile
from collections.abc import Sequence

TOP = pathlib.Path(__file__).resolve().parent.parent
sys.path.insert(0, str(TOP / "scripts"))
import record  # noqa: E402
LABELS = (None, "public", "green", "amber", "red", "need-to-know")
IDENTITY = "identity-of-the-report"


def digest(key: str) -> str:
    return hashlib.sha256(key.encode()).hexdigest()


def document(identity: dict[str, str], count: int, labels: Sequence[str | None] = LABELS) -> dict[str, object]:
    """A report like those of bench/stores.py, with so many `EventData` classes, whose labels are these in turn."""
    events: list[dict[str, object]] = []
    for at in range(count):
        address = {"category": "ipv4-addr", "value": f"192.0.2.{at}"}
        event: dict[str, object] = {
            "Description": [f"step {at} of the campaign"],
            "Flow": [{"System": [{"category": "source", "Node": {"Address": [address]}}]}]}
        label = labels[at % len(labels)]
        if label is not None:
            event["restriction"] = label
        events.append(event)
    return {"version": "2.0", "lang": "en", "Incident": [{
        "purpose": "reporting", "restriction": "green", "IncidentID": identity, "GenerationTime": "2026-01-01T00:00:00Z",
        "Contact": [{"type": "organization", "role": "creator", "Email": [{"EmailTo": "contact@csirt.example.com"}]}],
        "EventData": events}]}


def report() -> bytes:
    return json.dumps(document({"id": IDENTITY, "name": "csirt.example.com"}, 20), separators=(",", ":")).encode()


class Hub:
    """`serve` over a store, and the processor's seconds until it listened."""

    def __init__(self, program: str, store: pathlib.Path) -> None:
        with socket.socket() as free:
            free.bind(("127.0.0.1", 0))
            self.port = int(free.getsockname()[1])
        self.process = subprocess.Popen([program, "serve", str(store), str(self.port), "4294967295"], stdout=subprocess.PIPE, text=True)
        assert self.process.stdout is not None
        if self.process.stdout.readline() != f"listening {self.port}\n":
            sys.exit(f"opening.py: the program doesn't serve {store}")
        self.opened = self.seconds()

    def ask(self, key: str, method: str, target: str, body: bytes = b"") -> bytes:
        connection = http.client.HTTPConnection("127.0.0.1", self.port, timeout=3600)
        connection.request(method, target, body=None if method == "GET" else body, headers={"Authorization": f"Bearer {key}"})
        answer = connection.getresponse()
        told = answer.read()
        connection.close()
        if answer.status != 200:
            sys.exit(f"opening.py: {method} {target}: {answer.status} {told[:200]!r}")
        return told

    def seconds(self) -> float:
        """What the processor worked for it until here."""
        fields = pathlib.Path(f"/proc/{self.process.pid}/stat").read_text().rpartition(")")[2].split()
        return (int(fields[11]) + int(fields[12])) / os.sysconf("SC_CLK_TCK")

    def peak(self) -> float:
        """The largest memory until here, in megabytes."""
        for line in pathlib.Path(f"/proc/{self.process.pid}/status").read_text().split("\n"):
            if line.startswith("VmHWM:"):
                return int(line.split()[1]) / 1024
        sys.exit("opening.py: the kernel doesn't report a peak")

    def close(self) -> None:
        self.process.kill()
        self.process.wait()


def make(program: str, store: pathlib.Path) -> None:
    """A store with one report."""
    subprocess.run([program, "init", str(store), "Hub", digest("admin")], check=True, stdout=subprocess.DEVNULL)
    hub = Hub(program, store)
    hub.ask("admin", "POST", "/orgs", b"name=Poster")
    hub.ask("admin", "POST", "/persons", ("org=2&name=poster&role=poster&key=" + digest("poster")).encode())
    hub.ask("poster", "POST", "/incidents?level=3", report())
    hub.close()


def fill(store: pathlib.Path, size: int) -> None:
    """Rows like those of report 1, up to this number of reports."""
    rows = sqlite3.connect(store)
    (source, identity, revision), = rows.execute("SELECT source, ident, revision FROM incident WHERE number = 1")
    lines = list(rows.execute("SELECT place, depth, name, in_array, kind, text FROM item WHERE incident = 1 ORDER BY place"))
    (level, group), = rows.execute("SELECT level, grp FROM gate WHERE incident = 1 AND path = ''")
    begin, = rows.execute("SELECT max(number) + 1 FROM incident").fetchone()
    for number in range(begin, size + 1):
        own = IDENTITY[:len(IDENTITY) - 7] + f"{number:07}"
        rows.execute("INSERT INTO incident (number, source, ident, revision) VALUES (?, ?, ?, ?)", (number, source, identity.replace(IDENTITY, own), revision))
        rows.executemany("INSERT INTO item VALUES (?, ?, ?, ?, ?, ?, ?)",
                         [(number, *line[:5], line[5].replace(IDENTITY, own)) for line in lines])
        rows.execute("INSERT INTO gate VALUES (?, '', ?, ?)", (number, level, group))
    rows.commit()
    rows.execute("PRAGMA wal_checkpoint(TRUNCATE)")
    rows.close()


def measured(program: str, store: pathlib.Path, size: int) -> tuple[float, float, float, float]:
    """Seconds of the opening, megabytes behind it, seconds of a search over all, megabytes behind that."""
    hub = Hub(program, store)
    opened = hub.peak()
    page = json.loads(hub.ask("poster", "GET", f"/incidents?after={size - 1}"))["incidents"]
    last = json.loads(hub.ask("poster", "GET", f"/incidents/{size}"))
    if [each["number"] for each in page] != [size] or last["withheld"] or last["classes"] < 100:
        sys.exit("opening.py: the store isn't what it should be")
    begun = hub.seconds()
    hub.ask("poster", "GET", "/search?needle=in-no-report")
    searched = hub.seconds() - begun
    peak = hub.peak()
    hub.close()
    return hub.opened, opened, searched, peak


def main() -> None:
    words = argparse.ArgumentParser(description=(__doc__ or "").split("\n\n")[0])
    words.add_argument("--program", default=str(TOP / "out" / "iodef-hub"))
    words.add_argument("--sizes", default="1000,10000,100000")
    words.add_argument("--runs", type=int, default=3)
    words.add_argument("--folder", help="where the stores are made and removed")
    said = words.parse_args()
    print("| Reports | Store | Opened in | Memory then | A search over all | Memory then |\n|---|---|---|---|---|---|")
    with tempfile.TemporaryDirectory(dir=said.folder) as folder:
        store = pathlib.Path(folder) / "hub.db"
        make(said.program, store)
        for size in sorted(int(each) for each in said.sizes.split(",")):
            fill(store, size)
            runs = [measured(said.program, store, size) for _ in range(said.runs)]
            print(f"| {size:,} | {store.stat().st_size / 1e6:,.1f} MB | {min(run[0] for run in runs):.2f} s "
                  f"| {max(run[1] for run in runs):,.0f} MB | {min(run[2] for run in runs):.2f} s "
                  f"| {max(run[3] for run in runs):,.0f} MB |", flush=True)


if __name__ == "__main__":
    record.run(main, "out/iodef-hub")
