#!/usr/bin/env python3
"""What it costs to bring a store of version 1 to the newest version: the processor's seconds and the peak of the memory of
`iodef-hub migrate`, by the number of reports.

usage: bench/migrating.py [--program PATH] [--sizes 1000] [--folder FOLDER]

The store is made by the SQL text of version 1, in which a document is one text, with reports of 13 KB (some 740 lines). The
migrated store is checked by what a hub serves of it: its first and its last report whole, and the page of a list that ends with
the last. Needs: Python 3 only, and 50 KB of disk for each report.
"""

import argparse
import hashlib
import json
import os
import pathlib
import sqlite3
import subprocess
import sys
import tempfile

from opening import Hub, document

TOP = pathlib.Path(__file__).resolve().parent.parent
sys.path.insert(0, str(TOP / "scripts"))
import record  # noqa: E402

# of version 1, as the tables of cases have them
TABLES = (TOP / "crates" / "test_suite" / "data" / "tables.sql").read_text()


def identity(number: int) -> dict[str, str]:
    return {"id": str(number), "name": "csirt.example.com"}


def compact(value: object) -> str:
    """As the hub writes it: members in the order of their names, no blanks."""
    return json.dumps(value, separators=(",", ":"), sort_keys=True)


def make(store: pathlib.Path, size: int, events: int = 74) -> None:
    """A store of version 1 with an administrator, a poster and so many reports of the poster's organisation, of so many events."""
    rows = sqlite3.connect(store)
    rows.executescript(TABLES)
    rows.execute("INSERT INTO hub VALUES (1)")
    rows.execute("INSERT INTO org VALUES (1, 'Hub'), (2, 'Poster')")
    for number, role in ((1, 0), (2, 2)):
        key = hashlib.sha256(f"key-{number}".encode()).digest()
        rows.execute("INSERT INTO person VALUES (?, ?, ?, ?, ?, 1, 0)", (number, number, f"p{number}", role, key))
    for number in range(1, size + 1):
        rows.execute("INSERT INTO incident VALUES (?, 2, ?, 1, ?)", (number, compact(identity(number)), compact(document(identity(number), events))))
        rows.execute("INSERT INTO gate VALUES (?, '', 3, NULL)", (number,))
    rows.commit()
    rows.close()


def migrated(program: str, store: pathlib.Path) -> tuple[float, float]:
    """The processor's seconds and the peak of the memory, in megabytes."""
    run = subprocess.Popen([program, "migrate", str(store)], stdout=subprocess.DEVNULL)
    _, status, used = os.wait4(run.pid, 0)
    if status:
        sys.exit(f"migrating.py: status {status}")
    return used.ru_utime + used.ru_stime, used.ru_maxrss / 1024


def ask(program: str, store: pathlib.Path, size: int) -> None:
    """Ends where the store isn't what it should be."""
    hub = Hub(program, store)
    page = json.loads(hub.ask("key-2", "GET", f"/incidents?after={size - 1}"))["incidents"]
    for number in (1, size):
        served = json.loads(hub.ask("key-2", "GET", f"/incidents/{number}"))
        if served["document"]["Incident"][0]["IncidentID"] != identity(number) or served["withheld"] or served["classes"] < 300:
            sys.exit(f"migrating.py: report {number} isn't what it should be")
    hub.close()
    if [each["number"] for each in page] != [size]:
        sys.exit("migrating.py: the list isn't what it should be")


def main() -> None:
    words = argparse.ArgumentParser(description=(__doc__ or "").split("\n\n")[0])
    words.add_argument("--program", default=str(TOP / "out" / "iodef-hub"))
    words.add_argument("--sizes", default="1000")
    words.add_argument("--folder", help="where the stores are made and removed")
    said = words.parse_args()
    print("| Reports | Store before | Store after | Migrated in | Memory |\n|---|---|---|---|---|")
    with tempfile.TemporaryDirectory(dir=said.folder) as folder:
        for size in (int(each) for each in said.sizes.split(",")):
            store = pathlib.Path(folder) / f"{size}.db"
            make(store, size)
            before = store.stat().st_size
            seconds, peak = migrated(said.program, store)
            ask(said.program, store, size)
            print(f"| {size:,} | {before / 1e6:,.1f} MB | {store.stat().st_size / 1e6:,.1f} MB | {seconds:.2f} s | {peak:,.0f} MB |", flush=True)


if __name__ == "__main__":
    record.run(main, "out/iodef-hub")
