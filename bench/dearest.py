#!/usr/bin/env python3
"""What the dearest requests cost a hub with many ordinary reports: seconds of a processor, the most memory, and instructions.

usage: bench/dearest.py [--program PATH] [--reports 10000] [--instructions] [--only ROW ..]

The reports are of 204 lines, each for every organisation by its level and for its source alone by its labels. Each row is asked
five times. It prints the median of the processor's times of the hub, and the most memory that the process took from the system meanwhile
(VmSize, read every 5 milliseconds), beyond what it had before. With --instructions each row is asked once more of a hub under
callgrind, which counts after the opening. Needs: Python 3.11, for --instructions valgrind. It takes some minutes, with
--instructions an hour.
"""

import argparse
import hashlib
import json
import os
import pathlib
import re
import socket
import statistics
import subprocess
import sys
import tempfile
import threading
import time
import typing
from collections.abc import Callable

HERE = pathlib.Path(__file__).resolve().parent
sys.path.insert(0, str(HERE.parent / "scripts"))
import record  # noqa: E402
ADMIN, POSTER, COORDINATOR, READER = "admin-key", "poster-key", "coordinator-key", "reader-key"
TURNS = 5
# How many classes stand in one another in a costly report, and how many bytes each of their names has.
CHAIN, NAME = 27, "n" * 7_700


def digest(key: str) -> str:
    return hashlib.sha256(key.encode()).hexdigest()


# ---- reports


def ordinary(number: int) -> bytes:
    """204 lines, which only the source may see by their labels."""
    data = [
        {
            "Description": [f"step {at} of the campaign"],
            "Flow": [{"System": [{"category": "source", "Node": {"Address": [{"category": "ipv4-addr", "value": f"192.0.2.{at}"}]}}]}],
            "restriction": "red",
        }
        for at in range(20)
    ]
    incident = {
        "purpose": "reporting",
        "restriction": "red",
        "IncidentID": {"id": str(number), "name": "csirt.example.com"},
        "GenerationTime": "2026-01-01T00:00:00Z",
        "Contact": [{"type": "organization", "role": "creator", "Email": [{"EmailTo": "contact@csirt.example.com"}]}],
        "EventData": data,
    }
    return json.dumps({"version": "2.0", "lang": "en", "Incident": [incident]}, separators=(",", ":")).encode()


def plain_incident(ident: str, label: str = "public", more: str = "") -> str:
    return f'{{"Contact":0,"GenerationTime":0,"IncidentID":"{ident}",{more}"purpose":0,"restriction":"{label}"}}'


def below_chain(ident: str, one: str, count: int, label: str) -> bytes:
    """So many of a class below classes in one another, each in an array and under a long name."""
    chain = f'"{NAME}":[{{' * CHAIN + '"e":[' + ",".join([one] * count) + "]" + "}]" * CHAIN
    return f'{{"Incident":[{plain_incident(ident, label, chain + ",")}]}}'.encode()


# ---- the hub


class Hub:
    """`serve` over a store, maybe under callgrind."""

    def __init__(self, program: str, store: str, counts: bool = False) -> None:
        with socket.socket() as free:
            free.bind(("127.0.0.1", 0))
            self.port = int(free.getsockname()[1])
        self.out = f"{store}.callgrind"
        valgrind = ["valgrind", "--tool=callgrind", "--instr-atstart=no", f"--callgrind-out-file={self.out}"]
        words = [*(valgrind if counts else []), program, "serve", store, str(self.port), "4294967295"]
        self.process = subprocess.Popen(words, stdout=subprocess.PIPE, stderr=subprocess.DEVNULL)
        assert self.process.stdout is not None
        if not self.process.stdout.readline().startswith(b"listening"):
            sys.exit("dearest.py: the program doesn't serve")

    def seconds(self) -> float:
        """What the process has taken of a processor, by itself and in the system for it."""
        fields = pathlib.Path(f"/proc/{self.process.pid}/stat").read_text().rpartition(")")[2].split()
        return (int(fields[11]) + int(fields[12])) / os.sysconf("SC_CLK_TCK")

    def ask(self, key: str, method: str, target: str, body: bytes = b"") -> tuple[int, bytes, int]:
        """The status, the reply's first bytes, and how many it has."""
        length = f"Content-Length: {len(body)}\r\n" if method != "GET" else ""
        head = f"{method} {target} HTTP/1.1\r\nHost: hub\r\nConnection: close\r\nAuthorization: Bearer {key}\r\n{length}\r\n"
        kept, total = b"", 0
        buffer = bytearray(1 << 20)
        with socket.create_connection(("127.0.0.1", self.port), timeout=3_600) as peer:
            peer.sendall(head.encode() + body)
            while count := peer.recv_into(buffer):
                total += count
                if len(kept) < 65_536:
                    kept += buffer[:count]
        return int(kept[9:12] or b"0"), kept.partition(b"\r\n\r\n")[2], total

    def done(self, key: str, method: str, target: str, body: bytes = b"") -> bytes:
        status, told, _ = self.ask(key, method, target, body)
        if status != 200:
            sys.exit(f"dearest.py: {method} {target[:80]}: {status} {told[:200]!r}")
        return told

    def memory(self) -> float:
        """The memory that the process has from the system, in megabytes, whether it stands in RAM or not."""
        text = pathlib.Path(f"/proc/{self.process.pid}/status").read_text()
        found = re.search(r"^VmSize:\s+(\d+) kB$", text, re.M)
        return int(found[1]) / 1024 if found else 0.0

    def control(self, *words: str) -> None:
        subprocess.run(["callgrind_control", *words, str(self.process.pid)], check=True, stdout=subprocess.DEVNULL)

    def counted(self, asked: Callable[[], object]) -> int:
        """The instructions of a request, from its first to its last."""
        self.control("-i", "on")
        self.control("-z")
        asked()
        self.control("-d", "asked")
        self.control("-i", "off")
        made = max(pathlib.Path(self.out).parent.glob(pathlib.Path(self.out).name + ".*"), key=lambda it: it.stat().st_mtime)
        found = re.search(r"^(?:summary|totals): (\d+)", made.read_text(), re.M)
        made.unlink()
        return int(found[1]) if found else 0

    def close(self) -> None:
        self.process.kill()
        self.process.wait()


def begin(program: str, store: str, reports: int) -> None:
    """A store with so many reports; organisations 2 and 3; a poster and a coordinator of the one, a reader of the other."""
    subprocess.run([program, "init", store, "Hub", digest(ADMIN)], check=True, stdout=subprocess.DEVNULL)
    hub = Hub(program, store)
    for name in ("Source", "Other"):
        hub.done(ADMIN, "POST", "/orgs", f"name={name}".encode())
    for org, role, key in ((2, "poster", POSTER), (2, "coordinator", COORDINATOR), (3, "reader", READER)):
        hub.done(ADMIN, "POST", "/persons", f"org={org}&name={role}&role={role}&key={digest(key)}".encode())
    for number in range(1, reports + 1):
        hub.done(POSTER, "POST", "/incidents?level=3", ordinary(number))
    hub.close()


# ---- the rows


class Row(typing.NamedTuple):
    """A request that is measured, behind what is done once before; `turn` tells apart what is posted again and again."""

    name: str
    before: Callable[[Hub], object]
    asked: Callable[[Hub, int], object]


def nothing(_: Hub) -> None:
    pass


def number_in(told: bytes) -> int:
    return int(json.loads(told)["numbers"][0])


def sixteen_incidents(turn: int) -> bytes:
    header = '"a":[' + ",".join(["1"] * 4_060) + "]"
    return f'{{"Incident":[{",".join(plain_incident(f"s{turn}-{at}") for at in range(16))}],{header}}}'.encode()


class Kept:
    """The numbers of costly reports that rows post before they are measured, 0 before."""

    gated = 0
    granted = False
    frames = 0


def place(at: int) -> str:
    return "/Incident/0" + f"/{NAME}/0" * CHAIN + f"/e/{at}"


def post_gated(hub: Hub) -> None:
    if Kept.gated:
        return
    Kept.gated = number_in(hub.done(POSTER, "POST", "/incidents?level=3", below_chain("gated", "{}", 3_900, "public")))
    for at in range(16):
        hub.done(POSTER, "POST", f"/incidents/{Kept.gated}/gate", f"revision=1&path={place(at)}&level=5".encode())


def post_granted(hub: Hub) -> None:
    if Kept.granted:
        return
    Kept.granted = True
    post_gated(hub)
    for at in range(64 - TURNS - 1):
        hub.done(COORDINATOR, "POST", f"/incidents/{Kept.gated}/grant", f"revision=1&path={place(at)}&person=4".encode())


def post_frames(hub: Hub) -> None:
    body = below_chain("frames", '{"a":{"restriction":"public"}}', 1_300, "red")
    Kept.frames = number_in(hub.done(POSTER, "POST", "/incidents?level=3", body))


ROWS = [
    Row("a search that finds nothing, by the source", nothing, lambda hub, turn: hub.done(POSTER, "GET", f"/search?needle=none-{turn}")),
    Row("a list of a reader who may see nothing", nothing, lambda hub, turn: hub.done(READER, "GET", "/incidents")),
    Row("an explanation", nothing, lambda hub, turn: hub.done(ADMIN, "GET", "/explain?person=4&incident=1&path=/Incident/0/EventData/3")),
    Row("a post of 16 reports with 4,060 lines each", nothing, lambda hub, turn: hub.done(POSTER, "POST", "/incidents?level=3", sixteen_incidents(turn))),
    Row("one of 16 gates at a long place", post_gated, lambda hub, turn: hub.done(POSTER, "POST", f"/incidents/{Kept.gated}/gate", f"revision=1&path={place(15)}&level={2 + turn % 2}".encode())),
    Row("the last of 64 grants at long places", post_granted, lambda hub, turn: hub.done(COORDINATOR, "POST", f"/incidents/{Kept.gated}/grant", f"revision=1&path={place(64 - TURNS - 1 + turn)}&person=4".encode())),
    Row("a View with 16 gates and 64 permissions", post_granted, lambda hub, turn: hub.done(READER, "GET", f"/incidents/{Kept.gated}")),
    Row("a View of frames", post_frames, lambda hub, turn: hub.done(READER, "GET", f"/incidents/{Kept.frames}")),
]


class Watch(threading.Thread):
    """Looks at the memory of a hub until it is told to stop."""

    def __init__(self, hub: Hub) -> None:
        super().__init__(daemon=True)
        self.hub, self.most, self.ended = hub, 0.0, threading.Event()

    def run(self) -> None:
        while not self.ended.wait(0.005):
            self.most = max(self.most, self.hub.memory())


def measure(hub: Hub, row: Row, says: Callable[[str], None]) -> None:
    row.before(hub)
    resting = hub.memory()
    watch = Watch(hub)
    watch.start()
    times = []
    for turn in range(TURNS):
        begun = hub.seconds()
        row.asked(hub, turn)
        times.append(hub.seconds() - begun)
    watch.ended.set()
    watch.join()
    says(f"| {row.name} | {statistics.median(times):.2f} s | {watch.most:.0f} MB, {resting:.0f} before |")


def main() -> None:
    words = argparse.ArgumentParser(description=__doc__, formatter_class=argparse.RawDescriptionHelpFormatter)
    words.add_argument("--program", default=str(HERE.parent / "out" / "iodef-hub"))
    words.add_argument("--reports", type=int, default=10_000)
    words.add_argument("--instructions", action="store_true")
    words.add_argument("--only", nargs="*", help="beginnings of the rows' names; rows that they depend on run too")
    said = words.parse_args()
    rows = [row for row in ROWS if not said.only or any(row.name.startswith(each) for each in said.only)]
    with tempfile.TemporaryDirectory() as folder:
        store = f"{folder}/hub.db"
        begun = time.perf_counter()
        begin(said.program, store, said.reports)
        print(f"{said.reports} reports, posted in {time.perf_counter() - begun:.0f} s", flush=True)
        hub = Hub(said.program, store)
        print("| Request | Seconds of a processor | The most memory |\n|---|---|---|", flush=True)
        for row in rows:
            measure(hub, row, lambda line: print(line, flush=True))
        hub.close()
        if said.instructions:
            hub = Hub(said.program, store, counts=True)
            print("| Request | Instructions |\n|---|---|", flush=True)
            for row in rows:
                once = hub.counted(lambda row=row: row.asked(hub, TURNS))
                print(f"| {row.name} | {once / 1e6:,.1f} million |", flush=True)
            hub.close()


if __name__ == "__main__":
    record.run(main, "out/iodef-hub")
