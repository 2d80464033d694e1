#!/usr/bin/env python3
"""Speed of iodef-hub beside the plain Rust peer, on the same work in one run. Prints ratios: below 1 the hub is faster.

usage: bench/peer/bench.py [--only mark,excerpt,post,view,list,search] [--incidents N] [--events N] [--bin PATH] [--redact PATH] [--peer PATH]

Where no paths are given, the programs are out/iodef-hub, crates/redact_bench/out/redact_bench and target/release/peer beside
this file. README.md tells how they are built. Instructions are counted where valgrind is there.
"""
import argparse
import hashlib
import json
import os
import pathlib
import shutil
import socket
import subprocess
import sys
import tempfile
import time

HERE = pathlib.Path(__file__).resolve().parent
TOP = HERE.parent.parent
sys.path.insert(0, str(TOP / "scripts"))
import record  # noqa: E402

KEY = "abc"
DIGEST = hashlib.sha256(KEY.encode()).hexdigest()
POSTER = hashlib.sha256(b"poster").hexdigest()


def document(number: int, events: int, note: int = 40) -> bytes:
    """A report of `events` EventData classes with mixed markings, like those that teams exchange."""
    labels = [None, "public", "green", "amber", "red", "need-to-know"]
    data = []
    for i in range(events):
        event = {"Description": ["step %d of the campaign, %s" % (i, "x" * note)],
                 "Flow": [{"System": [{"category": "source", "Node": {"Address": [{"category": "ipv4-addr", "value": "192.0.2.%d" % (i % 250)}]}}]}]}
        if labels[i % 6]:
            event["restriction"] = labels[i % 6]
        data.append(event)
    return json.dumps({"version": "2.0", "lang": "en", "Incident": [{
        "purpose": "reporting", "restriction": "green" if number % 2 else "public",
        "IncidentID": {"id": str(number), "name": "csirt.example.com"}, "GenerationTime": "2026-01-01T00:00:00Z",
        "Contact": [{"type": "organization", "role": "creator", "Email": [{"EmailTo": "contact@csirt.example.com"}]}],
        "EventData": data}]}, separators=(",", ":"), sort_keys=True).encode()


def best(run, times=7):
    return min(run() for _ in range(times))


def instructions(command, stdin):
    """Instructions by callgrind: the same for the same program and input, whatever else the machine does."""
    with tempfile.NamedTemporaryFile() as out:
        run = subprocess.run(["valgrind", "--tool=callgrind", "--callgrind-out-file=" + out.name] + command, input=stdin,
                             stdout=subprocess.DEVNULL, stderr=subprocess.PIPE, check=True)
    return int([l for l in run.stderr.decode().splitlines() if "refs:" in l][0].split()[-1].replace(",", ""))


def clock(command, stdin):
    start = time.perf_counter()
    subprocess.run(command, input=stdin, stdout=subprocess.DEVNULL, check=True)
    return time.perf_counter() - start


class Server:
    def __init__(self, binary, port, count, folder):
        self.db = os.path.join(folder, "store-%d.db" % port)
        subprocess.run([binary, "init", self.db, "Hub", DIGEST], check=True, stdout=subprocess.DEVNULL)
        self.port = port
        self.process = subprocess.Popen([binary, "serve", self.db, str(port), str(count)], stdout=subprocess.PIPE)
        self.process.stdout.readline()

    def ask(self, method, target, body=b"", key="poster"):
        with socket.create_connection(("127.0.0.1", self.port)) as s:
            head = "%s %s HTTP/1.1\r\nHost: hub\r\nConnection: close\r\nAuthorization: Bearer %s\r\n" % (method, target, key)
            if method != "GET":
                head += "Content-Length: %d\r\n" % len(body)
            s.sendall(head.encode() + b"\r\n" + body)
            parts = []
            while True:
                part = s.recv(65536)
                if not part:
                    return b"".join(parts)
                parts.append(part)

    def close(self):
        self.process.kill()
        self.process.wait()


def per_second(server, requests):
    start = time.perf_counter()
    for r in requests:
        reply = server.ask(*r)
        if b" 200 " not in reply[:20]:
            sys.exit("refused: %r -> %r" % (r[:2], reply[:200]))
    return len(requests) / (time.perf_counter() - start)


def main():
    p = argparse.ArgumentParser()
    p.add_argument("--bin", default=str(TOP / "out/iodef-hub"))
    p.add_argument("--redact", default=str(TOP / "crates/redact_bench/out/redact_bench"))
    p.add_argument("--peer", default=str(HERE / "target/release/peer"))
    p.add_argument("--only", default="mark,post,view,list,search")
    p.add_argument("--incidents", type=int, default=500)
    p.add_argument("--events", type=int, default=20, help="EventData classes of each report that is posted: 20 are 204 lines, 60 are 604")
    a = p.parse_args()
    wanted = a.only.split(",")
    rows = []
    if "mark" in wanted:
        for events, note in ((1, 40), (60, 40), (400, 100)):
            text = document(1, events, note)
            ours = best(lambda: clock([a.bin, "mark"], text))
            peer = best(lambda: clock([a.peer, "mark"], text))
            rows.append(("mark, %d bytes" % len(text), ours * 1e3, peer * 1e3, ours / peer, "ms"))
            if shutil.which("valgrind"):
                ours, peer = [instructions([b, "mark"], text) for b in (a.bin, a.peer)]
                rows.append(("  its instructions", ours / 1e6, peer / 1e6, ours / peer, "M"))
    if "excerpt" in wanted:
        for events, note, turns in ((1, 40, 2000), (60, 40, 200), (400, 100, 40)):
            text = document(0, events, note)
            ours, peer = [best(lambda: clock(c + [str(turns)], text)) for c in (a.redact.split(), [a.peer, "excerpt"])]
            rows.append(("excerpt, %d bytes" % len(text), ours * 1e3 / turns, peer * 1e3 / turns, ours / peer, "ms"))
            if shutil.which("valgrind"):
                ours, peer = [instructions(c + ["10"], text) - instructions(c + ["1"], text) for c in (a.redact.split(), [a.peer, "excerpt"])]
                rows.append(("  instructions of one", ours / 9e6, peer / 9e6, ours / peer, "M"))
    served = [w for w in wanted if w not in ("mark", "excerpt")]
    if served:
        with tempfile.TemporaryDirectory() as folder:
            servers = [Server(a.bin, 8391, 4000000, folder), Server(a.peer, 8392, 4000000, folder)]
            try:
                for s in servers:
                    s.ask("POST", "/persons", ("org=1&name=poster&role=poster&key=" + POSTER).encode(), KEY)
                posts = [("POST", "/incidents?level=3", document(n, a.events)) for n in range(1, a.incidents + 1)]
                work = {"post": lambda s: per_second(s, posts),
                        "view": lambda s: per_second(s, [("GET", "/incidents/%d" % (1 + n % a.incidents)) for n in range(300)]),
                        "list": lambda s: per_second(s, [("GET", "/incidents?after=%d" % (n * 17 % a.incidents)) for n in range(30)]),
                        "search": lambda s: per_second(s, [("GET", "/search?needle=192.0.2.7&after=%d" % (n * 17 % a.incidents)) for n in range(30)])}
                for name in ("post", "view", "list", "search"):
                    if name in wanted or name == "post":
                        ours, peer = [work[name](s) for s in servers]
                        rows.append((name + ", a second", ours, peer, peer / ours, "/s"))
            finally:
                for s in servers:
                    s.close()
    print("%-28s %12s %12s %10s" % ("work", "hub", "peer", "hub/peer"))
    for name, ours, peer, ratio, unit in rows:
        print("%-28s %9.2f %-2s %9.2f %-2s %9.2f" % (name, ours, unit, peer, unit, ratio))


if __name__ == "__main__":
    record.run(main, "out/iodef-hub")
