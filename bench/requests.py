#!/usr/bin/env python3
"""The instructions of one post, of one view and of what tells its source how a report is shared, over HTTP, by the lines of the report:
what one more request costs a running `serve`, counted by callgrind. They are the same for the same program and report, whatever else the machine does.

usage: bench/requests.py [--program PATH] [--events 1,20,60]

Needs: Python 3 and valgrind. It takes some minutes.
"""

import argparse
import http.client
import importlib.util
import pathlib
import re
import subprocess
import sys
import tempfile
from collections.abc import Callable

import many

HERE = pathlib.Path(__file__).resolve().parent
sys.path.insert(0, str(HERE.parent / "scripts"))
import record  # noqa: E402
MORE = 10


def peer() -> object:
    """bench/peer/bench.py, which makes the reports and knows the keys."""
    spec = importlib.util.spec_from_file_location("peer_bench", HERE / "peer" / "bench.py")
    assert spec is not None and spec.loader is not None
    module = importlib.util.module_from_spec(spec)
    spec.loader.exec_module(module)
    return module


def ask(port: int, key: str, method: str, target: str, body: bytes = b"") -> bytes:
    connection = http.client.HTTPConnection("127.0.0.1", port, timeout=600)
    connection.request(method, target, body=body or None, headers={"Authorization": f"Bearer {key}"})
    answer = connection.getresponse()
    told = answer.read()
    if answer.status != 200:
        sys.exit(f"requests.py: {method} {target}: {answer.status} {told[:200]!r}")
    return told


def instructions(program: str, store: str, count: int, asks: Callable[[int], object]) -> int:
    """The instructions of `serve` over a store from its start on, which ends after so many requests to its port."""
    port = many.free_port()
    words = ["valgrind", "--tool=callgrind", f"--callgrind-out-file={store}.callgrind", program, "serve", store, str(port), str(count)]
    server = subprocess.Popen(words, stdout=subprocess.PIPE, stderr=subprocess.PIPE, text=True)
    assert server.stdout is not None and server.stderr is not None
    server.stdout.readline()
    asks(port)
    found = re.search(r"refs:\s+([\d,]+)", server.stderr.read())
    server.wait()
    return int(found[1].replace(",", "")) if found else 0


def counted(program: str, made: object, events: int, posts: int, reads: int, of: str = "") -> int:
    """The instructions of `serve` over a new store, in which so many reports are posted and so many are asked for, or what is below them."""

    def asks(port: int) -> None:
        ask(port, made.KEY, "POST", "/persons", ("org=1&name=poster&role=poster&key=" + made.POSTER).encode())
        for number in range(1, posts + 1):
            ask(port, "poster", "POST", "/incidents?level=3", made.document(number, events))
        for number in range(1, reads + 1):
            ask(port, "poster", "GET", f"/incidents/{number % posts + 1}{of}")

    with tempfile.TemporaryDirectory() as folder:
        store = f"{folder}/hub.db"
        subprocess.run([program, "init", store, "Hub", made.DIGEST], check=True, stdout=subprocess.DEVNULL)
        return instructions(program, store, 1 + posts + reads, asks)


def main() -> None:
    words = argparse.ArgumentParser(description=(__doc__ or "").split("\n\n")[0])
    words.add_argument("--program", default=str(HERE.parent / "out" / "iodef-hub"))
    words.add_argument("--events", default="1,20,60")
    said = words.parse_args()
    made = peer()
    print("| `EventData` classes | Bytes | A post | A view by its source | How it is shared |\n|---|---|---|---|---|")
    for events in (int(each) for each in said.events.split(",")):
        first = counted(said.program, made, events, 1, 0)
        posts = counted(said.program, made, events, 1 + MORE, 0)
        views = counted(said.program, made, events, 1, MORE)
        sharings = counted(said.program, made, events, 1, MORE, "/sharing")
        each = " | ".join(f"{(more - first) / MORE / 1e6:.2f} million" for more in (posts, views, sharings))
        print(f"| {events} | {len(made.document(1, events)):,} | {each} |", flush=True)


if __name__ == "__main__":
    record.run(main, "out/iodef-hub")
