#!/usr/bin/env python3
"""How the hub's time grows with its store, at several sizes: a list over all incidents by a person who may see none of them (so that
the page goes to the end of the store), once refused by the gates and once by the labels; and the opening of the store.

usage: bench/stores.py [BINARY [PORT]]        BINARY is by default out/iodef-hub
"""
import hashlib
import json
import os
import socket
import subprocess
import sys
import tempfile
import time

sys.path.insert(0, os.path.join(os.path.dirname(os.path.dirname(os.path.abspath(__file__))), "scripts"))
import record  # noqa: E402

LISTED = [250, 1000, 4000]
OPENED = [1000, 2500, 5000, 10000]
LABELS = [None, "public", "green", "amber", "red", "need-to-know"]
# the level of the reports, and the labels of their parts: level 0 is for the own organisation alone, level 3 for everybody
HIDDEN = {"a gate": (0, "green", LABELS), "labels": (3, "red", ["red"])}


def digest(key):
    return hashlib.sha256(key.encode()).hexdigest()


def report(number, whole="green", labels=LABELS, events=20):
    data = []
    for i in range(events):
        event = {"Description": ["step %d of the campaign" % i],
                 "Flow": [{"System": [{"category": "source", "Node": {"Address": [
                     {"category": "ipv4-addr", "value": "192.0.2.%d" % i}]}}]}]}
        if labels[i % len(labels)]:
            event["restriction"] = labels[i % len(labels)]
        data.append(event)
    return json.dumps({"version": "2.0", "lang": "en", "Incident": [{
        "purpose": "reporting", "restriction": whole,
        "IncidentID": {"id": str(number), "name": "csirt.example.com"}, "GenerationTime": "2026-01-01T00:00:00Z",
        "Contact": [{"type": "organization", "role": "creator", "Email": [{"EmailTo": "contact@csirt.example.com"}]}],
        "EventData": data}]}, separators=(",", ":")).encode()


class Hub:
    """`serve` over a store, and the seconds until it listened."""

    def __init__(self, binary, store, port):
        self.port = port
        begun = time.perf_counter()
        self.process = subprocess.Popen([binary, "serve", store, str(port), "4000000"], stdout=subprocess.PIPE)
        self.process.stdout.readline()
        self.opening = time.perf_counter() - begun

    def ask(self, key, method, target, body=b""):
        with socket.create_connection(("127.0.0.1", self.port)) as it:
            head = "%s %s HTTP/1.1\r\nHost: hub\r\nAuthorization: Bearer %s\r\n" % (method, target, key)
            if method != "GET":
                head += "Content-Length: %d\r\n" % len(body)
            it.sendall(head.encode() + b"\r\n" + body)
            parts = []
            while True:
                part = it.recv(65536)
                if not part:
                    break
                parts.append(part)
        reply = b"".join(parts)
        if b" 200 " not in reply[:20]:
            sys.exit("%s %s: %r" % (method, target, reply[:200]))
        return reply

    def close(self):
        self.process.kill()
        self.process.wait()


def begin(hub):
    """Organisations 2 and 3, a poster of the one and a reader of the other."""
    for name in ("Poster", "Reader"):
        hub.ask("admin", "POST", "/orgs", ("name=%s" % name).encode())
    hub.ask("admin", "POST", "/persons", ("org=2&name=poster&role=poster&key=" + digest("poster")).encode())
    hub.ask("admin", "POST", "/persons", ("org=3&name=reader&role=reader&key=" + digest("reader")).encode())


def listing(hub, times=5):
    """The seconds of the reader's list, which has nothing in it."""
    best = None
    for _ in range(times):
        begun = time.perf_counter()
        reply = hub.ask("reader", "GET", "/incidents?after=0")
        took = time.perf_counter() - begun
        if not reply.endswith(b"[]}"):
            sys.exit("the reader was told %r" % reply[-200:])
        best = took if best is None else min(best, took)
    return best


def grow(binary, port, folder, why, is_opened):
    """Lists and openings of a store that grows by reports which the reader may not see, for this reason."""
    level, whole, labels = HIDDEN[why]
    store = os.path.join(folder, "hub.db")
    subprocess.run([binary, "init", store, "Hub", digest("admin")], check=True, stdout=subprocess.DEVNULL)
    hub = Hub(binary, store, port)
    begin(hub)
    for number in range(1, max(LISTED + (OPENED if is_opened else [])) + 1):
        hub.ask("poster", "POST", "/incidents?level=%d" % level, report(number, whole, labels))
        if number in LISTED:
            took = listing(hub)
            print("a list over %5d incidents, hidden by %s: %6.3f s, %5.1f us for each" % (number, why, took, took / number * 1e6), flush=True)
        if is_opened and number in OPENED:
            hub.close()
            hub = Hub(binary, store, port)
            size = os.path.getsize(store) / 1e6
            print("opening a store of %5d:    %6.3f s, %5.1f us for each, %.1f MB" % (
                number, hub.opening, hub.opening / number * 1e6, size), flush=True)
    hub.close()


def main():
    top = os.path.dirname(os.path.dirname(os.path.abspath(__file__)))
    binary = sys.argv[1] if len(sys.argv) > 1 else os.path.join(top, "out", "iodef-hub")
    port = int(sys.argv[2]) if len(sys.argv) > 2 else 18093
    for why in HIDDEN:
        with tempfile.TemporaryDirectory() as folder:
            grow(binary, port, folder, why, why == "a gate")


record.run(main, "out/iodef-hub")
