#!/usr/bin/env python3
"""load.py NAME KIND SECONDS THREADS KEY: load on a circle through TLS, told as one line of JSON at its end.

KIND is `read`; `post`, where what isn't answered is posted again until it is; or `slow`: connections that send half a report.
"""

import hashlib
import http.client
import json
import socket
import ssl
import sys
import threading
import time
import uuid

AUTHORITY = "/etc/ssl/iodef-hub/authority.pem"


def report(identity: str) -> bytes:
    return json.dumps({"version": "2.0", "lang": "en", "Incident": [{
        "purpose": "reporting", "restriction": "green", "IncidentID": {"id": identity, "name": "load.example"},
        "GenerationTime": "2026-01-01T00:00:00Z", "Contact": [{"role": "creator", "type": "organization"}],
        "Description": [hashlib.sha256(identity.encode()).hexdigest() * 30]}]}).encode()


class Load:
    def __init__(self, name: str, kind: str, seconds: float, key: str) -> None:
        self.name, self.kind, self.key = name, kind, key
        self.until = time.monotonic() + seconds
        self.lock = threading.Lock()
        self.statuses: dict[str, int] = {}
        self.numbers: dict[str, int] = {}
        self.slowest = 0.0
        self.context = ssl.create_default_context(cafile=AUTHORITY)

    def ask(self, source: str, method: str, target: str, body: bytes | None = None) -> tuple[str, bytes]:
        begun = time.monotonic()
        try:
            connection = http.client.HTTPSConnection(self.name, 443, timeout=120, context=self.context, source_address=(source, 0))
            connection.request(method, target, body=body, headers={"Authorization": f"Bearer {self.key}"})
            answer = connection.getresponse()
            told = str(answer.status), answer.read()
            connection.close()
        except OSError as error:
            told = type(error).__name__, b""
        with self.lock:
            self.statuses[told[0]] = self.statuses.get(told[0], 0) + 1
            self.slowest = max(self.slowest, time.monotonic() - begun)
        return told

    def post(self, source: str) -> None:
        identity = str(uuid.uuid4())
        for _ in range(60):
            status, body = self.ask(source, "POST", "/incidents?level=3", report(identity))
            if status == "200":
                number = json.loads(body)["numbers"][0]
            elif status == "409":
                number = int(json.loads(body)["detail"])
            elif status in ("429", "502", "503", "504"):
                time.sleep(0.5)
                continue
            else:
                return
            with self.lock:
                self.numbers[identity] = number
            return

    def run(self, place: int) -> None:
        # An address of its own, as nginx limits each address.
        source = f"127.0.1.{place + 1}"
        while time.monotonic() < self.until:
            if self.kind == "read":
                self.ask(source, "GET", "/me")
            else:
                self.post(source)
            time.sleep(0.12 if self.kind == "read" else 0.4)

    def hold(self, place: int) -> None:
        raw = socket.create_connection((self.name, 443), source_address=(f"127.0.2.{place + 1}", 0))
        with self.context.wrap_socket(raw, server_hostname=self.name) as it:
            it.sendall(f"POST /incidents?level=3 HTTP/1.1\r\nHost: {self.name}\r\nAuthorization: Bearer {self.key}\r\n"
                       "Content-Length: 200000\r\n\r\n{".encode())
            time.sleep(max(0.0, self.until - time.monotonic()))


def main() -> None:
    name, kind, seconds, threads, key = sys.argv[1:]
    load = Load(name, kind, float(seconds), key)
    running = [threading.Thread(target=load.hold if kind == "slow" else load.run, args=(place,)) for place in range(int(threads))]
    for each in running:
        each.start()
    for each in running:
        each.join()
    print(json.dumps({"statuses": load.statuses, "slowest": round(load.slowest, 1), "numbers": load.numbers}))


if __name__ == "__main__":
    main()
