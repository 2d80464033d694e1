"""The shipped nginx and HAProxy in front of a hub, callers with addresses of their own, and iodef-hub-room beside them."""

from __future__ import annotations

import argparse
import json
import os
import pathlib
import re
import shutil
import socket
import ssl
import subprocess
import sys
import time
import typing

TOP = pathlib.Path(__file__).resolve().parent.parent.parent.parent
DEPLOY = TOP / "deploy"
sys.path.insert(0, str(TOP / "bench"))

import load  # noqa: E402

NAME = "payments.hub.example"
# The hub is the third program of the three.
HUB = 2


class Missing(Exception):
    """A program that this machine lacks."""


class Answer(typing.NamedTuple):
    """The status, 0 without one; the reason of a refusal; the numbers of reports that were posted; the fields, in small letters."""

    status: int
    reason: str
    numbers: list[int]
    head: str


class Proxies(load.Proxies):
    """nginx and HAProxy with the files of deploy, HAProxy with its socket. Nothing is written but to the folder."""

    def __init__(self, folder: pathlib.Path, port: int) -> None:
        programs = {name: shutil.which(name, path=f"{os.environ.get('PATH', '')}:/usr/sbin") for name in ("nginx", "haproxy", "curl")}
        if missing := [name for name, path in programs.items() if path is None]:
            raise Missing(f"there is no {missing[0]} on this machine")
        said = argparse.Namespace(nginx=programs["nginx"], haproxy=programs["haproxy"])
        self.folder = folder
        folder.mkdir()
        # nginx's own user reads here.
        for each in (folder, folder.parent):
            each.chmod(0o755)
        self.port = port - HUB
        ports = load.Ports(self.port)
        self.write_nginx(ports)
        self.control, self.log = folder / "haproxy.sock", folder / "iodef-hub.log"
        settings = ports.of(self.queue_settings()).replace("/run/haproxy/admin.sock", str(self.control))
        (folder / "haproxy.cfg").write_text(re.sub(r"^ *(log|user|group) .*\n", "", settings, flags=re.M))
        self.authority = folder / "payments.pem"
        words = [[said.haproxy, "-db", "-f", folder / "haproxy.cfg"], [said.nginx, "-e", folder / "nginx.log", "-p", folder, "-c", folder / "nginx.conf"]]
        self.processes = [subprocess.Popen(list(map(str, each)), stdout=subprocess.DEVNULL, stderr=(folder / "said").open("a")) for each in words]
        time.sleep(1)
        if any(each.poll() is not None for each in self.processes):
            self.close()
            raise Missing(f"a proxy doesn't start: {(folder / 'said').read_text()[-300:]}{(folder / 'nginx.log').read_text()[-300:]}")
        self.context = ssl.create_default_context(cafile=str(self.authority))

    def queue_settings(self) -> str:
        """HAProxy's settings, as they are shipped."""
        return (DEPLOY / "haproxy" / "haproxy.cfg").read_text()

    def curl(self, source: str, key: str, target: str, *more: str) -> list[str]:
        """The words of a caller; its address is one of loopback."""
        fields = ["-H", f"Authorization: Bearer {key}", "--interface", source, "--resolve", f"{NAME}:{self.port}:127.0.0.1"]
        return ["curl", "-s", "-m", "150", "--cacert", str(self.authority), *fields, *more, f"https://{NAME}:{self.port}{target}"]

    def ask(self, source: str, key: str, target: str, *more: str) -> Answer:
        """One request, by what curl makes of it."""
        words = self.curl(source, key, target, "-i", "-H", "Expect:", "-w", "\n%{http_code}", *more)
        told = subprocess.run(words, capture_output=True).stdout.decode(errors="replace")
        text, _, status = told.rpartition("\n")
        head, _, body = text.replace("\r", "").partition("\n\n")
        try:
            said = json.loads(body)
        except ValueError:
            said = {}
        return Answer(int(status or 0), said.get("reason", ""), said.get("numbers", []), head.lower())

    def connect(self, source: str) -> ssl.SSLSocket:
        raw = socket.create_connection(("127.0.0.1", self.port), timeout=150, source_address=(source, 0))
        return self.context.wrap_socket(raw, server_hostname=NAME)

    def waited(self, source: str, path: str) -> list[float]:
        """How many seconds each request of these addresses for this path was in nginx that was answered, or that its caller left."""
        return [float(found) for found in re.findall(rf"^\S+ \S+ {source} GET {path} (?:200|499) \d+ seconds=(\S+)", self.log.read_text(), re.M)]

    def logged(self, pattern: str) -> int:
        return len(re.findall(pattern, self.log.read_text(), re.M))

    def close(self) -> None:
        for each in self.processes:
            each.terminate()
            each.wait()


class Room:
    """iodef-hub-room, with limit-memory beside it in a folder, over one circle `payments`, whose unit may take so many bytes of memory."""

    def __init__(
        self, folder: pathlib.Path, store: pathlib.Path, proxies: Proxies, most: int, lib: pathlib.Path = DEPLOY / "lib", copied: pathlib.Path | None = None
    ) -> None:
        self.folder = folder
        for name in ("settings", "stores", "copies", "bin"):
            (folder / name).mkdir(parents=True)
        if copied is not None:
            (folder / "copies" / "payments").symlink_to(copied)
        (folder / "settings" / "payments.conf").write_text("PORT=21010\n")
        (folder / "stores" / "payments").symlink_to(store.parent)
        # A unit that isn't there: what systemd would say of it.
        systemctl = folder / "bin" / "systemctl"
        systemctl.write_text(f'#!/bin/sh\ncase "$*" in *MemoryMax*) echo {most} ;; esac\n')
        systemctl.chmod(0o755)
        places = {"SETTINGS": folder / "settings", "STORES": folder / "stores", "COPIES": folder / "copies", "HAPROXY": proxies.control}
        around = {"PATH": f"{folder / 'bin'}:{os.environ.get('PATH', '')}", **{f"IODEF_HUB_{name}": str(place) for name, place in places.items()}}
        self.told, self.copies = folder / "room.prom", folder / "copies" / "payments"
        self.around = {**os.environ, **around}
        self.lib = lib
        self.process: subprocess.Popen[bytes] | None = None
        self.start()

    def start(self) -> None:
        """Starts it, or starts it anew, so that it looks for a newer copy at once."""
        self.close()
        self.told.unlink(missing_ok=True)
        words = [str(self.lib / "iodef-hub-room"), str(self.told)]
        self.process = subprocess.Popen(words, env=self.around, stderr=(self.folder / "said").open("a"))
        for _ in range(300):
            if self.told.exists():
                break
            time.sleep(0.1)
        # The metrics are written just before HAProxy is told.
        time.sleep(1)

    def said(self) -> str:
        return (self.folder / "said").read_text().strip()

    def metric(self, name: str, labels: str = "") -> int:
        found = re.search(rf'^iodef_hub_{name}{{circle="payments"{labels}}} (\d+)$', self.told.read_text() if self.told.exists() else "", re.M)
        return int(found[1]) if found else -1

    def close(self) -> None:
        if self.process is not None:
            self.process.terminate()
            self.process.wait()
