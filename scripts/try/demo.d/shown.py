"""A run of the demo: what it printed, its folder and its hub, and requests to it."""
from __future__ import annotations

import http.client
import os
import pathlib
import re
import signal
import subprocess
import sys
import time
import urllib.parse
from collections.abc import Callable

sys.path.insert(0, str(pathlib.Path(__file__).resolve().parent.parent))

import common

COMMAND = common.TOP / "demo" / "iodef-hub-demo"
SECONDS = 60


def is_alive(process: int) -> bool:
    try:
        return pathlib.Path(f"/proc/{process}/stat").read_text().rpartition(")")[2].split()[0] != "Z"
    except FileNotFoundError:
        return False


def wait_for(holds: Callable[[], bool], seconds: float = 30) -> bool:
    end = time.monotonic() + seconds
    while time.monotonic() < end:
        if holds():
            return True
        time.sleep(0.05)
    return holds()


class Shown:
    """A demo that was started in a folder, in which it makes its own."""

    started: list[Shown] = []

    def __init__(self, room: pathlib.Path, *words: str, command: pathlib.Path = COMMAND, more: dict[str, str] | None = None) -> None:
        self.room = room
        path = os.environ["PATH"]
        environment = {"PATH": path, "HOME": str(room), "TMPDIR": str(room), **(more or {})}
        self.process = subprocess.Popen(
            [command, *words], stdout=subprocess.PIPE, stderr=subprocess.PIPE, text=True, env=environment, start_new_session=True
        )
        self.said = self.told = ""
        Shown.started.append(self)

    @classmethod
    def end_all(cls) -> None:
        """Ends those that still run, if a trial breaks off."""
        for each in cls.started:
            if each.process.poll() is None:
                each.end(signal.SIGTERM)

    def has_begun(self) -> bool:
        """Waits until it shows the circle or ends, and reads what it printed."""
        assert self.process.stdout is not None
        for line in self.process.stdout:
            self.said += line
            if line.startswith("Ctrl-C ends it"):
                return True
        self.end(signal.SIGTERM)
        return False

    def begin(self) -> Shown:
        """A demo that shows the circle."""
        if not self.has_begun():
            raise RuntimeError(f"the demo showed nothing: {self.told}")
        return self

    def end(self, number: int | None = None) -> int:
        """Sends the signal, and returns the status with which the demo ended. One that doesn't end is killed."""
        if number is not None and self.process.poll() is None:
            self.process.send_signal(number)
        try:
            said, self.told = self.process.communicate(timeout=SECONDS)
        except subprocess.TimeoutExpired:
            os.killpg(self.process.pid, signal.SIGKILL)
            said, self.told = self.process.communicate()
        self.said += said
        return int(self.process.returncode)

    @property
    def address(self) -> str:
        (found,) = re.findall(r"^    (http://127\.0\.0\.1:\d+/demo/\S+/)$", self.said, re.M)
        return str(found)

    @property
    def port(self) -> int:
        return int(urllib.parse.urlsplit(self.address).port or 0)

    @property
    def word(self) -> str:
        return self.address.rstrip("/").rpartition("/")[2]

    @property
    def requests(self) -> list[str]:
        """The lines for curl."""
        return re.findall(r"^    (curl .*)$", self.said, re.M)

    @property
    def keys(self) -> list[str]:
        """Those of Ada, Ben, Cleo and the administrator."""
        return re.findall(r"Bearer (\S+)'", self.said)

    @property
    def hub_port(self) -> int:
        return int(re.findall(r"127\.0\.0\.1:(\d+)/incidents/1", self.said)[0])

    @property
    def hub_process(self) -> int:
        """The one program that listens at the hub's port."""
        found = subprocess.run(["pgrep", "-P", str(self.process.pid)], capture_output=True, text=True).stdout.split()
        assert len(found) == 1, found
        return int(found[0])

    def folders(self) -> list[pathlib.Path]:
        return sorted(self.room.glob("iodef-hub-demo.*"))

    def ask(self, method: str, path: str, headers: dict[str, str] | None = None, body: bytes | None = None) -> tuple[int, http.client.HTTPMessage, str]:
        connection = http.client.HTTPConnection("127.0.0.1", self.port, timeout=SECONDS)
        try:
            connection.putrequest(method, path, skip_host="Host" in (headers or {}))
            for name, value in (headers or {}).items():
                connection.putheader(name, value)
            connection.endheaders(body)
            answer = connection.getresponse()
            return answer.status, answer.headers, answer.read().decode()
        finally:
            connection.close()
