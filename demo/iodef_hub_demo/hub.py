"""The demo's hub: a store in its folder, and the program that serves it."""
from __future__ import annotations

import ctypes
import pathlib
import select
import signal
import socket
import subprocess
import time

import iodef_hub

from . import places

TRIES = 5  # for a free port, which another program may take before the hub does
SECONDS_TO_LISTEN = 600  # an unproved program is slow, the more so on a busy machine
SECONDS_TO_END = 10
END_WITH_PARENT = 1  # PR_SET_PDEATHSIG of Linux


def free_port() -> int:
    with socket.create_server(("127.0.0.1", 0)) as listener:
        return int(listener.getsockname()[1])


def _end_with_parent() -> None:
    """Lets the hub end if the demo is killed, where the system can do that."""
    try:
        ctypes.CDLL(None).prctl(END_WITH_PARENT, signal.SIGTERM)
    except (OSError, AttributeError):
        pass


class Hub:
    """The hub's process, and its port."""

    def __init__(self, folder: pathlib.Path) -> None:
        self.store, self.log = folder / "hub.db", folder / "hub.log"
        self.program = ""
        self.port = 0
        self.process: subprocess.Popen[str] | None = None

    @property
    def address(self) -> str:
        return f"http://127.0.0.1:{self.port}"

    def last_words(self) -> str:
        lines = self.log.read_text(errors="replace").split("\n") if self.log.exists() else []
        return next((f": {it}" for it in reversed(lines) if it), "")

    def make(self, program: str, key: str) -> None:
        """Makes the store by the program. Its administrator has the key."""
        self.program = program
        words = [self.program, "init", str(self.store), "Hub", iodef_hub.digest_of(key)]
        try:
            made = subprocess.run(words, capture_output=True, text=True, errors="replace", timeout=SECONDS_TO_LISTEN)
        except (OSError, subprocess.TimeoutExpired) as fault:
            raise places.Fault("NoStore", f"{self.program} doesn't run: {fault}") from None
        if made.returncode or made.stdout != "created\n":
            raise places.Fault("NoStore", f"{self.program} made no store by init, so it may not be iodef-hub: {(made.stderr or made.stdout).strip() or f'status {made.returncode}'}")

    def start(self) -> None:
        for _ in range(TRIES):
            self.port = free_port()
            words = [self.program, "serve", str(self.store), str(self.port), str(2**32 - 1)]
            with self.log.open("w") as log:
                # In a session of its own, as Ctrl-C is for the demo, which then ends it.
                self.process = subprocess.Popen(
                    words, stdin=subprocess.DEVNULL, stdout=subprocess.PIPE, stderr=log, text=True, start_new_session=True, preexec_fn=_end_with_parent
                )
            assert self.process.stdout is not None
            if select.select([self.process.stdout], [], [], SECONDS_TO_LISTEN)[0] and self.process.stdout.readline() == f"listening {self.port}\n":
                return
            self.stop()
            if "ListenFailed" not in self.last_words():
                break
        raise places.Fault("HubEnded", f"the hub doesn't listen{self.last_words()}")

    def watch(self) -> None:
        """Waits until the hub ends by itself, which is a fault."""
        assert self.process is not None
        while self.process.poll() is None:
            time.sleep(0.1)
        raise places.Fault("HubEnded", f"the hub ended with status {self.process.returncode}{self.last_words()}")

    def stop(self) -> None:
        if self.process is None:
            return
        self.process.terminate()
        try:
            self.process.wait(SECONDS_TO_END)
        except subprocess.TimeoutExpired:
            self.process.kill()
            self.process.wait()
