"""A run of the demo, from the folder to its removal."""
from __future__ import annotations

import contextlib
import json
import os
import pathlib
import shutil
import signal
import sys
import tempfile
import webbrowser
from collections.abc import Iterator
from types import FrameType

import iodef_hub

from . import circle, places
from .hub import Hub
from .server import Origin, Server

ENDING = (signal.SIGINT, signal.SIGTERM, signal.SIGHUP)


class Over(BaseException):
    """One of the signals that end the demo came."""


def ignore_signals() -> None:
    for number in ENDING:
        signal.signal(number, signal.SIG_IGN)


def _end(number: int, frame: FrameType | None) -> None:
    ignore_signals()  # a further one shall not stop the removal
    raise Over


@contextlib.contextmanager
def until_signal() -> Iterator[None]:
    """Ends what is inside at a signal."""
    try:
        signal.pthread_sigmask(signal.SIG_UNBLOCK, ENDING)
        yield
    except Over:
        pass
    finally:
        ignore_signals()


class Demo:
    """The folder, the hub and the server, which `close` removes and stops."""

    def __init__(self, port: int, is_kept: bool) -> None:
        self.is_unproved, self.is_kept, self.is_made = False, is_kept, False
        self.readers, self.administrator = circle.new_readers(), iodef_hub.new_key()
        # The port first: if it is taken, nothing is made.
        self.server = Server(Origin(self.readers), port)
        self.folder = pathlib.Path(tempfile.mkdtemp(prefix="iodef-hub-demo."))
        self.hub = Hub(self.folder)

    def start(self, program: places.Program) -> None:
        self.is_unproved = program.is_unproved
        slow = ", which takes a while, as the program is unproved" if self.is_unproved else ""
        print(f"iodef-hub-demo: making a hub with three organisations and six reports{slow}", file=sys.stderr, flush=True)
        self.hub.make(program.path, self.administrator)
        self.hub.start()
        try:
            circle.fill(self.hub.address, self.administrator, self.readers)
        except iodef_hub.HubError as fault:
            raise places.Fault("HubFailed", f"the circle wasn't made: {fault}{self.hub.last_words()}") from None
        if self.is_kept:
            self.keep_keys()
        self.is_made = True
        self.server.origin.open(self.hub.port, self.is_unproved)
        self.server.start()

    def keep_keys(self) -> None:
        keys = {circle.ADMINISTRATOR: self.administrator} | {each.name: each.key for each in self.readers}
        with open(os.open(self.folder / "keys.json", os.O_WRONLY | os.O_CREAT | os.O_EXCL, 0o600), "w") as file:
            json.dump(keys, file, indent=1)

    def told(self) -> str:
        """What the demo prints."""
        lines = ["DEMO: invented reports, in a hub of its own on this machine alone."]
        if self.is_unproved:
            lines += ["UNPROVED: the program is compiled without its proof. It is slow, and its answers are tested, not proved."]
        lines += ["", "Report 1, Phishing, as its three readers are served it:"]
        lines += [f"  {each.name} of {each.of}: {circle.served(self.hub.address, each, 1)}" for each in self.readers]
        lines += ["", "The three side by side, with five more reports:", "", f"    {self.server.address}", "", "The same without a browser:", ""]
        ask = "    curl -H 'Authorization: Bearer {}' '{}/{}'"
        lines += [ask.format(each.key, self.hub.address, "incidents/1") for each in self.readers]
        lines += ["", "Why Cleo isn't shown the second EventData, as the administrator is told it:", ""]
        lines += [ask.format(self.administrator, self.hub.address, "explain?person=4&incident=1&path=/Incident/0/EventData/1"), ""]
        return "\n".join(lines)

    def how_to_end(self) -> str:
        end = f"keeps {self.folder}, which has the store and the keys" if self.is_kept else f"removes all of it ({self.folder})"
        return f"Ctrl-C ends it, and {end}."

    def close(self) -> str:
        """Stops all. Returns what became of the folder."""
        self.hub.stop()
        self.server.stop()
        if self.is_kept and self.is_made:
            return f"{self.folder} is kept: its file keys.json has the keys"
        shutil.rmtree(self.folder, ignore_errors=True)
        if self.folder.exists():
            raise places.Fault("NotRemoved", f"{self.folder} can't be removed: remove it by hand")
        return "the hub is stopped, and its folder is removed"


def show_in_browser(address: str) -> str:
    """Opens a browser with windows. Returns why there is none, or nothing."""
    if not any(os.environ.get(name) for name in ("DISPLAY", "WAYLAND_DISPLAY")):
        return "NoBrowser: there is no display here: open the address yourself, in a browser on this machine"
    try:
        is_open = webbrowser.open(address)
    except webbrowser.Error:
        is_open = False
    return "" if is_open else "NoBrowser: no browser was found: open the address yourself, in a browser on this machine"


def run(named: str | None, is_unproved: bool, port: int, is_kept: bool, with_browser: bool) -> None:
    """Shows the demo until a signal comes."""
    # Until there is something to remove, signals wait.
    signal.pthread_sigmask(signal.SIG_BLOCK, ENDING)
    for number in ENDING:
        # What is ignored from the start stays so: SIGHUP under nohup.
        if signal.getsignal(number) != signal.SIG_IGN:
            signal.signal(number, _end)
    demo = Demo(port, is_kept)
    try:
        with until_signal():
            demo.start(places.program(named, is_unproved))
            print(demo.told(), flush=True)
            if with_browser and (why := show_in_browser(demo.server.address)):
                print(f"{why}\n", flush=True)
            print(demo.how_to_end(), flush=True)
            demo.hub.watch()
    finally:
        end = demo.close()
        if demo.is_made:
            print(f"\niodef-hub-demo: {end}", file=sys.stderr)
