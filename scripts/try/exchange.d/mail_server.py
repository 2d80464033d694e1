"""A mail server for trials: it keeps what it is sent, and does to some recipients' messages what a trial wants."""
from __future__ import annotations

import contextlib
import re
import socket
import ssl
import threading
import time
from collections.abc import Iterator
from dataclasses import dataclass, field

# What becomes of a message: a reply to RCPT, DATA or the message, or how the connection ends.
TAKEN, REFUSED_TO, REFUSED_DATA, REFUSED_MESSAGE, CUT, KEPT_AND_CUT, NO_ANSWER, SLOW = range(8)

SECONDS_SLOW = 2  # before a slow answer


@dataclass(frozen=True)
class Kept:
    """A message that the server got whole, with its envelope."""

    sender: str
    to: str
    text: bytes


@dataclass
class Server:
    """`ways` says what becomes of a recipient's messages. `kept` are those that it took. `began` is set once a message has come that
    it gives no answer to."""

    port: int
    tls: ssl.SSLContext | None = None
    ways: dict[str, int] = field(default_factory=dict)
    kept: list[Kept] = field(default_factory=list)
    began: threading.Event = field(default_factory=threading.Event)
    lines: list[str] = field(default_factory=list)

    def taken(self) -> list[Kept]:
        """What has come since this was last asked."""
        found, self.kept = self.kept, []
        return found

    def serve(self, listener: socket.socket) -> None:
        while True:
            try:
                opened, _ = listener.accept()
            except OSError:
                return
            threading.Thread(target=self.talk, args=(opened,), daemon=True).start()

    def talk(self, opened: socket.socket) -> None:
        with contextlib.suppress(OSError), contextlib.closing(opened):
            opened.settimeout(60)
            Session(self, opened).run()


class Session:
    """One connection."""

    def __init__(self, server: Server, opened: socket.socket) -> None:
        self.server, self.opened = server, opened
        self.file = opened.makefile("rb")
        self.sender = self.to = ""

    def say(self, text: str) -> None:
        self.opened.sendall(text.encode() + b"\r\n")

    def run(self) -> None:
        self.say("220 trial")
        # The file is another one behind STARTTLS.
        while line := self.file.readline():
            words = line.decode("latin-1").rstrip("\r\n")
            self.server.lines.append(words)
            verb = words.split(" ")[0].upper()
            if verb == "QUIT":
                return self.say("221 bye")
            if verb == "STARTTLS" and self.server.tls is not None:
                self.say("220 go on")
                self.opened = self.server.tls.wrap_socket(self.opened, server_side=True)
                self.file = self.opened.makefile("rb")
            elif verb == "DATA":
                if not self.data():
                    return
            else:
                self.say(self.answer(verb, words))

    def answer(self, verb: str, words: str) -> str:
        found = re.search(r"<([^>]*)>", words)
        if verb == "EHLO":
            return "250-trial\r\n250-STARTTLS\r\n250 SIZE" if self.server.tls is not None else "250 SIZE"
        if verb == "MAIL" and found:
            self.sender = found[1]
        elif verb == "RCPT" and found:
            self.to = found[1]
            return "550 nobody\x1b[2J" if self.way() == REFUSED_TO else "250 ok"
        return "250 ok"

    def way(self) -> int:
        return self.server.ways.get(self.to, TAKEN)

    def data(self) -> bool:
        """Reads a message, and answers. Whether the connection goes on."""
        if self.way() == REFUSED_DATA:
            self.say("451 later")
            return True
        self.say("354 go on")
        lines = []
        for line in iter(self.file.readline, b".\r\n"):
            if not line:
                return False
            lines.append(line[1:] if line.startswith(b".") else line)
        if self.way() == SLOW:
            time.sleep(SECONDS_SLOW)
        if self.way() in (TAKEN, SLOW, KEPT_AND_CUT):
            self.server.kept.append(Kept(self.sender, self.to, b"".join(lines)))
        if self.way() == NO_ANSWER:
            self.server.began.set()
            self.file.readline()
        if self.way() in (CUT, KEPT_AND_CUT, NO_ANSWER):
            return False
        # A server may repeat the message in its answer.
        self.say("554 " + b"".join(lines).decode("latin-1").replace("\r\n", " ")[-300:] if self.way() == REFUSED_MESSAGE else "250 taken")
        return True


@contextlib.contextmanager
def running(port: int, tls: ssl.SSLContext | None = None) -> Iterator[Server]:
    with socket.create_server(("127.0.0.1", port)) as listener:
        server = Server(port, tls)
        threading.Thread(target=server.serve, args=(listener,), daemon=True).start()
        try:
            yield server
        finally:
            with contextlib.suppress(OSError):
                listener.shutdown(socket.SHUT_RDWR)
