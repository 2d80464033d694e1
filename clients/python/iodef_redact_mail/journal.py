"""What was sent: a file of lines, each durable before the next message."""
from __future__ import annotations

import fcntl
import json
import os
import pathlib
from dataclasses import asdict, dataclass

from .faults import Unfit, Unusable
from .partners import same_address

SENDING, SENT, REFUSED = "sending", "sent", "refused"


@dataclass(frozen=True)
class Entry:
    """A message at one moment. It was begun (`sending`), and then taken (`sent`) or surely not taken (`refused`). `report`, `view`
    and `excerpt` are SHA-256 digests; `message` is the Message-ID; `key` is the fingerprint that it was encrypted for."""

    at: str
    what: str
    to: str
    clearance: str
    incident: int
    label: str
    report: str
    view: str
    excerpt: str
    message: str
    key: str | None

    def same(self) -> tuple[str, str, str, int]:
        """What two messages have in common of which only one is sent."""
        return same_address(self.to), self.clearance, self.report, self.incident

    def line(self) -> bytes:
        return json.dumps(asdict(self), separators=(",", ":")).encode() + b"\n"


NAMES = tuple(Entry.__dataclass_fields__)


def entry_of(line: bytes) -> Entry | None:
    try:
        value = json.loads(line)
    except (ValueError, RecursionError):
        return None
    if not isinstance(value, dict) or tuple(sorted(value)) != tuple(sorted(NAMES)) or value["what"] not in (SENDING, SENT, REFUSED):
        return None
    texts = [value[name] for name in NAMES if name not in ("incident", "key")]
    is_right = all(isinstance(each, str) for each in texts) and type(value["incident"]) is int and isinstance(value["key"], str | None)
    return Entry(**value) if is_right else None


def folder_of_states() -> pathlib.Path:
    kept = os.environ.get("XDG_STATE_HOME", "")
    return (pathlib.Path(kept) if os.path.isabs(kept) else pathlib.Path.home() / ".local/state") / "iodef-redact-mail"


class Journal:
    """The file and its entries: of each message the last. A run that sends holds the file alone, and adds to it."""

    def __init__(self, file: pathlib.Path, is_sending: bool) -> None:
        self.file = file
        self.last: dict[tuple[str, str, str, int], Entry] = {}
        self.torn = 0
        self.opened: int | None = None
        if is_sending:
            self.opened = self.held()
        text = self.read()
        whole = text[: text.rfind(b"\n") + 1]
        for number, line in enumerate(whole.splitlines(), 1):
            entry = entry_of(line)
            if entry is None:
                raise Unfit(str(file), "BadState", f"line {number} is no entry of this command")
            self.last[entry.same()] = entry
        self.cut_off(len(whole), len(text))

    def held(self) -> int:
        """The file, which no other run has. A new one is durable in its folder."""
        self.file.parent.mkdir(parents=True, exist_ok=True, mode=0o700)
        opened = os.open(self.file, os.O_RDWR | os.O_APPEND | os.O_CREAT | os.O_CLOEXEC, 0o600)
        try:
            fcntl.flock(opened, fcntl.LOCK_EX | fcntl.LOCK_NB)
        except BlockingIOError:
            raise Unusable(f"{self.file}: another run is sending by it") from None
        folder = os.open(self.file.parent, os.O_RDONLY)
        try:
            os.fsync(folder)
        finally:
            os.close(folder)
        return opened

    def read(self) -> bytes:
        try:
            return self.file.read_bytes()
        except FileNotFoundError:
            return b""

    def cut_off(self, whole: int, length: int) -> None:
        """Removes a line that was cut while it was written. Its message wasn't begun, or is the one of the entry before it."""
        self.torn = length - whole
        if self.torn and self.opened is not None:
            os.ftruncate(self.opened, whole)
            os.fsync(self.opened)

    def add(self, entry: Entry) -> None:
        """Adds an entry, durably. Raises OSError if it can't."""
        assert self.opened is not None
        line = entry.line()
        if os.write(self.opened, line) != len(line):
            raise OSError("the line was written in part")
        os.fsync(self.opened)
        self.last[entry.same()] = entry
