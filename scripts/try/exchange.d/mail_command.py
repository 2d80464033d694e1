"""How a trial runs iodef-redact-mail and iodef-redact, and what it looks at in a message."""
from __future__ import annotations

import email
import email.policy
import json
import os
import pathlib
import subprocess
import sys
from collections.abc import Callable
from dataclasses import dataclass, field
from email.message import EmailMessage
from typing import Any

from common import TOP

from .mail_keys import Ring
from .mail_server import Kept

COMMAND = TOP / "clients" / "python" / "iodef-redact-mail"
NOW = "2026-11-30T00:00:00Z"
IDENTIFIER = ("--id", "77", "--id-name", "sender.example")
SENDER = "cert@sender.example"


@dataclass(frozen=True)
class Ran:
    status: int
    table: list[list[str]]
    said: list[str]

    def states(self) -> dict[str, str]:
        """The last column, by the recipient."""
        return {row[0]: " ".join(row[6:]) for row in self.table[1:]}


@dataclass
class Mailer:
    """The command with a folder of its own, a program that redacts and a mail server's port."""

    folder: pathlib.Path
    port: int
    redact: str = "/nowhere"
    ring: Ring | None = None
    variables: dict[str, str] = field(default_factory=dict)

    def words(self, *more: str) -> list[str]:
        state = ("--state", str(self.folder / "sent.jsonl"), "--now", NOW)
        return [sys.executable, str(COMMAND), "--to", str(self.folder / "partners.json"), *state, *more, str(self.folder / "report.json")]

    def environment(self) -> dict[str, str]:
        kept = {**os.environ, "IODEF_REDACT": self.redact, "HOME": str(self.folder), **self.variables}
        return {**kept, "GNUPGHOME": str(self.ring.folder)} if self.ring else kept

    def give(self, report: bytes, *recipients: dict[str, Any]) -> None:
        """Writes the report and the partners."""
        (self.folder / "report.json").write_bytes(report)
        sender = {"address": SENDER, "name": "Our CERT"}
        smtp = {"host": "127.0.0.1", "port": self.port}
        (self.folder / "partners.json").write_text(json.dumps({"from": sender, "smtp": smtp, "recipients": recipients}))

    def run(self, *more: str, limit: Callable[[], None] | None = None) -> Ran:
        ran = subprocess.run(self.words(*more), capture_output=True, text=True, env=self.environment(), preexec_fn=limit, timeout=200)
        rows = [line.split() for line in ran.stdout.splitlines()]
        return Ran(ran.returncode, rows, ran.stderr.splitlines())

    def excerpt(self, clearance: str, *more: str) -> bytes:
        """What iodef-redact gives for a clearance, a report again."""
        words = [self.redact, "excerpt", "--clearance", clearance, "--whole", "--now", NOW, *IDENTIFIER, *more]
        return subprocess.run(words, input=(self.folder / "report.json").read_bytes(), capture_output=True, check=True).stdout


def parsed(text: bytes) -> EmailMessage:
    found = email.message_from_bytes(text, policy=email.policy.SMTP)
    assert isinstance(found, EmailMessage)
    return found


def is_sound(text: bytes) -> bool:
    """Whether any mail server takes a message: ASCII in lines that end as those of SMTP do, and are no longer."""
    lines = text.split(b"\r\n")
    return text.isascii() and not any(b"\n" in line or b"\r" in line or len(line) > 998 for line in lines)


def opened(kept: Kept, ring: Ring | None) -> EmailMessage:
    """The part of a message with text and excerpt, decrypted if it is encrypted."""
    outer = parsed(kept.text)
    if outer.get_content_type() != "multipart/encrypted":
        return outer
    assert ring is not None
    return parsed(ring.gpg("--decrypt", given=armor(outer)))


def armor(outer: EmailMessage) -> bytes:
    """The encrypted part of PGP/MIME."""
    _, text = outer.iter_parts()
    found = text.get_payload(decode=True)
    assert isinstance(found, bytes)
    return found


def attached(message: EmailMessage) -> list[bytes]:
    found = [each.get_payload(decode=True) for each in message.iter_attachments()]
    return [each for each in found if isinstance(each, bytes)]


def all_of(kept: Kept, ring: Ring | None) -> bytes:
    """All texts of a message: as it was sent, and each part decoded."""
    texts = [kept.text]
    for part in opened(kept, ring).walk():
        found = part.get_payload(decode=True)
        texts += [found] if isinstance(found, bytes) else []
    return b"\n".join(texts)
