"""Files of partners and words that are refused with a named fault and its place, before anything is sent."""
from __future__ import annotations

import json
import pathlib
import re
import subprocess
import sys
from collections.abc import Iterator

from .context import Context, same
from .mail_command import COMMAND, Mailer
from .mail_server import running

CASES = pathlib.Path(__file__).with_name("mail_bad.txt")
RECIPIENTS = '[{"address": "a@x.example", "clearance": "GREEN"}]'
DEEP = b'{"recipients": ' + b"[" * 200_000


def cases() -> Iterator[tuple[str, str, bytes]]:
    """The fault, its place and the file."""
    for line in CASES.read_text().splitlines()[1:]:
        name, place, text = (each.strip() for each in line.split("|", 2))
        yield name, place, text.replace("RECIPIENTS", RECIPIENTS).replace("LONG", "l" * 101).encode()
    yield "NotJson", "", DEEP
    yield "NotJson", "", b'{"recipients": "\xff"}'
    yield "OutOfRange", "/recipients", json.dumps({"recipients": [{}] * 1_001}).encode()


def clearances(mailer: Mailer, file: pathlib.Path) -> Iterator[tuple[bool, str]]:
    """The clearances of docs/REDACT.md are named by the fault, --help and the man page."""
    names = ["CLEAR", "GREEN", "AMBER", "STRICT", "RED", "TLP:CLEAR", "TLP:WHITE", *(f"TLP:{name}" for name in ("GREEN", "AMBER"))]
    names += ["TLP:AMBER+STRICT", "TLP:RED"]
    file.write_text('{"recipients": [{"address": "a@x.example", "clearance": "AMBER+STRICT"}]}')
    for where, text in (
        ("the fault of another one", mailer.run().said[0]),
        ("--help", subprocess.run([sys.executable, COMMAND, "--help"], capture_output=True, text=True).stdout),
        ("the man page", COMMAND.with_name("iodef-redact-mail.1").read_text()),
    ):
        yield same(f"{where} names each clearance", sorted(set(names) - set(re.split(r"[ ,:\n]*[ ,\n]|\.\n", text))), [])


def checks(context: Context) -> Iterator[tuple[bool, str]]:
    with running(next(context.ports)) as server:
        folder = context.folder / "bad"
        folder.mkdir()
        mailer = Mailer(folder, server.port)
        mailer.give(b"{}")
        file = folder / "partners.json"
        for name, place, text in cases():
            file.write_bytes(text)
            ran = mailer.run("--send", "--port", str(server.port))
            # The fault is said in one line of printed characters, which ends with its place.
            (line,) = ran.said or [""]
            is_named = line.startswith(f"iodef-redact-mail: refused: {file}: {name}: ") and line.endswith(f": {place}" if place else line)
            found = ran.status, is_named and line.isprintable() and line.isascii(), ran.table, (folder / "sent.jsonl").exists()
            yield same(f"partners: {name} at {place or 'the root'}: {text[:110]!r}: {line}", found, (1, True, [], False))
        yield same("the mail server was asked nothing", (server.taken(), server.lines), ([], []))
        yield from clearances(mailer, file)
        file.write_text('{"from": {"address": "a@x.example"}, "recipients": %s}' % RECIPIENTS)
        for words, status in (
            (("--from", "a@x.example\nBcc: b@x.example"), 1),
            (("--host", "a b"), 1),
            (("--port", "0"), 1),
            (("--id", "7"), 2),
            (("--incident", "-1"), 2),
            (("--tls", "maybe"), 2),
        ):
            ran = mailer.run("--send", *words)
            yield same(f"the words {' '.join(words)!r} are refused", (ran.status, ran.table, server.lines), (status, [], []))
        ran = mailer.run("--send")
        yield same("and an engine that isn't there", (ran.status, ran.table, server.lines), (2, [], []))
