"""What the proved engine says of a report: the library libiodef_redact, or the program iodef-redact."""
from __future__ import annotations

import json
import os
import pathlib
import re
import shutil
import subprocess
import tempfile
from dataclasses import dataclass
from typing import Any, Protocol

import iodef_redact

from .faults import Unusable
from .partners import LABELS

PROGRAM = "iodef-redact"
FAULT = re.compile(r"[A-Z][A-Za-z0-9]*")  # the first line of a fault is its name alone


class Refused(Exception):
    """The engine has no answer: the fault's name, and its reason with the place."""

    def __init__(self, name: str, reason: str) -> None:
        super().__init__(f"{name}: {reason}")
        self.name, self.reason = name, reason


@dataclass(frozen=True)
class Identifier:
    """The IncidentID for an excerpt whose own one is withheld."""

    name: str
    id: str


@dataclass(frozen=True)
class Seen:
    """How many classes a reader sees, and their highest label."""

    classes: int
    label: str


class Engine(Protocol):
    """Each call raises Refused if the engine has no answer."""

    def excerpt(self, view: bytes) -> bytes: ...

    def whole(self, view: bytes, identifier: Identifier | None) -> bytes: ...

    def marks(self, incident: int) -> bytes: ...


class Library:
    """The library, by its module for Python."""

    def __init__(self, report: bytes) -> None:
        self.report = report

    def excerpt(self, view: bytes) -> bytes:
        try:
            return iodef_redact.excerpt(self.report, iodef_redact.View(view)).text
        except iodef_redact.Fault as fault:
            raise refused(fault) from None

    def whole(self, view: bytes, identifier: Identifier | None) -> bytes:
        given = iodef_redact.Identifier(identifier.name, identifier.id) if identifier else None
        try:
            return iodef_redact.whole(self.report, iodef_redact.View(view), identifier=given)
        except iodef_redact.Fault as fault:
            raise refused(fault) from None

    def marks(self, incident: int) -> bytes:
        try:
            return iodef_redact.marks(self.report, incident).encode()
        except iodef_redact.Fault as fault:
            raise refused(fault) from None


def refused(fault: iodef_redact.Fault) -> Refused:
    return Refused(type(fault).__name__, str(fault))


class Program:
    """The program, started for each call."""

    def __init__(self, program: str, report: bytes) -> None:
        self.program, self.report = program, report

    def excerpt(self, view: bytes) -> bytes:
        return self.for_view(view)

    def whole(self, view: bytes, identifier: Identifier | None) -> bytes:
        return self.for_view(view, "--whole", *(["--id", identifier.id, "--id-name", identifier.name] if identifier else []))

    def marks(self, incident: int) -> bytes:
        return self.ran("marks", "--incident", str(incident))

    def for_view(self, view: bytes, *words: str) -> bytes:
        with tempfile.TemporaryDirectory() as name:
            file = pathlib.Path(name) / "view.json"
            file.write_bytes(view)
            return self.ran("excerpt", "--for", str(file), *words)

    def ran(self, *words: str) -> bytes:
        try:
            ran = subprocess.run([self.program, *words], input=self.report, capture_output=True)
        except (OSError, ValueError) as fault:
            raise Unusable(f"{self.program} can't be run: {fault}") from None
        if ran.returncode == 0:
            return ran.stdout
        said = [line for line in ran.stderr.decode(errors="replace").splitlines() if line.strip()]
        at = next((at for at, line in enumerate(said) if FAULT.fullmatch(line)), None)
        if ran.returncode == 1 and at is not None:
            raise Refused(said[at], " ".join(said[at + 1 :]))
        raise Unusable(f"{self.program} ended with status {ran.returncode}: {' '.join(said)}")


def engine_for(report: bytes, program: str | None) -> Engine:
    """The program that the words or IODEF_REDACT name; else the library, if there is one; else the program on the path."""
    if named := program or os.environ.get("IODEF_REDACT"):
        return Program(named, report)
    try:
        iodef_redact.marks(b"")
    except iodef_redact.Fault:
        return Library(report)
    except OSError:
        pass
    if shutil.which(PROGRAM) is None:
        neither = f"neither the library {iodef_redact.LIBRARY} nor the program {PROGRAM} was found"
        raise Unusable(f"{neither}: install one, or name the program with --engine")
    return Program(PROGRAM, report)


def seen_of(text: bytes) -> Seen:
    """What an excerpt is, besides its document. A label that isn't known is a fault of the engine, and nothing is sent by it."""
    value: dict[str, Any] = json.loads(text)
    if value["label"] not in LABELS:
        raise Unusable("the engine gives an unknown label")
    return Seen(int(value["classes"]), value["label"])
