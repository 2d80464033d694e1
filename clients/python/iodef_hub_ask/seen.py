"""The revisions that a person has seen, kept from one run to the next, so that a change is made to what was seen or not at all."""
from __future__ import annotations

import contextlib
import json
import os
import pathlib
from collections.abc import Mapping
from typing import Any

from .kept import alone, write
from .telling import Usage

INCIDENTS = 1000  # of one hub; the ones that were looked at last
TERMINALS = 8  # of one incident


def file_of(environment: Mapping[str, str]) -> pathlib.Path:
    """The file, by the XDG Base Directory Specification."""
    base = pathlib.Path(environment.get("XDG_STATE_HOME") or ".")
    try:
        home = pathlib.Path(environment["HOME"]) if environment.get("HOME") else pathlib.Path.home()
    except RuntimeError:
        raise Usage("the revisions that were seen can't be kept: set HOME or XDG_STATE_HOME") from None
    return (base if base.is_absolute() else home / ".local" / "state") / "iodef-hub-ask" / "seen.json"


def terminal() -> str:
    """The name of the terminal of this run, or nothing if it has none."""
    for descriptor in (2, 0, 1):
        with contextlib.suppress(OSError):
            return os.ttyname(descriptor)
    return ""


Sight = tuple[str, int]  # in which terminal, and which revision


class Seen:
    """What was seen of the incidents of one hub.

    Each terminal has its own revision of an incident: what another terminal has shown since isn't what the person in front of this
    one goes by.
    """

    def __init__(self, hub: str, environment: Mapping[str, str] = os.environ) -> None:
        self.hub, self.file, self.terminal = hub, file_of(environment), terminal()

    def read(self) -> dict[str, dict[str, list[Sight]]]:
        """What was seen, by hub and incident. Raises Usage if the file holds something else."""
        try:
            text = self.file.read_bytes()
        except FileNotFoundError:
            return {}
        try:
            value: dict[str, dict[str, list[Any]]] = json.loads(text)
            return {hub: {number: [(str(where), int(revision)) for where, revision in sights] for number, sights in incidents.items()}
                    for hub, incidents in value.items()}
        except (AttributeError, RecursionError, TypeError, ValueError):
            raise Usage(f"{self.file} doesn't hold the revisions that were seen: remove it, and look at the incident again") from None

    def keep(self, number: int, revision: int) -> None:
        """Keeps that this revision was seen in this terminal."""
        self.file.parent.mkdir(mode=0o700, parents=True, exist_ok=True)
        with alone(self.file):
            value = self.read()
            incidents = value.setdefault(self.hub, {})
            others = [each for each in incidents.pop(str(number), []) if each[0] != self.terminal]
            incidents[str(number)] = [*others[1 - TERMINALS:], (self.terminal, revision)]
            for oldest in list(incidents)[:-INCIDENTS]:
                del incidents[oldest]
            write(self.file, value)

    def revision(self, number: int) -> int | None:
        """The revision that was seen in this terminal, else the one that was seen in each other; None if none was.

        Raises Usage if other terminals have seen several.
        """
        sights = self.read().get(self.hub, {}).get(str(number), [])
        here = [revision for where, revision in sights if where == self.terminal]
        found = here or sorted({revision for _, revision in sights})
        if len(found) > 1:
            raise Usage(f"your terminals have shown the revisions {', '.join(map(str, found))} of incident {number}: look at it in this one,"
                        " or give --revision N")
        return found[0] if found else None
