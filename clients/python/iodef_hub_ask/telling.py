"""What the command prints: results, notes, and names beside numbers."""
from __future__ import annotations

import argparse
import json
import pathlib
import sys
from collections.abc import Callable, Mapping
from typing import Any

from iodef_hub import PAGE, Entry, Hub

from .characters import shown


class Usage(Exception):
    """Words or a file that the command can't use."""


class Undone(Exception):
    """Why something wasn't done, though the words can be used."""


class Unseen(Undone):
    """A reader would get nothing of a report."""


class Unchanged(Undone):
    """A change that wasn't made, as what was seen isn't there any more, or as the answer to a question wasn't yes."""


def note(text: str) -> None:
    """Prints a line on standard error that isn't a fault."""
    print(text, file=sys.stderr, flush=True)


def warn(text: str) -> None:
    note(f"iodef-hub-ask: {text}")


KIND_WORDS = {"person": "person", "org": "organisation", "community": "community", "group": "group"}
MEMBERS = {"person": "persons", "org": "orgs", "community": "communities", "group": "groups"}  # of names.json


class Names:
    """Names for numbers, of a file that iodef-hub-directory --names wrote."""

    def __init__(self, value: Mapping[str, Any]) -> None:
        self.value = value

    def __call__(self, kind: str, number: int) -> str:
        """`organisation 3 (Telco)`, or without the name if the file has none."""
        names = self.value.get(MEMBERS[kind])
        name = names.get(str(number)) if isinstance(names, dict) else None
        return f"{KIND_WORDS[kind]} {number}" + (f" ({shown(name)})" if isinstance(name, str) else "")

    def learn(self, kind: str, found: Mapping[str, str]) -> None:
        """Takes up names for numbers that have none."""
        known = self.value.get(MEMBERS[kind])
        self.value = {**self.value, MEMBERS[kind]: {**found, **(known if isinstance(known, dict) else {})}}


def names_of(file: str) -> Names:
    """The names in a file; without a file there are none."""
    if not file:
        return Names({})
    try:
        value = json.loads(pathlib.Path(file).read_bytes())
    except (OSError, ValueError, RecursionError) as fault:
        raise argparse.ArgumentTypeError(f"{file} can't be read: {fault}") from None
    if not isinstance(value, dict):
        raise argparse.ArgumentTypeError(f"{file} isn't a file of iodef-hub-directory --names")
    return Names(value)


class Teller:
    """Prints results: lines for people, or with --json the hub's own answers, one per line.

    If several hubs are asked, `at` is the number of this one. Each line then begins with `before`, and an answer has a member `hub`.
    """

    def __init__(self, hub: Hub, is_json: bool, at: int = 0, before: str = "") -> None:
        self.hub, self.is_json, self.at, self.before = hub, is_json, at, before
        self.told: list[str] = []

    def answer(self) -> bytes:
        return b'{"hub":%d,' % self.at + self.hub.heard.lstrip()[1:] if self.at else self.hub.heard

    def tell(self, *lines: str) -> None:
        sys.stdout.flush()
        self.told += lines
        text = "".join(f"{self.before}{line}\n" for line in lines)
        sys.stdout.buffer.write(self.answer() + b"\n" if self.is_json else text.encode(errors="backslashreplace"))
        sys.stdout.buffer.flush()

    def tell_change(self, answer: bytes, line: str) -> None:
        """Prints what is so after a change: a line, or with --json the hub's answer to it, and the line on standard error."""
        self.hub.heard = answer
        self.tell(line)
        if self.is_json:
            note(line)

    def pages(self, page: Callable[[int], tuple[Entry, ...]]) -> None:
        """Prints all pages, with --json one answer per line."""
        after = 0
        while True:
            found = page(after)
            self.tell(*map(entry_line, found))
            if len(found) < PAGE or found[-1].number <= after:
                return
            after = found[-1].number


def entry_line(entry: Entry) -> str:
    return f"{entry.number}\tr{entry.revision}\torg {entry.source}"
