"""What ends a run, and what ends one recipient's message."""
from __future__ import annotations


class Unfit(Exception):
    """Input that can't be used: the fault's name, the reason, and its place, a JSON pointer, which is empty if all of it is at fault.
    Nothing is sent."""

    def __init__(self, file: str, name: str, reason: str, place: str = "") -> None:
        super().__init__(f"{file}: {name}: {reason}" + (f": {place}" if place else ""))
        self.name, self.place = name, place


class Unusable(Exception):
    """A word, a file, a program or a library that can't be used."""


class Failed(Exception):
    """Why one recipient gets no message: the fault's name and the reason."""

    def __init__(self, name: str, reason: str) -> None:
        super().__init__(f"{name}: {reason}")
        self.name = name
