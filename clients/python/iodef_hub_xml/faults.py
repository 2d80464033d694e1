"""What ends a conversion, and what it notes on the way."""
from __future__ import annotations

from collections.abc import Iterator
from dataclasses import dataclass, field

MOST_PLACES, MOST_NAMES = 20, 100  # that are named; the others are counted
LONGEST = 300  # characters of a name or a place that is told


def shortened(text: str) -> str:
    """A text that may be the input's, of a length that a reader bears."""
    return text if len(text) <= LONGEST else text[: LONGEST // 2] + " .. " + text[-LONGEST // 2 :]


class Unfit(Exception):
    """What can't be converted: the fault's name, the reason, and its place, which is empty if the whole text is at fault."""

    def __init__(self, name: str, reason: str, place: str = "") -> None:
        super().__init__(f"{name}: {shortened(reason)}" + (f": {shortened(place)}" if place else ""))
        self.name, self.place = name, place


class Missing(Exception):
    """A module of Python that isn't installed."""


@dataclass
class Notes:
    """What isn't carried, by its name, and what is written otherwise, each with its places."""

    left_out: dict[str, Places] = field(default_factory=dict)
    as_texts: Places = field(default_factory=lambda: Places())

    def leave_out(self, name: str, place: str) -> None:
        self.left_out.setdefault(shortened(name), Places()).add(place)

    def lines(self) -> Iterator[str]:
        if self.as_texts.count:
            yield f"written as texts: {self.as_texts.count} numbers that aren't whole: {self.as_texts}"
        for name, places in sorted(self.left_out.items())[:MOST_NAMES]:
            yield f"left out: {places.count} {name}: {places}"
        if (more := len(self.left_out) - MOST_NAMES) > 0:
            yield f"left out: what has {more} more names"


@dataclass
class Places:
    """How many there are, and the first of them."""

    count: int = 0
    first: list[str] = field(default_factory=list)

    def add(self, place: str) -> None:
        self.count += 1
        if len(self.first) < MOST_PLACES:
            self.first.append(shortened(place))

    def __str__(self) -> str:
        more = self.count - len(self.first)
        return ", ".join(self.first) + (f" and {more} more" if more else "")
