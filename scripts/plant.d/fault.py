"""A fault: a change of one place of a file, by an operator. Each module `of_KIND.py` finds those of one kind of file."""
from __future__ import annotations

import difflib
import hashlib
import re
from collections.abc import Callable, Iterable, Iterator
from dataclasses import dataclass

# Comparisons, each with the one that it turns into.
TURNED = {
    "==": "!=", "!=": "==", "===": "!==", "!==": "===", "<": "<=", "<=": "<", ">": ">=", ">=": ">",
    "in": "not in", "not in": "in", "is": "is not", "is not": "is",
    "-lt": "-le", "-le": "-lt", "-gt": "-ge", "-ge": "-gt", "-eq": "-ne", "-ne": "-eq", "-n": "-z", "-z": "-n", "=": "!=", "=~": "!=",
}  # fmt: skip
SWITCHES = {"yes": "no", "no": "yes", "on": "off", "off": "on", "true": "false", "false": "true", "True": "False", "False": "True"}


@dataclass(frozen=True)
class Change:
    """The bytes from `start` to `end` of a file become others."""

    operator: str
    start: int
    end: int
    new: str


# An operator, what it finds, and what comes in its place.
Rule = tuple[str, re.Pattern[str], Callable[[re.Match[str]], str]]


@dataclass(frozen=True)
class Fault:
    """A change in a file, with the line at which it begins."""

    path: str
    line: int
    change: Change
    diff: str

    @property
    def name(self) -> str:
        """The same for the same change of the same lines, wherever in the file they are."""
        return hashlib.sha256(f"{self.path}\0{self.change.operator}\0{self.diff}".encode()).hexdigest()[:12]


def changed(text: bytes, change: Change) -> bytes:
    return text[: change.start] + change.new.encode() + text[change.end :]


def fault_of(path: str, text: bytes, change: Change) -> Fault:
    """The fault, with its diff without heads and without lines around it."""
    line = text.count(b"\n", 0, change.start) + 1
    before, after = (it.decode(errors="replace").splitlines() for it in (text, changed(text, change)))
    diff = "\n".join(list(difflib.unified_diff(before, after, lineterm="", n=0))[3:])
    return Fault(path, line, change, diff)


def turned(found: re.Match[str]) -> str:
    return TURNED[found[0]]


def switched(found: re.Match[str]) -> str:
    return SWITCHES[found[0]]


def other_of(found: re.Match[str]) -> str:
    return other_number(found[0])


def other_number(text: str) -> str:
    """A number that is a little more, if the number is a small one; and otherwise ten times the number."""
    value = int(text)
    return str(value + 1) if value < 10 else str(value * 10)


def by_rules(rules: Iterable[Rule], text: str) -> Iterator[Change]:
    """Of each rule a change of each place that its pattern finds."""
    for operator, pattern, new in rules:
        yield from (Change(operator, it.start(), it.end(), new(it)) for it in pattern.finditer(text))


def shifted(changes: Iterable[Change], by: int) -> Iterator[Change]:
    """The changes of a part that begins there."""
    return (Change(it.operator, by + it.start, by + it.end, it.new) for it in changes)
