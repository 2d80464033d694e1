"""What a section of scripts/try/exchange is given. A section is a module with a text SECTION and a function

    def checks(context: Context) -> Iterator[tuple[bool, str]]

that yields for each check whether it holds and what it is; if it doesn't hold, the text has what was found and what is wanted.
"""
from __future__ import annotations

import contextlib
import pathlib
from collections.abc import Iterator
from dataclasses import dataclass


@dataclass(frozen=True)
class Context:
    """`program` is the built iodef-hub; without one, the checks that need a running hub are left out. `next(ports)` is a port that
    no other server of this run has. `redact` is the built iodef-redact, if there is one."""

    folder: pathlib.Path
    program: str | None
    ports: Iterator[int]
    count: int
    seed: int
    redact: str | None = None


class NotTaken(Exception):
    """A conversion fails where it must not, which is a failed check, and ends the section."""


@contextlib.contextmanager
def taken(what: str) -> Iterator[None]:
    """A conversion of what a case has, which must not fail."""
    try:
        yield
    except Exception as fault:
        raise NotTaken(f"{what} is converted: {type(fault).__name__}: {fault}") from fault


def same(what: str, got: object, wanted: object = True) -> tuple[bool, str]:
    """A check that two values are the same."""
    return got == wanted, what if got == wanted else f"{what}:\n  {got!r}\n  wanted {wanted!r}"
