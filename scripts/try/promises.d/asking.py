"""What the parts of scripts/try/promises share: a check, and what a machine lacks."""

from __future__ import annotations

import os
import pathlib
import shutil
import subprocess
import typing
from collections.abc import Callable, Iterator

TOP = pathlib.Path(__file__).resolve().parent.parent.parent.parent
DEPLOY = TOP / "deploy"


class Check(typing.NamedTuple):
    """What is promised, and what is found in its place; nothing if it is kept."""

    promise: str
    wrong: str = ""


Checks = Iterator[Check]


class Missing(Exception):
    """What this machine lacks for a part."""


def same(promise: str, wanted: object, found: object) -> Check:
    return Check(promise, "" if wanted == found else f"wanted {wanted!r}, found {found!r}")


def compared(promise: str, wanted: dict[str, str], found: dict[str, str]) -> Check:
    """Two tables, by their rows that differ."""
    rows = [f"{name} is {found.get(name)!r}, not {wanted.get(name)!r}" for name in sorted({*wanted, *found}) if wanted.get(name) != found.get(name)]
    return Check(promise, "; ".join(rows))


def repeated(part: Callable[[], Checks], times: int = 3) -> list[Check]:
    """The checks of a part that measures time, which a busy machine may disturb: it is asked again until all are kept."""
    told = list(part())
    while any(each.wrong for each in told) and times > 1:
        told, times = list(part()), times - 1
    return told


def program(name: str, package: str) -> str:
    """The whole path of a program of Debian's."""
    found = shutil.which(name, path=f"{os.environ.get('PATH', '')}:/usr/sbin:/sbin")
    if found is None:
        raise Missing(f"there is no {name}, which is in Debian's {package}")
    return found


def run(*words: object, **more: typing.Any) -> subprocess.CompletedProcess[str]:
    """Runs a command to its end, with what it prints."""
    kept = {"capture_output": True, "text": True, "timeout": 600, "stdin": subprocess.DEVNULL} | more
    if "input" in more:
        del kept["stdin"]
    return subprocess.run([str(word) for word in words], **kept)
