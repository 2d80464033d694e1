"""What the command reads of its words, its environment and its files."""
from __future__ import annotations

import argparse
import datetime
import pathlib
import sys
from collections.abc import Mapping

from iodef_hub import LAST_NUMBER, Gate, Place

from .telling import Usage

LAST_MOMENT = datetime.datetime(9999, 12, 30, 22, tzinfo=datetime.timezone.utc)


def key_of(environment: Mapping[str, str]) -> str:
    """The key: the first line of the file that IODEF_HUB_KEY_FILE names, else what IODEF_HUB_KEY holds."""
    if name := environment.get("IODEF_HUB_KEY_FILE"):
        lines = pathlib.Path(name).read_text("ascii").splitlines()
        return lines[0] if lines else ""
    if key := environment.get("IODEF_HUB_KEY"):
        return key
    raise Usage("no key is given: set IODEF_HUB_KEY, or IODEF_HUB_KEY_FILE to the name of a file with the key")


def read_file(name: str) -> bytes:
    return sys.stdin.buffer.read() if name == "-" else pathlib.Path(name).read_bytes()


def number(text: str) -> int:
    if not (text.isascii() and text.isdigit()) or int(text) > LAST_NUMBER:
        raise argparse.ArgumentTypeError("it must be a number from 0 to 4294967295")
    return int(text)


def place(text: str) -> Place:
    """An incident's number, or HUB/NUMBER. The hub of a number alone is 0."""
    hub, slash, rest = text.rpartition("/")
    found = Place(number(hub) if slash else 0, number(rest))
    if slash and not found.hub:
        raise argparse.ArgumentTypeError("hubs are counted from 1, as in 1/17")
    return found


def gate(text: str) -> Gate:
    parts = text.split(":", 2)
    if len(parts) != 3:
        raise argparse.ArgumentTypeError("a gate must be LEVEL:GROUP:POINTER")
    return Gate(number(parts[0]), number(parts[1]), parts[2])


def moment(text: str) -> str:
    """A moment as the hub reads it. A date alone is the beginning of that day. Without an offset it is in this machine's time zone."""
    try:
        read = datetime.datetime.fromisoformat(text)
        read = read if read.tzinfo else read.astimezone()
        offset = read.utcoffset() or datetime.timedelta()
    except (ValueError, OverflowError, OSError):
        raise argparse.ArgumentTypeError(
            f"{text!r} is not a moment; give 2026-12-31 (the beginning of that day) or 2026-12-31T18:00, both in this machine's time zone, or"
            " with an offset 2026-12-31T18:00:00+01:00 or 2026-12-31T17:00:00Z"
        ) from None
    if read.microsecond or offset % datetime.timedelta(minutes=1):
        raise argparse.ArgumentTypeError(f"{text!r} has a fraction of a second, or an offset with seconds")
    if read > LAST_MOMENT:
        raise argparse.ArgumentTypeError(
            f"{text!r} is after the last moment that the hub accepts, 9999-12-30T22:00:00Z; leave out --until for a permission without an end")
    return read.isoformat()
