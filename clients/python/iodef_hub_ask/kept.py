"""Files in which runs keep something for later runs."""
from __future__ import annotations

import contextlib
import json
import os
import pathlib
from collections.abc import Iterator

try:
    import fcntl
except ImportError:  # not on Unix: of two runs at the same moment one may lose what the other keeps
    fcntl = None  # type: ignore[assignment]


@contextlib.contextmanager
def alone(file: pathlib.Path) -> Iterator[None]:
    """While this lasts, no other run that asks for it changes a file of the same folder."""
    if fcntl is None:
        yield
        return
    folder = os.open(file.parent, os.O_RDONLY)
    try:
        fcntl.flock(folder, fcntl.LOCK_EX)
        yield
    finally:
        os.close(folder)


def write(file: pathlib.Path, value: object) -> None:
    """Writes a file for its owner alone, whole or not at all."""
    new = file.with_name(file.name + ".new")
    with os.fdopen(os.open(new, os.O_WRONLY | os.O_CREAT | os.O_TRUNC, 0o600), "w") as opened:
        json.dump(value, opened)
        opened.flush()
        os.fsync(opened.fileno())
    os.replace(new, file)
