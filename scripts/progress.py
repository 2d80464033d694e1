#!/usr/bin/env python3
"""Says on standard error how long a script takes when it begins, and every ten seconds how far it is.

A script in Python calls `say`. A script in bash starts this file in the background, and ends it when it ends:

    scripts/progress.py MINUTES SCRIPT FILE

SCRIPT is one of scripts/try, and FILE is where a line `ok: ..` or `FAILED: ..` appears for each of its checks.
Minutes are those of a run on four processors. The number of a script's checks is that of its last whole run, by bench/runs.jsonl.
"""
from __future__ import annotations

import contextlib
import json
import os
import pathlib
import re
import sys
import threading
import time
from collections.abc import Callable

RUNS = pathlib.Path(__file__).resolve().parent.parent / "bench" / "runs.jsonl"
SECONDS_BETWEEN = 10


def checks_of(script: str) -> int:
    """How many checks the last whole run of this script of scripts/try had, or 0 if none is kept."""
    kept = [json.loads(it) for it in RUNS.read_text().splitlines()]
    counts = [it.get("passed", 0) + it.get("failed", 0) for it in kept if it["run"].split()[0] == f"scripts/try/{script}"]
    return max(counts, default=0)


def length(minutes: float) -> str:
    if minutes < 1:
        return f"about {round(minutes * 60)} seconds"
    return "about a minute" if minutes < 1.5 else f"about {minutes:.0f} minutes"


def say(minutes: float, done: Callable[[], int] | None = None, count: int = 0, of: str = "checks", also: str = "") -> None:
    """Says how many minutes a run takes and how many of what it does (of an unknown number where `count` is 0); and then, by
    `done`, how many are done, until the script ends. `also` is what else is said at the start."""
    begun = time.monotonic()
    whole = f"about {count:,} {of}" if count else of
    usual = length(minutes)

    def how_far() -> str:
        spent = f"{(time.monotonic() - begun) / 60:.1f} minutes"
        if done is None:
            return f"{spent} of {usual}"
        return f"{done():,} {'of ' if count else ''}{whole} after {spent}"

    def repeat() -> None:
        while True:
            time.sleep(SECONDS_BETWEEN)
            write(how_far())

    write(usual + (f", {whole}" if count else "") + (f"; {also}" if also else ""))
    threading.Thread(target=repeat, daemon=True).start()


def write(line: str) -> None:
    # By one call of the system, as the script may end within it.
    with contextlib.suppress(OSError):
        os.write(2, f"{line}\n".encode())


def main() -> None:
    if len(sys.argv) != 4:
        sys.exit(__doc__)
    minutes, script, file = float(sys.argv[1]), sys.argv[2], pathlib.Path(sys.argv[3])

    def done() -> int:
        return len(re.findall(r"^(?:ok|FAILED): ", file.read_text(), re.M)) if file.exists() else 0

    say(minutes, done, checks_of(script))
    threading.Event().wait()


if __name__ == "__main__":
    main()
