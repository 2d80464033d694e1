"""Which sections of scripts/try/page can tell a fault of the page: those that ran its place, the one first that comes to it first."""
from __future__ import annotations

import json
import pathlib
import re
import time
from typing import Any

from fault import Fault
from trying import ROOM, Answer, Check, Known, Tree, all_checks, ran

PAGE = "web/index.html"
# A whole run takes three minutes on a machine that has nothing else to do.
MOST_SECONDS = 7200
SCRIPT = re.compile(rb"<script[^>]*>(.*?)</script>", re.S)


def whole() -> Check:
    """All sections."""
    return next(it for it in all_checks() if it.words.startswith("page "))


def of_section(name: str) -> Check:
    return Check(f"{whole().words} --only {name}", whole().paths, False)


class Sections:
    """What a whole run without a fault ran of the page's script. What it told is known of its first section, which begins as it does alone."""

    def __init__(self, programs: dict[str, str], tree: Tree, known: Known) -> None:
        script = SCRIPT.search((tree.folder / PAGE).read_bytes())
        assert script is not None
        self.script, self.start = script[1], script.start(1)
        file = ROOM / f"page-{known.state}.json"
        if not file.exists():
            self.run(whole().command(programs) or [], tree, known, file)
        self.said: dict[str, Any] = json.loads(file.read_text())

    def run(self, command: list[str], tree: Tree, known: Known, file: pathlib.Path) -> None:
        new = ROOM / "page.new"
        holds, fails = ran(tree.lines([*command, "--covered", str(new)], time.monotonic() + MOST_SECONDS))
        known.add(of_section(next(iter(json.loads(new.read_text())))).words, holds, fails)
        new.rename(file)

    def checks(self, fault: Fault) -> list[Check]:
        """All sections, if the place isn't of the script."""
        at = fault.change.start - self.start
        if not 0 <= at < len(self.script):
            return [of_section(name) for name in self.said]
        place = len(self.script[:at].decode(errors="ignore"))
        first = {name: min((part["seconds"] for part in parts if covers(part["ran"], place)), default=None) for name, parts in self.said.items()}
        found = sorted((seconds, name) for name, seconds in first.items() if seconds is not None)
        return [of_section(name) for _, name in found]


def covers(ranges: list[list[int]], place: int) -> bool:
    return any(start <= place < end for start, end in ranges)


# What is said of a place that no section ran.
UNTRIED = (whole(), Answer("kept", "no section runs this place"), 0.0)
