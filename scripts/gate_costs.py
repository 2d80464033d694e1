"""What a gate takes while it runs: minutes of a processor by crate and part, and memory. It reads /proc, and touches nothing.

scripts/gate_line.py watches the gate of .ci/run by it, and scripts/prover/gate-minutes one of its own. The parts of a crate:

    proof  of a program with both builds, of a library with its tests
    first  the check that its edits begin with; of a crate with one edit, that one
    edits  all others, with the check that ends them
    runs   of its program and of its tests

A crate's `gb` is the most memory that one of its processes had. What ends between two looks, half a second apart, is in no part; nor is
what rt itself takes.
"""
from __future__ import annotations

import collections
import contextlib
import os
import re
import time
from dataclasses import dataclass, field
from typing import Any

PARTS = ("proof", "first", "edits", "runs")
SECONDS_BETWEEN = 0.5
TICK = os.sysconf("SC_CLK_TCK")
PAGE = os.sysconf("SC_PAGE_SIZE")
# Where rt proves a crate, tries an edit, and runs a program or the tests of a crate.
PROOF = re.compile(r"/crates/(\w+)$")
EDIT = re.compile(r"/rt-edit-[^/]*$")
PROGRAM = re.compile(r"/rt-run-[^/]*/bin/(\w+?)(?:_tests)?$")


@dataclass
class Process:
    """What /proc says of one: who it is, and the seconds of a processor that it and those that it has waited for took."""

    pid: int
    start: int
    seconds: float
    resident: int


def process(pid: int) -> Process | None:
    """The process, or None if there is none, or it has ended."""
    try:
        with open(f"/proc/{pid}/stat") as file:
            # behind the name, which may have blanks: from the third field of proc(5) on
            fields = file.read().rpartition(")")[2].split()
    except OSError:
        return None
    if fields[0] in "ZX":
        return None
    return Process(pid, int(fields[19]), sum(map(int, fields[11:15])) / TICK, int(fields[21]) * PAGE)


def children(pid: int) -> list[int]:
    found: list[int] = []
    with contextlib.suppress(OSError):
        for thread in os.listdir(f"/proc/{pid}/task"):
            with contextlib.suppress(OSError), open(f"/proc/{pid}/task/{thread}/children") as file:
                found += map(int, file.read().split())
    return found


def most_memory(pid: int) -> int:
    """The most bytes that a process had."""
    with contextlib.suppress(OSError), open(f"/proc/{pid}/status") as file:
        for line in file:
            if line.startswith("VmHWM:"):
                return int(line.split()[1]) * 1024
    return 0


def part_of(pid: int) -> tuple[str, str] | None:
    """The crate and the part that a process is for, by its words and its folder; of edits it isn't said which is the first."""
    try:
        with open(f"/proc/{pid}/cmdline") as file:
            words = file.read().split("\0")
        place = os.readlink(f"/proc/{pid}/cwd")
    except OSError:
        return None
    if found := next(filter(None, map(PROGRAM.search, words)), None):
        return found[1], "runs"
    if found := PROOF.search(place):
        return found[1], "proof"
    if not EDIT.search(place) or "--crate-name" not in words[:-1]:
        return None
    return words[words.index("--crate-name") + 1], "edits"


@dataclass
class Run:
    """A process of a part, as it was last seen."""

    crate: str
    part: str
    seconds: float = 0.0
    memory: int = 0


@dataclass
class Watch:
    """What was seen of the gate PID: its runs by their numbers and starts, and the most bytes that they had at once."""

    pid: int
    start: int = -1
    runs: dict[tuple[int, int], Run] = field(default_factory=dict)
    at_once: int = 0

    def look(self) -> bool:
        """Notes what runs now. False once the gate has ended."""
        gate = process(self.pid)
        if gate is None or self.start not in (-1, gate.start):
            return False
        self.start = gate.start
        self.at_once = max(self.at_once, self.below(self.pid))
        return True

    def below(self, pid: int) -> int:
        """Notes the runs below a process, and returns the bytes that they have."""
        return sum(self.note(it) for it in map(process, children(pid)) if it is not None)

    def note(self, it: Process) -> int:
        run = self.runs.get((it.pid, it.start))
        if run is None:
            part = part_of(it.pid)
            if part is None:
                return self.below(it.pid)
            run = self.runs[it.pid, it.start] = Run(*part)
        run.seconds = max(run.seconds, it.seconds)
        run.memory = max(run.memory, most_memory(it.pid))
        return it.resident

    def parts(self) -> dict[str, dict[str, float]]:
        """By crate the minutes of each part, and `gb`."""
        found: dict[str, dict[str, float]] = collections.defaultdict(lambda: dict.fromkeys((*PARTS, "gb"), 0.0))
        begun = set[str]()
        for (_, _), run in sorted(self.runs.items(), key=lambda it: it[0][1]):
            part, crate = run.part, found[run.crate]
            if part == "edits" and run.crate not in begun:
                part = "first"
                begun.add(run.crate)
            crate[part] += run.seconds / 60
            crate["gb"] = max(crate["gb"], run.memory / 1e9)
        return {name: {it: round(number, 3) for it, number in crate.items()} for name, crate in sorted(found.items())}

    def told(self) -> dict[str, Any]:
        """The members of the gate's line."""
        return {"parts": self.parts(), "gb_at_once": round(self.at_once / 1e9, 1)}


def watch(starter: int, pid: int) -> dict[str, Any]:
    """Looks until the gate has ended, or who started it has."""
    seen, begun = Watch(pid), process(starter)
    while begun and (now := process(starter)) and now.start == begun.start and seen.look():
        time.sleep(SECONDS_BETWEEN)
    return seen.told()
