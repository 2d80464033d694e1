"""The last gate that proved everything, a line in bench/gate.jsonl, and what scripts/verdict writes of it in bench/README.md."""
from __future__ import annotations

import datetime
import json
import pathlib
from collections.abc import Iterable
from typing import Any

import gate_costs

SCRIPT = ".ci/run"
KEPT = pathlib.Path(__file__).resolve().parent.parent / "bench" / "gate.jsonl"
KEPT_MEMBERS = ("commit", "kit", "began", "processors", "seconds", "cpu_minutes", "gb_at_once", "crates", "edits", "parts")
# Crates that take fewer minutes have one row.
ROW_MINUTES = 5.0

Line = dict[str, Any]


def kept() -> Line | None:
    return json.loads(KEPT.read_text()) if KEPT.exists() else None


def newer(last: Line | None, fit: Iterable[Line]) -> Line | None:
    """The newest gate in which no crate was kept, if it is newer than the last one."""
    whole = [it for it in fit if it["status"] == 0 and it.get("kept") == 0]
    line = max(whole, key=lambda it: str(it["began"]), default=None)
    if line is None or last is not None and line["began"] <= last["began"]:
        return None
    return {it: line[it] for it in KEPT_MEMBERS}


def keep(line: Line) -> None:
    KEPT.write_text(json.dumps(line, ensure_ascii=False) + "\n")


def minutes(parts: dict[str, float]) -> list[float]:
    """Those of each part, and their sum."""
    each = [parts[it] for it in gate_costs.PARTS]
    return [*each, sum(each)]


def row(name: str, numbers: list[float], gb: float | None = None) -> str:
    cells = [f"{it:,.1f}" if it >= 0.05 else "" for it in numbers] + [f"{gb:.1f}" if gb else ""]
    return f"| {name} | {' | '.join(cells)} |"


def rows(line: Line) -> list[str]:
    """The dearest crates first; then the others, what no process was seen to take, and the sum."""
    crates = sorted(line["parts"].items(), key=lambda it: -sum(minutes(it[1])))
    dear = [(name, parts) for name, parts in crates if minutes(parts)[-1] >= ROW_MINUTES]
    others = [parts for name, parts in crates if minutes(parts)[-1] < ROW_MINUTES]
    sums = [sum(each) for each in zip(*(minutes(parts) for _, parts in crates))]
    nothing = [0.0] * len(gate_costs.PARTS)
    return [
        *(row(f"`{name}`", minutes(parts), parts["gb"]) for name, parts in dear),
        row(f"{len(others)} others", [sum(each) for each in zip(*map(minutes, others))], max(it["gb"] for it in others)) if others else "",
        row("`rt` itself, and what was over too soon to be seen", [*nothing, line["cpu_minutes"] - sums[-1]]),
        row("sum", [*sums[:-1], line["cpu_minutes"]]),
    ]


def page() -> str:
    """What bench/README.md says of it."""
    line = kept()
    if line is None:
        return "None yet.\n"
    day = datetime.date.fromisoformat(line["began"][:10])
    note = f" ({line['note']})" if "note" in line else ""
    return "\n".join(
        [
            f"{day.day} {day:%B %Y}, `.ci/run` of `{line['commit'][:8]}` with {line['kit']}, on {line['processors']} processors{note}: "
            f"**{line['cpu_minutes']:.0f} minutes of a processor, {line['seconds'] / 60:.0f} by the clock**, "
            f"at most {line['gb_at_once']:.1f} GB at once.",
            "",
            "| Minutes of a processor | Proof | First edit | Other edits | Runs | Sum | GB |",
            "|---|---|---|---|---|---|---|",
            *filter(None, rows(line)),
            "",
        ]
    )
