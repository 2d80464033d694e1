"""What scripts/plant found, a line for each fault in bench/plants.jsonl, and the table of docs/TESTED.md that scripts/verdict writes of it."""
from __future__ import annotations

import collections
import json
import pathlib
import tomllib
from typing import Any

TOP = pathlib.Path(__file__).resolve().parent.parent
RESULTS, EQUIVALENT = TOP / "bench" / "plants.jsonl", TOP / "scripts" / "plant.d" / "equivalent.toml"
# How a line of the results says where a fault was found, and the one that is none, as what reads the file refuses it at once.
WITHOUT_HANDS, BY_HAND, NOTHING, NOT_DRAWN = "without hands", "by hand", "nothing", "not drawn"
SAME = "equivalent"
KINDS = {
    "programs": "programs",
    "clients": "clients",
    "page": "page",
    "edge": "edge",
    "release": "release",
}

Line = dict[str, Any]


def results() -> list[Line]:
    return [json.loads(it) for it in RESULTS.read_text().splitlines()] if RESULTS.exists() else []


def equivalent() -> dict[str, str]:
    """The faults by which nothing behaves otherwise, each with the reason."""
    return {name: str(it["reason"]) for name, it in tomllib.loads(EQUIVALENT.read_text()).items()}


def of_seed(lines: list[Line], kind: str, seed: str) -> list[Line]:
    """Of each fault of a draw the last line."""
    return list({it["fault"]: it for it in lines if it["kind"] == kind and it["seed"] == seed}.values())


def counts(lines: list[Line]) -> collections.Counter[str]:
    """How many of these faults were found where, or are equivalent."""
    same = equivalent()
    found = [SAME if it["fault"] in same and it["where"] == NOTHING else str(it["where"]) for it in lines]
    return collections.Counter(it for it in found if it != NOT_DRAWN)


def is_late(line: Line) -> bool:
    """Whether nothing found it in time, and a check was still running."""
    return line["where"] == NOTHING and line["fault"] not in equivalent() and any(it["said"] == "late" for it in line["asked"])


def row(kind: str, lines: list[Line]) -> list[str]:
    """Of the last seed of a kind."""
    seeds = [str(it["seed"]) for it in lines if it["kind"] == kind]
    if not seeds:
        return [KINDS[kind], "none yet", "", "", "", ""]
    drawn_lines = of_seed(lines, kind, seeds[-1])
    told, late = counts(drawn_lines), sum(map(is_late, drawn_lines))
    drawn = sum(told.values()) - told[SAME]
    share = round(100 * told[NOTHING] / drawn) if drawn else 0
    numbers = [told[WITHOUT_HANDS], told[BY_HAND], f"{told[NOTHING]}: {share} %{f'; {late} late' if late else ''}", told[SAME]]
    return [KINDS[kind], f"{drawn} by `{seeds[-1][:8]}`", *map(str, numbers)]


def table() -> str:
    lines = results()
    rows = [["Faults in", "Drawn", "Without hands", "By hand", "By nothing", "Equivalent"], ["---"] * 6, *(row(kind, lines) for kind in KINDS)]
    return "".join(f"|{'|'.join(cells)}|\n" for cells in rows)
