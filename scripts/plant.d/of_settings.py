"""The faults of a file of settings: a line that is left out, a number, a switch, and a comparison of an alert."""
from __future__ import annotations

import re
from collections.abc import Iterator

from fault import Change, Rule, by_rules, other_of, shifted, switched, turned

NUMBER = re.compile(r"(?<![\w.:$/{-])\d+(?=[smhkKMG%]?\b)(?![.:\w]*\d*[./:])")
SWITCH = re.compile(r"(?<=[ =])(?:yes|no|on|off|true|false)(?=;?$|\s)")
COMPARISON = re.compile(r"(?<= )(?:>|<|==|!=|>=|<=)(?= )")
# A line of its own: a setting, and not one that begins or ends a block, a section or a list.
ALONE = re.compile(r"^\s*[^\s#\[\]{}()][^{}]*(?:\{[^{}]*\}[^{}]*)*$")
# What is said for people.
SAID = re.compile(r"^\s*(?:Description=|Documentation=|annotations:|summary:|# HELP|- alert:|groups:|rules:|- name:)")


RULES: list[Rule] = [("number", NUMBER, other_of), ("constant", SWITCH, switched), ("comparison", COMPARISON, turned)]


# What a line says behind its setting.
COMMENT = re.compile(r"\s#.*$")


def of_line(line: str) -> Iterator[Change]:
    yield from by_rules(RULES, COMMENT.sub("", line))
    if ALONE.fullmatch(line):
        yield Change("line", 0, len(line) + 1, "")


def changes(text: bytes) -> Iterator[Change]:
    at = 0
    for whole in text.decode("latin-1").splitlines(keepends=True):
        line = whole.rstrip("\n")
        if line.strip() and not line.lstrip().startswith("#") and not SAID.match(line):
            yield from shifted(of_line(line), at)
        at += len(whole)


def refusal(text: bytes, path: str) -> str:
    """What reads them refuses wrong ones when it starts, which a check says (trying.py)."""
    return ""
