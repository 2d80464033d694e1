"""The tables of cases and the comparisons of crates/, each by the name of its crate.

Each is a section of the stdin and the stdout of test_suite, behind a line `== NAME WORDS`. In stdin an empty line separates two.
"""

from __future__ import annotations

import pathlib
import re

CRATES = pathlib.Path(__file__).resolve().parent.parent / "crates"
SUITE = "test_suite"
HEADING = re.compile(r"^== (\w+)(?: (.*))?\n", re.M)


def sections(file: str) -> dict[str, tuple[str, str]]:
    """The words of each section of stdin or stdout, and the lines below its heading."""
    text = (CRATES / SUITE / file).read_text()
    _, *parts = HEADING.split(text.replace("\n\n== ", "\n== ") if file == "stdin" else text)
    return {name: (words or "", lines) for name, words, lines in zip(parts[::3], parts[1::3], parts[2::3])}


def cases(crate: str) -> str:
    """The table of a crate."""
    return sections("stdin").get(crate, ("", ""))[1]


def words(crate: str) -> list[str]:
    """How much a comparison compares."""
    return sections("stdin")[crate][0].split()


def answers(crate: str) -> str:
    """What a crate prints."""
    return sections("stdout")[crate][1]


def heading(crate: str) -> str:
    """The heading of a crate's section, without its mark."""
    return " ".join([crate, *words(crate)])
