"""The commands of README.md, as they are printed there."""
from __future__ import annotations

import re

import common


def text() -> str:
    return (common.TOP / "README.md").read_text()


def demo() -> str:
    """The first command: that of the demo."""
    found = re.search(r"(?m)^    (\S.*)$", text())
    assert found and "demo" in found[1], "README's first command is that of the demo"
    return found[1]


def packages() -> list[str]:
    """The packages of Debian that the commands need."""
    found = re.search(r"`apt-get install ([\w -]+)`", text())
    assert found, "README names the packages of Debian that its commands need"
    return found[1].split()


def commands(section: str) -> list[list[str]]:
    """The blocks of a section, as lines."""
    below = text().partition(f"\n## {section}\n")[2].partition("\n## ")[0]
    blocks = re.findall(r"(?m)(?:^    .*\n|^\n)+", below)
    return [[line[4:] for line in it.strip("\n").split("\n")] for it in blocks if it.strip()]


def block() -> list[str]:
    """The lines of the block of "Run it" that makes a store."""
    found = [it for it in commands("Run it") if any(" init " in line for line in it)]
    assert len(found) == 1, "the section has one block with init"
    return found[0]


def wanted(lines: list[str]) -> list[str]:
    """What the commands of a block print, as it says."""
    return [line[2:] for line in lines if line.startswith("# ")]


def is_shown(shown: str, line: str) -> bool:
    """Whether a printed line is the one of the document, in which ` .. ` stands for what is cut."""
    pattern = ".*".join(map(re.escape, shown.split(" .. ")))
    return re.fullmatch(pattern, line) is not None


def inline(word: str) -> str:
    """The command in the text that has this word."""
    (found,) = [it for it in re.findall(r"`(\./[^`]+)`", text()) if word in it]
    return str(found)
