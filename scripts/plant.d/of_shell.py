"""The faults of a shell script. What is in a comment, in a document of its own or in what it says of itself is left as it is."""
from __future__ import annotations

import re
import subprocess
from collections.abc import Iterator

from fault import Change, Rule, by_rules, other_of, shifted, turned

TEST = re.compile(r"(?<=\s)(?:-lt|-le|-gt|-ge|-eq|-ne|=|==|!=|=~)(?=\s)|(?<=\[ )-[nz](?=\s)|(?<=\[ ! )-[nz](?=\s)")
BOTH = re.compile(r"(?<=\s)(&&|\|\|)(?=\s)")
NUMBER = re.compile(r"(?<![\w$.{&>-])\d+(?![\w.]*[>=\w])")
BRANCH = re.compile(r"(?<=\bif )(.+)(?=; then)")
# A line that is one command, and neither begins nor ends something.
COMMAND = re.compile(
    r"^\s+(?!(?:if|then|else|elif|fi|for|while|until|do|done|case|esac|local|return|shift|exit|break|continue|trap)\b)"
    r"[\w./$\"{}:-]+(?: .*)?[^\\|&{(]$"
)
WORDS = re.compile(r"(?:usage|echo|say|fail|printf)\b.*$")


def spans(text: str) -> Iterator[tuple[int, str]]:
    """The lines of code, each with its place."""
    at, end = 0, None
    for line in text.splitlines(keepends=True):
        is_code = end is None and not line.lstrip().startswith("#")
        if is_code:
            yield at, line.rstrip("\n")
            found = re.search(r"<<-?\s*['\"]?(\w+)['\"]?", line)
            end = found[1] if found else None
        elif line.strip() == end:
            end = None
        at += len(line)


RULES: list[Rule] = [("comparison", TEST, turned), ("condition", BOTH, lambda it: "||" if it[0] == "&&" else "&&"), ("number", NUMBER, other_of),
                     ("branch", BRANCH, lambda _: "false")]  # fmt: skip


def is_code(line: str, change: Change) -> bool:
    """Whether the place is neither in what is said to people, nor an assignment."""
    said = WORDS.search(line)
    if change.operator == "number":
        return not said or change.end <= said.start()
    return change.operator != "comparison" or line[change.start : change.end] != "=" or "[" in line[: change.start]


def of_line(line: str, is_alone: bool) -> Iterator[Change]:
    """The faults of a line, with places in it."""
    yield from (it for it in by_rules(RULES, line) if is_code(line, it))
    if is_alone and COMMAND.fullmatch(line):
        yield Change("effect", len(line) - len(line.lstrip()), len(line), ":")


def changes(text: bytes) -> Iterator[Change]:
    """Places are in characters, which are bytes in these scripts."""
    said, before = text.decode("latin-1"), ""
    for at, line in spans(said):
        is_alone = not before.endswith(("\\", "|", "&&", "||", "(", "'"))
        yield from shifted(of_line(line, is_alone), at)
        before = line


def refusal(text: bytes, path: str) -> str:
    ran = subprocess.run(["bash", "-n"], input=text, capture_output=True)
    return ran.stderr.decode(errors="replace") if ran.returncode else ""
