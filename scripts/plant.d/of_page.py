"""The faults of a page: of its script, and the attributes of its elements. How it looks is left as it is."""
from __future__ import annotations

import re
from collections.abc import Iterator

from fault import Change, Rule, by_rules, other_of, shifted, switched, turned

# What isn't code: comments, texts, and patterns behind a bracket, a comma or an operator.
MASKED = re.compile(
    r"//[^\n]*|/\*.*?\*/|'(?:\\.|[^'\\\n])*'|\"(?:\\.|[^\"\\\n])*\"|`(?:\\.|[^`\\])*`"
    r"|(?<=[(,=:&|!?] )/(?![/*])(?:\\.|\[(?:\\.|[^\]\\\n])*\]|[^/\\\n\[])+/[a-z]*"
    r"|(?<=[(,=:&|!?])/(?![/*])(?:\\.|\[(?:\\.|[^\]\\\n])*\]|[^/\\\n\[])+/[a-z]*",
    re.S,
)
COMPARISON = re.compile(r"(?<= )(?:===|!==|<=|>=|<|>)(?= )")
BOTH = re.compile(r"(?<= )(?:&&|\|\|)(?= )")
NUMBER = re.compile(r"(?<![\w.$#])\d+(?![\w.])")
NOT = re.compile(r"(?<![\w!=])!(?=[\w(])")
SWITCH = re.compile(r"\b(?:true|false)\b")
EXCHANGED = re.compile(r"(?<!function )(?<=\w)\(([\w.$]+), ([\w.$]+)(?=[,)])(?![^()\n]*\)\s*(?:=>|\{))")
EFFECT = re.compile(r"^[ \t]+((?:await )?[\w.$]+\([^\n]*\);|[\w.$]+(?:\[[^\]\n]*\])? [+-]?= [^\n]*;)$", re.M)
TEXT = re.compile(r"(?<=[!=]== )'([^'\\\n]{1,30})'")
SCRIPT = re.compile(r"<script[^>]*>(.*?)</script>", re.S)
TAG = re.compile(r"<[a-z][a-z0-9]*(?: [^<>]*)?>")
ATTRIBUTE = re.compile(r" (?!id\b|class\b|for\b|href\b|lang\b|charset\b|name\b|content\b|src\b)[a-z-]+(?:=\"[^\"]*\")?(?=[ >])")


def masked(script: str) -> str:
    """The script, in which what isn't code is blank; its places are the same."""
    return MASKED.sub(lambda it: it[0][0] + re.sub(r"[^\n]", "_", it[0][1:-1]) + it[0][-1] if len(it[0]) > 1 else it[0], script)


def closing(code: str, start: int) -> int:
    """Where the bracket closes that opens at `start`."""
    depth = 0
    for at in range(start, len(code)):
        depth += (code[at] == "(") - (code[at] == ")")
        if not depth:
            return at
    return start


RULES: list[Rule] = [
    ("comparison", COMPARISON, turned),
    ("condition", BOTH, lambda it: "||" if it[0] == "&&" else "&&"),
    ("number", NUMBER, other_of),
    ("condition", NOT, lambda _: ""),
    ("constant", SWITCH, switched),
]


def of_branches(script: str, code: str) -> Iterator[Change]:
    for found in re.finditer(r"\bif \(", code):
        end = closing(code, found.end() - 1)
        yield Change("branch", found.end(), end, f"false && ({script[found.end() : end]})")


def of_code(script: str) -> Iterator[Change]:
    code = masked(script)
    yield from by_rules(RULES, code)
    yield from (Change("arguments", it.start(1), it.end(2), f"{it[2]}, {it[1]}") for it in EXCHANGED.finditer(code) if it[1] != it[2])
    yield from (Change("effect", it.start(1), it.end(), ";") for it in EFFECT.finditer(code))
    yield from of_branches(script, code)
    yield from (Change("constant", it.end() - 1, it.end() - 1, "_") for it in TEXT.finditer(script) if code[it.start()] == "'")


def of_tags(said: str) -> Iterator[Change]:
    """Attributes that are left out."""
    bare = re.sub(r"<(script|style)[^>]*>.*?</\1>", lambda it: " " * len(it[0]), said, flags=re.S)
    for tag in TAG.finditer(bare):
        yield from shifted(by_rules([("line", ATTRIBUTE, lambda _: "")], tag[0]), tag.start())


def changes(text: bytes) -> Iterator[Change]:
    """Places are in bytes: the page is read as one byte a character."""
    said = text.decode("latin-1")
    for script in SCRIPT.finditer(said):
        found = shifted(of_code(script[1]), script.start(1))
        yield from (Change(it.operator, it.start, it.end, it.new.encode("latin-1").decode()) for it in found)
    yield from of_tags(said)


def refusal(text: bytes, path: str) -> str:
    """A browser that refuses a script runs none of it, and then no check of the page begins."""
    return ""
