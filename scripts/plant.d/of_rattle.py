"""The faults of the programs. Each changes an expression, so that a program may have all of them and be told which one it has
(programs.py). No fault is in a function whose contract says what it returns, nor in a constant: where it is used it is another."""
from __future__ import annotations

import re
from collections.abc import Iterator

from fault import TURNED, Change, by_rules, other_number, shifted, switched

MASKED = re.compile(r"//[^\n]*|\"(?:\\.|[^\"\\])*\"|b?'(?:\\.|[^'\\\n])'", re.S)
FUNCTION = re.compile(r"^( *)(?:pub(?:\(crate\))? )?fn (\w+).*?^\1\}", re.M | re.S)
CONTRACT = re.compile(r"^ *ensures\b", re.M)
OPERAND = r"[\w.:]+(?:\([^()\n]*\))*"
COMPARISON = re.compile(rf"(?<![\w.])({OPERAND}) (==|!=|<=|>=|<|>) ({OPERAND})(?=[ ;,)]|$)", re.M)
BOTH = re.compile(rf"(?<![\w.])(?<![=<>!] )({OPERAND}) (&&|\|\|) ({OPERAND})(?=[ ;,)]|$)", re.M)
NUMBER = re.compile(r"(?<![\w.\[])(?:0o\d+|\d[\d_]*)(?![\w.\]])")
SWITCH = re.compile(r"(?<=[ (])(?:true|false)(?=[,;)\n])")
BRANCH = re.compile(r"(?<=\bif )(?!let\b)([^{}\n]+)(?= \{$)", re.M)
EFFECT = re.compile(r"^( +)(?!let |return |use |const |match |if |for |\})([a-z_][\w:.]*[!.(][^\n{}]*;)$", re.M)
ARMS = re.compile(r"^ +[^\n]* => ([\w:]+(?:\([\w:]+\))?),\n +[^\n]* => ([\w:]+(?:\([\w:]+\))?),$", re.M)
TEXT = re.compile(r'"((?:\\.|[^"\\{}])+)"(?=[,)])')
# Texts for people, and those that a macro reads.
SAID = re.compile(r"\.(?:help|about|long_about|value_name)\(|!\(|fn ")


def functions(text: str) -> Iterator[tuple[int, int]]:
    """Where the bodies are of functions whose contract says nothing of what they return."""
    for found in FUNCTION.finditer(text):
        begin = re.search(r"\{$", found[0], re.M)
        if begin and not CONTRACT.search(found[0]):
            yield found.start() + begin.end(), found.end()


def masked(text: str) -> str:
    return MASKED.sub(lambda it: re.sub(r"[^\n]", "_", it[0]), text)


def is_pattern(code: str, at: int) -> bool:
    """Whether the place is in the pattern of an arm of a `match`, where no expression may be."""
    line = code[code.rfind("\n", 0, at) + 1 :].partition("\n")[0]
    place = at - code.rfind("\n", 0, at) - 1
    return "=>" in line[place:] and " if " not in line[:place]


def other_digits(found: re.Match[str]) -> str:
    """Another number; of one in octal digits the last is another."""
    if found[0].startswith("0o"):
        return found[0][:-1] + str((int(found[0][-1]) + 1) % 8)
    return other_number(found[0].replace("_", ""))


def is_said(text: str, at: int) -> bool:
    """Whether a text is one for people."""
    return SAID.search(text[text.rfind("\n", 0, at) + 1 : at]) is not None


def between(operator: str, pattern: re.Pattern[str], others: dict[str, str], code: str, text: str) -> Iterator[Change]:
    """The two sides of a word with another word between them."""
    for found in pattern.finditer(code):
        one, other = (text[found.start(side) : found.end(side)] for side in (1, 3))
        yield Change(operator, found.start(), found.end(), f"{one} {others[found[2]]} {other}")


def of_arms(code: str, text: str) -> Iterator[Change]:
    """An arm of a `match` has what the next one has."""
    for found in ARMS.finditer(code):
        one, other = (text[found.start(arm) : found.end(arm)] for arm in (1, 2))
        if one != other:
            yield Change("arguments", found.start(1), found.end(1), other)


def of_code(code: str, text: str) -> Iterator[Change]:
    yield from between("comparison", COMPARISON, TURNED, code, text)
    yield from between("condition", BOTH, {"&&": "||", "||": "&&"}, code, text)
    yield from (Change("branch", it.start(), it.end(), "false") for it in BRANCH.finditer(code))
    yield from (Change("effect", it.start(2), it.end(2), "") for it in EFFECT.finditer(code))
    yield from of_arms(code, text)
    words = [*by_rules([("number", NUMBER, other_digits), ("constant", SWITCH, switched)], code)]
    words += [it for it in by_rules([("constant", TEXT, lambda it: f'"{it[1]}x"')], text) if code[it.start] == "_" and not is_said(text, it.start)]
    yield from (it for it in words if not is_pattern(code, it.start))


def changes(text: bytes) -> Iterator[Change]:
    said = text.decode("latin-1")
    for begin, end in functions(said):
        body = said[begin:end]
        yield from shifted(of_code(masked(body), body), begin)


def refusal(text: bytes, path: str) -> str:
    """The compiler refuses; it is asked once for all (programs.py)."""
    return ""
