"""Texts for a terminal, in which nothing is hidden: what isn't printed, or hides or reorders something, is shown by its number."""
from __future__ import annotations

import json
import re
from collections.abc import Callable

# Characters that look like nothing, though Python calls some of them printable: Unicode's Default_Ignorable_Code_Point (Unicode 16.0,
# DerivedCoreProperties.txt), and then the empty pattern of Braille and the marks of interlinear annotations.
IGNORABLE = (
    (0xAD, 0xAD), (0x34F, 0x34F), (0x61C, 0x61C), (0x115F, 0x1160), (0x17B4, 0x17B5), (0x180B, 0x180F), (0x200B, 0x200F), (0x202A, 0x202E),
    (0x2060, 0x206F), (0x3164, 0x3164), (0xFE00, 0xFE0F), (0xFEFF, 0xFEFF), (0xFFA0, 0xFFA0), (0xFFF0, 0xFFF8), (0x1BCA0, 0x1BCA3),
    (0x1D173, 0x1D17A), (0xE0000, 0xE0FFF),
)
UNSEEN = frozenset(chr(each) for first, last in (*IGNORABLE, (0x2800, 0x2800), (0xFFF9, 0xFFFB)) for each in range(first, last + 1))
# Scripts and emoji need these between their own characters; beside ASCII they only hide something.
JOINERS = "\u200c\u200d\ufe0f"
HIDING_JOINERS = re.compile(f"(?<=[\0-\x7f])[{JOINERS}]+|[{JOINERS}]+(?=[\0-\x7f])")
STRING = re.compile(r'"(?:[^"\\]|\\.)*"')  # in JSON


def by_number(each: str) -> str:
    return f"\\u{ord(each):04x}" if ord(each) < 0x10000 else f"\\U{ord(each):08x}"


def spelled(text: str, spelling: Callable[[str], str]) -> str:
    """The text with a spelling for each character that isn't printed, or that hides or reorders others."""
    joined = HIDING_JOINERS.sub(lambda run: "".join(map(spelling, run[0])), text)
    return "".join(each if each in JOINERS or each.isprintable() and each not in UNSEEN else spelling(each) for each in joined)


def shown(text: str) -> str:
    """A text for a terminal: what isn't printed is shown by its number."""
    return spelled(text, by_number)


def shown_exactly(text: str) -> str:
    """A value to block or to look for: as `shown`, and all joiners too are shown by their numbers."""
    return "".join(by_number(each) if each in JOINERS else each for each in shown(text))


def shown_json(value: object) -> str:
    """JSON for a terminal, in lines. What isn't printed is escaped as in JSON."""
    lines = json.dumps(value, indent=2, ensure_ascii=False)
    return STRING.sub(lambda found: f'"{spelled(found[0][1:-1], lambda each: json.dumps(each)[1:-1])}"', lines)
