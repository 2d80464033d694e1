"""What iodef-hub-costly computes of a report, beside numbers by hand: the bytes of a line, and those of the list of what is withheld."""
from __future__ import annotations

import types
from collections.abc import Iterator

CLASS, TEXT = 0, 1
Row = dict[str, object]
INCIDENT, A, B = (1, "Incident", True, CLASS), (2, "A", False, CLASS), (3, "B", False, CLASS)


def label(depth: int, text: str, extension: str = "") -> list[tuple[object, ...]]:
    """The lines of a label of the class around, which is one less deep."""
    more = [(depth, "ext-restriction", False, TEXT, extension)] if extension else []
    return [(depth, "restriction", False, TEXT, text), *more]


# The place of the Incident is /Incident/9999, that of A has two bytes more, and that of B four; a pair has 16 bytes beside its place.
REPORTS: list[tuple[str, int, list[tuple[object, ...]]]] = [
    ("an Incident with a class, none with a label: one rule at the Incident", 30, [INCIDENT, A]),
    ("a public one with a green class: one rule", 30, [INCIDENT, *label(2, "public"), A, *label(3, "green")]),
    ("an amber one with two classes in each other: what the Incident says holds below", 30 + 32, [INCIDENT, *label(2, "amber"), A, B]),
    ("a green one with a class of TLP:AMBER, in which is another: two rules and one", 60 + 32, [INCIDENT, *label(2, "green"), A, *label(3, "ext-value", "TLP:AMBER"), B]),
    ("a public one with a class of a label that nobody knows, which is as red", 30, [INCIDENT, *label(2, "public"), A, *label(3, "ext-value", "other")]),
    ("a public one with a class of TLP:CLEAR: none", 0, [INCIDENT, *label(2, "public"), A, *label(3, "ext-value", "TLP:CLEAR")]),
    ("an Incident without classes: none", 0, [INCIDENT, *label(2, "red")]),
]
# A name, whether it is in an array, its text, and the bytes of its token and of its line: a member has 34 beside its name and text.
LINES = [
    ("a/b~", False, "", 7, 34 + 4),
    ("a", True, "xyz", 7, 34 + 1 + 3),
    ('"\n', False, "\x01", 5, 34 + 4 + 6),
]


def row(depth: object, name: object, in_array: object, kind: object, text: object = "") -> Row:
    return {"depth": depth, "name": str(name).encode(), "in_array": in_array, "kind": kind, "text": str(text).encode()}


def cases(tool: types.ModuleType) -> Iterator[tuple[bool, str]]:
    for what, wanted, lines in REPORTS:
        found = tool.withheld_at_most([tool.line_of(row(*it)) for it in lines])
        yield found == wanted, f"{what}: {found} bytes" + ("" if found == wanted else f", not {wanted}")
    for name, in_array, text, token, size in LINES:
        line = tool.line_of(row(1, name, in_array, TEXT, text))
        yield (line.token, line.size) == (token, size), f"the bytes of a line with the name {name!r}: {line.token} and {line.size}"
