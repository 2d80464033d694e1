"""The faults of a file in Python."""
from __future__ import annotations

import ast
import functools
import itertools
import pathlib
import re
import shutil
import subprocess
import sys
import tempfile
from collections.abc import Callable, Iterator

from fault import SWITCHES, TURNED, Change, other_number

OPERATOR = re.compile(rb"==|!=|<=|>=|<|>|\bnot\s+in\b|\bis\s+not\b|\bin\b|\bis\b")
TOP = pathlib.Path(__file__).resolve().parent.parent.parent
CLIENTS = "clients/python"
# So long is a text that is compared at most, for it to be changed.
LONGEST_TEXT = 30


class Places:
    """Where a node is in the bytes of a file."""

    def __init__(self, text: bytes) -> None:
        self.text = text
        self.lines = [0, *itertools.accumulate(len(line) for line in text.splitlines(keepends=True))]

    def start(self, node: ast.expr | ast.stmt) -> int:
        return self.lines[node.lineno - 1] + node.col_offset

    def end(self, node: ast.expr | ast.stmt) -> int:
        if node.end_lineno is None or node.end_col_offset is None:
            raise ValueError("a node without an end")
        return self.lines[node.end_lineno - 1] + node.end_col_offset

    def whole(self, operator: str, node: ast.expr | ast.stmt, new: str) -> Change:
        return Change(operator, self.start(node), self.end(node), new)

    def source(self, node: ast.expr | ast.stmt) -> str:
        return self.text[self.start(node) : self.end(node)].decode()


def of_compare(node: ast.Compare, places: Places) -> Iterator[Change]:
    """A comparison turned, and a text that is compared."""
    for left, right in zip([node.left, *node.comparators], node.comparators):
        begin, end = places.end(left), places.start(right)
        if found := OPERATOR.search(places.text, begin, end):
            word = re.sub(r"\s+", " ", found[0].decode())
            yield Change("comparison", found.start(), found.end(), TURNED[word])
        texts = right.elts if isinstance(right, (ast.Tuple, ast.Set, ast.List)) else [right]
        yield from (change for it in texts for change in of_text(it, places))


def of_text(node: ast.expr, places: Places) -> Iterator[Change]:
    if isinstance(node, ast.Constant) and isinstance(node.value, str) and 0 < len(node.value) <= LONGEST_TEXT and node.value.isprintable():
        yield places.whole("constant", node, repr(node.value + "_"))


def of_case(node: ast.MatchValue, places: Places) -> Iterator[Change]:
    yield from of_text(node.value, places)


def of_constant(node: ast.Constant, places: Places) -> Iterator[Change]:
    if isinstance(node.value, bool):
        yield places.whole("constant", node, SWITCHES[str(node.value)])
    elif isinstance(node.value, int):
        yield places.whole("number", node, other_number(str(node.value)))


def of_words(node: ast.BoolOp, places: Places) -> Iterator[Change]:
    """`and` and `or` exchanged."""
    for left, right in zip(node.values, node.values[1:]):
        if found := re.search(rb"\b(and|or)\b", places.text[places.end(left) : places.start(right)]):
            at = places.end(left)
            yield Change("condition", at + found.start(), at + found.end(), "or" if found[0] == b"and" else "and")


def of_not(node: ast.UnaryOp, places: Places) -> Iterator[Change]:
    if isinstance(node.op, ast.Not):
        yield Change("condition", places.start(node), places.start(node.operand), "")


def of_call(node: ast.Call, places: Places) -> Iterator[Change]:
    """Two arguments exchanged."""
    for first, second in zip(node.args, node.args[1:]):
        one, other = places.source(first), places.source(second)
        if one != other and not isinstance(first, ast.Starred) and not isinstance(second, ast.Starred):
            between = places.text[places.end(first) : places.start(second)].decode()
            yield Change("arguments", places.start(first), places.end(second), f"{other}{between}{one}")


def of_branch(node: ast.If | ast.IfExp, places: Places) -> Iterator[Change]:
    yield places.whole("branch", node.test, "False")


def of_statement(node: ast.stmt, places: Places) -> Iterator[Change]:
    """A statement without a value left out."""
    yield places.whole("effect", node, "pass")


def of_expression(node: ast.Expr, places: Places) -> Iterator[Change]:
    if isinstance(node.value, ast.Call):
        yield from of_statement(node, places)


FINDERS: dict[type, Callable[..., Iterator[Change]]] = {
    ast.Compare: of_compare, ast.MatchValue: of_case, ast.Constant: of_constant, ast.BoolOp: of_words, ast.UnaryOp: of_not, ast.Call: of_call,
    ast.If: of_branch, ast.IfExp: of_branch, ast.Raise: of_statement, ast.AugAssign: of_statement, ast.Expr: of_expression,
}  # fmt: skip


def parts(node: ast.AST) -> Iterator[ast.AST]:
    """All below a node, but what does nothing: what is said of types, whether Python keeps what it compiled, and texts in which Python 3.11
    gives no places."""
    if isinstance(node, ast.Assign) and isinstance(node.targets[0], ast.Attribute) and node.targets[0].attr == "dont_write_bytecode":
        return
    yield node
    for name, value in ast.iter_fields(node):
        if name in ("annotation", "returns") or isinstance(value, ast.JoinedStr):
            continue
        for it in value if isinstance(value, list) else [value]:
            if isinstance(it, ast.AST) and not isinstance(it, ast.JoinedStr):
                yield from parts(it)


def changes(text: bytes) -> Iterator[Change]:
    places = Places(text)
    for node in parts(ast.parse(text)):
        if finder := FINDERS.get(type(node)):
            yield from finder(node, places)


def refusal(text: bytes, path: str) -> str:
    """Why Python refuses the file, or a client's module when it is imported; or nothing."""
    try:
        compile(text, path, "exec")
    except (SyntaxError, ValueError) as fault:
        return str(fault)
    return refused_import(text, path) if path.startswith(f"{CLIENTS}/iodef") and path.endswith(".py") else ""


@functools.cache
def refused_import(text: bytes, path: str) -> str:
    """What a module raises when it is imported, beside the others as they are."""
    with tempfile.TemporaryDirectory() as name:
        folder = pathlib.Path(name)
        shutil.copytree(TOP / CLIENTS, folder / CLIENTS, symlinks=True, ignore=shutil.ignore_patterns("__pycache__"))
        (folder / path).write_bytes(text)
        module = path.removeprefix(f"{CLIENTS}/").removesuffix(".py").replace("/", ".")
        ran = subprocess.run([sys.executable, "-B", "-c", f"import {module}"], cwd=folder / CLIENTS, capture_output=True, text=True)
    return ran.stderr[-300:] if ran.returncode else ""
