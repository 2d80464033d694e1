"""From XML to JSON."""
from __future__ import annotations

import base64
import re
from collections.abc import Mapping
from typing import Any

from . import marks
from .faults import Notes, Unfit
from .table import CLASSES, IODEF, LANGUAGES, ROOT, Class, Row, whole_name
from .tree import SPACES, Budget, Node, content_text, numbered, read, shown_name

VERSIONS = {"2.00": "2.0"}  # in XML, and in JSON
WHOLE = re.compile(r"0|-?[1-9][0-9]{0,18}|1[0-9]{19}")
LINE_END = "\r\n|\r|\n"
SMALLEST, LARGEST = -(2**63), 2**64 - 1


def document_of(text: bytes, notes: Notes) -> dict[str, Any]:
    """The report in JSON for a document in XML."""
    budget = Budget()
    root = read(text, notes, budget)
    if root.name != whole_name(ROOT):
        raise Unfit("NotIodef", f"the root is {shown_name(root.name)}, not {ROOT} in the namespace {IODEF}")
    made = Reader(notes).of_class(root, CLASSES[ROOT], f"/{ROOT}")
    if set(marks.MEMBERS) & set(made):
        raise Unfit("LabelNotHeld", "in JSON the root holds no label", f"/{ROOT}")
    if "version" in made:
        if made["version"] not in (*VERSIONS, *VERSIONS.values()):
            raise Unfit("NotIodef", "the version isn't 2.00")
        made["version"] = VERSIONS.get(made["version"], made["version"])
    return made


def number_of(text: str) -> int | str:
    """A number that a hub takes, if the text is one and is written as JSON writes it; else the text."""
    return int(text) if WHOLE.fullmatch(text) and SMALLEST <= int(text) <= LARGEST else text


class Reader:
    def __init__(self, notes: Notes) -> None:
        self.notes = notes

    def of_class(self, node: Node, of: Class, place: str) -> dict[str, Any]:
        made = self.attributes(node, of, place)
        if of.content:
            self.content(made, node, of.content, place)
        else:
            self.elements(made, node, of, place)
            self.no_text(node, place)
        marks.mark_of(made, place)
        return made

    def attributes(self, node: Node, of: Class, place: str) -> dict[str, Any]:
        """The attributes that the class has, and labels, which any class may have in JSON."""
        made: dict[str, Any] = {}
        for name, text in node.attributes.items():
            row = of.attributes.get(name)
            if row is None and name not in marks.MEMBERS:
                self.leave_out(name, f"{place}/@{shown_name(name)}")
            elif row is not None and row.kind == "number":
                made[row.member] = self.number(text, f"{place}/@{name}")
            else:
                made[row.member if row else name] = text
        return made

    def leave_out(self, name: str, place: str) -> None:
        if marks.looks_like_mark(name):
            raise Unfit("BadMarking", "a label is an attribute without a namespace, in small letters", place)
        self.notes.leave_out(shown_name(name), place)

    def elements(self, made: dict[str, Any], node: Node, of: Class, place: str) -> None:
        for child, where in numbered(node, place):
            row = of.elements.get(child.name)
            if row is None:
                self.leave_out(child.name, where)
            elif row.container:
                self.container(made, child, row, where)
            else:
                self.put(made, row, self.value(child, row, where), where)

    def container(self, made: dict[str, Any], node: Node, row: Row, place: str) -> None:
        """What is in an element that JSON leaves out. Its label is given to each class inside that has none of its own."""
        mark = marks.mark_of({name: node.attributes[name] for name in marks.MEMBERS if name in node.attributes}, place)
        found = 0
        for name, text in node.attributes.items():
            if row.is_attribute and name == row.name:
                self.put(made, row, text, place)
                found += 1
            elif name not in marks.MEMBERS:
                self.leave_out(name, f"{place}/@{shown_name(name)}")
        for child, where in numbered(node, place):
            if child.name != row.name:
                self.leave_out(child.name, where)
                continue
            self.put(made, row, self.marked(self.value(child, row, where), mark, where), where)
            found += 1
        self.no_text(node, place)
        if mark and row.is_attribute:
            raise Unfit("LabelNotHeld", "in JSON nothing holds the label", place)
        if not found:
            self.notes.leave_out(f"empty {shown_name(node.name)}", place)

    def marked(self, value: Any, mark: Mapping[str, str], place: str) -> Any:
        if not mark or isinstance(value, dict) and marks.RESTRICTION in value:
            return value
        if not isinstance(value, dict):
            raise Unfit("LabelNotHeld", "in JSON nothing holds the label of the element around it", place)
        return {**value, **mark}

    def put(self, made: dict[str, Any], row: Row, value: Any, place: str) -> None:
        if row.is_list:
            made.setdefault(row.member, []).append(value)
        elif row.member in made:
            raise Unfit("Twice", f"{row.of} has only one {row.member}", place)
        else:
            made[row.member] = value

    def value(self, node: Node, row: Row, place: str) -> Any:
        """What an element is in JSON, by its row."""
        if row.kind in CLASSES:
            return self.of_class(node, CLASSES[row.kind], place)
        if row.kind == "ml":
            found = self.of_class(node, CLASSES[LANGUAGES], place)
            return found["value"] if len(found) == 1 else found
        if row.kind == "xml64":
            self.no_label(node, place)
            return base64.b64encode(content_text([node]).encode()).decode()
        self.no_more(node, {"algorithm": "Algorithm", "content64": "dtype"}.get(row.kind, ""), place)
        if row.kind == "content64":
            if node.attributes.get("dtype", "xml") != "xml":
                self.leave_out("dtype", f"{place}/@dtype")
            return base64.b64encode(content_text(node.content).encode()).decode()
        for child, where in numbered(node, place):
            self.leave_out(child.name, where)
        if row.kind == "algorithm":
            self.no_text(node, place)
            return node.attributes.get("Algorithm", "")
        return self.plain(node.text(), row, place)

    def plain(self, text: str, row: Row, place: str) -> Any:
        if row.kind == "lines":
            return [line for each in re.split(LINE_END, text) if (line := each.strip(SPACES))]
        if row.kind == "number":
            return self.number(text, place)
        return text.strip(SPACES) if row.kind == "token" else text

    def number(self, text: str, place: str) -> int | str:
        found = number_of(text.strip(SPACES))
        if isinstance(found, str):
            self.notes.as_texts.add(f"{found} at {place}")
        return found

    def content(self, made: dict[str, Any], node: Node, row: Row, place: str) -> None:
        """The content of a class. If it is empty, the member is there only for a text with a language."""
        if row.kind == "free" and made.get("dtype") == "xml":
            text = content_text(node.content)
        else:
            text = node.text()
            for child, where in numbered(node, place):
                self.leave_out(child.name, where)
        if row.of == LANGUAGES or (text.strip(SPACES) if row.kind == "number" else text):
            made[row.member] = self.plain(text, row, place)

    def no_label(self, node: Node, place: str) -> None:
        for name in node.attributes:
            if marks.looks_like_mark(name):
                raise Unfit("LabelNotHeld", "in JSON this is a text, which holds no label", place)

    def no_more(self, node: Node, known: str, place: str) -> None:
        """Attributes of an element that is a text in JSON."""
        self.no_label(node, place)
        for name in node.attributes:
            if name != known:
                self.leave_out(name, f"{place}/@{shown_name(name)}")

    def no_text(self, node: Node, place: str) -> None:
        if node.text().strip(SPACES):
            self.notes.leave_out("text between elements", place)
