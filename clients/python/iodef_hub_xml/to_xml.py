"""From JSON to XML."""
from __future__ import annotations

import base64
import binascii
import re
from collections.abc import Iterator
from typing import Any

from . import marks
from .documents import DEEPEST, NoWhole
from .faults import Notes, Unfit
from .table import CLASSES, LANGUAGES, ROOT, Class, Row, whole_name
from .to_json import LINE_END, VERSIONS
from .tree import NOT_IN_XML, SPACES, Budget, Node, read, read_content, split

# What a value of JSON is called in a fault.
CALLED = {dict: "an object", list: "a list", str: "a text", bool: "true or false", type(None): "null", int: "a number", NoWhole: "a number"}


def root_of(document: dict[str, Any], notes: Notes) -> Node:
    """The document in XML for a report in JSON."""
    root = Writer(notes).element(document, CLASSES[ROOT], whole_name(ROOT), "", 0)
    in_xml = {short: written for written, short in VERSIONS.items()}
    if root.attributes.get("version") in in_xml:
        root.attributes["version"] = in_xml[root.attributes["version"]]
    return root


def pointed(place: str, member: str) -> str:
    """The JSON pointer of a member."""
    return f"{place}/{member.replace('~', '~0').replace('/', '~1')}"


def wrong_kind(value: object, wanted: str, place: str) -> Unfit:
    return Unfit("WrongKind", f"{CALLED[type(value)]} is where {wanted} belongs", place)


class Writer:
    def __init__(self, notes: Notes) -> None:
        self.notes = notes
        self.budget = Budget()

    def element(self, value: dict[str, Any], of: Class, name: str, place: str, depth: int) -> Node:
        self.budget.take(1 + len(value))
        if depth > DEEPEST:
            raise Unfit("TooDeep", f"more than {DEEPEST} classes are inside each other")
        if marks.mark_of(value, place) and not of.holds_marks() or of.name == ROOT and set(marks.MEMBERS) & set(value):
            raise Unfit("LabelNotHeld", f"{of.name} has no label in XML", place)
        node = Node(name)
        for member in value:
            if member not in of.rows:
                self.leave_out(member, pointed(place, member))
        for row in of.rows.values():
            if row.member in value:
                self.one_form(row, of, value, place)
                self.put(node, row, value, pointed(place, row.member), depth)
        return node

    def one_form(self, row: Row, of: Class, value: dict[str, Any], place: str) -> None:
        """Refuses a member that is there both alone and in the class around it, if XML has that class only once."""
        around = of.rows.get(split(row.container)[1]) if row.container else None
        if around is not None and not around.is_list and around.member in value:
            raise Unfit("Twice", f"{row.member} is also in {around.member}, which is there only once in XML", pointed(place, row.member))

    def leave_out(self, member: str, place: str) -> None:
        if marks.looks_like_mark(member):
            raise Unfit("BadMarking", "a label is a member in small letters", place)
        self.notes.leave_out(member, place)

    def put(self, node: Node, row: Row, value: dict[str, Any], place: str, depth: int) -> None:
        """Puts a member of a class into its element."""
        found = value[row.member]
        if row.is_attribute and not row.container:
            node.attributes[row.name] = self.text(found, row, place)
        elif not row.name:
            node.content += self.content(found, row, value, place)
            node.is_exact = True
        elif row.kind == "lines":
            node.content.append(self.plain(self.lines(found, place), row.name))
        else:
            self.put_elements(node, row, list(self.each(found, row, place)), depth)

    def put_elements(self, node: Node, row: Row, found: list[tuple[Any, str]], depth: int) -> None:
        if row.is_attribute:
            node.content += [Node(row.container, {row.name: self.text(value, row, where)}) for value, where in found]
            return
        made = [self.one(value, row, where, depth) for value, where in found]
        if not row.container:
            node.content += made
        elif made:
            container = Node(row.container)
            container.content += made
            node.content.append(container)

    def each(self, found: Any, row: Row, place: str) -> Iterator[tuple[Any, str]]:
        """The values of a member, each with its place. One value may be alone or in a list."""
        if not isinstance(found, list):
            yield found, place
            return
        if not found:
            self.notes.leave_out(f"empty {row.member}", place)
        if len(found) > 1 and not row.is_list:
            raise Unfit("Twice", f"{row.of} has only one {row.member}", place)
        for at, one in enumerate(found):
            yield one, f"{place}/{at}"

    def one(self, value: Any, row: Row, place: str, depth: int) -> Node:
        """The element for one value of a member."""
        if row.kind in CLASSES or row.kind == "ml" and isinstance(value, dict):
            if not isinstance(value, dict):
                raise wrong_kind(value, "an object", place)
            return self.element(value, CLASSES[LANGUAGES if row.kind == "ml" else row.kind], row.name, place, depth + 1)
        self.budget.take(1)
        text = self.text(value, row, place)
        if row.kind == "algorithm":
            return Node(row.name, {"Algorithm": text})
        if row.kind == "xml64":
            return self.whole(text, row, place)
        if row.kind == "content64":
            node = Node(row.name, {"dtype": "xml"})
            node.content, node.is_exact = read_content(self.decoded(text, place), self.notes, self.budget, place), True
            return node
        return self.plain(text, row.name)

    def plain(self, text: str, name: str) -> Node:
        node = Node(name)
        node.content, node.is_exact = [text] if text else [], True
        return node

    def whole(self, text: str, row: Row, place: str) -> Node:
        """The element that is in base64."""
        node = read(self.decoded(text, place).encode(), self.notes, self.budget, place)
        if node.name != row.name:
            raise Unfit("NotBase64", f"it isn't {row.member} as XML in base64", place)
        node.is_exact = True
        return node

    def decoded(self, text: str, place: str) -> str:
        try:
            return base64.b64decode("".join(text.split()), validate=True).decode()
        except (binascii.Error, ValueError):
            raise Unfit("NotBase64", "it isn't XML in UTF-8 in base64", place) from None

    def content(self, found: Any, row: Row, value: dict[str, Any], place: str) -> list[str | Node]:
        text = self.text(found, row, place)
        if row.kind == "free" and value.get("dtype") == "xml":
            return read_content(text, self.notes, self.budget, place)
        return [text] if text else []

    def lines(self, found: Any, place: str) -> str:
        values = found if isinstance(found, list) else re.split(LINE_END, found) if isinstance(found, str) else [found]
        made = []
        for at, value in enumerate(values):
            if not isinstance(value, str):
                raise wrong_kind(value, "a text", f"{place}/{at}")
            if not value or value != value.strip(SPACES) or re.search(LINE_END, value):
                raise Unfit("NotOneLine", "in XML each is a line, without spaces around it", f"{place}/{at}")
            made.append(self.characters(value, f"{place}/{at}"))
        return "\n".join(made)

    def text(self, value: Any, row: Row, place: str) -> str:
        """The text of a value; a number is written as it is in JSON."""
        if isinstance(value, NoWhole) and row.kind == "number":
            self.notes.as_texts.add(f"{value.text} at {place}")
            return value.text
        if isinstance(value, int) and not isinstance(value, bool) and row.kind == "number":
            return str(value)
        if not isinstance(value, str):
            raise wrong_kind(value, "a text", place)
        return self.characters(value, place)

    def characters(self, text: str, place: str) -> str:
        if bad := NOT_IN_XML.search(text):
            raise Unfit("BadCharacter", f"XML has no character U+{ord(bad[0]):04X}", place)
        return text
