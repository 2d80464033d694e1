"""Reports in XML that are generated from a seed, and what two of them have in common.

Each value has a needle, a text that no other value has, so that the label that holds for it can be followed through conversions.
"""
from __future__ import annotations

import base64
import random
import re
import xml.etree.ElementTree as ElementTree
from collections.abc import Iterator
from typing import Any

from iodef_hub_xml.marks import LABELS, MEMBERS, RESTRICTION
from iodef_hub_xml.table import CLASSES, IODEF, PREFIXES, ROOT, Class, Row

# `n12n` in texts, 5000000012 as a number.
NEEDLE = re.compile(r"n[0-9]+n|5[0-9]{9}")
NUMBERS = 5_000_000_000
EXTENDED = ("TLP:AMBER", "tlp:clear", "TLP:GREEN", "campus only", "TLP:AMBER+STRICT", 'a "b" & <c>\t\n')
TEXTS = (
    "",
    " ",
    "\n",
    "\t",
    "\r\n",
    "&<>\"'",
    "]]>",
    "ä€",
    "\u2028",
    "\U0001f600",
    "\ue000",
    "<!-- no comment -->",
    "  two spaces  ",
    "%en;",
    "{}",
)
FOREIGN = ("urn:example:one", "urn:example:two", "", IODEF, PREFIXES["ds"])


class Maker:
    def __init__(self, chance: random.Random, is_whole: bool = False) -> None:
        """`is_whole` makes what a hub takes: the four members that an Incident has."""
        self.chance, self.is_whole = chance, is_whole
        self.deepest = 5 if is_whole else 7
        self.count = 0

    def needle(self) -> str:
        self.count += 1
        return f"n{self.count}n"

    def text(self) -> str:
        return self.chance.choice(TEXTS) + self.needle() + self.chance.choice(TEXTS)

    def value(self, kind: str) -> str:
        if kind == "number":
            self.count += 1
            return self.chance.choice(
                (f"{NUMBERS + self.count}", f"{NUMBERS + self.count}.50", f"+{NUMBERS + self.count}", f"0{NUMBERS + self.count}")
            )
        if kind == "lines":
            return "\n".join(self.needle() for _ in range(self.chance.randint(1, 4)))
        return self.needle() if kind == "token" else self.text()

    def report(self) -> ElementTree.Element:
        root = self.element(f"{{{IODEF}}}{ROOT}", CLASSES[ROOT], 0)
        for each in root.findall(f"{{{IODEF}}}Incident")[1 if self.is_whole else 3 :]:
            root.remove(each)
        if self.is_whole and root.find(f"{{{IODEF}}}Incident") is None:
            root.append(self.element(f"{{{IODEF}}}Incident", CLASSES["Incident"], 1))
        if "version" in root.attrib:
            root.attrib["version"] = "2.00"
        return root

    def element(self, name: str, of: Class, depth: int) -> ElementTree.Element:
        made = ElementTree.Element(name)
        for row in of.attributes.values():
            if row.member not in MEMBERS and self.chance.random() < 0.3:
                made.set(row.name, self.attribute(row))
        if of.holds_marks() and self.chance.random() < 0.3:
            self.mark(made)
        if of.content:
            self.content(made, of.content)
        else:
            self.elements(made, of, depth)
        return made

    def attribute(self, row: Row) -> str:
        if row.member == "dtype":
            return self.chance.choice(("string", "xml", "ext-value"))
        return self.value(row.kind).strip() if row.kind == "number" else self.text()

    def mark(self, made: ElementTree.Element) -> None:
        label = self.chance.choice(LABELS)
        made.set(RESTRICTION, label)
        if label == "ext-value" or self.chance.random() < 0.05:
            made.set("ext-restriction", self.chance.choice(EXTENDED))

    def content(self, made: ElementTree.Element, row: Row) -> None:
        if row.kind == "free" and made.get("dtype") == "xml":
            self.mixed(made, 0)
        elif row.kind != "number" or self.chance.random() < 0.7:
            made.text = self.value(row.kind)

    def mixed(self, made: ElementTree.Element, depth: int) -> None:
        """Texts and elements of any namespace."""
        made.text = self.text()
        for _ in range(self.chance.randint(0, 2 if depth < 3 else 0)):
            inner = ElementTree.SubElement(made, f"{{{self.chance.choice(FOREIGN)}}}x".replace("{}", ""))
            for name in ("a", "{urn:example:one}b", "{http://www.w3.org/XML/1998/namespace}lang"):
                if self.chance.random() < 0.3:
                    inner.set(name, self.text())
            self.mixed(inner, depth + 1)
            inner.tail = self.text()

    def elements(self, made: ElementTree.Element, of: Class, depth: int) -> None:
        rows = list(of.elements.values())
        share = min(1.0, (9.0 if depth < 2 else 2.5) / max(len(rows), 1)) * (1 if depth < self.deepest else 0.15)
        wanted = [row for row in rows if self.chance.random() < share]
        if self.is_whole and of.name == "Incident":
            made.set("purpose", "reporting")
            wanted += [row for row in rows if row.member in ("Contact", "GenerationTime", "IncidentID") and row not in wanted]
        self.chance.shuffle(wanted)
        for row in wanted:
            if not (depth > 2 * self.deepest and row.kind in CLASSES):
                self.some(made, row, depth)

    def some(self, made: ElementTree.Element, row: Row, depth: int) -> None:
        count = self.chance.choice((1, 1, 2)) if row.is_list else 1
        if not row.container:
            made.extend(self.one(row, depth) for _ in range(count))
        elif row.is_attribute:
            made.extend(ElementTree.Element(row.container, {row.name: self.text()}) for _ in range(count))
        else:
            container = ElementTree.SubElement(made, row.container)
            container.extend(self.one(row, depth) for _ in range(count))

    def one(self, row: Row, depth: int) -> ElementTree.Element:
        if row.kind in CLASSES:
            return self.element(row.name, CLASSES[row.kind], depth + 1)
        if row.kind == "ml":
            return self.element(row.name, CLASSES["ML_STRING"], depth + 1)
        made = ElementTree.Element(row.name)
        if row.kind == "algorithm":
            made.set("Algorithm", self.text())
        elif row.kind in ("xml64", "content64"):
            made.attrib |= {"dtype": "xml"} if row.kind == "content64" else {"Id": self.text()}
            self.mixed(made, 0)
        else:
            made.text = self.value(row.kind)
        return made


def text_of(root: ElementTree.Element) -> bytes:
    # Line ends in values are written by their numbers, as a parser makes "\n" of "\r\n".
    return ElementTree.tostring(root, "utf-8").replace(b"\r", b"&#13;")


def report(seed: int, number: int, is_whole: bool = False) -> bytes:
    """A report of a seed. A whole one has an IncidentID that no other of the seed has."""
    root = Maker(random.Random(f"{seed} {number}"), is_whole).report()
    for ident in root.findall(f"{{{IODEF}}}Incident/{{{IODEF}}}IncidentID") if is_whole else ():
        ident.text = f"report {number}"
    return text_of(root)


# What two documents have in common


def canonical(node: ElementTree.Element) -> Any:
    """An element without what may differ: prefixes, comments, the order of elements of different names, and spaces where only
    elements are. A list of lines is its lines, and a number is without spaces around it."""
    texts = [node.text or "", *(each.tail or "" for each in node)]
    is_bare = len(node) > 0 and not "".join(texts).strip()
    inner = [canonical(each) for each in node]
    if is_bare:
        inner.sort(key=lambda each: str(each[0]))
        texts = []
    if node.tag == f"{{{IODEF}}}BulkObservableList":
        texts = texts[0].split()
    return node.tag, sorted(node.attrib.items()), texts, inner


def labels_in_xml(node: ElementTree.Element, label: tuple[str, ...] = ()) -> Iterator[tuple[str, tuple[str, ...]]]:
    """Each needle with the label that holds for it: that of the nearest element that has one."""
    if RESTRICTION in node.attrib:
        label = tuple(node.attrib[name] for name in MEMBERS if name in node.attrib)
    texts = [text for name, text in node.attrib.items() if name not in MEMBERS]
    texts += [node.text or "", *(each.tail or "" for each in node)]
    yield from ((needle, label) for text in texts for needle in NEEDLE.findall(text))
    for each in node:
        yield from labels_in_xml(each, label)


def labels_in_json(value: Any, label: tuple[str, ...] = (), name: str = "") -> Iterator[tuple[str, tuple[str, ...]]]:
    """The same of a report in JSON."""
    if isinstance(value, dict):
        if RESTRICTION in value:
            label = tuple(value[each] for each in MEMBERS if each in value)
        for member, each in value.items():
            if member not in MEMBERS:
                yield from labels_in_json(each, label, member)
    elif isinstance(value, list):
        for each in value:
            yield from labels_in_json(each, label, name)
    else:
        text = base64.b64decode(value).decode() if name in ("Signature", "X509Data", "RawData") else str(value)
        yield from ((needle, label) for needle in NEEDLE.findall(text))
