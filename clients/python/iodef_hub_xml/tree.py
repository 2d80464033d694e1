"""XML as a tree: read under limits, without DTDs, entities and external references; and written."""
from __future__ import annotations

import itertools
import re
from collections.abc import Iterator, Mapping
from dataclasses import dataclass
from typing import Union

from .documents import DEEPEST, too_long
from .faults import Missing, Notes, Unfit
from .table import IODEF, PREFIXES, XML

MOST_NODES = 100_000  # elements, attributes and processing instructions of an input, with those inside its values
MOST_PREFIXES, MOST_PREFIXES_AT_ONCE = 5_000, 100
NOT_IN_XML = re.compile("[^\t\n\r\x20-\ud7ff\ue000-\ufffd\U00010000-\U0010ffff]")
PREFIXED = re.compile(r"[^\W\d][\w.-]*(?=:)")
SPACES = " \t\r\n"
PROLOG = re.compile(r"\s*<\?xml\s[^>]*\?>")
ESCAPES = {"&": "&amp;", "<": "&lt;", ">": "&gt;", "\r": "&#13;"}
NONE: Mapping[str, str] = {}
IN_ATTRIBUTES = {**ESCAPES, '"': "&quot;", "\n": "&#10;", "\t": "&#9;"}


class Node:
    """An element: its whole name, attributes, texts and elements, the prefixes with which it was read, and whether spaces in it
    mean something."""

    __slots__ = ("name", "attributes", "content", "scope", "is_exact")

    def __init__(self, name: str, attributes: dict[str, str] | None = None, scope: Mapping[str, str] | None = None) -> None:
        self.name, self.attributes, self.scope, self.is_exact = name, attributes or {}, scope or {}, False
        self.content: list[Union[str, Node]] = []

    def nodes(self) -> Iterator[Node]:
        return (each for each in self.content if isinstance(each, Node))

    def text(self) -> str:
        return "".join(each for each in self.content if isinstance(each, str))


@dataclass
class Budget:
    """How much more may be read."""

    nodes: int = MOST_NODES
    prefixes: int = MOST_PREFIXES

    def take(self, count: int) -> None:
        self.nodes -= count
        if self.nodes < 0:
            raise Unfit("TooLarge", f"the input has more than {MOST_NODES} elements and attributes")

    def take_prefix(self, scope: Mapping[str, str]) -> None:
        self.prefixes -= 1
        if self.prefixes < 0 or len(scope) > MOST_PREFIXES_AT_ONCE:
            raise Unfit("TooLarge", "the input has too many prefixes of namespaces")


class Builder:
    """What the parser calls."""

    def __init__(self, budget: Budget, notes: Notes) -> None:
        self.budget, self.notes = budget, notes
        self.open: list[Node] = []
        self.root: Node | None = None
        self.declared: dict[str, str] = {}

    def start_ns(self, prefix: str | None, uri: str) -> None:
        if not self.declared:
            self.declared = dict(self.open[-1].scope) if self.open else {}
        self.declared[prefix or ""] = uri or ""
        self.budget.take_prefix(self.declared)

    def start(self, name: str, attributes: dict[str, str]) -> None:
        self.budget.take(1 + len(attributes))
        if len(self.open) >= DEEPEST:
            raise Unfit("TooDeep", f"more than {DEEPEST} elements are inside each other")
        scope = self.declared or (self.open[-1].scope if self.open else {})
        self.declared = {}
        node = Node(name if name.startswith("{") else "{}" + name, attributes, scope)
        if self.open:
            self.open[-1].content.append(node)
        else:
            self.root = node
        self.open.append(node)

    def end(self, name: str) -> None:
        self.open.pop()

    def data(self, text: str) -> None:
        self.open[-1].content.append(text)

    def pi(self, target: str, text: str | None = None) -> None:
        self.budget.take(1)
        self.notes.leave_out("processing instructions", target)

    def close(self) -> Node:
        assert self.root is not None
        return self.root


def read(text: bytes, notes: Notes, budget: Budget, place: str = "") -> Node:
    """The root of a document in XML. `place` is where the text was, if it was a value."""
    try:
        from defusedxml.common import DefusedXmlException  # type: ignore[import]
        from defusedxml.ElementTree import DefusedXMLParser, ParseError  # type: ignore[import]
    except ImportError:
        raise Missing("this needs the module defusedxml, Debian's python3-defusedxml") from None
    too_long(text)
    parser = DefusedXMLParser(target=Builder(budget, notes), forbid_dtd=True, forbid_entities=True, forbid_external=True)
    try:
        parser.feed(text)
        root: Node = parser.close()
        return root
    except DefusedXmlException:
        raise Unfit("HasDtd", "a document type, with or without entities, isn't read", place) from None
    except (ParseError, ValueError, LookupError) as fault:
        raise Unfit("NotXml", f"it isn't XML that can be read: {fault}", place) from None


def read_content(text: str, notes: Notes, budget: Budget, place: str) -> list[Union[str, Node]]:
    """The texts and elements of a value that is the content of an element."""
    inner = PROLOG.sub("", text, 1)
    return read(f"<content>{inner}</content>".encode(), notes, budget, place).content


def split(name: str) -> tuple[str, str]:
    """Namespace and name."""
    namespace, _, last = name[1:].rpartition("}") if name.startswith("{") else ("", "", name)
    return namespace, last


def shown_name(name: str) -> str:
    """A whole name for people, with the prefix that is usual for its namespace."""
    namespace, last = split(name)
    prefix = next((prefix for prefix, uri in {**PREFIXES, "xml": XML}.items() if uri == namespace), None)
    return f"{prefix}:{last}" if prefix else last if namespace in ("", IODEF) else f"{{{namespace}}}{last}"


def numbered(node: Node, place: str) -> Iterator[tuple[Node, str]]:
    """The elements inside, each with its place, which counts those of its name from 1."""
    seen: dict[str, int] = {}
    for each in node.nodes():
        seen[each.name] = seen.get(each.name, 0) + 1
        yield each, f"{place}/{shown_name(each.name)}[{seen[each.name]}]"


# Writing


def escaped(text: str, escapes: Mapping[str, str] = ESCAPES) -> str:
    return "".join(escapes.get(each, each) for each in text) if any(each in text for each in escapes) else text


def prefixes_for(node: Node, bound: Mapping[str, str]) -> dict[str, str]:
    """The prefixes that an element has to declare: those of its attributes, and those that its texts name, as `xsd:string` does."""
    wanted: dict[str, str] = {}
    for text in (*node.attributes.values(), node.text()) if node.scope else ():
        for prefix in PREFIXED.findall(text):
            if prefix in node.scope and bound.get(prefix) != node.scope[prefix]:
                wanted[prefix] = node.scope[prefix]
    for namespace in {split(name)[0] for name in node.attributes} - {"", XML}:
        both = {**bound, **wanted}
        if namespace not in both.values():
            named = (prefix for prefix, uri in node.scope.items() if prefix and prefix not in both and uri == namespace)
            free = (prefix for at in itertools.count(1) if (prefix := f"a{at}") not in both)
            wanted[next(itertools.chain(named, free))] = namespace
    return wanted


class Written:
    """The text of elements in XML. Below, `default` is the namespace of names without a prefix, `bound` are the namespaces of
    prefixes, and `indent` is what a line begins with, or None where spaces mean something."""

    def __init__(self) -> None:
        self.parts: list[str] = []

    def put(self, node: Node, default: str, bound: Mapping[str, str], indent: str | None, also: Mapping[str, str] = NONE) -> None:
        """Writes an element, which declares the prefixes that it needs and those of `also`."""
        new = {**also, **prefixes_for(node, bound)}
        declared = {f"xmlns:{prefix}": uri for prefix, uri in new.items()}
        bound = {**bound, **new} if new else bound
        namespace, tag = split(node.name)
        if namespace != default:
            prefix = next((prefix for prefix, uri in bound.items() if uri == namespace), None)
            if prefix is None:
                default, declared = namespace, {"xmlns": namespace, **declared}
            else:
                tag = f"{prefix}:{tag}"
        attributes = {**declared, **{self.attribute(name, bound): text for name, text in node.attributes.items()}}
        self.parts.append(f"<{tag}" + "".join(f' {name}="{escaped(text, IN_ATTRIBUTES)}"' for name, text in attributes.items()))
        if not node.content:
            self.parts.append("/>")
            return
        self.parts.append(">")
        self.content(node, default, bound, indent)
        self.parts.append(f"</{tag}>")

    def attribute(self, name: str, bound: Mapping[str, str]) -> str:
        namespace, last = split(name)
        if namespace in ("", XML):
            return f"xml:{last}" if namespace else last
        return f"{next(prefix for prefix, uri in bound.items() if uri == namespace)}:{last}"

    def content(self, node: Node, default: str, bound: Mapping[str, str], indent: str | None) -> None:
        is_exact = indent is None or node.is_exact or any(isinstance(each, str) for each in node.content)
        inner = None if is_exact or indent is None else indent + " "
        for each in node.content:
            if isinstance(each, str):
                self.parts.append(escaped(each))
                continue
            if inner is not None:
                self.parts.append(inner)
            self.put(each, default, bound, inner)
        if inner is not None and indent is not None:
            self.parts.append(indent)


def content_text(content: list[Union[str, Node]]) -> str:
    """Texts and elements as XML that needs no declaration around it."""
    written, holder = Written(), Node("{}content")
    holder.content = content
    written.content(holder, "", {}, None)
    return "".join(written.parts)


def document_text(root: Node) -> str:
    """A whole document, in which the namespaces of PREFIXES that it has are declared at the root."""
    there: set[str] = set()
    waiting = [root]
    while waiting:
        node = waiting.pop()
        there.add(split(node.name)[0])
        waiting += node.nodes()
    bound = {prefix: uri for prefix, uri in PREFIXES.items() if uri in there}
    written = Written()
    written.put(root, "", {}, "\n", bound)
    return '<?xml version="1.0" encoding="UTF-8"?>\n' + "".join(written.parts) + "\n"
