"""Generated reports, from XML to JSON and back."""
from __future__ import annotations

import collections
import json
import xml.etree.ElementTree as ElementTree
from collections.abc import Iterator

from iodef_hub_xml import documents, to_json, to_xml, tree
from iodef_hub_xml.faults import Notes, Unfit
from iodef_hub_xml.table import CLASSES

from . import xml_generated as generated
from .context import Context, same


def there_and_back(text: bytes) -> tuple[bytes, bytes, Notes]:
    notes = Notes()
    in_json = json.dumps(to_json.document_of(text, notes)).encode()
    back = tree.document_text(to_xml.root_of(documents.document_of(in_json)[0], notes)).encode()
    return in_json, back, notes


def differences(text: bytes) -> list[str]:
    """What isn't the same behind the conversions."""
    in_json, back, notes = there_and_back(text)
    first, last = ElementTree.fromstring(text), ElementTree.fromstring(back)
    found = [f"left out: {name}" for name in notes.left_out]
    if generated.canonical(first) != generated.canonical(last):
        found.append("the tree")
    labels = list(generated.labels_in_xml(first))
    if sorted(labels) != sorted(generated.labels_in_json(json.loads(in_json))):
        found.append("the labels in JSON")
    if sorted(labels) != sorted(generated.labels_in_xml(last)):
        found.append("the labels in XML")
    return found


def checks(context: Context) -> Iterator[tuple[bool, str]]:
    seen: collections.Counter[str] = collections.Counter()
    faults: list[str] = []
    values = 0
    for number in range(context.count):
        text = generated.report(context.seed, number)
        root = ElementTree.fromstring(text)
        seen.update(each.tag.rpartition("}")[2] for each in root.iter())
        values += sum(1 for _ in generated.labels_in_xml(root))
        try:
            faults += [f"report {number}: {each}" for each in differences(text)]
        except Unfit as fault:
            faults.append(f"report {number} is refused: {fault}")
    yield same(
        f"{context.count} generated reports are the same behind JSON, with the labels of {values} values at each step", faults[:5], []
    )
    elements = {row.name.rpartition("}")[2] for of in CLASSES.values() for row in of.elements.values() if not row.is_attribute}
    yield same("each element of the table is in one of them", sorted(elements - set(seen)) if context.count >= 1000 else [], [])
