"""Validation by a schema that the caller has."""
from __future__ import annotations

import pathlib

from .faults import Missing, Unfit

FAULTS = 3  # of a document that are told


def validate(text: bytes, schema: str) -> None:
    """Compares a document that was read without a fault with the schema in a file. Its defaults aren't put in, and what it
    includes or imports is read from this machine alone."""
    try:
        from lxml import etree  # type: ignore[import]
    except ImportError:
        raise Missing("--schema needs the module lxml, Debian's python3-lxml") from None

    class Here(etree.Resolver):  # type: ignore[misc]
        def resolve(self, url: str, public: object, context: object) -> object:
            if ":" in url.removeprefix("file:"):
                raise OSError(f"the schema names {url}, which isn't a file")
            return None

    parser = etree.XMLParser(no_network=True, resolve_entities=False, load_dtd=False)
    parser.resolvers.add(Here())
    pathlib.Path(schema).open("rb").close()  # so that a fault of the file is the system's own
    try:
        rules = etree.XMLSchema(etree.parse(schema, parser), attribute_defaults=False)
    except (etree.LxmlError, OSError) as fault:
        raise Unfit("BadSchema", f"the schema can't be used: {fault}") from None
    try:
        document = etree.fromstring(text, etree.XMLParser(no_network=True, resolve_entities=False, load_dtd=False))
    except etree.LxmlError as fault:
        raise Unfit("NotXml", f"it isn't XML for the schema's reader: {fault}") from None
    if not rules.validate(document):
        told = [f"line {each.line}: {each.message}" for each in list(rules.error_log)[:FAULTS]]
        raise Unfit("NotValid", "by the schema, " + "; ".join(told))
