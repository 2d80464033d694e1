"""Checks of iodef-hub-xml: cases with answers by hand, generated reports there and back, hostile files, and a running hub."""
from __future__ import annotations

import importlib.util
from collections.abc import Iterator

from . import xml_cases, xml_hostile, xml_live, xml_properties
from .context import Context, same

SECTION = "xml"


def checks(context: Context) -> Iterator[tuple[bool, str]]:
    missing = [name for name in ("defusedxml", "lxml") if importlib.util.find_spec(name) is None]
    yield same("this Python has the modules defusedxml and lxml", missing, [])
    if missing:
        return
    yield from xml_cases.checks(context)
    yield from xml_hostile.checks(context)
    yield from xml_live.checks(context)
    yield from xml_properties.checks(context)
