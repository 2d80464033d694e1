"""The command's words."""
from __future__ import annotations

import argparse
import json
import pathlib
import sys
from collections.abc import Iterator
from typing import Any

from iodef_hub_ask.characters import shown
from iodef_hub_ask.limits import MOST_BYTES, MOST_DEPTH, MOST_INCIDENTS, MOST_LINES, depth_of, most_lines

from . import documents, to_json, to_xml, tree
from .faults import Missing, Notes, Unfit
from .table import printed
from .validate import validate

NEEDED = ("Contact", "GenerationTime", "IncidentID", "purpose")  # of an Incident


def say(text: str) -> None:
    print(f"iodef-hub-xml: {shown(text)}", file=sys.stderr)


def refusals(document: dict[str, Any], text: bytes) -> Iterator[str]:
    """Why hubs refuse a report, if they do."""
    incidents = document.get("Incident", [])
    if len(text) > MOST_BYTES:
        yield f"it has {len(text)} bytes, and at most {MOST_BYTES} are accepted"
    if (count := most_lines(document)) > MOST_LINES:
        yield f"an Incident has {count} lines, and at most {MOST_LINES} are accepted"
    if (deepest := depth_of(document)) > MOST_DEPTH:
        yield f"a line is {deepest} deep, and at most {MOST_DEPTH} are accepted"
    if not 1 <= len(incidents) <= MOST_INCIDENTS:
        yield f"it has {len(incidents)} Incidents, and 1 to {MOST_INCIDENTS} are accepted"
    for at, each in enumerate(incidents[:MOST_INCIDENTS]):
        yield from (f"/Incident/{at} lacks {name}" for name in NEEDED if name not in each)


def converted_to_json(text: bytes, schema: str | None, notes: Notes) -> bytes:
    document = to_json.document_of(text, notes)
    if schema is not None:
        validate(text, schema)
    written = json.dumps(document, separators=(",", ":"), ensure_ascii=False).encode()
    for why in refusals(document, written):
        say(f"hubs refuse this report: {why}")
    return written + b"\n"


def converted_to_xml(text: bytes, schema: str | None, notes: Notes) -> bytes:
    document, withheld = documents.document_of(text)
    written = tree.document_text(to_xml.root_of(document, notes)).encode()
    if schema is not None:
        validate(written, schema)
    if withheld:
        say(f"something is withheld from you in {withheld} places")
    return written


WAYS = {"to-json": converted_to_json, "to-xml": converted_to_xml}


def words() -> argparse.ArgumentParser:
    what = "IODEF reports in XML (RFC 7970) to JSON (RFC 8727) for iodef-hub, and back."
    parser = argparse.ArgumentParser(prog="iodef-hub-xml", description=what)
    ways = parser.add_subparsers(dest="way", required=True, metavar="to-json|to-xml|table")
    there = ways.add_parser("to-json", help="the report in JSON for a document in XML")
    back = ways.add_parser("to-xml", help="the document in XML for a report in JSON, or for what iodef-hub-ask --json show prints")
    ways.add_parser("table", help="how each member of each class is written in JSON and in XML, and where that was read")
    for each, what in ((there, "XML"), (back, "JSON")):
        each.add_argument("--schema", metavar="FILE", help="refuse what isn't valid by this schema; its defaults aren't put in")
        each.add_argument("file", nargs="?", default="-", metavar=what, help="a file, or standard input")
    return parser


def read_file(name: str) -> bytes:
    """The input, or so much of it that its length is seen to be too great."""
    most = documents.LONGEST_INPUT + 1
    if name == "-":
        return sys.stdin.buffer.read(most)
    with pathlib.Path(name).open("rb") as file:
        return file.read(most)


def run(given: argparse.Namespace) -> bytes:
    if given.way == "table":
        return "".join(f"{line}\n" for line in printed()).encode()
    notes = Notes()
    try:
        made = WAYS[given.way](read_file(given.file), given.schema, notes)
    except RecursionError:
        raise Unfit("TooDeep", "the input is nested too deeply") from None
    except MemoryError:
        raise Unfit("TooLarge", "memory ran out") from None
    for line in notes.lines():
        say(line)
    return made


def main() -> int:
    """Returns 0 done, 1 refused, 2 usage, or a file or a module that can't be used."""
    given = words().parse_args()
    try:
        sys.stdout.buffer.write(run(given))
        sys.stdout.buffer.flush()
    except Unfit as fault:
        say(f"refused: {fault}")
        return 1
    except (Missing, OSError) as fault:
        say(str(fault))
        return 2
    return 0
