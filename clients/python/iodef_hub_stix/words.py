"""The command iodef-hub-stix."""
from __future__ import annotations

import argparse
import datetime
import json
import os
import pathlib
import sys
from collections import Counter
from collections.abc import Sequence
from typing import Any

from iodef_hub_ask.characters import shown
from iodef_hub_ask.limits import MOST_BYTES, MOST_LINES
from iodef_hub_misp import Unfit, compact, counted, read_file, read_json

from .back import beyond_of, report_of
from .excerpt import Excerpt, moment
from .making import Ids, objects_of
from .marking import definitions_of
from .table import CLASSES, MARKINGS, MEMBERS, VALUES, count_from_memory

MOST_PLACES = 20  # of one kind on standard error

HEAD = """What a hub served or iodef-redact let through, as a bundle of STIX 2.1, and back. It opens no connection.

    iodef-hub-ask --json show 1 | iodef-hub-stix to-stix --hub hub.example.org > bundle.json
    iodef-redact excerpt --clearance GREEN < report.json | iodef-hub-stix to-stix --hub hub.example.org --incident 1
    iodef-hub-stix to-iodef --name csirt.example.com < bundle.json > report.json

An object's marking is the strictest label of what it holds: `amber` is TLP:AMBER+STRICT, `default` and what isn't known are TLP:RED.
`created` is the report's GenerationTime; if there is none, or its Incident is stricter than the object, 1970-01-01. `modified` is --now,
and never before. iodef-hub-taxii writes another `created`, its first sight of the report: don't feed both into one consumer.

Back, of several markings the strictest holds, and an object without a marking becomes TLP:RED. A pattern that is no plain list of values,
or of another type such as snort, is kept as a text, and its object is named. An indicator's `name` is its Description if it has none.
Standard error says what was left out, by name and number.
"""


def say(text: str) -> None:
    print(f"iodef-hub-stix: {shown(text)}", file=sys.stderr)


def _moment(text: str) -> str:
    told = moment(text)
    if told is None:
        raise argparse.ArgumentTypeError("it must be a date and time with offset, as 2026-06-01T00:00:00Z")
    return told


def _some_text(text: str) -> str:
    if not text.strip():
        raise argparse.ArgumentTypeError("it must not be empty")
    return text


def words() -> argparse.ArgumentParser:
    parser = argparse.ArgumentParser(prog="iodef-hub-stix", description=HEAD, formatter_class=argparse.RawDescriptionHelpFormatter)
    ways = parser.add_subparsers(dest="way", required=True, metavar="to-stix|to-iodef|table")
    there = ways.add_parser("to-stix", help="the bundle of an excerpt")
    there.add_argument("--hub", required=True, type=_some_text, metavar="NAME",
                       help="the hub's name, of which ids are made: always the same for one hub")
    there.add_argument("--incident", default="", metavar="NUMBER", help="the incident's number at the hub, if the input doesn't tell it")
    there.add_argument("--names", default=os.environ.get("IODEF_HUB_NAMES", ""), metavar="FILE",
                       help="a file of iodef-hub-directory --names, for the source's name (default: IODEF_HUB_NAMES)")
    back = ways.add_parser("to-iodef", help="the report of a bundle")
    back.add_argument("--name", required=True, type=_some_text, metavar="NAME", help="the name of the IncidentID: your team's")
    back.add_argument("--report", default="", metavar="ID", help="which report of the bundle, if it has several")
    for each, what in ((there, "EXCERPT"), (back, "BUNDLE")):
        each.add_argument("--now", type=_moment, metavar="MOMENT",
                          help="`modified` of objects, or GenerationTime of a report whose bundle tells none (default: the clock's)")
        each.add_argument("file", nargs="?", default="-", metavar=what, help="a file, or standard input")
    ways.add_parser("table", help="which kind of IODEF becomes which object, and where each row was read")
    return parser


def clock() -> str:
    told = moment(datetime.datetime.now(datetime.timezone.utc).isoformat())
    assert told is not None
    return told


def names_in(file: str) -> dict[str, str]:
    """The names of organisations by number, from a file of `iodef-hub-directory --names`; without a file there are none."""
    if not file:
        return {}
    value = read_json(pathlib.Path(file).read_bytes())
    orgs = value.get("orgs") if isinstance(value, dict) else None
    if not isinstance(orgs, dict):
        raise Unfit(f"{file} isn't a file of iodef-hub-directory --names")
    return {number: name for number, name in orgs.items() if isinstance(name, str)}


def bundle_of(excerpt: Excerpt, now: str) -> tuple[dict[str, Any], Counter[str]]:
    """The bundle of an excerpt, with the marking definitions that it needs, and how much of the excerpt isn't in it."""
    objects, left_out = objects_of(excerpt, now)
    name = Ids(excerpt.hub, excerpt.incident).of("bundle", "bundle", "")
    return {"type": "bundle", "id": name, "objects": [*definitions_of(objects), *objects]}, left_out


def table() -> str:
    """The table, a row a line, with tabs between."""
    rows = [(each.kind, each.path, each.iodef_read, each.stix_read) for each in VALUES]
    rows += [(f"{each.of}/{each.name}", each.kind or "by its kind", each.iodef_read, "") for each in MEMBERS]
    rows += [(each.iodef, each.stix, each.iodef_read, each.stix_read) for each in (*CLASSES, *MARKINGS)]
    every, stix, iodef = count_from_memory()
    lines = ["\t".join(("IODEF", "STIX 2.1", "IODEF's names read", "STIX's names read")), *("\t".join(each) for each in rows)]
    return "\n".join([*lines, f"{every} rows: IODEF's names of {iodef} and STIX's of {stix} are from memory"])


def _say_texts(places: Sequence[str]) -> None:
    for each in places[:MOST_PLACES]:
        say(f"a pattern is kept as a text: {each}")
    if len(places) > MOST_PLACES:
        say(f"and {len(places) - MOST_PLACES} further patterns")


def _done(given: argparse.Namespace) -> str:
    """What is printed."""
    if given.way == "table":
        return table()
    now, left_out = given.now or clock(), Counter[str]()
    if given.way == "to-stix":
        value = read_json(read_file(given.file))
        made, left_out = bundle_of(Excerpt.of_answer(value, given.hub, given.incident, names_in(given.names)), now)
        text = json.dumps(made, indent=1, ensure_ascii=False)
    else:
        made, left_out, as_texts = report_of(read_file(given.file), given.name, now, given.report)
        text = compact(made)
        _say_texts(as_texts)
        for why in beyond_of(made, len(text.encode()), MOST_BYTES, MOST_LINES):
            say(f"hubs refuse the report: it has {why}")
    if any(left_out.values()):
        say("left out: " + counted(left_out))
    return text


def main() -> int:
    """Returns 0 done, 1 refused, 2 usage or a file that can't be read."""
    given = words().parse_args()
    try:
        told = _done(given).encode()
        sys.stdout.buffer.write(told + b"\n")
        sys.stdout.buffer.flush()
    except Unfit as fault:
        say(f"refused: {fault}")
        return 1
    except (RecursionError, UnicodeError):
        say("refused: the input is nested too deeply, or has a text that can't be written")
        return 1
    except OSError as fault:
        say(str(fault))
        return 2
    return 0


