"""What readers would get of a report that isn't posted yet. The verdicts are those of iodef-redact."""
from __future__ import annotations

import argparse
import json
from collections.abc import Iterator
from typing import Any

from iodef_hub import RULES

from .characters import shown, shown_json
from .everyone import preview_everyone
from .posting import document_of, report_of
from .readers import asked_of, file_reader, only_view, readers_called
from .sharing import level_words
from .telling import Usage, note


def incidents_of(report: bytes) -> list[dict[str, Any]]:
    """The Incidents of a report; of what is no report, none."""
    found = document_of(report).get("Incident")
    return [each for each in found if isinstance(each, dict)] if isinstance(found, list) else []


def refusals(report: bytes, given: argparse.Namespace) -> Iterator[str]:
    """Yields why a hub refuses such a Post, as far as the program that redacts wouldn't say so, in the hub's order."""
    if given.level > 4:
        yield "level: it is 0 to 4"
    if (given.level == 4) != (given.group is not None):
        yield "group: level 4 needs --group, and no other level has one"
    if 0 in (given.group, *given.in_group):
        yield "group: groups are numbered from 1"
    incidents, paths = incidents_of(report), [each.path for each in given.gate]
    if given.gate and len(incidents) > 1:
        yield "gates: a report of several Incidents can't have a gate at a class"
    if "" in paths or len(set(paths)) < len(paths):
        yield "gates: there is one gate at a class, and that of the root is LEVEL"
    if any((each.level == 4) != (each.group != 0) or each.level > 5 for each in given.gate):
        yield "gates: GROUP is a group's number at level 4, and else 0; a level is 0 to 5"
    idents = [json.dumps(each.get("IncidentID"), sort_keys=True) for each in incidents]
    if len(set(idents)) < len(idents):
        yield "IncidentID: two Incidents have the same"


def tell_assumed(given: argparse.Namespace) -> None:
    """For whom the words would post the report."""
    whom = "any of your communities" if given.community is None else given.names("community", given.community)
    note(f"as it would be at {level_words(given, given.level, given.group)}; TLP:GREEN is for the members of {whom}")


def do_preview(given: argparse.Namespace) -> None:
    report = report_of(given)
    for refusal in refusals(report, given):
        raise Usage(f"nothing is asked, as a hub refuses the report: {refusal}")
    if given.reader == "everyone":
        preview_everyone(given, report, incidents_of(report))
        tell_assumed(given)
        return
    readers = readers_called(given.reader, given.community is not None) or {given.reader: file_reader(given.reader)}
    whole = only_view(asked_of(given, report), readers)
    if given.json:
        print(whole.decode().rstrip("\n"))
        return
    value = json.loads(whole)
    print(shown_json(value["document"]))
    for place, rule in value["withheld"]:
        note(f"withheld at {shown(place) or 'the root'}: {RULES.get(rule, 'withheld')} ({shown(rule)})")
