"""That the table of `iodef-hub-ask preview --for everyone` leaves no reader out: in hubs at random, each reader's View is one of its columns.

The engine is iodef-redact itself. How a reader stands to an incident is worked out by scripts/try/redact.d/circle.py, of all that a
hub knows of the reader; the columns know only their own words.
"""
from __future__ import annotations

import argparse
import json
import pathlib
import random
import subprocess
import sys
from collections.abc import Callable
from typing import Any

sys.path.insert(0, str(pathlib.Path(__file__).resolve().parent.parent / "redact.d"))
import circle as circles  # noqa: E402
import iodef_hub  # noqa: E402
from generated import Maker, classes_of  # noqa: E402
from iodef_hub_ask import everyone, readers  # noqa: E402

Check = Callable[..., None]
SOURCE = 2
CASES = 25  # reports, each with its gates, of which the hubs take one
READERS = 4  # of a hub at random
TABLE = (
    "class                   label      1        2      3        4", "/Incident/0             TLP:GREEN  H-GREEN  shown  shown    shown",
    "/Incident/0/IncidentID  TLP:GREEN  H-GREEN  shown  shown    shown", "/Incident/0/Contact/0   TLP:CLEAR  G1       G1     shown    shown",
    "/Incident/0/Event/0     TLP:AMBER  H-AMBER  shown  H-AMBER  shown",
)
WHO = ("1: unconnected, connected + -, organisation", "2: unconnected, connected + client, addressed, person", "3: partner + -, organisation",
       "4: partner + client, addressed, person")


def told_by_hub(view: Any) -> str:
    """What a hub tells of an excerpt too: without its highest label, and without whether it is a report again."""
    return json.dumps({name: view[name] for name in ("classes", "document", "withheld")})


class Case:
    """A report, how it would be posted, and the columns of its table."""

    def __init__(self, given: argparse.Namespace, report: bytes) -> None:
        self.given, self.report = given, report
        self.asked = readers.asked_of(given, report)
        dimensions = everyone.dimensions_of(given, json.loads(report))
        self.views = {None if each.view is None else json.dumps(json.loads(each.view)) for each in everyone.columns_of(self.asked, dimensions)}

    def posted(self, number: int, recipients: set[tuple[str, int]]) -> circles.Posted:
        gates: list[dict[str, object]] = [{"path": "", "level": self.given.level, **({"group": self.given.group} if self.given.level == 4 else {})}]
        gates += [{"path": each.path, "level": each.level, **({"group": each.group} if each.level == 4 else {})} for each in self.given.gate]
        return circles.Posted(number, self.report, 0, SOURCE, self.given.community, gates, [], recipients)


def case_of(maker: Maker, program: str, ident: str, groups: list[int], communities: list[int | None]) -> Case:
    """A report at random, small enough for a table, at gates at random."""
    draw = maker.random
    while True:
        report = maker.report(ident, 1)
        paths = [path for path, _ in classes_of(report)]
        if 5 <= len(paths) <= 14 and len(report["Incident"]) == 1:
            break
    group = draw.choice(groups)
    level = draw.choice((1, 2, 2, 3, 3, 3, 4))
    gates = [iodef_hub.Gate(each, group if each == 4 else 0, path) for path in draw.sample(paths, draw.choice((0, 1, 2))) for each in [draw.choice((0, 1, 2, 3, 4, 5))]]
    given = argparse.Namespace(level=level, group=group if level == 4 else None, gate=gates, community=draw.choice(communities), incident=0, in_group=[], engine=program)
    return Case(given, json.dumps(report).encode())


def hub_at_random(draw: random.Random, community: int | None) -> circles.Circle:
    """All that a hub knows but its incidents. The source is in the community that it names."""
    nobody: Any = None
    made = circles.Circle(0, draw)
    for org in circles.ORGS:
        made.persons += [circles.Person(len(made.persons) + place, org, nobody, "reader", draw.random() < 0.5) for place in (1, 2)]
    for members in made.members.values():
        members.update(draw.sample(circles.ORGS, draw.randrange(4)))
    if community is not None:
        made.members[community].add(SOURCE)
    made.links = {frozenset(draw.sample(circles.COMMUNITIES, 2)) for _ in range(draw.randrange(4))}
    made.clients = {(org, client) for org, client in (draw.sample(circles.ORGS, 2) for _ in range(draw.randrange(8)))}
    made.groups = [circles.Group(number, SOURCE, {SOURCE, *draw.sample(circles.ORGS, draw.randrange(5))}, draw.random() < 0.7) for number in (1, 2)]
    made.arrangements = {(SOURCE, org): draw.choice(circles.HANDLINGS) for org in circles.ORGS if org != SOURCE and draw.random() < 0.5}
    return made


def by_hubs_at_random(check: Check, program: str, count: int, seed: int = 71) -> None:
    """Hubs that are told to nobody but the engine."""
    maker = Maker(seed)
    cases = [case_of(maker, program, str(at), [1, 2], [None, 1]) for at in range(min(CASES, count))]
    columns, asked, missing, seen = sum(len(each.views) for each in cases), 0, [], set()
    for hub in range(count):
        case = maker.random.choice(cases)
        made = hub_at_random(maker.random, case.given.community)
        posted = case.posted(1, made.recipients())
        for reader in maker.random.sample([each for each in made.persons if each.org != SOURCE], READERS):
            view = case.asked.engine.excerpt(made.described(reader, posted))
            told = None if view is None else json.dumps(json.loads(view))
            asked += 1
            seen.add((id(case), told))
            missing += [] if told in case.views else [(hub, reader.number)]
    check(f"in {count} hubs at random, each of {asked} Views is one of the {columns} columns of {len(cases)} tables, of which {len(seen)} were met", missing, [])


def by_hub(check: Check, program: str, port: int, count: int, seed: int = 72) -> None:
    """A real hub: what is served over HTTP, of reports that were posted after they were looked at."""
    maker = Maker(seed)
    circle = circles.Circle(port, maker.random)
    circle.begin()
    asked, missing = 0, []
    for at in range(count):
        circle.change()
        own = [each for each in circles.COMMUNITIES if SOURCE in circle.members[each]]
        case = case_of(maker, program, f"hub-{at}", circle.own_groups(SOURCE), [None, *own])
        given, source = case.given, circle.coordinator(SOURCE)
        number, = source.post(case.report, given.level, given.group, given.gate, community=given.community)
        columns = {None if each is None else told_by_hub(json.loads(each)) for each in case.views}
        for kind, target in circle.recipients():
            source.address(number, kind, target)
        for reader in [each for each in circle.persons if each.org != SOURCE and not each.is_suspended]:
            try:
                reader.hub.view(number)
                told = told_by_hub(json.loads(reader.hub.heard))
            except iodef_hub.Refused:
                told = None
            asked += 1
            missing += [] if told in columns else [(number, reader.number)]
    check(f"of a real hub each of {asked} Views is one of the columns", missing, [])


def by_table(check: Check, command: pathlib.Path, program: str) -> None:
    """A table by hand: GREEN, in it a CLEAR class behind a gate of level 1, and an AMBER one."""
    report = {"version": "2.0", "Incident": [{
        "purpose": "reporting", "restriction": "green", "IncidentID": {"id": "1", "name": "x"}, "GenerationTime": "2026-01-01T00:00:00Z",
        "Contact": [{"role": "creator", "restriction": "white"}], "Event": [{"restriction": "ext-value", "ext-restriction": "TLP:AMBER"}]}]}

    def ask(*words: str) -> tuple[int, str, str]:
        ran = subprocess.run([sys.executable, "-B", command, *words, "--engine", program], input=json.dumps(report), capture_output=True, text=True, timeout=600)
        return ran.returncode, ran.stdout, ran.stderr

    status, text, errors = ask("preview", "-", "3", "--gate", "1:0:/Incident/0/Contact/0", "--for", "everyone")
    parts = text.split("\n\n")
    check("a table by hand", (status, parts[0].splitlines()), (0, list(TABLE)))
    check("  with its readers", parts[1].splitlines(), list(WHO))
    check("  and what the words mean", [line.split(":")[0] for line in parts[2].splitlines()],
          ["unconnected", "connected", "partner", "-", "client", "organisation", "addressed", "person"])
    check("  and for whom the words would post it", errors, "as it would be at level 3 (everybody in the hub, including organisations in no community);"
          " TLP:GREEN is for the members of any of your communities\n")
    status, text, _ = ask("--json", "preview", "-", "0", "--for", "everyone")
    value = json.loads(text)
    check("a report for the source alone, as JSON", (status, [each["view"] for each in value["columns"]], {cell for each in value["classes"] for cell in each["cells"]}), (0, [None], {"G0"}))
    status, text, errors = ask("preview", "-", "2", "--for", "stranger")
    check("a stranger where it matters whether he is connected", (status, text, "unconnected or connected?" in errors), (2, "", True))
    status, text, _ = ask("preview", "-", "3", "--gate", "0:0:/Incident/0/Contact/0", "--for", "stranger")
    check("and where it doesn't", (status, text), (1, ""))
    many = [word for at in range(4) for word in ("--gate", f"4:{at + 1}:/Incident/0{('', '/IncidentID', '/Contact/0', '/Event/0')[at]}")]
    status, text, errors = ask("preview", "-", "3", *many, "--for", "everyone")
    check("more groups than a table has room for are a question", (status, text, "give --in-group N" in errors), (2, "", True))
