"""The demo's circle: three organisations, a person in each, and six reports."""
from __future__ import annotations

from dataclasses import dataclass, field

import iodef_hub

from . import places

HUB, BANK, TELCO, UNIVERSITY = 1, 2, 3, 4  # the organisations, in the order in which they are added
COMMUNITY = GROUP = 1
ADMINISTRATOR = "admin"
NAMES = {
    "orgs": {"1": "Hub", "2": "Bank", "3": "Telco", "4": "University"},
    "persons": {"1": ADMINISTRATOR, "2": "Ada", "3": "Ben", "4": "Cleo"},
    "communities": {"1": "payments"},
    "groups": {"1": "phishing"},
}


@dataclass(frozen=True)
class Reader:
    """A person of the circle, whose key is made at each start."""

    number: int
    name: str
    org: int
    of: str
    role: str
    key: str = field(default_factory=iodef_hub.new_key)


@dataclass(frozen=True)
class Report:
    """A report, who posts it, its level, and the words about it on the page."""

    number: int
    name: str
    source: int
    level: int
    title: str
    shows: str
    gates: tuple[iodef_hub.Gate, ...] = ()
    addressed: int | None = None  # a person


def new_readers() -> list[Reader]:
    return [
        Reader(2, "Ada", BANK, "the bank", "coordinator"),
        Reader(3, "Ben", TELCO, "the telco", "coordinator"),
        Reader(4, "Cleo", UNIVERSITY, "the university", "poster"),
    ]


REPORTS = (
    Report(
        1, "phishing", BANK, 3, "Phishing",
        "By the bank. A label at each part decides who sees it, and a gate keeps the second EventData for a group of the bank and the telco.",
        gates=(iodef_hub.Gate(4, GROUP, "/Incident/0/EventData/1"),),
    ),
    Report(2, "botnet", BANK, 1, "Botnet", "By the bank, at level 1: for organisations that share a community with it. For the university it doesn't exist."),
    Report(3, "denial-of-service", UNIVERSITY, 3, "Denial of service", "By the university. The bank and the telco are strangers to it."),
    Report(4, "parcel-texts", TELCO, 3, "Parcel texts", "By the telco: green for its community, amber inside, and an indicator for everybody."),
    Report(5, "forged-invoice", BANK, 3, "Forged invoice", "By the bank, amber, and addressed to Ben in person: he is cleared for all of it.", addressed=3),
    Report(6, "router-scans", TELCO, 3, "Router scans", "By the telco, white: everybody sees all of it."),
)


def at(address: str, key: str) -> iodef_hub.Hub:
    """The hub, asked once: on this machine what fails once fails again."""
    return iodef_hub.Hub(address, key, timeout=600, tries=1)


def fill(address: str, administrator: str, readers: list[Reader]) -> None:
    """Makes the circle at the hub of this address."""
    admin = at(address, administrator)
    by_org = {each.org: at(address, each.key) for each in readers}
    for org in (BANK, TELCO, UNIVERSITY):
        admin.add_org(NAMES["orgs"][str(org)])
    for each in readers:
        admin.add_person(each.org, each.name, each.role, iodef_hub.digest_of(each.key))
    admin.add_community(NAMES["communities"][str(COMMUNITY)])
    for org in (BANK, TELCO):
        admin.join(COMMUNITY, org)
    by_org[BANK].new_group(NAMES["groups"][str(GROUP)], "members only")
    by_org[BANK].group_add(GROUP, TELCO)
    for report in REPORTS:
        source = by_org[report.source]
        source.post(places.report(report.name), report.level, gates=report.gates, community=None)
        if report.addressed is not None:
            source.address(report.number, "person", report.addressed)


def served(address: str, reader: Reader, number: int) -> str:
    """What a reader is served of a report, in a few words."""
    view = at(address, reader.key).view(number)
    rules = sorted({each.rule for each in view.withheld})
    return f"{view.classes} classes; " + (f"withheld by {', '.join(rules)}" if rules else "nothing is withheld")
