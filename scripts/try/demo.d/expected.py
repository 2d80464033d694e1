"""What each reader of the demo is served, worked out by hand from docs/POLICY.md, and README's table of the first report."""
from __future__ import annotations

import re

import common

READERS = ("Ada", "Ben", "Cleo")

# Of each report, for Ada, Ben and Cleo: the classes served, and the places with their rules. None is N1: nothing is served.
Served = tuple[int, set[tuple[str, str]]] | None
INCIDENT = "/Incident/0"
SERVED: dict[int, tuple[Served, Served, Served]] = {
    # README's table says the same of this one
    1: (
        (23, set()),
        (15, {(INCIDENT, "H-RED"), (INCIDENT, "H-STRICT")}),
        (4, {(INCIDENT, "G4"), (INCIDENT, "H-GREEN"), (INCIDENT, "H-RED"), (INCIDENT, "H-STRICT")}),
    ),
    # need-to-know: Ben is cleared for GREEN (`M`), so he sees the Method (public) with its Reference, and the second HistoryItem
    # (partner) in a frame, as the History is `default`. Level 1 refuses Cleo at the root.
    2: ((23, set()), (3, {(INCIDENT, "H-STRICT"), (f"{INCIDENT}/History", "H-RED")}), None),
    # Of the university, which shares no community: Ada and Ben are cleared for CLEAR. They see the AdditionalData at the root and the
    # EventData with Flow, first System, Node, Address and NodeRole. The Incident has no label, so it is handled as RED.
    3: (
        (7, {(INCIDENT, "H-RED"), (INCIDENT, "H-STRICT"), (f"{INCIDENT}/EventData/0", "H-RED"), (f"{INCIDENT}/EventData/0/Flow/0", "H-STRICT")}),
        (7, {(INCIDENT, "H-RED"), (INCIDENT, "H-STRICT"), (f"{INCIDENT}/EventData/0", "H-RED"), (f"{INCIDENT}/EventData/0/Flow/0", "H-STRICT")}),
        (17, set()),
    ),
    # Of the telco, green: Ada lacks the EventData, which is amber. Cleo has the Indicator with three classes inside.
    4: ((8, {(INCIDENT, "H-STRICT")}), (9, set()), (4, {(INCIDENT, "H-GREEN"), (INCIDENT, "H-STRICT")})),
    # Of the bank, amber and red, and addressed to Ben: he is cleared for RED by `P`. Cleo is cleared for CLEAR.
    5: ((7, set()), (7, set()), None),
    # Of the telco, white
    6: ((8, set()), (8, set()), (8, set())),
}

# A text of each part of README's table that no other part has.
TEXTS = {
    "the Incident itself": "Mails in the name of a payroll provider",
    "Assessment/0": "takeover-account",
    "Contact/0": "CSIRT of Example",
    "Contact/1": "j.doe@example.com",
    "EventData/0": "The page that the mails link to.",
    "EventData/1": "Mailboxes that were opened",
    "Indicator/0": "payroll-check.example.net",
}


def table() -> list[list[str]]:
    """The rows of README's table: the part, and the three readers' cells."""
    text = (common.TOP / "README.md").read_text()
    lines = re.findall(r"^\| Part of .*\n\|[-| ]+\|\n((?:\|.*\n)+)", text, re.M)
    assert len(lines) == 1, "README has one table of parts"
    return [[cell.strip() for cell in line.strip("|").split("|")] for line in lines[0].splitlines()]


def faults_of_table(excerpts: list[dict[str, object]]) -> list[str]:
    """Where the readers' answers to a View of report 1 differ from README's table."""
    rows = table()
    faults = []
    parts = [row for row in rows if re.split(r"[:,]", row[0])[0].strip("`") in TEXTS]
    if len(parts) != len(TEXTS):
        faults.append(f"README's table has {len(parts)} of {len(TEXTS)} parts")
    for part, *cells in parts:
        name = re.split(r"[:,]", part)[0].strip("`")
        for reader, cell, answer in zip(READERS, cells, excerpts, strict=True):
            is_there = TEXTS[name] in str(answer["document"])
            if is_there != (cell == "shown"):
                faults.append(f"{reader}, {name}: README says {cell}")
            faults += [f"{reader}, {name}: {rule} isn't listed" for rule in re.findall(r"`([GH][\w-]*)`", cell) if rule not in str(answer["withheld"])]
    counts, listed = rows[-2:]
    if [int(cell) for cell in counts[1:]] != [answer["classes"] for answer in excerpts]:
        faults.append(f"README counts {counts[1:]}")
    for reader, cell, answer in zip(READERS, listed[1:], excerpts, strict=True):
        if set(re.findall(r"`([\w-]+)`", cell)) != {rule for _, rule in answer["withheld"]}:  # type: ignore[attr-defined]
            faults.append(f"{reader}: README lists {cell}")
    return faults
