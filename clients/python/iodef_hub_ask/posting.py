"""The commands that post reports: post, replace and post-all."""
from __future__ import annotations

import argparse
import json
import pathlib
import re
from collections import Counter
from collections.abc import Sequence
from dataclasses import dataclass, replace
from typing import Any

from iodef_hub import ARRANGED, LAST_NUMBER, TEXTS, UNLABELLED, Gate, Hub, HubError, Refused, doubled_labels, labelled_classes, report_bytes

from .characters import shown
from .kept import alone, write
from .looking import keep
from .reading import gate, read_file
from .sharing import INCIDENT, basis, check_yes, class_line, class_words, is_asking, learn_groups, level_words
from .telling import Teller, Undone, Usage, note, warn

INCIDENTS = re.compile(r"/Incident/\d+(?=/|$)")
ANY = "--community N or --any-community: whose members may read what is marked green"


def warn_doubled(text: bytes, before: str = "", below: str = "") -> None:
    """Tells each label that a class of the report has twice, and which value holds. The report may be `below` a place of the text."""
    for each in doubled_labels(text):
        if path := each.path.removeprefix(below):
            warn(shown(f"{before}{path} has {each.member} twice: JSON takes the last one, {json.dumps(each.held, ensure_ascii=False)}"))


def report_of(given: argparse.Namespace) -> bytes:
    report = report_bytes(read_file(given.file))
    warn_doubled(report)
    return report


def document_of(report: bytes) -> dict[str, Any]:
    """The document that the bytes are; an empty one if they are none, as the hub then refuses them."""
    try:
        value = json.loads(report)
    except (ValueError, RecursionError):
        return {}
    return value if isinstance(value, dict) else {}


WIDEST_FIRST = (*dict.fromkeys(TEXTS.values()), ARRANGED, UNLABELLED)  # all labels


def incident_lines(report: bytes) -> list[str]:
    """The Incidents of a report, for a person who is asked: label and first text, and the other labels that are in it."""
    found = list(labelled_classes(document_of(report)))
    lines = []
    for incident in (each for each in found if INCIDENTS.fullmatch(each.path)):
        held = {each.label for each in found if each.path.startswith(incident.path + "/") or not INCIDENTS.match(each.path)}
        others = ", ".join(each for each in WIDEST_FIRST if each in held - {incident.label})
        lines.append(class_line(incident) + (f" (in it also {others})" if others else ""))
    return lines


def labels_words(report: bytes) -> str:
    """The labels of the classes of a report."""
    held = {each.label for each in labelled_classes(document_of(report))}
    return ", ".join(each for each in WIDEST_FIRST if each in held)


def spread_words(given: argparse.Namespace, level: int, group: int | None, community: int | None, gates: Sequence[Gate], report: bytes) -> str:
    """Who may read a report that was posted: its level, whom TLP:GREEN is for, and each class that has a gate."""
    whom = "any of your communities" if community is None else given.names("community", community)
    held = {each.path: each for each in labelled_classes(document_of(report))}
    told = [f"{level_words(given, level, group)}; TLP:GREEN is for the members of {whom}"]
    told += [f"{class_words(held.get(each.path), each.path)} is at {level_words(given, each.level, each.group)}" for each in gates]
    return "; ".join(told) if gates else f"{told[0]}; no class has a gate of its own"


def do_post(hub: Hub, given: argparse.Namespace, teller: Teller) -> None:
    if given.community is None and not given.any_community:
        raise Usage(f"nothing is sent, as a report needs {ANY}")
    report = report_of(given)
    if given.group is not None or any(each.group for each in given.gate):
        learn_groups(hub, given)
    spread = spread_words(given, given.level, given.group, given.community, given.gate, report)
    if is_asking(given):
        check_yes(incident_lines(report), f"Post it at {spread}?")
    numbers = hub.post(report, given.level, given.group, given.gate, community=given.community)
    teller.tell(*map(str, numbers))
    for number in numbers:
        keep(hub, number, 1)
    note(f"posted at {spread}")


def check_replacement(given: argparse.Namespace, has_gates: bool) -> None:
    """Raises Usage if the words don't say who may read a new revision. What applied to the stored one doesn't apply to it, and no
    request reads what that was."""
    unsaid = []
    if given.community is None and not given.any_community:
        unsaid.append(ANY)
    if not has_gates:
        unsaid.append("--gate LEVEL:GROUP:POINTER or --no-gates: the gates of the stored revision are removed")
    if not given.drop_permissions:
        unsaid.append("--drop-permissions: all permissions are removed")
    if unsaid:
        raise Usage(f"nothing is sent, as a new revision needs {'; and '.join(unsaid)}")


def do_replace(hub: Hub, given: argparse.Namespace, teller: Teller) -> None:
    check_replacement(given, given.gate or given.no_gates)
    report = report_of(given)
    if given.group is not None or any(each.group for each in given.gate):
        learn_groups(hub, given)
    spread = spread_words(given, given.level, given.group, given.community, given.gate, report)
    found = basis(hub, given, INCIDENT, f"Replace it, at {spread}?", by=[f"by {each}" for each in incident_lines(report)])
    revision = hub.replace(given.number, found.revision, report, given.level, given.group, gates=given.gate, community=given.community)
    teller.tell(str(revision))
    keep(hub, given.number, revision)
    note(f"incident {given.called}, revision {revision}, is at {spread}")


# Many reports at once


@dataclass(frozen=True)
class PostLine:
    """A line for post-all: a report and how to post it. `gates` is None if the line has no such member."""

    report: bytes
    level: int
    group: int | None
    gates: tuple[Gate, ...] | None
    source: int | None
    community: int | None


def post_line(text: bytes, place: int) -> PostLine:
    bad = Usage(f'line {place} must be {{"community":..,"document":..,"gates":[..],"group":..,"level":..,"source":..}}')
    try:
        value = json.loads(text)
        names = [name for name, _ in json.loads(text, object_pairs_hook=list)] if isinstance(value, dict) else []
    except (ValueError, RecursionError):
        raise bad from None
    if len(names) > len(set(names)):
        raise Usage(f"line {place} has a member twice")
    if not isinstance(value, dict) or set(value) - {"community", "document", "gates", "group", "level", "source"}:
        raise bad
    document, gates, group, source = value.get("document"), value.get("gates", []), value.get("group"), value.get("source")
    community = value.get("community")
    are_numbers = all(each is None or type(each) is int and 0 <= each <= LAST_NUMBER for each in (group, source, community))
    if not isinstance(document, dict) or not isinstance(gates, list) or type(value.get("level")) is not int or not are_numbers:
        raise bad
    try:
        read = tuple(gate(each) for each in gates) if "gates" in value else None
    except (AttributeError, argparse.ArgumentTypeError):
        raise bad from None
    try:
        return PostLine(report_bytes(document), value["level"], group, read, source, community)
    except ValueError as fault:
        raise Usage(f"line {place}: {fault}") from None


def post_lines(given: argparse.Namespace) -> list[PostLine]:
    """All lines, each with the community that the command's words name. Raises Usage if a line names another one, if neither names
    any, or if a line for --replace has no gates."""
    lines: list[PostLine] = []
    for text in report_bytes(read_file(given.file)).split(b"\n"):
        if not text.strip():
            continue
        place = len(lines) + 1
        line = post_line(text, place)
        if line.community is not None and (given.any_community or given.community not in (None, line.community)):
            said = "--any-community" if given.any_community else f"--community {given.community}"
            raise Usage(f"line {place} is for community {line.community}, but you gave {said}")
        if line.community is None and given.community is None and not given.any_community:
            raise Usage(f'nothing is sent, as line {place} needs "community", or the command {ANY}')
        if given.replace and line.gates is None:
            raise Usage(f'line {place} needs "gates", as a new revision removes the gates of the stored one')
        warn_doubled(text, f"line {place}: ", "/document")
        lines.append(replace(line, community=line.community if given.community is None else given.community))
    return lines


class Posted:
    """The reports that post-all has posted at one hub, with the revision that each got. A file keeps them from one run to the next."""

    def __init__(self, file: str | None, hub: str) -> None:
        self.file, self.hub = pathlib.Path(file) if file is not None else None, hub
        self.read()  # so that a bad file is reported before anything is sent

    def read(self) -> dict[str, dict[str, int]]:
        """The revisions by hub and number."""
        if self.file is None or not self.file.exists():
            return {}
        try:
            value = json.loads(self.file.read_bytes())
            return {str(hub): {str(int(number)): int(revision) for number, revision in posted.items()} for hub, posted in value.items()}
        except (AttributeError, RecursionError, TypeError, ValueError):
            raise Usage(f"{self.file} was not written by post-all --state") from None

    def revision(self, number: int) -> int | None:
        return self.read().get(self.hub, {}).get(str(number))

    def note(self, *numbers: int, revision: int = 1) -> None:
        """Keeps a revision that was posted."""
        if self.file is None:
            return
        with alone(self.file):
            value = self.read()
            value.setdefault(self.hub, {}).update({str(number): revision for number in numbers})
            write(self.file, value)


class Left(Undone):
    """Reports that post-all --replace has left as they are."""


def replaced(hub: Hub, line: PostLine, stored: int, posted: Posted) -> str:
    """Replaces what this state's runs posted, and returns what is printed of it. Raises Left if it isn't theirs any more."""
    seen = posted.revision(stored)
    if seen is None:
        raise Left(f"incident {stored} wasn't posted with this --state")
    try:
        revision = hub.replace(stored, seen, line.report, line.level, line.group, gates=line.gates or (), community=line.community)
    except Refused as refusal:
        if refusal.code != "S3":
            raise
        raise Left(f"incident {stored} was posted as revision {seen}, and somebody has made it revision {shown(refusal.detail)}") from None
    posted.note(stored, revision=revision)
    return f"{stored}\tr{revision}"


def posted_line(hub: Hub, given: argparse.Namespace, line: PostLine, posted: Posted) -> str:
    """Posts a line, or replaces what was posted before, and returns what is printed of it."""
    try:
        numbers = hub.post(line.report, line.level, line.group, line.gates or (), community=line.community)
    except Refused as refusal:
        if not (given.replace and refusal.code == "S1" and refusal.detail.isdigit()):
            raise
        return replaced(hub, line, int(refusal.detail), posted)
    posted.note(*numbers)
    return " ".join(map(str, numbers))


def do_post_all(hub: Hub, given: argparse.Namespace, teller: Teller) -> None:
    """Posts each line. All are read, and their source is compared with the caller's organisation, before the first is sent."""
    if given.replace:
        check_replacement(given, has_gates=True)
        if given.state is None:
            raise Usage("nothing is sent, as --replace needs --state FILE: it replaces only what was posted with that file, and hasn't changed since")
    lines, posted = post_lines(given), Posted(given.state, hub.url)
    org = hub.me().org
    for place, line in enumerate(lines):
        if line.source not in (None, org):
            raise Usage(f"line {place + 1}: the report is from organisation {line.source}, but your key is for organisation {org}")
    if is_asking(given):
        if any(line.group for line in lines) or any(each.group for line in lines for each in line.gates or ()):
            learn_groups(hub, given)
        each = Counter(f"{labels_words(line.report)} at {spread_words(given, line.level, line.group, line.community, line.gates or (), line.report)}" for line in lines)
        check_yes([f"{count} reports, {spread}" for spread, count in each.items()], f"{'Post or replace' if given.replace else 'Post'} them?")
    left = 0
    for place, line in enumerate(lines):
        try:
            told = posted_line(hub, given, line, posted)
        except Left as kept:
            warn(f"line {place + 1} is left: {kept}")
            left += 1
            continue
        except HubError:
            warn(f"{place} of {len(lines)} lines were posted; line {place + 1} failed:")
            raise
        teller.tell(told)
        whom = spread_words(given, line.level, line.group, line.community, line.gates or (), line.report)
        note(f"line {place + 1} was posted at {whom}")
    if left:
        raise Left(f"{left} of {len(lines)} lines were left as they are: look at these incidents, and replace them with `iodef-hub-ask replace`")
