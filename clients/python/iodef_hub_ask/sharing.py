"""The commands that change who may see an incident: each of them is made to the revision that was seen, and says what is so then."""
from __future__ import annotations

import argparse
import sys
from collections.abc import Callable, Sequence
from dataclasses import dataclass
from typing import Any

from iodef_hub import Hub, HubError, Labelled, Refused, View, labelled_classes

from .characters import shown
from .seen import Seen
from .telling import Teller, Unchanged, Usage, note

INCIDENT = "/Incident/0"
LEVELS = (
    "your organisation", "organisations that share a community with yours", "your communities, and those connected to them",
    "everybody in the hub, including organisations in no community", "the group of --group", "as the class above",
)
CLEARED = {"person": "cleared for TLP:RED", "org": "its nominated persons are cleared for TLP:AMBER+STRICT, those of its clients for TLP:AMBER"}


def level_words(given: argparse.Namespace, level: int, group: int | None) -> str:
    """`level 3 (everybody in the hub, ..)`."""
    words = given.names("group", group) if level == 4 and group is not None else LEVELS[level] if level < len(LEVELS) else "no such level"
    return f"level {level} ({words})"


def at_path(view: View, path: str) -> Labelled | None:
    return next((each for each in labelled_classes(view.document) if each.path == path), None)


def class_words(found: Labelled | None, path: str) -> str:
    """`EventData /Incident/0/EventData/1 (TLP:RED)`; of the root `the whole report`."""
    return f"{shown(found.name)} {shown(path)} ({found.label})" if found else shown(path) or "the whole report"


def first_text(members: dict[str, Any]) -> str:
    """The text by which a person recognises a class: of its Description, else the first one in it."""
    waiting: list[object] = [members.get("Description"), *(value for name, value in members.items() if not name.endswith("restriction"))]
    while waiting:
        each = waiting.pop(0)
        if isinstance(each, str):
            return each
        waiting[:0] = each if isinstance(each, list) else [value for name, value in each.items() if name != "lang"] if isinstance(each, dict) else []
    return ""


def class_line(found: Labelled) -> str:
    """`EventData /Incident/0/EventData/1 (TLP:RED): its first text`, of an Incident its IncidentID."""
    ident = found.members.get("IncidentID")
    title = [str(ident[name]) for name in ("name", "id") if name in ident] if isinstance(ident, dict) else []
    text = " ".join(title) or first_text(found.members)
    return f"{shown(found.name)} {shown(found.path)} ({found.label}): {shown(text[:200])}{'..' if len(text) > 200 else ''}"


def described(given: argparse.Namespace, view: View, path: str) -> list[str]:
    """What a change is about, for a person who is asked: the incident, and class, label and first text."""
    found = at_path(view, path or INCIDENT)
    if found is None:
        raise Usage(f"incident {given.called} has no class at {shown(path)}")
    whole = "the whole report, with " if not path else ""
    return [f"incident {given.called}, revision {view.revision}, of {given.names('org', view.source)}", whole + class_line(found)]


def is_asking(given: argparse.Namespace) -> bool:
    """Whether a person is asked: somebody who types sees what is shared before it is."""
    return not given.yes and sys.stdin.isatty() and sys.stderr.isatty()


def check_yes(about: list[str], question: str) -> None:
    """Asks at the terminal, and raises Unchanged unless the answer is yes. What was typed before the question isn't an answer."""
    for line in about:
        note(line)
    try:
        import termios
        termios.tcflush(sys.stdin, termios.TCIFLUSH)
    except (ImportError, OSError):
        pass
    print(f"{question} [y/N] ", end="", file=sys.stderr, flush=True)
    if sys.stdin.readline().strip().lower() not in ("y", "yes"):
        raise Unchanged("nothing was changed")


def learn_groups(hub: Hub, given: argparse.Namespace) -> None:
    """Takes up the names of the groups that the caller is in, for a question that names one."""
    if is_asking(given):
        given.names.learn("group", {str(each.number): each.name for each in hub.groups()})


@dataclass(frozen=True)
class Basis:
    """What a change is made to: the revision that was seen, and the incident as it is."""

    revision: int
    view: View


def revision_seen(hub: Hub, given: argparse.Namespace) -> int | None:
    """The revision that the words name, or that was seen. None with --latest. Raises Usage if there is neither."""
    if given.revision is not None or given.latest:
        return None if given.latest else int(given.revision)
    found = Seen(hub.url).revision(given.number)
    if found is None:
        raise Usage(f"which revision of incident {given.called} have you seen? Look at it with `iodef-hub-ask show {given.called}`, or give"
                    " --revision N, or --latest for the present one")
    return found


def basis(hub: Hub, given: argparse.Namespace, path: str, question: str, is_wider: bool = True, by: Sequence[str] = ()) -> Basis:
    """What a change is made to. At a terminal a person is asked before a change that may show more, or that is to the latest revision;
    but not if the revision that was seen isn't there any more, as the hub refuses that. `by` is what it is changed to, in lines."""
    revision = revision_seen(hub, given)
    if revision is None and not given.yes and not is_asking(given):
        raise Usage("--latest asks at a terminal, and standard input is none: give --revision N, or --yes")
    view = hub.view(given.number)
    found = Basis(view.revision if revision is None else revision, view)
    if is_asking(given) and found.revision == view.revision and (is_wider or revision is None):
        check_yes([*described(given, view, path), *by], question)
    return found


def check_whole(given: argparse.Namespace, is_whole: bool, what: str) -> None:
    """Raises Usage if a change of the whole incident isn't called one, or if one of a part is."""
    if is_whole and not given.whole_incident:
        raise Usage(f"nothing is sent: {what} needs --whole-incident")
    if given.whole_incident and given.path not in ("", INCIDENT):
        raise Usage(f"nothing is sent: --whole-incident is given, but {shown(given.path)} is a part")


def do_grant(hub: Hub, given: argparse.Namespace, teller: Teller) -> None:
    check_whole(given, given.path == INCIDENT, f"a permission at {INCIDENT}, the Incident itself,")
    if given.grantee == "group":
        learn_groups(hub, given)
    to, end = given.names(given.grantee, given.target), f"until {given.until}" if given.until else "for ever"
    found = basis(hub, given, given.path, f"Permit {to} to see it, {end}?")
    hub.grant(given.number, found.revision, given.path, given.grantee, given.target, given.until)
    teller.tell_change(hub.heard, f"{to} may see {class_words(at_path(found.view, given.path), given.path)} of incident {given.called}, revision {found.revision}, {end}")


def do_redistribute(hub: Hub, given: argparse.Namespace, teller: Teller) -> None:
    is_whole = given.path in ("", INCIDENT) and given.level != 0
    check_whole(given, is_whole, f"level {given.level} for {'the root' if not given.path else INCIDENT + ', the Incident itself'},")
    if given.group is not None:
        learn_groups(hub, given)
    level = level_words(given, given.level, given.group)
    found = basis(hub, given, given.path, f"Set it to {level}?", given.level != 0)
    hub.redistribute(given.number, found.revision, given.path, given.level, given.group)
    what = class_words(at_path(found.view, given.path), given.path)
    teller.tell_change(hub.heard, f"{what} of incident {given.called}, revision {found.revision}, is at {level}")


def do_address(hub: Hub, given: argparse.Namespace, teller: Teller) -> None:
    """The hub's request names no revision, so it is compared here; a replacement at the same moment is reported afterwards."""
    to = given.names(given.recipient, given.target)
    found = basis(hub, given, INCIDENT, f"Address {to}, {CLEARED[given.recipient]}?")
    if is_asking(given):  # an answer takes its time
        found = Basis(found.revision, hub.view(given.number))
    if found.view.revision != found.revision:
        raise Unchanged(f"nothing was changed: you have seen revision {found.revision} of incident {given.called}, and it is at revision"
                        f" {found.view.revision}: look at it again")
    hub.address(given.number, given.recipient, given.target)
    answer = hub.heard
    whole = class_words(at_path(found.view, INCIDENT), INCIDENT)
    teller.tell_change(answer, f"{to} is a recipient of incident {given.called}, revision {found.revision}, {whole}: {CLEARED[given.recipient]}")
    if (now := hub.view(given.number).revision) != found.revision:
        note(f"iodef-hub-ask: incident {given.called} has become revision {now} meanwhile: look at it, as the recipient may see that one")


def class_afterwards(hub: Hub, given: argparse.Namespace) -> Labelled | None:
    """The class, after something was taken away there. What was done is printed without it too."""
    try:
        return at_path(hub.view(given.number), given.path)
    except HubError:
        return None


def do_withdraw(hub: Hub, given: argparse.Namespace, teller: Teller) -> None:
    hub.withdraw(given.number, given.path, given.grantee, given.target)
    answer = hub.heard
    what = class_words(class_afterwards(hub, given), given.path)
    teller.tell_change(answer, f"{given.names(given.grantee, given.target)} has no permission any more at {what} of incident {given.called}")


def do_unaddress(hub: Hub, given: argparse.Namespace, teller: Teller) -> None:
    hub.unaddress(given.number, given.recipient, given.target)
    teller.tell_change(hub.heard, f"{given.names(given.recipient, given.target)} is no recipient of incident {given.called} any more")


def check_circle(hub: Hub, given: argparse.Namespace, line: Callable[[argparse.Namespace], str]) -> None:
    """Asks at a terminal before a change of the circle, once for all hubs. `line` is what is so then."""
    if not is_asking(given):
        return
    if "group_number" in given:
        learn_groups(hub, given)
    check_yes([f"then {line(given)}"], "Make this change?")
    given.yes = True


Change = Callable[[Hub, argparse.Namespace], str]


def changing(change: Change) -> Callable[[Hub, argparse.Namespace, Teller], None]:
    """A command that makes a change of the circle, and prints what is so then."""
    def command(hub: Hub, given: argparse.Namespace, teller: Teller) -> None:
        line = change(hub, given)
        teller.tell_change(hub.heard, line)
    return command
