"""The commands that show how a report of one's own is shared, and take back what has ended."""
from __future__ import annotations

import argparse
import datetime
from dataclasses import dataclass

from iodef_hub import ARRANGED, RULES, Community, Gate, Group, Hub, Labelled, Permission, Refused, Sharing, View, label_of, labelled_classes

from .characters import shown
from .sharing import CLEARED, INCIDENT, at_path, class_line, level_words
from .telling import Teller, Undone, Usage, note


GREENS = ("TLP:GREEN", ARRANGED)  # what may be handled as TLP:GREEN
OF_CLIENTS = ("TLP:GREEN", "TLP:AMBER", ARRANGED)
UNKNOWN = "arrangements, nominations, clients, and who is in a group or in a community that isn't yours"


@dataclass(frozen=True)
class Own:
    """The caller's organisation, its groups and its communities."""

    org: int
    groups: tuple[Group, ...]
    communities: tuple[Community, ...]

    def off_words(self, group: int | None) -> str:
        is_off = any(each.number == group and not each.active for each in self.groups)
        return ", which is switched off and opens nothing" if is_off else ""

    def is_connected_further(self) -> bool:
        """Whether one of these communities is connected to one that isn't the caller's."""
        owned = {each.number for each in self.communities}
        return any(other not in owned for each in self.communities for other in each.connected)

    def stops(self, gate: Gate, org: int) -> bool:
        """Whether it is known that a gate lets this organisation not pass. The caller's own one passes."""
        if org == self.org:
            return False
        if gate.level in (0, 4):
            return gate.level == 0 or self.off_words(gate.group) != ""
        is_far = not any(org in each.members for each in self.communities)
        return is_far and (gate.level == 1 or gate.level == 2 and not self.is_connected_further())


def moment_words(seconds: int) -> str:
    """A moment in this machine's time zone, with its offset."""
    try:
        return datetime.datetime.fromtimestamp(seconds).astimezone().isoformat()
    except (OverflowError, ValueError, OSError):
        return f"second {seconds} since 1970"


def end_words(each: Permission) -> str:
    return "for ever" if each.until is None else f"{'ended' if each.ended else 'until'} {moment_words(each.until)}"


def place_words(given: argparse.Namespace, view: View, path: str) -> str:
    """A class with its text; its path alone where one class is asked for."""
    found = at_path(view, path) if given.path is None else None
    return class_line(found) if found else shown(path) or "the whole report"


def is_on_way(above: str, path: str) -> bool:
    return path == above or path.startswith(above + "/")


def covers(view: View, above: str, path: str) -> bool:
    """Whether a permission at a class covers another one: it goes down to the next written label."""
    return is_on_way(above, path) and not any(
        label_of(each.members) for each in labelled_classes(view.document)
        if each.path != above and is_on_way(above, each.path) and is_on_way(each.path, path))


def audience(label: str, community: str) -> str:
    """Whom a label is for, where TLP:GREEN is for a community, or for any."""
    if label == "TLP:GREEN":
        return f"{label}, for {community}, and for those whom TLP:AMBER is for"
    if label == ARRANGED:
        return f"{label}, for addressed persons, or as you arranged with the reader's organisation"
    rule = RULES.get("H-" + label.removeprefix("TLP:").replace("AMBER+STRICT", "STRICT"))
    return f"{label}, {rule.partition(', ')[2]}" if rule else f"{label}, for everybody" if label == "TLP:CLEAR" else label


def narrowed(view: View, found: Sharing, path: str, label: str) -> Sharing:
    """What of it opens one class of this label. No organisation is cleared for TLP:RED, and nobody needs to be for TLP:CLEAR."""
    return Sharing(
        found.number, found.revision, found.community, found.ident, tuple(each for each in found.gates if is_on_way(each.path, path)),
        tuple(each for each in found.recipients if label != "TLP:CLEAR" and (each[0] == "person" or label != "TLP:RED")),
        tuple(each for each in found.permissions if covers(view, each.path, path)))


def labelled(view: View, path: str | None) -> list[Labelled]:
    """The classes in which a label is written, and the Incident; or the one that is asked for."""
    return [each for each in labelled_classes(view.document)
            if (each.path == path if path is not None else each.path == INCIDENT or label_of(each.members))]


def stopped_words(given: argparse.Namespace, own: Own, found: Sharing, kind: str, number: int) -> str:
    """Of an organisation: the level of the gate that stops it, where one class is asked for."""
    levels = [each.level for each in found.gates if own.stops(each, number)] if given.path is not None and kind == "org" else []
    return f", stopped at level {levels[0]}" if levels else ""


def recipient_line(given: argparse.Namespace, own: Own, found: Sharing, kind: str, number: int, label: str | None) -> str:
    """What it is cleared for; where one class is asked for, whom of it the label is for."""
    words = f": {CLEARED[kind]}"
    if label is not None:
        words = "" if kind == "person" else ": its nominated persons" + ", and those of its clients" * (label in OF_CLIENTS) + ", as you arranged it" * (label == ARRANGED)
        stopped = stopped_words(given, own, found, kind, number)
        words += stopped.replace(", ", ", itself ", 1) if label != "TLP:AMBER+STRICT" else stopped  # its clients may pass
    return f"recipient\t{given.names(kind, number)}{words}"


def permission_line(given: argparse.Namespace, view: View, own: Own, found: Sharing, each: Permission) -> str:
    whom = given.names(each.kind, each.target) + (own.off_words(each.target) if each.kind == "group" else "")
    stopped = "" if each.ended else stopped_words(given, own, found, each.kind, each.target)
    return f"{'ended' if each.ended else 'permission'}\t{whom}, {end_words(each)}{stopped}\t{place_words(given, view, each.path)}"


def is_of_each(found: Sharing, is_green: bool) -> bool:
    return any(each.level in (1, 2) for each in found.gates) or is_green and not found.community


def communities_meant(own: Own, found: Sharing, is_green: bool) -> list[int]:
    """The communities that a gate, a label or a permission opens something to."""
    meant = [each.number for each in own.communities] if is_of_each(found, is_green) else []
    meant += [found.community] if is_green and found.community else []
    meant += [each.target for each in found.permissions if each.kind == "community" and not each.ended]
    return list(dict.fromkeys(meant))


def community_lines(given: argparse.Namespace, own: Own, found: Sharing, is_green: bool) -> list[str]:
    """The same with those members that the hub tells; with what they are connected to where a gate lets that pass."""
    is_far = any(each.level == 2 for each in found.gates)
    told = {each.number: ", ".join(given.names("org", org) for org in each.members)
            + "".join(f"; connected to {given.names('community', other)}" for other in each.connected if is_far) for each in own.communities}
    lines = [f"community\t{given.names('community', number)}: {told.get(number, 'not one of yours, so its members are not known here')}"
             for number in communities_meant(own, found, is_green)]
    return lines or ["community\tyour organisation is in none"] * is_of_each(found, is_green)


def unknown_words(own: Own, found: Sharing, label: str) -> str:
    """What no request tells of that on which it depends who sees a class of this label."""
    levels = {each.level for each in found.gates}
    recipients, permitted = [kind for kind, _ in found.recipients], [each.kind for each in found.permissions if not each.ended]
    owned = {each.number for each in own.communities}
    is_far = 2 in levels and own.is_connected_further() or not owned.issuperset(communities_meant(own, found, label in GREENS))
    return ", ".join(filter(None, (
        "arrangements" if label == ARRANGED else "", "nominations, clients" if label in OF_CLIENTS else "nominations" if "org" in recipients else "",
        "which organisation a person is of" if levels & {1, 2, 4} and "person" in recipients + permitted else "",
        "who is in a group" if 4 in levels or "group" in permitted else "", "who is in a community that isn't yours" if is_far else "")))


def sharing_lines(given: argparse.Namespace, view: View, own: Own, found: Sharing) -> list[str]:
    """What opens the report to whom, a line each: what, to whom, and at which class. Ended permissions come last, and only if asked for."""
    community = given.names("community", found.community) if found.community else "any of your communities"
    sites = labelled(view, given.path)
    label = sites[0].label if given.path is not None else None
    is_green = label is None or label in GREENS
    lines = [f"green\tis for {community}, and for those whom TLP:AMBER is for: {RULES['H-AMBER'].partition(', for ')[2]}"] * is_green
    lines += [f"gate\t{level_words(given, each.level, each.group)}{own.off_words(each.group)}\t{place_words(given, view, each.path)}" for each in found.gates]
    lines += [f"label\t{audience(each.label, community)}\t{class_line(each)}" for each in sites]
    lines += [recipient_line(given, own, found, kind, number, label) for kind, number in found.recipients] or ["recipient\tnobody"] * (label != "TLP:CLEAR")
    lines += [permission_line(given, view, own, found, each) for each in found.permissions if not each.ended] or ["permission\tnobody"]
    lines += community_lines(given, own, found, is_green)
    if given.ended:
        lines += [permission_line(given, view, own, found, each) for each in found.permissions if each.ended]
    return lines


def sharing_of(hub: Hub, given: argparse.Namespace, view: View) -> Sharing:
    """How a report is shared that the caller sees. Of another organisation's the hub says no more than of one that is missing."""
    try:
        return hub.sharing(given.number)
    except Refused as fault:
        if fault.code == "N1":
            note(f"incident {given.called} is of {given.names('org', view.source)}, and the hub tells only its source how a report is shared")
        raise


def do_sharing(hub: Hub, given: argparse.Namespace, teller: Teller) -> None:
    view = hub.view(given.number)
    own = Own(view.source, hub.groups(), hub.communities())
    given.names.learn("group", {str(each.number): each.name for each in own.groups})
    given.names.learn("community", {str(each.number): each.name for each in own.communities})
    found = sharing_of(hub, given, view)
    if found.revision != view.revision:
        raise Undone(f"incident {given.called} has become revision {found.revision} meanwhile: run this again")
    ways, unknown = "each gate on the way to a class must let a reader pass, then its label opens it, or a permission", UNKNOWN
    if given.path is not None:
        at = at_path(view, given.path)
        if at is None:
            raise Usage(f"incident {given.called} has no class at {shown(given.path)}")
        found = narrowed(view, found, given.path, at.label)
        ways, unknown = "a reader must pass each gate", unknown_words(own, found, at.label)
    teller.tell(*sharing_lines(given, view, own, found))
    if not given.json:
        ended = sum(each.ended for each in found.permissions)
        if ended and not given.ended:
            note(f"permissions that have ended: {ended}; --ended lists them")
        note(f"incident {given.called}, revision {found.revision}; {ways}{f'; not known here: {unknown}' if unknown else ''}")


def do_withdraw_ended(hub: Hub, given: argparse.Namespace, teller: Teller) -> None:
    """Reads again before each, as Withdraw takes a permission whatever its end: somebody may have given it a later one meanwhile."""
    ended = [each for each in hub.sharing(given.number).permissions if each.ended]
    for each in ended:
        if each in hub.sharing(given.number).permissions:
            hub.withdraw(given.number, each.path, each.kind, each.target)
            teller.tell_change(hub.heard, f"{given.names(each.kind, each.target)} has no permission at {shown(each.path)} of incident"
                                          f" {given.called}: it {end_words(each)}")
        else:
            note(f"{given.names(each.kind, each.target)} keeps what it has at {shown(each.path)}: it was changed meanwhile")
    if not ended:
        note(f"no permission of incident {given.called} has ended")
