"""The commands that show an incident."""
from __future__ import annotations

import argparse

from iodef_hub import RULES, Hub, View, indicators

from .characters import shown, shown_exactly, shown_json
from .seen import Seen
from .telling import Teller, Usage, note, warn


def keep(hub: Hub, number: int, revision: int) -> None:
    """Keeps which revision was seen. If that can't be kept, a change needs --revision, and standard error says why."""
    try:
        Seen(hub.url).keep(number, revision)
    except (OSError, Usage) as fault:
        warn(shown(str(fault)))


def looked_at(hub: Hub, given: argparse.Namespace) -> View:
    """An incident that the caller looks at. Its revision is kept if nothing is withheld: otherwise places in it aren't those of the
    report, and the source, which alone can change it, sees all of it."""
    view = hub.view(given.number)
    if not view.withheld:
        keep(hub, view.number, view.revision)
    return view


def tell_revision(given: argparse.Namespace, view: View) -> None:
    """Prints on standard error which revision was shown, as the last line. With --json the answer has it."""
    if not given.json:
        note(f"incident {given.called}, revision {view.revision}, of {given.names('org', view.source)}")


def do_show(hub: Hub, given: argparse.Namespace, teller: Teller) -> None:
    view = looked_at(hub, given)
    teller.tell(shown_json(view.document))
    for each in () if given.json else view.withheld:
        reason = RULES.get(each.rule, "withheld")
        note(f"withheld at {shown(each.place) or 'the root'}: {reason} ({shown(each.rule)})")
    tell_revision(given, view)


def do_indicators(hub: Hub, given: argparse.Namespace, teller: Teller) -> None:
    view = looked_at(hub, given)
    every, found = list(indicators(view.document, True)), list(indicators(view.document, given.all))
    teller.tell(*("\t".join(map(shown_exactly, each)) for each in found))
    if len(found) < len(every) and not given.json:
        rest = len(every) - len(found)
        warn(f"{rest} more are elsewhere, such as the addresses of victims; --all lists them with their role")
    tell_revision(given, view)
