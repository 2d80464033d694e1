"""The words that the command knows, what each command does, and the hubs that it asks."""
from __future__ import annotations

import argparse
import json
import os
import sys
from collections.abc import Callable, Mapping, Sequence
from dataclasses import asdict
from typing import Any

from iodef_hub import GRANTEES, HANDLINGS, RECIPIENTS, ROLES, Entry, Hub, HubError, Hubs, MayBeTaken, Refused, __version__

from .characters import shown, shown_json
from .looking import do_indicators, do_show
from .persons import do_add_person, do_new_key
from .posting import do_post, do_post_all, do_replace
from .preview import do_preview
from .readers import READER_HELP
from .reading import gate, key_of, moment, number, place
from .shared import do_sharing, do_withdraw_ended
from .sharing import LEVELS, changing, check_circle, do_address, do_grant, do_redistribute, do_unaddress, do_withdraw
from .telling import Teller, Undone, Usage, names_of, warn
from .watch import do_watch


Command = Callable[[Hub, argparse.Namespace, Teller], None]


def told(ask: Callable[[Hub, argparse.Namespace], Sequence[str]]) -> Command:
    """A command that prints lines."""
    def command(hub: Hub, given: argparse.Namespace, teller: Teller) -> None:
        teller.tell(*ask(hub, given))
    return command


def always(given: argparse.Namespace) -> bool:
    """Of a change that is asked about, whatever its words are."""
    return True


def listed(page: Callable[[Hub, argparse.Namespace, int], tuple[Entry, ...]]) -> Command:
    return lambda hub, given, teller: teller.pages(lambda after: page(hub, given, after))


def do_find(hub: Hub, given: argparse.Namespace, teller: Teller) -> None:
    teller.pages(lambda after: hub.search(given.needle, given.class_name, after))
    if not teller.told:
        warn("nothing was found; capitals count, and so do spaces")


KINDS: dict[str, Callable[[str], Any]] = {
    "number": place,
    **dict.fromkeys(("level", "target", "person", "org", "client", "community", "other", "group_number"), number),
}
CHOICES = {"grantee": GRANTEES, "recipient": RECIPIENTS, "role": ROLES, "handling": HANDLINGS, "state": ("on", "off")}
HELPS = {
    "level": ", ".join(f"{level} {who}" for level, who in enumerate(LEVELS[:5])),
    "number": "the incident's number; with several hubs HUB/NUMBER, such as 2/17",
    "path": "the JSON pointer of a class in the Incident's document, such as /Incident/0/EventData/1",
    "file": "the file, or - for standard input",
}


DEFAULT_URL = "http://127.0.0.1:8080"

# What the commands do if there are several hubs. Those of an incident ask its hub, and all that aren't here ask each hub in turn.
AT_INCIDENT = {
    "show", "indicators", "why", "replace", "redistribute", "address", "unaddress", "grant", "withdraw", "sharing", "withdraw-ended",
}
AT_NEWEST = {"post", "post-all"}
LISTS = {"list", "addressed", "find"}
NUMBERING = {"add-org", "add-person", "add-community", "new-group"}


class Words:
    """The words that the command knows, and what each command does."""

    def __init__(self) -> None:
        self.parser = argparse.ArgumentParser(
            prog="iodef-hub-ask", description="Sends requests to an iodef-hub. The key is in IODEF_HUB_KEY, or in a file that IODEF_HUB_KEY_FILE names.",
        )
        add = self.parser.add_argument
        add("--url", action="append", metavar="URL",
            help=f"the hub's address (default: IODEF_HUB_URL, else {DEFAULT_URL}). Several, by --url again or with spaces between them in"
            " IODEF_HUB_URL, are the hubs of one circle, the oldest first")
        add("--ca", default=os.environ.get("IODEF_HUB_CA") or None, help="a file of certificates to trust instead of the system's (default: IODEF_HUB_CA)")
        add("--names", type=names_of, default=os.environ.get("IODEF_HUB_NAMES", ""), metavar="FILE",
            help="a file of iodef-hub-directory --names, for names beside numbers (default: IODEF_HUB_NAMES)")
        add("--json", action="store_true", help="print the hub's own answers, one per line")
        add("--tries", type=number, default=5, help="the most times that a request is sent (default: %(default)s)")
        add("--timeout", type=float, default=70, help="seconds without a byte after which a connection counts as lost (default: %(default)s)")
        add("--version", action="version", version=f"%(prog)s {__version__}")
        self.commands = self.parser.add_subparsers(dest="command", required=True, metavar="COMMAND")
        self.known: dict[str, Command] = {}
        self.offline: dict[str, Callable[[argparse.Namespace], None]] = {"preview": do_preview}
        self.add_reading()
        self.add_reports()
        self.add_sharing()
        self.add_circle()
        self.add_groups()

    def add(self, name: str, run: Command, about: str, *names: str) -> argparse.ArgumentParser:
        """A command with its positional words. One that ends with ? may be left out."""
        made: argparse.ArgumentParser = self.commands.add_parser(name, help=about, description=about[0].upper() + about[1:] + ".")
        for each in names:
            if each.endswith("?"):
                made.add_argument(each[:-1], nargs="?", metavar=each[:-1].upper(), help=HELPS.get(each[:-1]))
            elif each in CHOICES:
                made.add_argument(each, choices=CHOICES[each])
            else:
                made.add_argument(each, type=KINDS.get(each, str), metavar=each.upper(), help=HELPS.get(each))
        self.known[name] = run
        return made

    def add_change(self, name: str, about: str, names: Sequence[str], change: Callable[[Hub, Any], None], says: Callable[[Any], str],
                   is_asked: Callable[[Any], object] | None = None) -> argparse.ArgumentParser:
        """A command that changes the circle, and prints what is so then. `is_asked` says whether it is asked about at a terminal: if
        somebody may see more then, or if nothing takes it back."""
        def changed(hub: Hub, given: argparse.Namespace) -> str:
            if is_asked and is_asked(given):
                check_circle(hub, given, says)
            change(hub, given)
            return says(given)
        made = self.add(name, changing(changed), about, *names)
        if is_asked:
            add_yes(made)
        return made

    def add_reading(self) -> None:
        self.add("me", told(lambda hub, given: [shown_json(asdict(hub.me()))]), "who the hub says you are")
        self.add("groups", told(lambda hub, given: [shown(json.dumps(asdict(each), ensure_ascii=False)) for each in hub.groups()]),
                 "the sharing groups of your organisation")
        self.add("communities", told(lambda hub, given: [shown(json.dumps(asdict(each), ensure_ascii=False)) for each in hub.communities()]),
                 "the communities of your organisation, their members, and the communities connected to them")
        fresh = self.add("new-key", do_new_key, "exchanges your key for a new one, and asks the hub with the new one")
        fresh.add_argument("--key-file", required=True, help="write the new key into this file, which must not exist")
        fresh.add_argument("--made", action="store_true", help="the file has the new key already, such as for a hub that lacks it")
        fresh.set_defaults(fresh=None)
        self.add("list", listed(lambda hub, given, after: hub.incidents(after)), "the incidents of which you may see something")
        self.add("addressed", listed(lambda hub, given, after: hub.addressed(after)), "the incidents that address you or your organisation")
        self.add("show", do_show, "what you may see of an incident; standard error lists what is withheld", "number")
        found = self.add("indicators", do_indicators, "what to block or look for in an incident: kind, value, place, role and label", "number")
        found.add_argument("--all", action="store_true",
                           help="also what is neither below Indicator nor in a source, such as the addresses of victims: look at the role")
        self.add("find", do_find, "the incidents in which you may read this text, capitals as they are, in a class of this name if one is given",
                 "needle", "class_name?")
        watch = self.add("watch", lambda hub, given, teller: None, "prints new incidents as they arrive, and those that address you since")
        watch.add_argument("--every", type=float, default=60, help="seconds between two looks at the hub (default: %(default)s)")
        watch.add_argument("--from", dest="start", type=number, metavar="NUMBER", help="incidents above this number are new (default: 0); for one hub only")
        watch.add_argument("--all", action="store_true", help="also new revisions, and incidents that become visible; each look then reads the whole list")
        watch.add_argument("--rounds", type=number, default=0, help="how often to look; 0 means for ever (default: %(default)s)")
        watch.add_argument("--exec", metavar="COMMAND", help="run COMMAND NUMBER SOURCE for each, without a shell, and never with content or"
                           " the key; if it fails, that incident and those after it are tried again at the next look")
        watch.add_argument("--state", metavar="FILE", help="keep in FILE what was printed; if FILE doesn't exist and --from isn't given, what the"
                           " hub has already isn't new; for a second hub FILE.2, and so on")

    def add_reports(self) -> None:
        post = self.add("post", do_post, "posts a report and prints its numbers; standard error tells who may read it", "file", "level")
        add_spread(post)
        add_yes(post)
        exchange = self.add("replace", do_replace, "replaces the stored revision with a new one, and says again who may read it",
                            "number", "file", "level")
        gates = add_spread(exchange)
        gates.add_argument("--no-gates", action="store_true", help="no class has a gate of its own in the new revision")
        add_dropping(exchange, True)
        add_revision(exchange)
        post_all = self.add("post-all", do_post_all, "posts the lines that iodef-hub-misp to-iodef writes", "file")
        add_communities(post_all)
        post_all.add_argument("--replace", action="store_true", help="replace what was posted with the same --state, if nobody has changed it since")
        add_yes(post_all)
        post_all.add_argument("--state", metavar="FILE", help="keep in FILE what was posted, as which revision")
        add_dropping(post_all, False)
        preview = self.commands.add_parser("preview", help="shows what a reader would get of a report, before it is posted; needs no hub",
                                           description="Shows what a reader would get of a report, before it is posted. Needs no hub.")
        preview.add_argument("file", metavar="FILE", help=HELPS["file"])
        preview.add_argument("level", type=number, metavar="LEVEL", help=HELPS["level"])
        add_spread(preview)
        preview.add_argument("--for", dest="reader", required=True, metavar="READER", help=READER_HELP)
        preview.add_argument("--in-group", type=number, action="append", default=[], metavar="N", help="the reader's organisation is a member of this group")
        preview.add_argument("--incident", type=number, default=0, metavar="K", help="the place of the Incident in the report, from 0 (default: %(default)s)")
        preview.add_argument("--engine", default="iodef-redact", metavar="PROGRAM", help="the program that redacts (default: %(default)s)")

    def add_sharing(self) -> None:
        redistribute = self.add("redistribute", do_redistribute, "sets a gate at a class (level 5: as the class above), or with an empty path"
                                " at the root", "number", "path", "level")
        redistribute.add_argument("--group", type=number, help="the sharing group of level 4")
        address = self.add("address", do_address, "adds a recipient", "number", "recipient", "target")
        self.add("unaddress", do_unaddress, "removes a recipient", "number", "recipient", "target")
        grant = self.add("grant", do_grant, "permits somebody to see a class", "number", "path", "grantee", "target")
        grant.add_argument("--until", type=moment, metavar="MOMENT",
                           help="when it ends: 2026-12-31 (the beginning of that day) or 2026-12-31T18:00, in this machine's time zone, unless"
                           " an offset such as +01:00 or Z follows the time")
        for made in (redistribute, address, grant):
            add_revision(made)
        for made, what in ((redistribute, "a level other than 0 at the root or at the Incident"), (grant, "a permission of the Incident itself")):
            made.add_argument("--whole-incident", action="store_true", help=f"required for {what}")
        self.add("withdraw", do_withdraw, "removes a permission", "number", "path", "grantee", "target")
        self.add("sharing", do_sharing, "how a report of your organisation is shared: gates, labels, recipients and permissions; or what"
                 " opens one class of it", "number", "path?").add_argument(
            "--ended", action="store_true", help="also the permissions that have ended")
        self.add("withdraw-ended", do_withdraw_ended, "removes the permissions that have ended, looking again before each", "number")

    def add_circle(self) -> None:
        self.add("why", told(lambda hub, given: [shown(each) for each in hub.explain(given.person, given.number, given.path).splitlines()]),
                 "why a person sees a class of an incident, or doesn't", "person", "number", "path")
        self.add("add-org", told(lambda hub, given: [str(hub.add_org(given.name))]), "adds an organisation", "name")
        self.add_change("client", "makes CLIENT a client of ORG", ("org", "client"), lambda hub, it: hub.add_client(it.org, it.client),
                        lambda it: f"{it.names('org', it.client)} is a client of {it.names('org', it.org)}", always)
        self.add_change("unclient", "removes CLIENT as a client of ORG", ("org", "client"), lambda hub, it: hub.remove_client(it.org, it.client),
                        lambda it: f"{it.names('org', it.client)} is no client of {it.names('org', it.org)} any more")
        person = self.add("add-person", do_add_person, "adds a person with a new key, which is shown only once", "org", "name", "role")
        person.add_argument("--key-file", help="write the new key into this file, which must not exist")
        person.add_argument("--digest", help="the SHA-256 of a key that the person has made, instead of a new one")
        add_yes(person)
        self.add_change("suspend", "suspends a person for ever: the hub refuses the key", ("person",), lambda hub, it: hub.suspend(it.person),
                        lambda it: f"{it.names('person', it.person)} is suspended for ever", always)
        self.add("add-community", told(lambda hub, given: [str(hub.add_community(given.name))]), "adds a community", "name")
        both = ("community", "org")
        self.add_change("join", "puts an organisation into a community", both, lambda hub, it: hub.join(it.community, it.org),
                        lambda it: f"{it.names('org', it.org)} is in {it.names('community', it.community)}", always)
        self.add_change("leave", "removes an organisation from a community", both, lambda hub, it: hub.leave(it.community, it.org),
                        lambda it: f"{it.names('org', it.org)} isn't in {it.names('community', it.community)} any more")
        two = ("community", "other")
        self.add_change("link", "connects two communities", two, lambda hub, it: hub.link(it.community, it.other),
                        lambda it: f"{it.names('community', it.community)} and {it.names('community', it.other)} are connected", always)
        self.add_change("unlink", "ends the connection of two communities", two, lambda hub, it: hub.unlink(it.community, it.other),
                        lambda it: f"{it.names('community', it.community)} and {it.names('community', it.other)} aren't connected any more")

    def add_groups(self) -> None:
        self.add_change("nominate", "lets a person receive what is for your organisation", ("person",), lambda hub, it: hub.nominate(it.person),
                        lambda it: f"{it.names('person', it.person)} is nominated", always)
        self.add_change("unnominate", "ends a nomination", ("person",), lambda hub, it: hub.unnominate(it.person),
                        lambda it: f"{it.names('person', it.person)} isn't nominated any more")
        self.add("new-group", told(lambda hub, given: [str(hub.new_group(given.name, given.releasability or ""))]),
                 "creates a sharing group of your organisation", "name", "releasability?")
        both = ("group_number", "org")
        group_add = self.add_change(
            "group-add", "puts an organisation into a group", both, lambda hub, it: hub.group_add(it.group_number, it.org, it.extend),
            lambda it: f"{it.names('org', it.org)} is in {it.names('group', it.group_number)}" + (", and may add others" if it.extend else ""), always)
        group_add.add_argument("--extend", action="store_true", help="the new member may add others")
        self.add_change("group-remove", "removes an organisation from a group", both, lambda hub, it: hub.group_remove(it.group_number, it.org),
                        lambda it: f"{it.names('org', it.org)} isn't in {it.names('group', it.group_number)} any more")
        self.add_change("group-active", "switches a group on or off", ("group_number", "state"),
                        lambda hub, it: hub.group_active(it.group_number, it.state == "on"), lambda it: f"{it.names('group', it.group_number)} is {it.state}",
                        lambda it: it.state == "on")
        self.add_change("arrange", "sets what your label `default` means to another organisation", ("org", "handling"),
                        lambda hub, it: hub.arrange(it.org, it.handling),
                        lambda it: f"your label `default` is {'AMBER+STRICT' if it.handling == 'STRICT' else it.handling} to {it.names('org', it.org)}",
                        lambda it: it.handling != "RED")
        self.add_change("cancel-arrange", "ends an arrangement", ("org",), lambda hub, it: hub.cancel_arrange(it.org),
                        lambda it: f"your label `default` is RED to {it.names('org', it.org)}")


def add_revision(made: argparse.ArgumentParser) -> None:
    either = made.add_mutually_exclusive_group()
    either.add_argument("--revision", type=number, help="the revision that you have seen (default: the one that show or indicators has shown you)")
    either.add_argument("--latest", action="store_true", help="the present revision, whatever it is: shows what it is about, and asks")
    add_yes(made)


def add_yes(made: argparse.ArgumentParser) -> None:
    made.add_argument("--yes", action="store_true", help="don't ask at a terminal")


def add_communities(made: argparse.ArgumentParser) -> None:
    either = made.add_mutually_exclusive_group()
    either.add_argument("--community", type=number, metavar="N", help="what is marked green is for the members of this one of your communities only")
    either.add_argument("--any-community", "--all-communities", action="store_true",
                        help="what is marked green is for the members of any of your communities")


def add_spread(made: argparse.ArgumentParser) -> Any:
    """Adds the words that say who may read a report. Returns the group of those for gates, of which only one kind may be given."""
    add_communities(made)
    made.add_argument("--group", type=number, metavar="N", help="the sharing group of level 4")
    gates = made.add_mutually_exclusive_group()
    gates.add_argument("--gate", type=gate, action="append", default=[], metavar="LEVEL:GROUP:POINTER",
                       help="give a class a level of its own; GROUP is 0 except at level 4")
    return gates


def add_dropping(made: argparse.ArgumentParser, is_wanted: bool) -> None:
    wanted = "required" if is_wanted else "required with --replace"
    made.add_argument("--drop-permissions", action="store_true", help=f"{wanted}: a new revision removes all permissions of the stored one")


def told_of(fault: Exception) -> str:
    """The text of a fault for standard error, with advice if the hub gives none."""
    detail = fault.detail.split(" ")[0] if isinstance(fault, Refused) else ""
    is_other_revision = isinstance(fault, Refused) and fault.code == "S3"
    return shown(str(fault)) + (
        ": write a whole number of at most 64 bits, such as 1000 instead of 1000.0, or a string" if detail == "NotWhole" else
        ": it isn't the one that you have seen, so look at it again" if is_other_revision else "")


def status_of(fault: Exception) -> int:
    """The exit status of a fault."""
    return 1 if isinstance(fault, (Refused, Undone)) else 4 if isinstance(fault, MayBeTaken) else 3 if isinstance(fault, HubError) else 2


def urls_of(given: argparse.Namespace, environment: Mapping[str, str]) -> list[str]:
    return given.url or environment.get("IODEF_HUB_URL", "").split() or [DEFAULT_URL]


def run_one(words: Words, given: argparse.Namespace, hub: Hub, teller: Teller) -> None:
    """Runs a command at one hub."""
    try:
        words.known[given.command](hub, given, teller)
    except Refused:
        if given.json:
            teller.tell()
        raise


def run_at_incident(words: Words, given: argparse.Namespace, hubs: Hubs) -> None:
    """Runs a command at the hub that its incident's number names."""
    if not given.number.hub and len(hubs.all) > 1:
        raise Usage(f"which hub's incident {given.number.number} do you mean? There are {len(hubs.all)} hubs: give HUB/NUMBER, such as 2/{given.number.number}")
    hub = hubs.at(given.number.hub or 1)
    given.called = str(given.number) if len(hubs.all) > 1 else str(given.number.number)
    given.number = given.number.number
    run_one(words, given, hub, Teller(hub, given.json))


def run_at_newest(words: Words, given: argparse.Namespace, hubs: Hubs) -> None:
    """Posts at the newest hub. It can't know what an older one has, so for a replacement the hub must be named."""
    at = len(hubs.all)
    if given.command == "post-all" and given.replace and at > 1:
        raise Usage("post-all --replace needs one hub: an older hub's report would be posted a second time; name only its hub with --url")
    teller = Teller(hubs.newest, given.json, at, f"{at}/") if at > 1 else Teller(hubs.newest, given.json)
    run_one(words, given, hubs.newest, teller)


def run_at_each(words: Words, given: argparse.Namespace, hubs: Hubs) -> int:
    """Runs a command at each hub in turn, and returns the first status that isn't 0. The others are asked even if one hub fails. But
    if the command gets a number, a fault ends it, as the numbers must be the same in all hubs, unless that hub has it already."""
    numbers: dict[int, str] = {}
    status = 0
    for at, hub in enumerate(hubs.all, 1):
        teller = Teller(hub, given.json, at, f"{at}/" if given.command in LISTS else f"hub {at}: ")
        try:
            run_one(words, given, hub, teller)
            numbers[at] = "".join(teller.told[:1])
        except HubError as fault:
            print(f"iodef-hub-ask: hub {at}: {told_of(fault)}", file=sys.stderr)
            status = status or status_of(fault)
            if given.command in NUMBERING and fault.code != "S1":
                if numbers and given.command == "add-person":
                    print(f"iodef-hub-ask: for the hubs that lack the person, run this again with --digest {given.digest}", file=sys.stderr)
                return status
    if given.command == "new-key" and status and numbers:
        print("iodef-hub-ask: for the hubs that lack the new key, run this again with the old key and --made", file=sys.stderr)
    if given.command in NUMBERING and len(set(numbers.values())) > 1:
        print("iodef-hub-ask: the hubs gave different numbers, so a number doesn't mean the same at each hub", file=sys.stderr)
        status = status or 1
    return status


def run(words: Words, given: argparse.Namespace, hubs: Hubs) -> int:
    """Runs a command at the hubs that it concerns, and returns the status."""
    if given.command == "watch":
        do_watch(hubs, given)
    elif given.command in AT_INCIDENT:
        run_at_incident(words, given, hubs)
    elif given.command in AT_NEWEST:
        run_at_newest(words, given, hubs)
    elif len(hubs.all) > 1:
        return run_at_each(words, given, hubs)
    else:
        run_one(words, given, hubs.newest, Teller(hubs.newest, given.json))
    return 0


def main() -> int:
    """Returns 0 done, 1 refused, 2 usage, 3 not reached or not a hub, 4 a change that may have been taken."""
    words = Words()
    given = words.parser.parse_args()
    given.called = ""
    try:
        if offline := words.offline.get(given.command):
            offline(given)
            return 0
        return run(words, given, Hubs(urls_of(given, os.environ), key_of(os.environ), given.ca, given.timeout, given.tries))
    except BrokenPipeError:
        os.dup2(os.open(os.devnull, os.O_WRONLY), sys.stdout.fileno())
        return 0
    except (HubError, Undone, Usage, ValueError, OSError) as fault:
        print(f"iodef-hub-ask: {told_of(fault)}", file=sys.stderr)
        return status_of(fault)
    except KeyboardInterrupt:
        return 130


if __name__ == "__main__":
    sys.exit(main())
