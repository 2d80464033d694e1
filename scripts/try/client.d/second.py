"""A second hub beside the first: its store by the commands of iodef-hub-directory, and the client that asks both."""
from __future__ import annotations

import dataclasses
import json
import os
import pathlib
import subprocess
import sys
import types
from collections.abc import Callable
from typing import Any

from haste import Terminal
from watching import MAIL_NEWS, MailServer, program

TOP = pathlib.Path(__file__).resolve().parent.parent.parent.parent
TOOLS = TOP / "deploy" / "bin"
CLIENT = TOP / "clients" / "python" / "iodef-hub-ask"
REPORT = TOP / "docs" / "examples" / "phishing.json"
KEYS = {1: "admin-key", 2: "bank-key", 3: "telco-key", 4: "stranger-key", 5: "guest-key", 6: "second-key", 7: "fay-key"}
SUSPENDED = (1, 5)
INDICATORS = (
    "ipv4-addr\t192.0.2.17\t/Incident/0/EventData/0/Flow/0/System/0/Node/Address/0\tsource\n"
)
Check = Callable[..., None]


@dataclasses.dataclass
class Two:
    """Both hubs, and what asks them. `ask` makes the command with a key and the addresses of some of the hubs."""

    check: Check
    hub: Any
    folder: pathlib.Path
    urls: list[str]
    asker: Callable[..., Any]

    def ask(self, person: int, *places: int) -> Any:
        urls = [self.urls[place - 1] for place in places or (1, 2)]
        return self.asker(0, KEYS[person], IODEF_HUB_URL=" ".join(urls))

    def library(self, person: int, place: int) -> Any:
        return self.hub.Hub(self.urls[place - 1], KEYS[person], tries=1, pause=0.01)


def report(name: str) -> bytes:
    value = json.loads(REPORT.read_bytes())
    value["Incident"][0]["IncidentID"]["id"] = name
    return json.dumps(value).encode()


def fill(hub: Any, url: str) -> None:
    """A first hub with a row of each kind, with strange names, and with two persons that are suspended, the first one among them."""
    def by(person: int) -> Any:
        return hub.Hub(url, KEYS[person], pause=0.01)

    admin, bank, telco = by(1), by(2), by(3)
    for name in ("Bank & S\u00f6hne", "-x Telco", "It's $(a) \"University\""):
        admin.add_org(name)
    for number, org, name, role in (
        (2, 2, "Ada", "coordinator"), (3, 3, "Ben", "coordinator"), (4, 4, "--Cleo", "reader"), (5, 4, "Dan", "reader"),
        (6, 1, "Eve", "administrator"), (7, 2, "Fay", "poster"),
    ):
        assert admin.add_person(org, name, role, hub.digest_of(KEYS[number])) == number
    admin.add_client(2, 4)
    for name in ("east", "-west"):
        admin.add_community(name)
    for community, org in ((1, 2), (1, 3), (2, 4)):
        admin.join(community, org)
    admin.link(1, 2)
    bank.nominate(7)
    assert bank.new_group("phishing", "members only") == 1
    assert telco.new_group("-off") == 2
    bank.group_add(1, 3, True)
    telco.group_add(2, 4)
    telco.group_active(2, False)
    bank.arrange(3, "GREEN")
    admin.suspend(5)
    by(6).suspend(1)
    for name in ("first", "second"):
        bank.post(report(name), 3, community=None)


def second_store(check: Check, given: str, folder: pathlib.Path, port: int) -> pathlib.Path:
    """The store that the commands make of a copy of the first, while that is served."""
    tools = folder / "tools"
    tools.mkdir()
    program(tools, "iodef-hub-ask", f'#!/bin/sh\nexec {sys.executable} -B {CLIENT} "$@"\n')
    environment = {"PATH": f"{tools}:{TOOLS}:{os.environ['PATH']}", "IODEF_HUB_PROGRAM": given}
    copies, store, script = folder / "copies", folder / "second.db", folder / "second.sh"

    def ran(*words: str | pathlib.Path) -> subprocess.CompletedProcess[str]:
        return subprocess.run(words, capture_output=True, text=True, env=environment, timeout=900)

    assert ran(TOOLS / "iodef-hub-backup", folder / "first" / "hub.db", copies).returncode == 0
    copy = next(copies.glob("hub-*.db"))
    script.write_text(ran(TOOLS / "iodef-hub-directory", copy, "--commands").stdout)
    terminal = Terminal(types.SimpleNamespace(words=["bash"], environment=environment))
    check("the commands make a second store, and ask nothing at a terminal", terminal(str(script), str(store), str(port), answer="n\n"),
          (0, f"{store} has the organisations, persons, communities and groups of the first hub, by the same numbers and keys\n", ""))
    terminal.close()
    check("  and leave nothing beside it", sorted(each.name for each in folder.glob("second.db*")), ["second.db"])
    directory, other = [ran(TOOLS / "iodef-hub-directory", each).stdout.split("\nIncidents")[0] for each in (copy, store)]
    check("  its directory is the first one's", (other, directory.count("\n") > 20), (directory, True))
    checked = ran(TOOLS / "iodef-hub-check", store, "--documents")
    check("  and it is sound", (checked.returncode, ", 0 breaks" in checked.stdout), (0, True))
    names = folder / "names.json"
    names.write_text('{"orgs":{},"hubs":[{"path":"/","name":"older"},{"path":"/2/","name":"newest"}]}')
    ran(TOOLS / "iodef-hub-directory", store, "--names", names)
    value = json.loads(names.read_text())
    check("  names that are published anew keep the hubs", ([each["name"] for each in value.get("hubs", [])], value["orgs"]["2"]), (["older", "newest"], "Bank & S\u00f6hne"))
    again = ran("bash", script, store, str(port))
    check("  a store that is there stays", (again.returncode, again.stderr), (1, f"{store} exists\n"))
    altered = folder / "altered.sh"
    altered.write_text(script.read_text().replace("-- 2 Ada coordinator", "-- 2 Adah coordinator"))
    made = ran("bash", altered, folder / "altered.db", str(port))
    check("  commands that make another directory are told", (made.returncode, made.stderr), (1, f"{folder / 'altered.db'} differs from the store of the first hub\n"))
    return store


def by_second(check: Check, hub: Any, given: str, folder: pathlib.Path, served: Callable[..., Any], asker: Callable[..., Any], ports: Callable[[], int]) -> None:
    (folder / "first").mkdir()
    first = served(given, folder / "first")
    url = f"http://127.0.0.1:{first.port}"
    fill(hub, url)
    store = second_store(check, given, folder, ports())
    second = served(given, folder, store)
    two = Two(check, hub, folder, [url, f"http://127.0.0.1:{second.port}"], asker)
    try:
        by_persons(two)
        by_lists(two)
        by_incident(two)
        by_watch(two, ports())
        by_circle(two)
        by_classes(two)
        by_keys(two)
        first.end()
        by_absence(two)
    finally:
        first.end()
        second.end()


def by_persons(two: Two) -> None:
    """Each key is the same person's at both, or nobody's."""
    def heard(person: int, place: int, path: str) -> object:
        it = two.library(person, place)
        try:
            it.me() if path == "me" else it.groups()
            return it.heard
        except two.hub.Refused as refusal:
            return refusal.code

    for person in KEYS:
        for path in ("me", "groups"):
            answers = [heard(person, place, path) for place in (1, 2)]
            two.check(f"person {person}: {path} at both hubs", (answers[1], answers[0] == "K1"), (answers[0], person in SUSPENDED))


def by_lists(two: Two) -> None:
    bank, check = two.ask(2), two.check
    check("a report is posted at the newest hub", bank("post", "-", "3", "--any-community", given=report("third")), (0, "2/1\n"))
    lines = "1/1\tr1\torg 2\n1/2\tr1\torg 2\n2/1\tr1\torg 2\n"
    check("a list asks both, the oldest first", bank("list"), (0, lines))
    check("and so does a search", bank("find", "payroll-login"), (0, lines))
    check("a search finds what one hub has alone", (bank("find", "second", "IncidentID"), bank("find", "third", "IncidentID")), ((0, "1/2\tr1\torg 2\n"), (0, "2/1\tr1\torg 2\n")))
    check("with --json the hub is a member", two.asker(0, KEYS[2], "--json", IODEF_HUB_URL=" ".join(two.urls))("list"), (0, (
        '{"hub":1,"incidents":[{"number":1,"revision":1,"source":2},{"number":2,"revision":1,"source":2}]}\n'
        '{"hub":2,"incidents":[{"number":1,"revision":1,"source":2}]}\n')))
    check("addresses by words", two.asker(0, KEYS[2], "--url", two.urls[1], "--url", two.urls[0])("list"),
          (0, "1/1\tr1\torg 2\n2/1\tr1\torg 2\n2/2\tr1\torg 2\n"))
    check("with one address nothing changes", two.ask(2, 2)("list"), (0, "1\tr1\torg 2\n"))
    check("me of both", [line.split("{")[0] for line in two.ask(4)("me")[1].splitlines() if "{" in line], ["hub 1: ", "hub 2: "])


def by_incident(two: Two) -> None:
    """What is said of one incident is asked of its hub alone."""
    bank, stranger, check = two.ask(2), two.ask(4), two.check
    classes = lambda place: two.library(4, place).view(1).classes
    shown = [json.loads(bank("show", number)[1])["Incident"][0]["IncidentID"]["id"] for number in ("1/1", "1/2", "2/1")]
    check("show of each", shown, ["first", "second", "third"])
    json_of = lambda urls, number: two.asker(0, KEYS[2], "--json", IODEF_HUB_URL=urls)("show", number)
    check("with --json it is the hub's own answer, which iodef-hub-misp reads", json_of(" ".join(two.urls), "1/1"), json_of(two.urls[0], "1"))
    check("a number alone is refused", (bank("show", "1"), bank.errors),
          ((2, ""), "iodef-hub-ask: which hub's incident 1 do you mean? There are 2 hubs: give HUB/NUMBER, such as 2/1\n"))
    check("a hub that isn't there", (bank("show", "3/1"), bank.errors), ((2, ""), "iodef-hub-ask: there is no hub 3: the hubs are 1 to 2\n"))
    for wrong in ("0/1", "/1", "1/", "1/1/1", "-1/1", "x/1"):
        check(f"no incident is {wrong}", bank("show", wrong)[0], 2)
    check("with one address its number may be 1/2", json.loads(two.ask(2, 1)("show", "1/2")[1])["Incident"][0]["IncidentID"]["id"], "second")
    check("indicators of one", bank("indicators", "2/1")[1].startswith(INDICATORS.split("\t")[0] + "\t192.0.2.17\t"), True)
    check("4 of 23 classes are for the stranger, at both", (classes(1), classes(2)), (4, 4))
    check("a permission is given at the older hub", bank("grant", "1/1", "/Incident/0/Contact/0", "org", "4"), (
        0, "organisation 4 may see Contact /Incident/0/Contact/0 (TLP:GREEN) of incident 1/1, revision 1, for ever\n"))
    check("and shows Contact, Email and Telephone there alone", (classes(1), classes(2)), (7, 4))
    check("and is withdrawn there", (bank("withdraw", "1/1", "/Incident/0/Contact/0", "org", "4"), classes(1)), (
        (0, "organisation 4 has no permission any more at Contact /Incident/0/Contact/0 (TLP:GREEN) of incident 1/1\n"), 4))
    replaced = ("--any-community", "--no-gates", "--drop-permissions")
    check("a report of the older hub is replaced there", bank("replace", "1/2", "-", "0", *replaced, given=report("second")), (0, "2\n"))
    check("and is for its source alone then", (stranger("list"), bank("list")[1].splitlines()[1]), ((0, "1/1\tr1\torg 2\n2/1\tr1\torg 2\n"), "1/2\tr2\torg 2"))
    check("why is asked of the incident's hub", two.ask(6)("why", "4", "1/2", "/Incident/0")[1].split("\n")[0], "verdict Hidden G0")
    line = json.dumps({"document": json.loads(report("fourth")), "level": 3, "gates": []}).encode()
    check("post-all posts at the newest", bank("post-all", "--any-community", "-", given=line), (0, "2/2\n"))
    check("and replaces nothing unless a hub is named", (bank("post-all", "-", "--replace", *replaced[::2], given=line)[0], "name only its hub with --url" in bank.errors), (2, True))


def by_watch(two: Two, port: int) -> None:
    """A watch of the first hub goes on when the second one is named too."""
    check, state, notes = two.check, two.folder / "state", two.folder / "told"
    both, first = two.ask(2), two.ask(2, 1)
    command = program(two.folder, "news", f"#!/bin/sh\necho \"$*\" >>{notes}\n")
    words = ("watch", "--rounds", "1", "--state", str(state), "--exec", str(command))
    check("a watch of the first hub begins", first(*words), (0, ""))
    check("all that stands at a hub that is named later is news", both(*words), (0, "2/1\tr1\torg 2\n2/2\tr1\torg 2\n"))
    check("and is told once", both(*words), (0, ""))
    check("the command gets hub and number", notes.read_text(), "2/1 2\n2/2 2\n")
    older = first("post", "-", "3", "--any-community", given=report("late"))
    check("a report at the older hub is news too", (older, both(*words)), ((0, "3\n"), (0, "1/3\tr1\torg 2\n")))
    words = ("watch", "--rounds", "1", "--state", str(two.folder / "fresh"))
    check("a first watch of both tells nothing that stands there", both(*words), (0, ""))
    check("each hub has a file", sorted(each.name for each in two.folder.glob("fresh*")), ["fresh", "fresh.2"])
    check("--from is of one hub", both("watch", "--rounds", "1", "--from", "1")[0], 2)
    check("without a file all is told", both("watch", "--rounds", "1")[1].count("\n"), 5)
    check("with --json the hub is a member", two.asker(0, KEYS[2], "--json", IODEF_HUB_URL=" ".join(two.urls))("watch", "--rounds", "1")[1].splitlines()[-1],
          '{"hub":2,"number":2,"revision":1,"source":2}')
    server = MailServer(port)
    environment = {**os.environ, "MAIL_FROM": "hub@example.com", "MAIL_TO": "team@example.com", "MAIL_HOST": "127.0.0.1", "MAIL_PORT": str(port)}
    ran = [subprocess.run([sys.executable, "-B", MAIL_NEWS, number, "2"], env=environment, capture_output=True).returncode for number in ("2/7", "/7", "2/", "2/7/1")]
    check("the example mails hub and number", (ran, "Subject: Incident 2/7 of organisation 2" in server.texts[0], len(server.texts)), ([0, 2, 2, 2], True, 1))
    server.shutdown()
    server.server_close()


def by_circle(two: Two) -> None:
    """What is said of the circle is said to both hubs."""
    admin, check = two.ask(6), two.check
    check("an organisation is added at both", admin("add-org", "New"), (0, "hub 1: 5\nhub 2: 5\n"))
    check("a community is joined at both", admin("join", "1", "4"), (0, "".join(f"hub {hub}: organisation 4 is in community 1\n" for hub in (1, 2))))
    terminal, line = Terminal(admin), "organisation 5 is a client of organisation 2\n"
    check("at a terminal it is asked once for both", terminal("client", "2", "5", answer="y\n"),
          (0, f"hub 1: {line}hub 2: {line}", f"then {line}Make this change? [y/N] y\n"))
    terminal.close()
    status, text = admin("add-person", "5", "Gus", "reader")
    key = text.split("once: ")[1].split("\n")[0]
    check("a person is added at both, with one key", (status, text), (0, f"hub 1: 8\nhub 1: key, shown this once: {key}\nhub 2: 8\n"))
    check("which both serve", [two.hub.Hub(url, key).me().number for url in two.urls], [8, 8])
    check("a person is suspended at both", (admin("suspend", "8"), [code_of(two.hub, url, key) for url in two.urls]), ((0, "hub 1: person 8 is suspended for ever\nhub 2: person 8 is suspended for ever\n"), ["K1", "K1"]))
    check("what one hub has already is added at the other", (two.ask(6, 1)("add-org", "Half"), admin("add-org", "Half"), admin.errors),
          ((0, "6\n"), (1, "hub 2: 6\n"), "iodef-hub-ask: hub 1: S1: already so\n"))
    two.ask(6, 2)("add-org", "Odd")
    check("numbers that differ are told", (admin("add-org", "Late"), "the hubs gave different numbers" in admin.errors), ((1, "hub 1: 7\nhub 2: 8\n"), True))


def code_of(hub: Any, url: str, key: str) -> str:
    try:
        hub.Hub(url, key).me()
    except hub.Refused as refusal:
        return str(refusal.code)
    return ""


def by_classes(two: Two) -> None:
    """The library."""
    hubs, check = two.hub.Hubs(two.urls, KEYS[2], pause=0.01), two.check
    places = [(1, 1), (1, 2), (1, 3), (2, 1), (2, 2)]
    check("Hubs: every incident", [tuple(place) for place, _ in hubs.every_incident()], places)
    check("Hubs: every one that is found", [str(place) for place, _ in hubs.every_found("third", "IncidentID")], ["2/1"])
    check("Hubs: every one that is addressed", list(hubs.every_addressed()), [])
    check("Hubs: view", hubs.view(two.hub.Place(1, 2)).document["Incident"][0]["IncidentID"]["id"], "second")
    check("Hubs: the newest", hubs.newest.post(report("fifth"), 3, community=None), (3,))
    for wrong in (lambda: hubs.at(0), lambda: hubs.at(3), lambda: two.hub.Hubs([], "key")):
        try:
            check("Hubs: no such hub", wrong(), "ValueError")
        except ValueError:
            check("Hubs: no such hub", True)


def by_keys(two: Two) -> None:
    """A new key is the same at both, also if one hub has it already."""
    check, urls = two.check, " ".join(two.urls)
    file, later, never = [two.folder / name for name in ("fay.key", "later.key", "never.key")]
    told = lambda name: "".join(f"hub {hub}: your key is the one in {name}; the old one is nobody's\n" for hub in (1, 2))
    codes = lambda key: [code_of(two.hub, url, key) for url in two.urls]
    check("a key is exchanged at both", two.ask(7)("new-key", "--key-file", str(file)), (0, told(file)))
    key = file.read_text().strip()
    check("which both serve, and the old one neither", (codes(key), codes(KEYS[7])), (["", ""], ["K1", "K1"]))
    check("a key is exchanged at one hub", two.asker(0, key, IODEF_HUB_URL=two.urls[1])("new-key", "--key-file", str(later))[0], 0)
    check("the other one gets the same by --made", two.asker(0, key, IODEF_HUB_URL=urls)("new-key", "--key-file", str(later), "--made"), (0, told(later)))
    check("and both serve it", (codes(later.read_text().strip()), codes(key)), (["", ""], ["K1", "K1"]))
    check("where both refuse, no file stays", (two.ask(7)("new-key", "--key-file", str(never)), never.exists()), ((1, ""), False))


def by_absence(two: Two) -> None:
    """The first hub is away."""
    check, words = two.check, " ".join(two.urls)
    bank, admin = [two.asker(0, KEYS[person], "--tries", "1", IODEF_HUB_URL=words) for person in (2, 6)]
    check("a list tells what the other has, and fails", (bank("list"), bank.errors.startswith("iodef-hub-ask: hub 1: Unreachable")),
          ((3, "2/1\tr1\torg 2\n2/2\tr1\torg 2\n2/3\tr1\torg 2\n"), True))
    check("a report is posted all the same", bank("post", "-", "3", "--any-community", given=report("sixth")), (0, "2/4\n"))
    check("a person is suspended at the other all the same", (admin("suspend", "4"), code_of(two.hub, two.urls[1], KEYS[4])), ((3, "hub 2: person 4 is suspended for ever\n"), "K1"))
    check("nothing is added at the other, whose numbers would differ", (admin("add-org", "Never"), two.ask(6, 2)("add-org", "Next")), ((3, ""), (0, "9\n")))
    watch = bank("watch", "--rounds", "1")
    check("a watch goes on with the other", (watch[0], watch[1].count("\n"), "hub 1: Unreachable" in bank.errors), (0, 4, True))
    telco, file = two.asker(0, KEYS[3], "--tries", "1", IODEF_HUB_URL=words), two.folder / "absent.key"
    status = telco("new-key", "--key-file", str(file))[0]
    check("a key is exchanged at the other, and what the first one needs is told",
          (status, code_of(two.hub, two.urls[1], file.read_text().strip()), "run this again with the old key and --made" in telco.errors), (3, "", True))
