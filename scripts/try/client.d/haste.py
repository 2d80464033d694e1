"""Slips of an analyst in haste: a colleague in between, a wrong number, two terminals, Enter too early, the whole in place of a part.
Nothing may be shared that the screen hasn't said before."""
from __future__ import annotations

import json
import os
import pathlib
import pty
import select
import stat
import subprocess
import time
from collections.abc import Callable
from typing import Any

Check = Callable[..., None]
PAGE = {"Description": ["the phishing page"]}
VICTIMS = {"Description": [{"value": "the victims: Jane Doe", "lang": "en"}]}
EVENT = "/Incident/0/EventData/0"
WHICH = "which revision of incident {0} have you seen? Look at it with `iodef-hub-ask show {0}`, or give --revision N, or --latest for the present one"
OTHER = "iodef-hub-ask: S3: other revision ({}): it isn't the one that you have seen, so look at it again\n"


def report(name: str, *events: dict[str, Any], **members: Any) -> bytes:
    incident = {"purpose": "reporting", "IncidentID": {"id": name, "name": "x"}, "GenerationTime": "2026-01-01T00:00:00Z", "Contact": [{"role": "creator"}],
                "restriction": "red", "EventData": list(events), **members}
    return json.dumps({"version": "2.0", "Incident": [incident]}).encode()


class Terminal:
    """A terminal, in which commands run one after another."""

    def __init__(self, ask: Any) -> None:
        self.ask = ask
        self.own, self.its = pty.openpty()

    def __call__(self, *words: str, answer: str | None = None, early: str = "", meanwhile: Callable[[], None] | None = None) -> tuple[int, str, str]:
        """Status, standard output, and what the terminal shows. `answer` is typed at the question, `early` before it is asked; `meanwhile`
        is done between the question and the answer."""
        if early:
            os.write(self.own, early.encode())
        ran = subprocess.Popen([*self.ask.words, *words], stdin=self.its, stdout=subprocess.PIPE, stderr=self.its, env=self.ask.environment)
        screen, began = "", time.monotonic()
        while time.monotonic() - began < 120:
            ready, _, _ = select.select([self.own], [], [], 0.2)
            if ready:
                screen += os.read(self.own, 65536).decode()
            elif ran.poll() is not None:
                break
            if answer is not None and "[y/N] " in screen:
                if meanwhile:
                    meanwhile()
                os.write(self.own, answer.encode())
                answer = None
        assert ran.stdout
        output = ran.stdout.read().decode()
        return ran.wait(), output, screen.replace("\r\n", "\n")

    def close(self) -> None:
        os.close(self.own)
        os.close(self.its)


class Haste:
    """The analyst and a colleague of one organisation, and a stranger, at one hub. Each test has an incident of its own."""

    def __init__(self, check: Check, asker: Callable[..., Any], library: Any, between: Any, folder: pathlib.Path) -> None:
        self.check, self.between, self.library = check, between, library
        self.state = folder / "analyst"
        self.analyst = asker(between.port, "bank-key", XDG_STATE_HOME=str(self.state))
        self.url = self.analyst.environment["IODEF_HUB_URL"]
        self.colleague = library.Hub(self.url, "bank-key")
        self.stranger = library.Hub(self.url, "stranger-key")
        self.posted = 0

    def post(self, *events: dict[str, Any], **members: Any) -> str:
        """An incident that the colleague posts, for nobody yet."""
        self.posted += 1
        number, = self.colleague.post(report(f"haste {self.posted}", *(events or (PAGE, VICTIMS)), **members), 3, community=None)
        return str(number)

    def exchange(self, number: str, *events: dict[str, Any]) -> None:
        """The colleague replaces it."""
        seen = self.colleague.view(int(number))
        incident = {**seen.document["Incident"][0], "EventData": list(events or (VICTIMS, PAGE))}
        self.colleague.replace(int(number), seen.revision, {**seen.document, "Incident": [incident]}, 3, gates=(), community=None)

    def leaked(self, number: str) -> str:
        """What the stranger is served of it."""
        try:
            return json.dumps(self.stranger.view(int(number)).document)
        except self.library.Refused as refusal:
            return str(refusal.code)

    def asks(self, *words: str, given: bytes = b"") -> tuple[int, str, str]:
        status, text = self.analyst(*words, given=given)
        return status, text, self.analyst.errors


def by_haste(check: Check, asker: Callable[..., Any], library: Any, between: Any, folder: pathlib.Path, admin: str) -> None:
    haste = Haste(check, asker, library, between, folder)
    by_colleague(haste)
    by_unseen(haste)
    by_whole(haste)
    by_terminal(haste)
    by_answers(haste)
    by_terminals(haste)
    by_circle(haste, asker(between.port, admin))
    by_files(haste)
    by_many_runs(haste)
    by_lines(haste, folder)


def by_colleague(haste: Haste) -> None:
    """A colleague replaces the report between look and change."""
    check = haste.check
    number = haste.post()
    status, _, errors = haste.asks("show", number)
    check("show tells number, revision and source, last", (status, errors.splitlines()[-1:]), (0, [f"incident {number}, revision 1, of organisation 2"]))
    haste.exchange(number)
    check("a permission for what was seen is refused when a colleague came between", haste.asks("grant", number, EVENT, "org", "4"), (1, "", OTHER.format(2)))
    check("  and the stranger has nothing", haste.leaked(number), "N1")
    check("nor is a gate set", haste.asks("redistribute", number, EVENT, "3"), (1, "", OTHER.format(2)))
    replace = ("replace", number, "-", "3", "--any-community", "--no-gates", "--drop-permissions")
    check("nor the report replaced", haste.asks(*replace, given=report("haste 1", PAGE)), (1, "", OTHER.format(2)))
    check("  so the colleague's stays", haste.colleague.view(int(number)).revision, 2)
    status, told, errors = haste.asks("address", number, "person", "4")
    check("nor anybody addressed", (status, told, f"you have seen revision 1 of incident {number}, and it is at revision 2" in errors, haste.leaked(number)), (1, "", True, "N1"))
    haste.asks("indicators", number)
    check("once it was looked at again, by indicators too, it is permitted, in words", haste.asks("grant", number, EVENT, "org", "4", "--until", "2036-12-31T00:00:00Z"), (
        0, f"organisation 4 may see EventData {EVENT} (TLP:RED) of incident {number}, revision 2, until 2036-12-31T00:00:00+00:00\n", ""))
    check("  as it says", "Jane Doe" in haste.leaked(number))
    names = haste.state / "names.json"
    names.write_text(json.dumps({"orgs": {"4": "Universit\u00e0\u202e"}}))
    haste.analyst.words += ["--names", str(names)]
    check("names are by --names", haste.asks("withdraw", number, EVENT, "org", "4")[1],
          f"organisation 4 (Universit\u00e0\\u202e) has no permission any more at EventData {EVENT} (TLP:RED) of incident {number}\n")
    del haste.analyst.words[-2:]
    check("a file of no names is usage", haste.asks("--names", str(haste.state / "none"), "me")[0], 2)
    check("  and nothing is shared any more", haste.leaked(number), "N1")
    check("replace prints the revision, and tells who may read it", haste.asks(*replace, given=report("haste 1", PAGE)), (
        0, "3\n", f"incident {number}, revision 3, is at level 3 (everybody in the hub, including organisations in no community);"
        " TLP:GREEN is for the members of any of your communities; no class has a gate of its own\n"))
    check("  which is then the one that was seen", haste.asks("redistribute", number, EVENT, "0"), (
        0, f"EventData {EVENT} (TLP:RED) of incident {number}, revision 3, is at level 0 (your organisation)\n", ""))


def by_unseen(haste: Haste) -> None:
    """Changes to what was never looked at."""
    check, between = haste.check, haste.between
    number = haste.post()
    between.take()
    changes = (("grant", number, EVENT, "org", "4"), ("redistribute", number, EVENT, "3"), ("address", number, "person", "4"),
               ("replace", number, "-", "3", "--any-community", "--no-gates", "--drop-permissions"))
    for words in changes:
        check(f"{words[0]} of what wasn't looked at", haste.asks(*words, given=report("haste 2")), (2, "", f"iodef-hub-ask: {WHICH.format(number)}\n"))
        status, told, errors = haste.asks(*words, "--latest", given=report("haste 2"))
        check("  --latest asks at a terminal alone", (status, told, "--latest asks at a terminal, and standard input is none" in errors), (2, "", True))
        check("  and not with --revision", haste.asks(*words, "--latest", "--revision", "1")[0], 2)
    check("  nothing is sent of all that", between.asked, [])
    check("--latest --yes doesn't ask", haste.asks("redistribute", number, EVENT, "0", "--latest", "--yes")[:2], (
        0, f"EventData {EVENT} (TLP:RED) of incident {number}, revision 1, is at level 0 (your organisation)\n"))
    check("--revision is enough", haste.asks("grant", number, f"{EVENT[:-1]}1", "org", "3", "--revision", "1")[0], 0)
    haste.asks("--json", "show", haste.post())
    check("what --json showed was seen too", haste.asks("redistribute", str(int(number) + 1), EVENT, "0")[0], 0)
    cleo = haste.post(PAGE, VICTIMS, Description=["x"], Assessment=[{"restriction": "white", "a": "b"}])
    haste.analyst.environment["IODEF_HUB_KEY"] = "stranger-key"
    status, _, errors = haste.asks("show", cleo)
    haste.analyst.environment["IODEF_HUB_KEY"] = "bank-key"
    check("an excerpt, whose places are others, isn't what was seen", (status, errors.splitlines()[-1], haste.asks("redistribute", cleo, EVENT, "0")[0]),
          (0, f"incident {cleo}, revision 1, of organisation 2", 2))


def by_whole(haste: Haste) -> None:
    """The whole in place of a part: by a path that was cut, or by one that is empty, as an unset variable is."""
    check = haste.check
    number = haste.post()
    haste.asks("show", number)
    haste.between.take()
    for words in (("grant", number, "/Incident/0", "org", "4"), ("redistribute", number, "", "3"), ("redistribute", number, "/Incident/0", "5")):
        status, told, errors = haste.asks(*words)
        check(f"{' '.join(words[:1] + words[2:])!r} needs --whole-incident", (status, told, "needs --whole-incident" in errors), (2, "", True))
    status, told, errors = haste.asks("grant", number, EVENT, "org", "4", "--whole-incident")
    check("which isn't for a part", (status, f"{EVENT} is a part" in errors), (2, True))
    check("  nothing is sent of all that", haste.between.asked, [])
    check("a level of 0 needs it not", haste.asks("redistribute", number, "", "0")[1], f"the whole report of incident {number}, revision 1, is at level 0 (your organisation)\n")
    check("with it the root's gate is set", haste.asks("redistribute", number, "", "2", "--whole-incident")[1],
          f"the whole report of incident {number}, revision 1, is at level 2 (your communities, and those connected to them)\n")
    check("and the Incident permitted", haste.asks("grant", number, "/Incident/0", "org", "3", "--whole-incident")[1],
          f"organisation 3 may see Incident /Incident/0 (TLP:RED) of incident {number}, revision 1, for ever\n")


def by_terminal(haste: Haste) -> None:
    """Questions at a terminal."""
    check, terminal = haste.check, Terminal(haste.analyst)
    number = haste.post(VICTIMS, PAGE)
    grant = ("grant", number, EVENT, "org", "4", "--latest")
    question = "Permit organisation 4 to see it, for ever? [y/N] "
    said = f"incident {number}, revision 1, of organisation 2\nEventData {EVENT} (TLP:RED): the victims: Jane Doe\n{question}"
    for answer in ("\n", "n\n", "x\n", "\x04"):
        status, told, screen = terminal(*grant, answer=answer)
        check(f"--latest shows class, label and first text, and {answer!r} isn't yes", (status, told, screen.startswith(said), "nothing was changed" in screen, haste.leaked(number)),
              (1, "", True, True, "N1"))
    status, told, screen = terminal(*grant, answer="\n", early="y\ny\n")
    check("nor is what was typed before the question", (status, told, haste.leaked(number)), (1, "", "N1"))
    status, told, screen = terminal(*grant, answer="y\n")
    check("y is", (status, told, "Jane Doe" in haste.leaked(number)), (
        0, f"organisation 4 may see EventData {EVENT} (TLP:RED) of incident {number}, revision 1, for ever\n", True))
    status, told, screen = terminal("grant", number, "/Incident/0/EventData/9", "org", "4", "--latest", answer="y\n")
    check("of no class nothing is asked", (status, told, "[y/N]" in screen), (2, "", False))
    spread = "at level 3 (everybody in the hub, including organisations in no community); TLP:GREEN is for the members of community 1"
    file = haste.state / "report.json"
    file.write_bytes(report(f"haste {haste.posted}", PAGE, restriction="white"))
    status, told, screen = terminal("replace", number, str(file), "3", "--community", "1", "--no-gates", "--drop-permissions", "--latest", answer="\n")
    check("a report that is about to be replaced is shown", (status, told, screen.split("[y/N]")[0]), (
        1, "", f"incident {number}, revision 1, of organisation 2\nIncident /Incident/0 (TLP:RED): x haste {haste.posted}\n"
        f"by Incident /Incident/0 (TLP:CLEAR): x haste {haste.posted}\nReplace it, {spread}; no class has a gate of its own? "))
    file.write_bytes(report("labels", PAGE, {"restriction": "white"}, {"restriction": "default"}))
    status, told, screen = terminal("post", str(file), "3", "--any-community", answer="\n")
    check("with the labels of its parts", (status, told, screen.split("\nPost it")[0]), (1, "", "Incident /Incident/0 (TLP:RED): x labels (in it also TLP:CLEAR, as arranged, else TLP:RED)"))
    file.write_bytes(report("a new one", PAGE, restriction="white"))
    post = ("post", str(file), "3", "--community", "1", "--gate", "0:0:/Incident/0/Contact/0")
    asked = f"Incident /Incident/0 (TLP:CLEAR): x a new one\nPost it {spread}; Contact /Incident/0/Contact/0 (TLP:CLEAR) is at level 0 (your organisation)? "
    haste.between.take()
    status, told, screen = terminal(*post, answer="\n")
    check("a report that is about to be posted too", (status, told, screen.split("[y/N]")[0], haste.between.asked), (1, "", asked, []))
    status, told, screen = terminal(*post, answer="y\n")
    check("and is posted by y", (status, told.strip().isdigit()), (0, True))
    status, told, screen = terminal("redistribute", told.strip(), "", "0")
    check("what narrows isn't asked about", (status, "[y/N]" in screen), (0, False))
    for kind, target, cleared in (("person", "4", "cleared for TLP:RED"),
                                  ("org", "4", "its nominated persons are cleared for TLP:AMBER+STRICT, those of its clients for TLP:AMBER")):
        status, told, screen = terminal("address", number, kind, target, "--latest", answer="\n")
        words = {"org": "organisation"}.get(kind, kind)
        check(f"an address of a {kind} says whom it clears for what", (status, told, f"\nAddress {words} {target}, {cleared}? [y/N]" in screen), (1, "", True))
    terminal.close()


def by_circle(haste: Haste, admin: Any) -> None:
    """Changes of the circle after which somebody may see more are asked about, and those that take that away aren't."""
    check, group = haste.check, str(haste.colleague.new_group("haste", "members only"))
    haste.colleague.group_active(int(group), False)
    bank, one = Terminal(haste.analyst), Terminal(admin)
    digest = haste.library.digest_of("haste-key")
    for terminal, words, line, undone in (
        (bank, ("group-add", group, "4"), f"organisation 4 is in group {group} (haste)", ("group-remove", group, "4")),
        (bank, ("group-add", group, "4", "--extend"), f"organisation 4 is in group {group} (haste), and may add others", ("group-remove", group, "4")),
        (bank, ("group-active", group, "on"), f"group {group} (haste) is on", ("group-active", group, "off")),
        (bank, ("nominate", "2"), "person 2 is nominated", ("unnominate", "2")),
        (bank, ("arrange", "4", "GREEN"), "your label `default` is GREEN to organisation 4", ("cancel-arrange", "4")),
        (one, ("client", "2", "4"), "organisation 4 is a client of organisation 2", ("unclient", "2", "4")),
        (one, ("join", "1", "4"), "organisation 4 is in community 1", ("leave", "1", "4")),
        (one, ("link", "1", "2"), "community 1 and community 2 are connected", ("unlink", "1", "2")),
        (one, ("add-person", "4", "Eve\u202e", "reader", "--digest", digest), "Eve\\u202e is a person of organisation 4, as reader", ("suspend", "--yes")),
    ):
        haste.between.take()
        status, told, screen = terminal(*words, answer="\n")
        check(f"{words[0]} is asked about, and Enter isn't yes", (status, told, screen.split("[y/N]")[0], [each for each in haste.between.asked if "POST" in each]), (
            1, "", f"then {line}\nMake this change? ", []))
        status, told, screen = terminal(*words, answer="y\n")
        check("  y is", (status, told.strip() if words[0] != "add-person" else line), (0, line))
        status, told, screen = terminal(*undone, *([told.strip()] if words[0] == "add-person" else []))
        check(f"  and {undone[0]} isn't asked about", (status, "[y/N]" in screen), (0, False))
    person = str(haste.library.Hub(haste.url, admin.environment["IODEF_HUB_KEY"]).add_person(4, "Zed", "reader", haste.library.digest_of("zed-key")))
    for answer, wanted in (("\n", 1), ("y\n", 0)):
        status, told, screen = one("suspend", person, answer=answer)
        check("what nothing takes back is asked about too", (status, screen.split("[y/N]")[0]), (wanted, f"then person {person} is suspended for ever\nMake this change? "))
    status, told, screen = bank("group-add", group, "4", "--yes")
    check("--yes doesn't ask", (status, told, screen), (0, f"organisation 4 is in group {group}\n", ""))
    status, told, screen = bank("arrange", "4", "RED")
    check("an arrangement of what holds without one isn't asked about", (status, told, "[y/N]" in screen), (0, "your label `default` is RED to organisation 4\n", False))
    haste.colleague.group_remove(int(group), 4)
    haste.colleague.cancel_arrange(4)
    number = haste.post(VICTIMS, PAGE)
    for words, question in ((("grant", number, EVENT, "group", group), f"Permit group {group} (haste) to see it, for ever? [y/N]"),
                            (("redistribute", number, EVENT, "4", "--group", group), f"Set it to level 4 (group {group} (haste))? [y/N]")):
        status, told, screen = bank(*words, "--latest", answer="\n")
        check(f"a group is named where {words[0]} asks", (status, told, question in screen), (1, "", True))
    bank.close()
    one.close()


def by_answers(haste: Haste) -> None:
    """A colleague replaces the report while a question about it waits for its answer."""
    check, terminal = haste.check, Terminal(haste.analyst)
    for words in (("grant", EVENT, "org", "4"), ("redistribute", EVENT, "3"), ("address", "person", "4")):
        number = haste.post()
        terminal("show", number)
        status, told, screen = terminal(words[0], number, *words[1:], answer="y\n", meanwhile=lambda: haste.exchange(number))
        check(f"{words[0]} of what a colleague replaces before the answer", (status, told, "revision 2" in screen or OTHER.format(2) in screen, haste.leaked(number)),
              (1, "", True, "N1"))
    number = haste.post()
    file = haste.state / "report.json"
    file.write_bytes(report(f"haste {haste.posted}", PAGE))
    status, told, screen = terminal("replace", number, str(file), "3", "--any-community", "--no-gates", "--drop-permissions", "--latest", answer="y\n",
                                    meanwhile=lambda: haste.exchange(number))
    check("nor is it replaced then", (status, told, haste.colleague.view(int(number)).revision), (1, "", 2))
    terminal.close()


def by_terminals(haste: Haste) -> None:
    """Two terminals, and a number that is a slip."""
    check, one, other = haste.check, Terminal(haste.analyst), Terminal(haste.analyst)
    number, wrong = haste.post(), haste.post(VICTIMS, PAGE)
    one("show", wrong)
    one("show", number)
    status, told, screen = one("grant", wrong, EVENT, "org", "4", answer="\n")
    check("what a wrong number or path means is said before", (status, told, "Jane Doe\nPermit organisation 4 to see it, for ever? [y/N]" in screen, haste.leaked(wrong)),
          (1, "", True, "N1"))
    haste.exchange(number)
    other("show", number)
    status, told, screen = one("grant", number, EVENT, "org", "4", answer="y\n")
    check("what another terminal has shown wasn't seen in this one", (status, told, screen, haste.leaked(number)), (1, "", OTHER.format(2), "N1"))
    status, told, screen = other("redistribute", number, EVENT, "1", "--yes")
    check("in the other one it was, and --yes doesn't ask", (status, told, screen),
          (0, f"EventData {EVENT} (TLP:RED) of incident {number}, revision 2, is at level 1 (organisations that share a community with yours)\n", ""))
    status, told, errors = haste.asks("grant", number, EVENT, "org", "4")
    check("and without a terminal none of the two", (status, told, "your terminals have shown the revisions 1, 2" in errors, haste.leaked(number)), (2, "", True, "N1"))
    for each in (one, other):
        each.close()


def by_files(haste: Haste) -> None:
    """Where what was seen is kept."""
    check, file = haste.check, haste.state / "iodef-hub-ask" / "seen.json"
    check("what was seen is for its person alone", [stat.S_IMODE(each.stat().st_mode) for each in (file, file.parent)], [0o600, 0o700])
    check("by hub", list(json.loads(file.read_text())), [haste.url])
    check("and it is whole, with nothing else beside it", [each.name for each in file.parent.iterdir()], ["seen.json"])
    number = haste.post()
    before = file.read_text()
    for text in ("{", "[]", '{"a":1}', '{"a":{"1":[["",1,1]]}}', '{"a":{"1":[["","x"]]}}'):
        file.write_text(text)
        status, told, errors = haste.asks("show", number)
        check(f"beside a file of {text} show works, and says that it can't keep it", (status, bool(told), "doesn't hold the revisions" in errors, file.read_text()), (0, True, True, text))
        check("  and a change asks for the revision", haste.asks("redistribute", number, EVENT, "0")[0], 2)
    file.write_text(before)
    home = dict(haste.analyst.environment)
    del haste.analyst.environment["XDG_STATE_HOME"]
    haste.analyst.environment["HOME"] = str(haste.state / "home")
    haste.asks("show", number)
    check("without XDG_STATE_HOME it is below HOME", (haste.state / "home" / ".local" / "state" / "iodef-hub-ask" / "seen.json").exists())
    haste.analyst.environment = home


def by_many_runs(haste: Haste) -> None:
    """Runs at the same moment lose nothing."""
    numbers = [haste.post() for _ in range(12)]
    runs = [subprocess.Popen([*haste.analyst.words, "show", number], stdout=subprocess.DEVNULL, stderr=subprocess.DEVNULL, env=haste.analyst.environment) for number in numbers]
    statuses = {each.wait() for each in runs}
    kept = json.loads((haste.state / "iodef-hub-ask" / "seen.json").read_text())[haste.url]
    haste.check("12 runs at once: each is kept", (statuses, [each for each in numbers if each not in kept]), ({0}, []))


def by_lines(haste: Haste, folder: pathlib.Path) -> None:
    """post-all --replace: only what its --state posted, and nobody has changed since."""
    check, state = haste.check, folder / "posted"
    lines = [{"document": json.loads(report(f"line {at}", PAGE)), "gates": [], "level": 3, "community": 1} for at in range(3)]

    def given(*chosen: Any) -> bytes:
        return b"".join(json.dumps(each).encode() + b"\n" for each in chosen)

    words = ("post-all", "--state", str(state), "--drop-permissions", "--community", "1", "-")
    status, told, errors = haste.asks(*words, given=given(*lines[:2]))
    numbers = told.split()
    check("post-all posts, and tells who may read each", (status, len(numbers), errors.splitlines()[0]), (
        0, 2, "line 1 was posted at level 3 (everybody in the hub, including organisations in no community); TLP:GREEN is for the members of community 1;"
        " no class has a gate of its own"))
    other, = haste.colleague.post(json.dumps(lines[2]["document"]).encode(), 3, community=1)
    haste.exchange(numbers[1], VICTIMS)
    status, told, errors = haste.asks("post-all", "--replace", *words[1:], given=given(*lines))
    check("what it posted is replaced, and the others are named, with status 1", (status, told, [line for line in errors.splitlines() if "left" in line]), (1, f"{numbers[0]}\tr2\n", [
        f"iodef-hub-ask: line 2 is left: incident {numbers[1]} was posted as revision 1, and somebody has made it revision 2",
        f"iodef-hub-ask: line 3 is left: incident {other} wasn't posted with this --state",
        "iodef-hub-ask: 2 of 3 lines were left as they are: look at these incidents, and replace them with `iodef-hub-ask replace`"]))
    check("  and the colleague's text stays", "Jane Doe" in json.dumps(haste.colleague.view(int(numbers[1])).document))
    status, told, _ = haste.asks("post-all", "--replace", *words[1:], given=given(lines[0]))
    check("  and later it goes on from there", (status, told), (0, f"{numbers[0]}\tr3\n"))
    check("the file is its person's alone", stat.S_IMODE(state.stat().st_mode), 0o600)
    terminal, file = Terminal(haste.analyst), folder / "lines"
    file.write_bytes(given(*[{**each, "document": json.loads(report(f"asked {at}", PAGE))} for at, each in enumerate(lines)]))
    haste.between.take()
    status, told, screen = terminal("post-all", str(file), answer="\n")
    check("at a terminal the lines are told before they are sent", (status, told, screen.split("[y/N]")[0], [each for each in haste.between.asked if "POST" in each]), (
        1, "", "3 reports, TLP:RED at level 3 (everybody in the hub, including organisations in no community); TLP:GREEN is for the members of community 1;"
        " no class has a gate of its own\nPost them? ", []))
    terminal.close()
    haste.between.take()
    for text in ("{", "[]", '{"a":{"x":1}}', '{"a":1}'):
        state.write_text(text)
        status, told, errors = haste.asks(*words, given=given(lines[0]))
        check(f"a file of {text} is usage", (status, told, "was not written by post-all --state" in errors), (2, "", True))
    status, told, errors = haste.asks("post-all", "-", given=given({name: value for name, value in lines[0].items() if name != "community"}))
    check("a line for no community in particular needs a word", (status, told, "--any-community" in errors), (2, "", True))
    doubled = given(lines[0]).replace(b'"level": 3', b'"level": 0, "level": 3')
    status, told, errors = haste.asks("post-all", "-", given=doubled)
    check("a line that says its level twice is usage", (status, told, errors), (2, "", "iodef-hub-ask: line 1 has a member twice\n"))
    check("  nothing is sent of all that", haste.between.asked, [])
