"""A source that was away for a month asks what opens one class, and to whom: the steps of a person, and how long each takes.

The circle has twelve organisations, and the source thirty reports. The person knows "the phishing report, its second EventData".
"""

import json
import pathlib
import time
import typing

from browser import ENTER
from circle import Circle, digest
from shared import rows
from trial import NAMES, Trial, report

ORGS = ("Bank", "Telco", "University", "Energy", "Hospital", "City", "Railway", "Insurance", "Broadcaster", "Water", "Port", "CERT")
PERSONS = ("Ada", "Ben", "Cleo", "Dan", "Eva", "Fay", "Gil", "Hal", "Ida", "Jon", "Kim", "Lea")
COMMUNITIES = {"payments": (2, 3, 9), "energy": (2, 5, 11), "campus": (4, 7), "transport": (8, 12)}
GROUPS = {"phishing": (3, 9), "ransomware": (5, 6)}
ANSWER = "#shared > div:last-child"
FUTURE, PAST = "2035-07-01T18:00:00+02:00", "2024-06-01T00:00:00Z"
WANTED, NEAR, OWN, CLEAR = "/Incident/0/EventData/1", "/Incident/0/EventData/2", "/Incident/0/Contact/1", "/Incident/0/Indicator/0"


class Months(Circle):
    """The circle, and the reports of the source."""

    def fill(self, report_of_source: bytes) -> None:
        for name, person in zip(ORGS, PERSONS, strict=True):
            org = int(self.ask("admin", "POST", "/orgs", [("name", name)])["numbers"][0])
            role = "coordinator" if org < 5 or org == 13 else "reader"
            self.ask("admin", "POST", "/persons", [("org", org), ("name", person), ("role", role), ("key", digest(f"{name}-key"))])
        for name, members in COMMUNITIES.items():
            number = self.ask("admin", "POST", "/communities", [("name", name)])["numbers"][0]
            for org in members:
                self.ask("admin", "POST", f"/communities/{number}/join", [("org", org)])
        self.ask("admin", "POST", "/communities/2/link", [("other", 4)])
        for name, members in GROUPS.items():
            number = self.ask("Bank-key", "POST", "/groups", [("name", name), ("releasability", "members only")])["numbers"][0]
            for org in members:
                self.ask("Bank-key", "POST", f"/groups/{number}/add", [("org", org), ("extend", 0)])
        for place in range(30):
            if place == 12:
                self.share(report_of_source)
            else:
                self.ask("Bank-key", "POST", "/incidents", query=[("level", place % 4)], report=other_report(place))
        for place in range(30, 38):
            self.ask("Telco-key" if place % 2 else "CERT-key", "POST", "/incidents", query=[("level", 3)], report=other_report(place))

    def share(self, content: bytes) -> None:
        query: list[tuple[str, object]] = [("level", 3), ("gate", f"4:1:{WANTED}"), ("gate", f"1:0:{NEAR}"), ("gate", f"0:0:{OWN}")]
        self.number = int(self.ask("Bank-key", "POST", "/incidents", query=query, report=content)["numbers"][0])
        for path, kind, number, until in (
            (WANTED, "org", 4, FUTURE), (WANTED, "person", 6, None), (WANTED, "community", 2, None), (WANTED, "org", 8, PAST),
            (WANTED, "person", 9, PAST), (f"{WANTED}/Record/RecordData/0", "group", 2, None), ("/Incident/0/EventData/0", "org", 12, FUTURE),
            ("/Incident/0/EventData/0", "org", 7, PAST), ("/Incident/0", "community", 3, PAST), (NEAR, "org", 4, None),
        ):  # fmt: skip
            end: list[tuple[str, object]] = [] if until is None else [("until", until)]
            self.ask("Bank-key", "POST", f"/incidents/{self.number}/grant", [("revision", 1), ("path", path), (kind, number), *end])
        for kind, number in (("org", 3), ("org", 9), ("person", 5)):
            self.ask("Bank-key", "POST", f"/incidents/{self.number}/address", [(kind, number)])


WHATS = ("A server of the branch was scanned", "Ransomware on a desk in accounting", "A lost telephone of the field staff", "Calls in the name of the help desk",
         "A worm in the building control", "Denial of service against the shop", "A leaked list of passwords", "Skimming at two cash machines")  # fmt: skip


def incident(name: str, what: str, **members: object) -> dict[str, object]:
    return {
        "purpose": "reporting", "restriction": "green", "GenerationTime": "2026-04-16T10:02:11Z", "Description": [what],
        "IncidentID": {"id": name, "name": "csirt.bank.example"},
        "Contact": [{"role": "creator", "type": "organization", "ContactName": ["CSIRT of the bank"], "Email": [{"EmailTo": "csirt@bank.example"}]}], **members,
    }  # fmt: skip


def other_report(place: int) -> bytes:
    """One of several sizes: of 3 to 27 classes."""
    parts = [{"Description": [f"Step {each + 1} of what happened"], "Method": [{"Description": ["as it was told"]}]} for each in range(place % 13)]
    return report(incident(f"2026-{1000 + place}", f"{WHATS[place % 8]}, case {place}.", EventData=parts))


def flow(address: str, name: str) -> list[object]:
    node = {"DomainData": [{"system-status": "fraudulent", "domain-status": "assignedAndActive", "Name": name}], "Address": [{"category": "ipv4-addr", "value": address}]}
    return [{"System": [{"category": "source", "Node": node}]}]


def phishing() -> bytes:
    """Some 25 classes, of six labels."""
    contacts = [
        {"role": "creator", "type": "organization", "ContactName": ["CSIRT of the bank"], "Email": [{"EmailTo": "csirt@bank.example"}]},
        {"role": "victim", "type": "person", "restriction": "red", "ContactName": ["First victim"], "Email": [{"EmailTo": "j.doe@bank.example"}]},
    ]
    parts = [
        {"Description": ["The page that the mails link to."], "Flow": flow("192.0.2.17", "payroll-login.example.net")},
        {"restriction": "need-to-know", "Description": ["Mailboxes that were opened with a stolen password."],
         "Record": {"RecordData": [{"Description": ["Sign-ins from 198.51.100.23"], "restriction": "private"}]}},
        {"restriction": "ext-value", "ext-restriction": "TLP:AMBER", "Description": ["The mail server that sent them."], "Flow": flow("198.51.100.7", "mail.example.org")},
    ]  # fmt: skip
    assessment = [{"occurrence": "actual", "restriction": "amber", "SystemImpact": [{"type": "takeover-account", "completion": "succeeded"}]}]
    indicator = [{"restriction": "white", "IndicatorID": {"id": "G-1", "name": "csirt.bank.example", "version": "1"}, "Description": ["The page's address"],
                  "Observable": {"BulkObservable": {"type": "domain-name", "BulkObservableList": ["payroll-login.example.net"]}}}]  # fmt: skip
    what = "Phishing: mails in the name of a payroll provider lead to a page that asks for mailbox passwords."
    return report({**incident("2026-1012", what, Assessment=assessment, EventData=parts, Indicator=indicator), "Contact": contacts})


# What a step takes a person by the keystroke-level model of Card, Moran and Newell, in seconds; a word at 250 words a minute.
THINK, POINT, CLICK, KEY, WORD = 1.35, 1.1, 0.2, 0.28, 60 / 250
# Notes when a condition comes to hold behind the last key or click, by the page's own clock, so without the driver.
NOTE = """
const holds = () => Boolean({});
window.noted = {{ begun: null, seen: null }};
for (const kind of ['pointerdown', 'keydown']) addEventListener(kind, () => {{ window.noted.begun = performance.now(); }}, {{ capture: true }});
const mine = window.noted;
(function look() {{
  if (mine.begun !== null && holds()) mine.seen = performance.now(); else requestAnimationFrame(look);
}})();
"""
# The words that are seen below an element, without those of buttons.
WORDS = """
const texts = document.createTreeWalker(document.querySelector(arguments[0]), NodeFilter.SHOW_TEXT);
let count = 0;
for (let text = texts.nextNode(); text; text = texts.nextNode()) {
  const { parentElement: parent } = text;
  if (parent.tagName !== 'BUTTON' && parent.checkVisibility()) count += (text.data.match(/[^\\s]*[\\p{L}\\p{N}][^\\s]*/gu) || []).length;
}
return count;
"""
# How far down a class is, in windows, and how many names of classes stand in front of it.
PLACE = """
const line = document.querySelector(arguments[0]).closest('li');
const names = [...document.querySelectorAll('.tree .name')];
return [Math.max(0, Math.ceil(line.getBoundingClientRect().bottom / innerHeight) - 1), names.indexOf(line.querySelector('.name'))];
"""


class Steps:
    """What a person does, and how long that takes: by the model, in the page and by the driver."""

    def __init__(self, trial: Trial) -> None:
        self.trial = trial
        self.clicks = self.keys = self.thoughts = self.words = self.scrolls = 0
        self.page = self.driver = self.dearest = 0.0

    def person(self) -> float:
        return self.thoughts * THINK + (self.clicks + self.scrolls) * POINT + self.clicks * CLICK + self.keys * KEY + self.words * WORD

    def told(self) -> str:
        return (f"{self.clicks} clicks, {self.keys} keys, {self.scrolls} scrolls, {self.words} words to read: {self.person():.0f} s of a person,"
                f" {self.page:.1f} s of page and hub; the driver took {self.driver:.1f} s, at most {self.dearest:.1f} s for one act")  # fmt: skip

    def until(self, seen: str, act: typing.Callable[[], None]) -> None:
        """One act, up to what the person waits for."""
        browser = self.trial.browser
        browser.run(NOTE.format(seen))
        begun = time.monotonic()
        act()
        if not browser.wait("window.noted.seen !== null"):
            self.trial.check(f"a person comes to see {seen}", False, browser.text("#said"))
            return
        page = float(browser.run("return window.noted.seen - window.noted.begun")) / 1000
        self.page += page
        driver = max(time.monotonic() - begun - page, 0)
        self.driver += driver
        self.dearest = max(self.dearest, driver)

    def think(self) -> None:
        self.thoughts += 1

    def click(self, selector: str, seen: str) -> None:
        self.clicks += 1
        self.until(seen, lambda: self.trial.browser.click(selector))

    def type(self, text: str, seen: str) -> None:
        self.keys += len(text)
        self.until(seen, lambda: self.trial.browser.keys(text))

    def read(self, selector: str) -> None:
        self.words += int(self.trial.browser.run(WORDS, selector))

    def look_for(self, selector: str) -> None:
        """Looks down the report for a class, by the names of classes."""
        scrolls, names = self.trial.browser.run(PLACE, selector)
        self.scrolls += scrolls
        self.words += names
        self.trial.browser.run("document.querySelector(arguments[0]).scrollIntoView({ block: 'center' })", selector)


def who(path: str) -> str:
    return f"[aria-label='Who? What opens {path}, and to whom']"


def answered(path: str) -> str:
    """That the answer is seen, from its first line on."""
    line = f"document.querySelector('{ANSWER} > p')"
    return f"document.querySelector('#shared[open] #about')?.value === '{path}' && {line}?.innerText.includes('{path}') && {line}.getBoundingClientRect().top >= 0"


def month(trial: Trial, folder: pathlib.Path) -> None:
    (folder / "month").mkdir()
    circle = Months(trial.circle.program, folder / "month", trial.circle.port + 3)
    names = {"orgs": {str(number): name for number, name in enumerate(("Hub", *ORGS), 1)}, "persons": {str(number): name for number, name in enumerate(PERSONS, 2)}}
    hub, trial.origin.hub_port = trial.origin.hub_port, circle.port
    trial.browser.cdp("Emulation.setTimezoneOverride", timezoneId="Europe/Berlin")
    try:
        circle.fill(phishing())
        trial.origin.names = json.dumps(names).encode()
        first_class(trial, circle)
        later_class(trial)
        each_kind(trial)
        other_gates(trial, circle)
    finally:
        trial.origin.hub_port, trial.origin.names = hub, json.dumps(NAMES).encode()
        circle.stop()
        trial.browser.cdp("Emulation.setTimezoneOverride", timezoneId="")
        trial.load()


def first_class(trial: Trial, circle: Months) -> None:
    """From the key on: the report is found by a search, the class in the report, and the answer by its button."""
    trial.load()
    trial.browser.put("#key", "Bank-key")
    steps = Steps(trial)
    steps.type(ENTER, "document.querySelector('#found .chip')")
    steps.think()
    steps.click("#needle", "document.activeElement.id === 'needle'")
    steps.type("phishing" + ENTER, "document.getElementById('count').innerText.includes('\u201cphishing\u201d')")
    steps.think()
    steps.read("#count")
    steps.click("#count button", "document.getElementById('count').innerText.includes('1 incident with \u201cPhishing\u201d') && document.querySelector('#found .chip')")
    steps.think()
    steps.read("#found .first")
    steps.click("#found a", "document.querySelector('#shared > summary')?.innerText.includes('level')")
    steps.look_for(who(WANTED))
    steps.think()
    steps.click(who(WANTED), answered(WANTED))
    steps.read(ANSWER)
    trial.check(f"a first class is answered within a minute: {steps.told()}", steps.person() < 60)
    box = trial.browser.run("const box = document.getElementById('shared').getBoundingClientRect(); return [box.top, box.bottom, innerHeight]")
    trial.check("the whole answer is in sight", box[0] >= 0 and box[1] <= box[2], box)
    trial.check("the class can be chosen by a key then", trial.browser.run("return document.activeElement.id") == "about")
    trial.picture("month")


def later_class(trial: Trial) -> None:
    for keys, path in (("Ind", CLEAR), ("EventData/2", NEAR)):
        by_keys = Steps(trial)
        by_keys.think()
        by_keys.type(keys, answered(path))
        by_keys.read(ANSWER)
        trial.check(f"a later one within half a minute, chosen by keys: {by_keys.told()}", by_keys.person() < 30)
        trial.browser.wait("false", seconds=1.5)  # then the next key begins another word
    by_button = Steps(trial)
    by_button.look_for(who(WANTED))
    by_button.think()
    by_button.click(who(WANTED), answered(WANTED))
    by_button.read(ANSWER)
    trial.check(f"and by its button within 40 s: {by_button.told()}", by_button.person() < 40)


def choose(trial: Trial, path: str) -> None:
    trial.browser.run("const it = document.getElementById('about'); it.value = arguments[0]; it.dispatchEvent(new Event('change', { bubbles: true }))", path)


def told(trial: Trial) -> str:
    return str(trial.browser.text(ANSWER))


def wanted_class(trial: Trial) -> None:
    """The answer names each whom a label or a permission opens the class to, and what it doesn't know of them."""
    choose(trial, WANTED)
    gates = rows(trial, "Gates, all to be passed")
    trial.check("its gates", gates == ["level 3, everybody in the hub: the whole report Narrow", "level 4, phishing (sharing group 1): this class Narrow"], gates)
    label = rows(trial, "By its label")
    recipients = "Telco (organisation 3): addressed UnaddressInsurance (organisation 9): addressed Unaddress"
    trial.check("whom TLP:AMBER+STRICT is for, by name", label == ["Dan (person 5): addressed Unaddress", f"nominated persons of these:{recipients}"], label)
    permitted = rows(trial, "By a permission, 3 in all")
    trial.check("who has a permission", permitted == ["Eva (person 6), without an end Withdraw", "University (organisation 4), until 2035-07-01 18:00 (UTC+02:00) Withdraw",
                                                      "energy (community 2), without an end Withdraw"], permitted)  # fmt: skip
    ended = rows(trial, "have ended")
    trial.check("who had one", ended == ["Hal (person 9), ended 2024-06-01 02:00 (UTC+02:00) Withdraw", "Railway (organisation 8), ended 2024-06-01 02:00 (UTC+02:00) Withdraw"], ended)
    members = rows(trial, "Communities")
    trial.check("and who is in the community that has one", members == ["energy (community 2): Energy (organisation 5), Water (organisation 11)"], members)
    trial.check_has("and what isn't known", told(trial), "Not known here: nominations, which organisation a person is of, who is in a group.")


def each_kind(trial: Trial) -> None:
    wanted_class(trial)
    choose(trial, OWN)
    alone = "Open to your organisation alone: the gate of {} lets nobody else pass."
    trial.check_has("behind a gate of level 0 nobody else is named", told(trial), alone.format(OWN))
    trial.check("but for whom its label is can be looked up", rows(trial, "By its label") == ["Dan (person 5): addressed Unaddress"] and "Dan" not in told(trial), told(trial))
    choose(trial, "/Incident/0/EventData/0/Flow/0")
    label = rows(trial, "By its label TLP:GREEN")
    trial.check("whom TLP:GREEN is for", [text[:38] for text in label] == ["Dan (person 5): addressed Unaddress", "nominated persons of these, of their c", "members of any of your communities"], label)
    trial.check("a permission of a class above", rows(trial, "By a permission") == ["Port (organisation 12), until 2035-07-01 18:00 (UTC+02:00), for /Incident/0/EventData/0 Withdraw"],
                rows(trial, "By a permission"))  # fmt: skip
    trial.check("who is in each community", rows(trial, "Communities") == [
        "payments (community 1): Telco (organisation 3), Insurance (organisation 9)", "energy (community 2): Energy (organisation 5), Water (organisation 11)"], rows(trial, "Communities"))  # fmt: skip
    choose(trial, CLEAR)
    trial.check("whom TLP:CLEAR is for", rows(trial, "By its label TLP:CLEAR") == ["everybody whom the gates let pass"], told(trial))
    trial.check("then nothing is unknown", "Not known" not in told(trial), told(trial))
    choose(trial, NEAR)
    stopped = rows(trial, "By a permission")
    trial.check("whom a gate stops in spite of a permission", stopped == ["University (organisation 4), without an end, stopped at level 1 Withdraw"], stopped)
    choose(trial, "")
    trial.check_has("then all of the report again", told(trial), "arrangements, nominations, clients")


def other_gates(trial: Trial, circle: Months) -> None:
    """What follows of a gate where a community is connected, where there is none, and where a group is switched off."""
    def at(who: str, method: str, path: str, *form: tuple[str, object]) -> None:
        circle.ask(who, method, path, form)
        trial.browser.run("document.querySelector('#shared button').click()")
        trial.browser.settle()
    choose(trial, NEAR)
    at("Bank-key", "POST", f"/incidents/{circle.number}/address", ("org", 12))
    label = rows(trial, "By its label")[-1]
    trial.check("a gate stops an addressed organisation itself, and maybe not its clients", "Port (organisation 12): addressed, itself stopped at level 1 " in label, label)
    at("Bank-key", "POST", f"/incidents/{circle.number}/gate", ("revision", 1), ("path", NEAR), ("level", 2))
    trial.check("at level 2 who is in a connected community isn't known", rows(trial, "By a permission") == ["University (organisation 4), without an end Withdraw"]
                and "who is in a community that is not yours" in told(trial) and rows(trial, "Communities")[1].endswith("; connected to community 4"), told(trial))  # fmt: skip
    at("admin", "POST", "/communities/2/unlink", ("other", 4))
    trial.check("without a connection it is", "without an end, stopped at level 2" in told(trial) and "not yours" not in told(trial), told(trial))
    choose(trial, WANTED)
    at("Bank-key", "POST", "/groups/1/active", ("active", 0))
    trial.check_has("behind the gate of a group that is off nobody else is named", told(trial), "which is switched off and opens nothing", f"the gate of {WANTED} lets nobody else pass")
    alone(trial, circle)


def alone(trial: Trial, circle: Months) -> None:
    """A source that is in no community, and a label that it arranged."""
    content = report(incident("alone", "alone", EventData=[{"restriction": "default", "Description": ["the mails"]}]))
    number = circle.ask("CERT-key", "POST", "/incidents", query=[("level", 1), ("gate", "3:0:/Incident/0/EventData/0")], report=content)["numbers"][0]
    circle.ask("CERT-key", "POST", f"/incidents/{number}/address", [("org", 3)])
    trial.enter("CERT-key")
    trial.go(f"#incidents/{number}")
    trial.click(who("/Incident/0/EventData/0"))
    trial.check_has("without a community a gate of level 1 lets nobody else pass", told(trial), "Open to your organisation alone: the gate of the whole report lets nobody else pass.")
    circle.ask("CERT-key", "POST", f"/incidents/{number}/gate", [("revision", 1), ("path", ""), ("level", 3)])
    trial.browser.run("document.querySelector('#shared button').click()")
    trial.browser.settle()
    label = rows(trial, "By its label")
    trial.check("whom an arranged label is for", label == ["nominated persons of these and of their clients, as you arranged it:Telco (organisation 3): addressed Unaddress",
                                                           "whom else you arranged it for"], label)  # fmt: skip
    trial.check_has("and what isn't known of it", told(trial), "Your organisation is in none.", "Not known here: arrangements, nominations, clients.")
