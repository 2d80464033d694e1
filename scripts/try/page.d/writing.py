"""A report that is written by the form, read back by the program's own `mark`, and posted."""

import json
import pathlib
import re
import subprocess

from saving import saved
from trial import POST, Trial

MAKE = "Make the report"
VALUES = {
    "ipv4-addr": ["192.0.2.7", "198.51.100.8"],
    "ipv4-net": ["192.0.2.0/24"],
    "ipv6-addr": ["2001:db8::1", "::ffff:192.0.2.1"],
    "ipv6-net": ["2001:db8::/32"],
    "site-uri": ["http://payroll.example/a?b=1"],
    "e-mail": ["pay@roll.example"],
    "file-hash": ["d41d8cd98f00b204e9800998ecf8427e", "e3b0c44298fc1c149afbf4c8996fb92427ae41e4649b934ca495991b7852b855"],
    "domain-name": ["payroll.example", "_x.xn--80ak6aa92e.example"],
}
WRITTEN: dict[str, str] = {
    "Your team": "csirt.bank.example", "Number of": "W-1", "What the report": "reporting", "Label of the report": "TLP:GREEN",
    "Description": 'Mails <b>lead</b> to "a page" \\ \u202e.', "It began": "2030-07-01T18:00", "It was noticed": "2030-12-31T18:00",
    "Contact: name": "CSIRT of the Bank", "Contact: mail": "csirt@bank.example", "Contact: what": "organization", "Label of the contact": "TLP:RED",
    "Details": "Mailboxes were opened.", "Label of the details": "TLP:AMBER+STRICT",
    "Indicators, one": "192.0.2.7\n\n payroll[.]example \nhxxp://payroll.example/a?b=1", "What the indicators": "The page's address",
    "Label of the indicators": "TLP:CLEAR",
}  # fmt: skip
STRICT: dict[str, object] = {"restriction": "ext-value", "ext-restriction": "TLP:AMBER+STRICT"}


def indicator(place: int, kind: str, value: str) -> dict[str, object]:
    named = {"id": f"W-1-{place}", "name": "csirt.bank.example", "version": "1"}
    bulk = {"BulkObservable": {"type": kind, "BulkObservableList": [value]}}
    return {"restriction": "white", "IndicatorID": named, "Description": ["The page's address"], "Observable": bulk}


INDICATORS = [
    indicator(1, "ipv4-addr", "192.0.2.7"),
    indicator(2, "domain-name", "payroll.example"),
    indicator(3, "site-uri", "http://payroll.example/a?b=1"),
]
CONTACT: dict[str, object] = {"role": "creator", "type": "organization", "restriction": "red", "ContactName": ["CSIRT of the Bank"]}
MADE: dict[str, object] = {
    "purpose": "reporting", "restriction": "green", "IncidentID": {"id": "W-1", "name": "csirt.bank.example"},
    "StartTime": "2030-07-01T18:00:00+02:00", "DetectTime": "2030-12-31T18:00:00+01:00", "Description": [WRITTEN["Description"]],
    "Contact": [CONTACT | {"Email": [{"EmailTo": "csirt@bank.example"}]}],
    "EventData": [STRICT | {"Description": ["Mailboxes were opened."]}],
    "Indicator": INDICATORS,
}  # fmt: skip
MARKED = {
    "/Incident/0": "green GREEN", "/Incident/0/Contact/0": "red RED", "/Incident/0/Contact/0/Email/0": "red RED",
    "/Incident/0/EventData/0": "ext-value TLP:AMBER+STRICT STRICT", "/Incident/0/Indicator/0": "white CLEAR", "/Incident/0/IncidentID": "green GREEN",
}  # fmt: skip


def text_of(trial: Trial) -> str:
    return str(trial.held(POST, "or its text"))


def marked_by(program: pathlib.Path, report: str, *words: str) -> tuple[int, list[list[str]]]:
    """Status and lines of the program's own reading of a report."""
    ran = subprocess.run([program, "mark", *words], input=report.encode(), capture_output=True)
    return ran.returncode, [json.loads(line) for line in ran.stdout.decode().split("\n") if line]


def writing(trial: Trial, folder: pathlib.Path) -> None:
    browser = trial.browser
    into = folder / "written"
    into.mkdir()
    browser.save_into(into)
    browser.cdp("Emulation.setTimezoneOverride", timezoneId="Europe/Berlin")
    trial.enter("bank")
    trial.go("#post")
    before = len([1 for method, _ in trial.origin.asked if method != "GET"])
    trial.fill(MAKE, {name: value for name, value in WRITTEN.items() if name != "Label of the report"})
    trial.check("no report is made before its label is chosen", text_of(trial) == "", text_of(trial))
    trial.fill(MAKE, WRITTEN)
    trial.done("a report is made by the form", "The report is below as JSON")
    text = text_of(trial)
    made = json.loads(text)["Incident"][0]
    time = made.pop("GenerationTime", "")
    trial.check("it has what was written, with a label for each part", made == MADE, made)
    trial.check("and the time at which it was made", re.fullmatch(r"20\d\d-\d\d-\d\dT\d\d:\d\d:00\+0[12]:00", time) is not None, time)
    trial.check("and is shown in lines", text.startswith('{\n  "version": "2.0",\n  "Incident": [\n'), text)
    trial.check("the focus stands at it", browser.run("return document.activeElement.tagName") == "TEXTAREA")
    trial.no_markup("a report that was written by the form")
    trial.check("nothing was sent", len([1 for method, _ in trial.origin.asked if method != "GET"]) == before)
    trial.check("nothing is said of a change as there is none", browser.texts("#pane .wrong") == [], browser.texts("#pane .wrong"))
    browser.run("document.querySelector('#pane form select').dispatchEvent(new Event('change', { bubbles: true }))")
    trial.check_has("a field that is changed later is told", browser.text("#pane .wrong"), "changed since the report below was made: make it again")
    trial.fill(MAKE, {})
    trial.check("until the report is made again", browser.texts("#pane .wrong") == [], browser.texts("#pane .wrong"))
    text = text_of(trial)  # its minute may be another one
    browser.run("[...document.querySelectorAll('#pane button')].find(one => one.textContent === 'Save report.json').click()")
    trial.check("it is saved as it is shown", saved(into, "report.json") == text)
    status, lines = marked_by(trial.circle.program, text)
    told = {path: f"{label} {handling}" for path, label, handling, _ in lines}
    trial.check("the program's own mark reads its labels so", status == 0 and told.items() >= MARKED.items(), lines)
    command = browser.run("return document.querySelector('#pane > div > details pre').textContent")
    trial.check_has("the page tells the command that does", command, "iodef-hub mark < report.json\n")
    trial.post({"Who may get it": "3"})
    trial.done("it is posted", "Posted as incident ")
    number = browser.run("return document.querySelector('#done a').hash").split("/")[1]
    view = trial.circle.ask("bank", "GET", f"/incidents/{number}")
    trial.check("and is served to its source as it was made", view["document"] == json.loads(text), view)
    view = trial.circle.ask("telco", "GET", f"/incidents/{number}")
    withheld = [["/Incident/0", "H-RED"], ["/Incident/0", "H-STRICT"]]
    trial.check("to a partner without what is stricter", view["withheld"] == withheld, view["withheld"])
    browser.cdp("Emulation.setTimezoneOverride", timezoneId="")
    kinds(trial)
    least(trial)


def kinds(trial: Trial) -> None:
    lines = [value for values in VALUES.values() for value in values]
    trial.fill(MAKE, {"Indicators, one": "\n".join(lines)})
    found = json.loads(text_of(trial))["Incident"][0]["Indicator"]
    bulks = [each["Observable"]["BulkObservable"] for each in found]
    seen = {bulk["type"]: bulk["BulkObservableList"] for bulk in bulks}
    trial.check("each value has the kind that its form tells", seen == VALUES, seen)
    before = text_of(trial)
    for wrong in ("192.0.2.256", "192.0.2.0/33", "2001:db8::g", "two words", "localhost", "abc123", "<img src=x>", "://x"):
        trial.fill(MAKE, {"Indicators, one": f"192.0.2.1\n{wrong}"})
        trial.check_has(f"{wrong} is no indicator", trial.browser.text("#refused"), f"line 2: \u201c{wrong}\u201d", "Nothing was made.")
    trial.check("and the report stays as it was", text_of(trial) == before)


def least(trial: Trial) -> None:
    """What is left empty isn't in the report."""
    labels_of_parts = ("Label of the contact", "Label of the details", "Label of the indicators")
    empty = ("It began", "It was noticed", "Contact: mail", "Details", "Indicators, one", "What the indicators", *labels_of_parts)
    labels: tuple[tuple[str, dict[str, str]], ...] = (
        ("TLP:CLEAR", {"restriction": "white"}), ("TLP:AMBER", {"restriction": "ext-value", "ext-restriction": "TLP:AMBER"}),
        ("TLP:RED", {"restriction": "red"}), ("default", {"restriction": "default"}),
    )  # fmt: skip
    for label, members in labels:
        chosen = {"Number of": "W-2", "Label of the report": label, "Contact: what": "person"}
        trial.fill(MAKE, {name: "" for name in empty} | chosen)
        made = json.loads(text_of(trial))["Incident"][0]
        made.pop("GenerationTime")
        contact = [{"role": "creator", "type": "person", "ContactName": ["CSIRT of the Bank"]}]
        named = {"id": "W-2", "name": "csirt.bank.example"}
        wanted: dict[str, object] = {"purpose": "reporting", "IncidentID": named, "Description": MADE["Description"], "Contact": contact}
        wanted |= members
        trial.check(f"a report of {label} has no more than was given", made == wanted, made)
        status, lines = marked_by(trial.circle.program, text_of(trial))
        handling = {"TLP:CLEAR": "CLEAR", "TLP:AMBER": "AMBER", "TLP:RED": "RED", "default": "RED"}[label]
        trial.check("and is read back so", status == 0 and {line[2] for line in lines} == {handling}, lines)
    trial.fill(POST, {"or its text": ""})
