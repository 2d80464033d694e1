"""Who is chosen by name, and the lines that the page writes of what was done."""

import json
import pathlib

from saving import saved
from trial import DISTRIBUTE, NAMES, PERMIT, WITHDRAW, Trial, incident, report

PLACE = "/Incident/0/EventData/0"


def by_name(trial: Trial) -> None:
    """Names that the operator publishes, and those of own groups, in place of numbers."""
    number = post_of_bank(trial, "by name")
    path = f"/incidents/{number}/grant"
    for kind, text, sent, told in (
        ("org", "Telco", {"org": "3"}, "Telco (organisation 3)"),
        ("org", " University (4) ", {"org": "4"}, "University (organisation 4)"),
        ("person", "Cleo", {"person": "4"}, "Cleo (person 4)"),
        ("community", "payments", {"community": "1"}, "payments (community 1)"),
        ("group", "phishing", {"group": "1"}, "phishing (sharing group 1)"),
        ("org", "1", {"org": "1"}, "Hub (organisation 1)"),
    ):
        trial.permit({"Class": PLACE, "To": [kind, text]})
        trial.done(f"{kind} {text.strip()} is chosen", f"Permitted {PLACE} to {told}, without an end.")
        last = trial.origin.forms("POST", path)[-1]
        trial.check("and its number is sent", last.items() >= sent.items(), last)
    trial.set_whole({"Who may get it": "4", "Sharing group": "phishing"})
    trial.done("a group of a level is chosen", "Set the whole report to level 4, phishing (sharing group 1).")
    offered = trial.browser.run("return [...document.querySelectorAll('#orgs option')].map(one => one.value)")
    trial.check("what is offered has its number", offered == ["Hub (1)", "Bank (2)", "Telco (3)", "University (4)"], offered)
    strange_names(trial, number)
    trial.enter("admin")
    trial.go("#circle")
    trial.fill("Make an organisation a client of another", {"Organisation": "Bank", "Client": "University"})
    trial.done("two are chosen by name", "University (organisation 4)")
    trial.fill("Take a client out", {"Organisation": "Bank", "Client": "4"})
    trial.done("or one by its number", "University (organisation 4)")
    trial.go("#explain")
    trial.fill("Explain", {"Person": "Cleo", "Incident": "1", "Class": "/Incident/0"})
    trial.check_has("a person of an explanation is chosen by name", trial.browser.text("#pane"), "Cleo (person 4), incident 1")


def post_of_bank(trial: Trial, name: str) -> int:
    """A report of the bank's, open in the page."""
    body = report(incident(name, EventData=[{"Description": ["x"], "restriction": "green"}]))
    number = int(trial.circle.ask("bank", "POST", "/incidents", query=[("level", 3)], report=body)["numbers"][0])
    trial.enter("bank")
    trial.go(f"#incidents/{number}")
    return number


def strange_names(trial: Trial, number: int) -> None:
    """Names that are nobody's, two persons', a number, or have signs that aren't seen."""
    browser = trial.browser
    path = f"/incidents/{number}/grant"
    strange = {"2": "Twin", "3": "Twin", "4": "3", "5": "Te\u202elco", "6": "<img src=x onerror=window.hit=1>", "1": "x (3)"}
    trial.origin.names = json.dumps({"orgs": strange, "persons": NAMES["persons"]}).encode()
    trial.enter("bank")
    trial.go(f"#incidents/{number}")
    trial.no_markup("names that are offered")
    unknown, double = "No organisation of this name is known", "More than one has this name"
    for text, words in (("Nobody", unknown), ("Twin", double), ("telco", unknown)):
        before = trial.sent("POST", path)
        trial.permit({"Class": PLACE, "To": ["org", text]})
        trial.check_has(f"{text} is refused before anything is sent", browser.text("#refused"), words, "Nothing was sent.")
        trial.check("and isn't sent", trial.sent("POST", path) == before)
    for text, sent in (("Twin (3)", "3"), ("3", "3"), ("Te[U+202E]lco (5)", "5"), ("Te\u202elco", "5"), ("x (3)", "1")):
        trial.permit({"Class": PLACE, "To": ["org", text]})
        trial.fill(WITHDRAW, {"Class": PLACE, "From": ["org", sent]})
        last = trial.origin.forms("POST", path)[-1]
        trial.check(f"{text!r} is organisation {sent}", last.get("org") == sent, last)
    trial.origin.names = None
    trial.enter("bank")
    trial.go(f"#incidents/{number}")
    trial.permit({"Class": PLACE, "To": ["org", "Telco"]})
    trial.check_has("without names a name is nobody's", browser.text("#refused"), "No organisation of this name is known")
    trial.permit({"Class": PLACE, "To": ["org", "3"]})
    trial.done("and a number does", "organisation 3")
    trial.origin.names = json.dumps(NAMES).encode()


def in_lines(trial: Trial, folder: pathlib.Path) -> None:
    """Each change as a line: when, who, what, where, for whom, until when."""
    browser = trial.browser
    into = folder / "lines"
    into.mkdir()
    browser.save_into(into)
    number = post_of_bank(trial, "in lines")
    browser.cdp("Emulation.setTimezoneOverride", timezoneId="Europe/Berlin")
    trial.permit({"Class": PLACE, "To": ["org", "Telco"], "Up to": "2030-07-01T18:00"})
    trial.done("a class is permitted up to a moment", "until 2030-07-01 18:00 (UTC+02:00)")
    permitted = ["Ada (person 2)", PERMIT, f"incident {number} {PLACE}", "Telco (organisation 3)", "2030-07-01T18:00:00+02:00"]
    browser.run("[...document.querySelectorAll('#done button')].find(one => one.textContent === 'Copy as a line').click()")
    trial.done("the line is copied", "Copied: the line.")
    line = browser.copied().rstrip("\n").split("\t")
    trial.check("it has who, what, where, for whom and until when", line[1:] == permitted, line)
    browser.cdp("Emulation.setTimezoneOverride", timezoneId="")
    trial.permit({"To": ["person", "Cleo"]})
    trial.fill(WITHDRAW, {"Class": PLACE, "From": ["org", "Telco"]})
    trial.set_whole({"Who may get it": "1"})
    trial.fill("Address somebody", {"To": ["org", "University"]})
    trial.go("#groups")
    trial.fill("New group", {"Name": "a\u202eb", "To whom": "one\ttwo"})
    trial.done("a group is made", "The group has the number")
    group = browser.text("#done").split("number ")[1].split(".")[0]
    trial.fill("Add a member to a group", {"Group": group, "Organisation": "Telco", "May it": "0"})
    trial.fill("Add a member to a group", {"Group": group, "Organisation": "Telco", "May it": "0"})
    trial.refused("a change that is refused", "S1", "already the case")
    wanted = [
        permitted,
        ["Ada (person 2)", PERMIT, f"incident {number} {PLACE}", "Cleo (person 4)", "without an end"],
        ["Ada (person 2)", WITHDRAW, f"incident {number} {PLACE}", "Telco (organisation 3)", "-"],
        ["Ada (person 2)", DISTRIBUTE, f"incident {number} the whole report", "level 1", "-"],
        ["Ada (person 2)", "Address somebody", f"incident {number}", "University (organisation 4)", "-"],
        ["Ada (person 2)", "New group", f"sharing group {group}", "name a\\u202eb, releasability one\\u0009two", "-"],
        ["Ada (person 2)", "Add a member to a group", f"a\\u202eb (sharing group {group})", "Telco (organisation 3), extend 0", "-"],
    ]
    trial.go("#done")
    browser.run("[...document.querySelectorAll('#pane button')].find(one => one.textContent === 'Save the lines').click()")
    lines = [each.split("\t") for each in saved(into, "done.txt").splitlines()]
    trial.check("each change that was made is saved as a line, and none that was refused", [each[1:] for each in lines] == wanted, lines)
    moments = [each[0] for each in lines]
    are_whole = all(each.endswith("Z") and len(each) == 20 for each in moments)
    trial.check("in the order of their moments", moments == sorted(moments) and are_whole, moments)
    trial.enter("bank")
    trial.go("#done")
    trial.check("they are forgotten with the key", browser.run("return document.querySelector('#pane textarea').value") == "")
