"""The pictures of docs/images, of a circle of their own with six reports."""

import json
import pathlib

from circle import Circle
from looking import PUT
from trial import EXAMPLES, NAMES, POST, Trial, report
from writing import MAKE, WRITTEN

FOLDED = ".tree > li > details > ul > li:nth-child(-n + 3) > details"


def made(team: str, name: str, label: str, day: str, description: str) -> bytes:
    contact = [{"role": "creator", "type": "organization", "ContactName": ["CSIRT"]}]
    time = f"2026-05-{day}T09:00:00Z"
    named = {"id": name, "name": team}
    members: dict[str, object] = {"IncidentID": named, "GenerationTime": time, "Description": [description], "Contact": contact}
    return report({"purpose": "reporting", "restriction": label, **members})


def fill(circle: Circle) -> None:
    """Five reports beside that of the bank on phishing."""
    for name in ("botnet", "denial-of-service"):
        circle.ask("bank", "POST", "/incidents", query=[("level", 3)], report=(EXAMPLES / f"{name}.json").read_bytes())
    for who, *words in (
        ("telco", "csirt.telco.example", "T-77", "green", "04", "Text messages in the name of a parcel service ask for card numbers."),
        ("bank", "csirt.example.com", "2026-0502", "amber", "06", "A forged invoice was paid after a mailbox was taken over."),
        ("telco", "csirt.telco.example", "T-81", "white", "11", "Routers with a default password are scanned for on port 8291."),
    ):
        circle.ask(who, "POST", "/incidents", query=[("level", 3)], report=made(*words))
    circle.ask("bank", "POST", "/incidents/5/address", [("person", 3)])


def take(trial: Trial) -> None:
    browser = trial.browser
    fill(trial.circle)
    trial.origin.names = json.dumps(NAMES).encode()
    trial.enter("telco")
    trial.row_is_read(1)
    trial.go("#incidents/1")
    trial.picture_for_readme("page-excerpt", FOLDED)
    trial.enter("admin")
    trial.row_is_read(1)
    trial.go("#explain")
    trial.fill("Explain", {"Person": "Cleo", "Incident": "1", "Class": "/Incident/0/EventData/1"})
    trial.picture_for_readme("page-explain")
    trial.enter("bank")
    trial.row_is_read(1)
    trial.go("#post")
    trial.fill(MAKE, WRITTEN | {"Description": "Mails in the name of a payroll provider lead to a page that asks for passwords."})
    browser.run(PUT, POST, {"any community": True, "Who may get it": "3", "Levels of single": "4:1:/Incident/0/EventData/0"})
    browser.click("#done button")
    browser.wait("document.querySelectorAll('#pane .marks tbody tr').length > 10")
    browser.size(1160, 820)
    browser.run("document.querySelector('.side').scrollTop = 0; document.querySelector('#pane form details').scrollIntoView({ block: 'center' })")
    if trial.pictures is not None:
        browser.picture(trial.pictures / "page-post.png", is_whole=False)
    browser.size(1280, 900)
    share(trial.circle)
    trial.enter("bank")
    trial.row_is_read(1)
    trial.go("#incidents/1")
    browser.size(1160, 1300)
    browser.run("const pane = document.getElementById('shared'); pane.open = true; pane.scrollIntoView()")
    if trial.pictures is not None:
        browser.picture(trial.pictures / "page-shared.png", is_whole=False)
    browser.size(1280, 900)


def share(circle: Circle) -> None:
    """Who may see the bank's report on phishing besides, for good, for a while and until an end that is past."""
    for path, until, whom in (
        ("/Incident/0/EventData/1", "2099-01-01T00:00:00Z", ("org", 3)),
        ("/Incident/0/Contact/1", "2026-06-01T00:00:00Z", ("person", 3)),
        ("/Incident/0/Assessment/0", None, ("community", 1)),
    ):
        end = [("until", until)] if until else []
        circle.ask("bank", "POST", "/incidents/1/grant", [("revision", 1), ("path", path), whom, *end])
    circle.ask("bank", "POST", "/incidents/1/address", [("org", 4)])


def for_documents(trial: Trial, folder: pathlib.Path) -> None:
    """Takes them, over a store of their own, where a folder for pictures is given."""
    if trial.pictures is None:
        return
    before = trial.circle
    before.stop()
    other = folder / "pictures"
    other.mkdir()
    trial.circle = Circle(before.program, other, before.port)
    try:
        trial.circle.fill((EXAMPLES / "phishing.json").read_bytes())
        trial.load()
        take(trial)
    finally:
        trial.circle.stop()
        trial.circle = before
        before.start()
