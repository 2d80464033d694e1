"""What was true before: lists and excerpts that were read a while ago."""

import json

from trial import Trial, incident, report

PLACE = "/Incident/0"
CHANGED = "document.getElementById('changed')?.innerText"


def confidential(trial: Trial, name: str) -> int:
    """A report of which the university is served all by a permission, and without it one class."""
    indicator = {"restriction": "white", "IndicatorID": {"id": "1", "name": "x", "version": "1"}, "Description": ["the page"]}
    body = report(incident(name, restriction="green", Description=["Confidential"], Indicator=[indicator]))
    number = int(trial.circle.ask("bank", "POST", "/incidents", query=[("level", 3)], report=body)["numbers"][0])
    trial.circle.ask("bank", "POST", f"/incidents/{number}/grant", [("revision", 1), ("path", PLACE), ("org", 4)])
    return number


def withdraw(trial: Trial, number: int) -> None:
    trial.circle.ask("bank", "POST", f"/incidents/{number}/withdraw", [("path", PLACE), ("org", 4)])


def forward(trial: Trial, seconds: int) -> None:
    """Sets the page's clock forward. It looks at it every five seconds."""
    trial.browser.run("window.setForward += arguments[0] * 1000", seconds)


def later(trial: Trial) -> None:
    for each in (list_read_again, excerpt_shown_again, excerpt_in_sight, excerpt_gone, revision_in_background):
        each(trial)


def list_read_again(trial: Trial) -> None:
    """A permission that is withdrawn changes no revision."""
    browser = trial.browser
    number = confidential(trial, "list read again")
    row = f"#found a[data-number='{number}']"
    trial.enter("university")
    trial.row_is_read(number)
    trial.check_has("a row tells what is served", browser.text(row), "list read again", "Confidential", "TLP:GREEN")
    withdraw(trial, number)
    browser.click("#all")
    browser.settle()
    trial.row_is_read(number)
    text = browser.text(row)
    trial.check("a list that was read again tells what is served now", "Confidential" not in text and "TLP:CLEAR" in text and "the page" in text, text)


def open_in_background(trial: Trial, name: str) -> int:
    number = confidential(trial, name)
    trial.enter("university")
    trial.go(f"#incidents/{number}")
    return number


def excerpt_shown_again(trial: Trial) -> None:
    """Behind the groups, and a minute later, the excerpt is shown again."""
    browser = trial.browser
    number = open_in_background(trial, "shown again")
    path = f"/incidents/{number}"
    time = browser.run("return new Date().toLocaleTimeString([], { hour: '2-digit', minute: '2-digit', hourCycle: 'h23' })")
    read = browser.text("#readat")
    trial.check("an excerpt tells when it was read", read.startswith("read at ") and len(read) == 13 and abs(minutes(read) - minutes(time)) <= 2, read)
    trial.go("#groups")
    withdraw(trial, number)
    before = trial.sent("GET", path)
    trial.go("#incidents")
    browser.wait("false", seconds=0.5)
    trial.check("within a minute it isn't read again", trial.sent("GET", path) == before)
    trial.go("#groups")
    forward(trial, 61)
    trial.go("#incidents")
    browser.wait(f"({CHANGED} || '') !== ''")
    text = str(browser.run(f"return {CHANGED}"))
    trial.check("after one it tells that it has changed, and when", text.startswith("changed at ") and text.endswith(": show"), text)
    trial.check_has("and exchanges nothing by itself", browser.text("#report"), "Confidential", "nothing is withheld")
    asked = trial.sent("GET", path)
    forward(trial, 61)
    browser.wait("false", seconds=7)
    trial.check("nor is it asked for again until that is shown", trial.sent("GET", path) == asked)
    trial.click("#changed button")
    text = browser.text("#report")
    trial.check("what has changed is shown when its reader wants it", "Confidential" not in text and "others are withheld" in text, text)
    trial.check("and the line goes", browser.run(f"return {CHANGED}") == "")


def minutes(text: str) -> int:
    hour, minute = text.removeprefix("read at ").split(":")
    return int(hour) * 60 + int(minute)


def excerpt_in_sight(trial: Trial) -> None:
    """One that stays in sight is asked for each minute, as long as its window is seen."""
    browser = trial.browser
    number = open_in_background(trial, "in sight")
    path = f"/incidents/{number}"
    browser.run("const read = document.getElementById('readat'); if (read) read.textContent = 'read at 00:00';")
    before = trial.sent("GET", path)
    forward(trial, 61)
    browser.wait("(document.getElementById('readat')?.innerText || 'read at 00:00') !== 'read at 00:00'", seconds=20)
    read = browser.text("#readat")
    trial.check("an excerpt that is the same tells when that was", read != "read at 00:00" and len(read) == 13, read)
    trial.check("it was asked for once", trial.sent("GET", path) == before + 1, trial.sent("GET", path) - before)
    trial.check("and tells no change", browser.run(f"return {CHANGED} || ''") == "")
    trial.origin.instead[path] = (503, "application/json", b'{"code":"Away","detail":"","reason":"hub restarts or is busy"}')
    forward(trial, 61)
    browser.wait("false", seconds=7)
    trial.check("a fault in the background is told to nobody", browser.text("#refused") == "", browser.text("#refused"))
    withdraw(trial, number)
    forward(trial, 61)
    trial.check("and a change is told a minute later", browser.wait(f"({CHANGED} || '').startsWith('changed at ')", seconds=20))


def excerpt_gone(trial: Trial) -> None:
    """One that isn't shown any more."""
    browser = trial.browser
    number = open_in_background(trial, "gone")
    trial.circle.ask("bank", "POST", f"/incidents/{number}/gate", [("revision", 1), ("path", ""), ("level", 0)])
    forward(trial, 61)
    trial.check("a report that is shown no more has changed", browser.wait(f"({CHANGED} || '').startsWith('changed at ')", seconds=20))
    trial.click("#changed button")
    trial.refused("and when it is asked for", "N1", "no such incident for you")
    trial.check("it isn't shown", "Confidential" not in browser.text("#report"), browser.text("#report"))


def revision_in_background(trial: Trial) -> None:
    """The forms of an own report keep what is typed and the revision that it was typed for."""
    browser = trial.browser
    number = confidential(trial, "in the background")
    trial.enter("bank")
    trial.go(f"#incidents/{number}")
    trial.put("Address somebody", {"To": ["org", "3"]})
    body = report(incident("in the background", Description=["Replaced"]))
    trial.circle.ask("bank", "PUT", f"/incidents/{number}", query=[("revision", 1), ("level", 3)], report=body)
    forward(trial, 61)
    trial.check("another revision is told", browser.wait(f"({CHANGED} || '').startsWith('changed at ')", seconds=20))
    trial.fill("Address somebody", {})
    trial.refused("and not taken up", "S3", "It is at revision 2 now.")
    trial.check("what was typed stays", trial.held("Address somebody", "To") == ["org", "3"], json.dumps(trial.held("Address somebody", "To")))
