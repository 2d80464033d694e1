"""What a request of the page takes along and follows, and an answer that comes when its key was forgotten."""

import threading

from trial import FILL, POST, Trial, incident, report


def sending(trial: Trial) -> None:
    for each in (nothing_beside_the_key, no_redirection, nothing_kept, late_answer):
        each(trial)


def nothing_beside_the_key(trial: Trial) -> None:
    """Another page of the origin may have left a cookie."""
    trial.enter("bank")
    trial.browser.run("document.cookie = 'left=1; path=/'")
    trial.origin.heads.clear()
    trial.go("#incidents/1")
    found = {name.lower() for path, head in trial.origin.heads if path.startswith("/incidents") for name in head if name.lower() in ("cookie", "referer", "authorization")}
    trial.check("a request has the key, and neither cookie nor address", found == {"authorization"}, found)
    trial.browser.run("document.cookie = 'left=; path=/; max-age=0'")


def no_redirection(trial: Trial) -> None:
    """A key isn't taken to where an answer leads."""
    trial.enter("bank")
    trial.origin.moved["/incidents/1"] = "/elsewhere"
    trial.go("#incidents/1")
    trial.check("an answer that leads elsewhere isn't followed", trial.sent("GET", "/elsewhere") == 0 and "(NoAnswer)" in trial.browser.text("#refused"), trial.origin.asked[-3:])
    trial.origin.moved.clear()


def nothing_kept(trial: Trial) -> None:
    """Also where a proxy allows it, an answer isn't taken from what the browser keeps."""
    trial.enter("bank")
    trial.origin.may_be_kept = True
    for _ in range(2):
        trial.go("#incidents/1")
        asked = trial.sent("GET", "/incidents/1")
        trial.go("#groups")
    trial.enter("bank")
    trial.go("#incidents/1")
    trial.check("an excerpt is asked for anew, though it may be kept", trial.sent("GET", "/incidents/1") > asked, asked)
    trial.origin.may_be_kept = False


def listed(trial: Trial) -> int:
    """How many incidents the bank sees, page by page."""
    count, last = 0, 0
    while found := trial.circle.ask("bank", "GET", "/incidents", query=[("after", last)])["incidents"]:
        count, last = count + len(found), found[-1]["number"]
    return count


def late_answer(trial: Trial) -> None:
    """A post is answered after its key was forgotten, and somebody else sits there."""
    browser, answered, before = trial.browser, threading.Event(), listed(trial)
    trial.enter("bank")
    trial.go("#post")
    trial.origin.waits[("POST", "/incidents")] = answered
    values = {"or its text": report(incident("a late answer")).decode(), "Who may get it": "3", "any community": True}
    trial.filled(FILL, POST, values)
    browser.wait("document.body.ariaBusy === 'true'")
    browser.run("document.getElementById('forget').click()")
    answered.set()
    trial.origin.waits.clear()
    browser.settle()
    told = browser.text("#done") + browser.text("#refused")
    trial.check("an answer that comes when its key was forgotten is shown to nobody", told == "" and browser.texts("h1") == ["Your key"], told)
    trial.check("  though the change was made", listed(trial) == before + 1, (before, listed(trial)))
