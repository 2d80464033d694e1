"""Two hubs of one circle: the page goes from one to the other with the same key."""

import json
import pathlib
import typing

from circle import Circle, digest
from shared import begin_key, exchange
from trial import NAMES, PERMIT, Trial, incident, report

HUBS = [{"path": "/", "name": "up to June 2027"}, {"path": "/2/", "name": "newest"}]
PLACE = "/Incident/0/EventData/0"
OPTIONS = "return [...document.querySelectorAll('#hubs option')].map(one => one.textContent)"


def beside(trial: Trial, folder: pathlib.Path) -> None:
    """A second hub below /2/, with the persons of the first, one person more, and one report."""
    (folder / "second").mkdir()
    second = Circle(trial.circle.program, folder / "second", trial.circle.port + 3)
    try:
        second.fill(report(incident("of the second", EventData=[{"Description": ["x"], "restriction": "green"}] * 2)))
        second.ask("admin", "POST", "/persons", [("org", 2), ("name", "Eva"), ("role", "reader"), ("key", digest("eva-key"))])
        trial.check("one hub alone is no choice", not is_offered(trial))
        trial.origin.second_port = second.port
        trial.origin.names = json.dumps({**NAMES, "hubs": HUBS}).encode()
        choosing(trial)
        changing_at_each(trial)
        going_back(trial)
        unknown_key(trial)
        strange_hubs(trial)
        key_of_each(trial, second)
    finally:
        trial.origin.names = json.dumps(NAMES).encode()
        trial.origin.second_port = None
        second.stop()
        trial.load()


def is_offered(trial: Trial) -> bool:
    trial.enter("bank")
    return bool(trial.browser.run("return !document.getElementById('choice').hidden"))


def open_second(trial: Trial, who: str) -> None:
    trial.note()
    trial.browser.open(trial.origin.address.replace("/ui/", "/2/ui/"))
    trial.enter(who)


def choose(trial: Trial, place: int) -> None:
    script = "const hubs = document.getElementById('hubs'); hubs.value = arguments[0]; hubs.dispatchEvent(new Event('change'));"
    trial.browser.run(script, str(place - 1))
    trial.browser.settle()


def stands(trial: Trial) -> typing.Any:
    """The path in the browser's bar, the hub that is chosen, and whether a key is wanted."""
    return trial.browser.run("return [location.pathname, document.getElementById('hubs').value, !document.getElementById('enter').hidden]")


def asked_since(trial: Trial, count: int) -> set[str]:
    """Of which hub's paths something was asked: 1, 2."""
    return {"2" if target.startswith("/2/") else "1" for _, target in trial.origin.asked[count:]}


def choosing(trial: Trial) -> None:
    browser = trial.browser
    open_second(trial, "bank")
    trial.check("both hubs are offered", browser.run(OPTIONS) == ["1: up to June 2027", "2: newest"], browser.run(OPTIONS))
    trial.check("the one of the address is chosen", stands(trial) == ["/2/ui/", "1", False], stands(trial))
    trial.row_is_read(1)
    trial.check_has("its list is the second hub's", browser.text("#found"), "csirt.example.com of the second", "Incident 2/1")
    trial.go("#incidents/1")
    trial.check_has("a report is called by hub and number", browser.text("#head"), "Incident 2/1: csirt.example.com of the second")
    trial.picture("hubs")
    before = len(trial.origin.asked)
    choose(trial, 1)
    trial.check("the other hub is chosen with the same key", stands(trial) == ["/ui/", "0", False], stands(trial))
    trial.check("the list is the first hub's", "of the second" not in browser.text("#found") and "Incident 1/" in browser.text("#found"), browser.text("#found"))
    trial.check("no report of the other hub is open", browser.text("#head") == "No report is open", browser.text("#head"))
    trial.check("and the first hub alone is asked", asked_since(trial, before) == {"1"}, trial.origin.asked[before:])
    trial.check("the caller is the same person", "Ada" in browser.text("#who"), browser.text("#who"))
    trial.check("a new report is posted at the newest alone", "Post a report" not in browser.text("#navigation"), browser.text("#navigation"))
    choose(trial, 2)
    trial.check_has("which is offered there", browser.text("#navigation"), "Post a report")


def changing_at_each(trial: Trial) -> None:
    """Incident 1 of both hubs is the bank's: each change is asked of the hub that is chosen, and its line says which."""
    open_second(trial, "bank")
    for place, others in ((1, "/2"), (2, "")):
        choose(trial, place)
        path = f"{'/2' if place == 2 else ''}/incidents/1/grant"
        before = {each: trial.sent("POST", each) for each in (path, f"{others}/incidents/1/grant")}
        trial.go("#incidents/1")
        trial.permit({"Class": PLACE, "To": ["person", "Cleo"]})
        trial.done(f"a class of hub {place} is permitted", f"Permitted {PLACE}")
        after = {each: trial.sent("POST", each) - count for each, count in before.items()}
        trial.check("at that hub alone", list(after.values()) == [1, 0], after)
    trial.go("#done")
    lines = trial.browser.run("return document.querySelector('#pane textarea').value").splitlines()
    where = [line.split("\t")[3] for line in lines]
    trial.check("the lines of both stay, and say which hub's incident it was", where == [f"incident 1/1 {PLACE}", f"incident 2/1 {PLACE}"], lines)
    trial.enter("admin")
    trial.go("#circle")
    trial.check_has("what is said of the circle is wanted at each hub", trial.browser.text("#pane"), "each hub of the circle needs it")


def going_back(trial: Trial) -> None:
    """The address in the browser's bar and the hub that is asked are one."""
    browser = trial.browser
    open_second(trial, "bank")
    trial.go("#incidents/1")
    choose(trial, 1)
    trial.go("#incidents/1")
    trial.check_has("an incident of the first hub", browser.text("#head"), "Incident 1/1")
    browser.run("history.go(-2)")
    browser.wait("document.getElementById('head').innerText.includes('Incident 2/1')")
    browser.settle()
    trial.check_has("back is the incident of the second, of the same number", browser.text("#head"), "Incident 2/1: csirt.example.com of the second")
    trial.check("with its address", stands(trial) == ["/2/ui/", "1", False], stands(trial))
    browser.run("history.forward()")
    browser.wait("location.pathname === '/ui/'")
    browser.settle()
    trial.check("and forward the first hub again", stands(trial) == ["/ui/", "0", False], stands(trial))
    trial.browser.click("#forget")
    browser.run("history.back()")
    browser.wait("location.pathname === '/2/ui/'")
    trial.enter("bank")
    trial.check("a key that is given later is the hub's in the bar", stands(trial) == ["/2/ui/", "1", False], stands(trial))


def unknown_key(trial: Trial) -> None:
    """Eva is a person of the second hub alone."""
    browser = trial.browser
    open_second(trial, "eva-key")
    choose(trial, 1)
    trial.refused("a key that the other hub doesn't know", "K1")
    trial.check("the hub stays the one that knows it", stands(trial) == ["/2/ui/", "1", False], stands(trial))
    trial.check_has("and its list stays", browser.text("#found"), "Incident 2/1")


def strange_hubs(trial: Trial) -> None:
    """What is published leads to no other origin, and to no hub that the page isn't of."""
    other = {"path": "/2/", "name": "newest"}
    for hubs in (
        [other], [{"path": "//evil.example/", "name": "x"}, other, {"path": "https://evil.example/", "name": "x"}],
        [{"path": "/", "name": "x"}, {"path": "/3/", "name": "y"}], [{"path": "/../", "name": "x"}, other], [{"path": "/", "name": 1}, other],
        [{"path": "/\\evil.example/", "name": "x"}, other], {"path": "/"}, [None, other],
    ):
        trial.origin.names = json.dumps({**NAMES, "hubs": hubs}).encode()
        open_second(trial, "bank")
        trial.check(f"no choice of {json.dumps(hubs)}", trial.browser.run("return document.getElementById('choice').hidden") is True)
    signs = [{"path": "/", "name": "<b>\u202e</b>"}, other]
    trial.origin.names = json.dumps({**NAMES, "hubs": signs}).encode()
    open_second(trial, "bank")
    trial.check("signs in a name are told", trial.browser.run(OPTIONS) == ["1: <b>[U+202E]</b>", "2: newest"], trial.browser.run(OPTIONS))
    trial.no_markup("names of hubs")


def key_of_each(trial: Trial, second: Circle) -> None:
    """A new key is the same at each hub; one that hasn't the person isn't asked for it, and one that fails is asked again."""
    trial.origin.names = json.dumps({**NAMES, "hubs": HUBS}).encode()
    open_second(trial, "eva-key")
    key = begin_key(trial)
    exchange(trial)
    trial.done("a person of the second hub alone has a new key there", "The new key holds")
    sent = [trial.sent("POST", path) for path in ("/me/key", "/2/me/key")]
    trial.check("of which the first hub isn't asked", [sent, second.ask(key, "GET", "/me").get("name")] == [[0, 1], "Eva"], sent)
    for hub in (trial.circle, second):
        hub.ask("admin", "POST", "/persons", [("org", 2), ("name", "Hal"), ("role", "reader"), ("key", digest("hal-key"))])
    open_second(trial, "hal-key")
    key = begin_key(trial)
    # The first hub's store fails once, before anything is exchanged.
    trial.origin.instead["/me/key"] = (503, "application/json", b'{"code":"F1","detail":"","reason":"store failed"}')
    exchange(trial)
    trial.refused("a hub that fails", "F1", "store failed")
    told = [hub.ask("hal-key", "GET", "/me").get("name") for hub in (trial.circle, second)]
    trial.check("leaves the old key as it is", told == ["Hal", "Hal"], told)
    exchange(trial)
    trial.done("and takes the new one later", "The new key holds")
    told = [hub.ask(each, "GET", "/me").get("name", "") for hub in (trial.circle, second) for each in (key, "hal-key")]
    trial.check("which both hubs serve, and the old one neither", told == ["Hal", "", "Hal", ""], told)
