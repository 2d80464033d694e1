"""How a report of one's own is shared, what takes it back, and the own key: what a source asks after a month away."""

import hashlib
import json

from circle import KEYS
from trial import DISTRIBUTE, PERMIT, REPLACE, WITHDRAW, Trial, incident, report

FIRST, SECOND = "/Incident/0/EventData/0", "/Incident/0/EventData/1"
ADDRESS = "Address somebody"
PARTS: list[dict[str, object]] = [
    {"restriction": "green", "Description": ["the page <b>x</b>"], "Method": [{"Description": ["by mail"]}, {"restriction": "red", "Description": ["by phone"]}]},
    {"restriction": "red", "Description": ["the victims"]},
]
EVERYBODY = "level 3, everybody in the hub, also organisations in no community"
PAGE = f"EventData {FIRST} TLP:GREEN: the page <b>x</b>"
VICTIMS = f"EventData {SECOND} TLP:RED: the victims"
AMBER = (
    "TLP:AMBER is for addressed persons, and for nominated persons of addressed organisations, of their clients and of the source\u2019s clients."
)
MEMBERS = "payments (community 1): Telco (organisation 3)"
CLEARED = "its nominated persons are cleared for TLP:AMBER+STRICT, those of its clients for TLP:AMBER"
# The text of each entry of the pane below the heading of this name; of the part that is folded, by its summary's last word.
ROWS = """
const head = [...document.querySelectorAll('#shared h3, #shared details > summary')].find(one => one.textContent.includes(arguments[0]));
const list = head && head.nextElementSibling;
return list ? [...(list.matches('ul') ? list.children : [list])].map(one => one.textContent.replace(/\\s+/g, ' ').trim()) : [];
"""
# Clicks on the button of this name in the entry that begins with this text.
PRESS = """
const row = [...document.querySelectorAll('#shared li')].find(one => one.textContent.startsWith(arguments[0]));
const found = row && [...row.querySelectorAll(':scope > button')].find(one => one.textContent === arguments[1]);
if (found) found.click();
return Boolean(found);
"""
STANDS = "return [...document.querySelectorAll('form')].find(one => one.ariaLabel === arguments[0]).querySelector('.stands').textContent"


def shared(trial: Trial) -> None:
    number = posted(trial)
    for each in (all_of_it, of_one_class, beside_forms, not_read, taken_back, changed_meanwhile, narrowed, replaced, of_others):
        each(trial, number)
    for step in (many_labels, switched_off, foreign_community, own_reports, own_circle, new_key, new_key_of_lost_answer):
        step(trial)


def rows(trial: Trial, heading: str) -> list[str]:
    return [str(text) for text in trial.browser.run(ROWS, heading)]


def counts(trial: Trial) -> str:
    return str(trial.browser.run("return document.querySelector('#shared summary').textContent"))


def read_again(trial: Trial) -> None:
    trial.browser.run("document.querySelector('#shared button').click()")
    trial.browser.settle()


def press(trial: Trial, row: str, name: str) -> None:
    trial.check(f"{row!r} has the button {name}", bool(trial.browser.run(PRESS, row, name)))
    trial.browser.settle()


def stored(trial: Trial, number: int) -> dict[str, object]:
    return dict(trial.circle.ask("bank", "GET", f"/incidents/{number}/sharing"))


def grant(trial: Trial, number: int, path: str, *pairs: tuple[str, object]) -> None:
    trial.circle.ask("bank", "POST", f"/incidents/{number}/grant", [("revision", 1), ("path", path), *pairs])


def posted(trial: Trial) -> int:
    """A report that is granted to three, of which one permission has ended, and that is addressed to two."""
    trial.browser.cdp("Emulation.setTimezoneOverride", timezoneId="Europe/Berlin")
    body = report(incident("shared with", restriction="amber", EventData=PARTS))
    number = int(trial.circle.ask("bank", "POST", "/incidents", query=[("level", 3), ("gate", f"4:1:{SECOND}")], report=body)["numbers"][0])
    grant(trial, number, SECOND, ("org", 3))
    grant(trial, number, SECOND, ("person", 4), ("until", "2035-07-01T18:00:00+02:00"))
    grant(trial, number, FIRST, ("community", 1), ("until", "2024-06-01T00:00:00Z"))
    trial.circle.ask("bank", "POST", f"/incidents/{number}/address", [("person", 4)])
    trial.circle.ask("bank", "POST", f"/incidents/{number}/address", [("org", 3)])
    trial.enter("bank")
    trial.go(f"#incidents/{number}")
    return number


def all_of_it(trial: Trial, number: int) -> None:
    told = counts(trial)
    wanted = "Shared with: level 3, 1 gate of a class, 2 recipients, 2 permissions, 1 permission that has ended"
    trial.check("an own report says in a line how it is shared", told == wanted, told)
    trial.browser.click("#shared > summary")
    trial.check("its gates are listed, the root's first", rows(trial, "Gates") == [
        f"{EVERYBODY}: the whole report Narrow", f"level 4, phishing (sharing group 1): {VICTIMS} Narrow"], rows(trial, "Gates"))  # fmt: skip
    labels = rows(trial, "Labels")
    trial.check("its labels, with whom each is for and where it is written", labels == [
        f"TLP:GREEN, for the members of any of your communities, and for those whom TLP:AMBER is for:{PAGE}",
        "TLP:AMBER+STRICT, for addressed persons, and for nominated persons of addressed organisations:"
        "Incident /Incident/0 TLP:AMBER+STRICT amber: csirt.example.com shared with",
        f"TLP:RED, for addressed persons:Method {FIRST}/Method/1 TLP:RED: by phone{VICTIMS}"], labels)  # fmt: skip
    trial.check("its recipients", rows(trial, "Recipients") == [
        "Cleo (person 4): cleared for TLP:RED Unaddress", f"Telco (organisation 3): {CLEARED} Unaddress"], rows(trial, "Recipients"))  # fmt: skip
    trial.check("its permissions, with class, first text and end", sorted(rows(trial, "Permissions")) == [
        f"Cleo (person 4), until 2035-07-01 18:00 (UTC+02:00): {VICTIMS} Withdraw", f"Telco (organisation 3), without an end: {VICTIMS} Withdraw",
    ], rows(trial, "Permissions"))  # fmt: skip
    ended = rows(trial, "has ended")
    trial.check("and apart those that have ended", ended == [f"payments (community 1), ended 2024-06-01 02:00 (UTC+02:00): {PAGE} Withdraw"], ended)
    told = trial.browser.text("#shared")
    trial.check_has("it says what it doesn't know", told, "Not known here: arrangements, nominations, clients, and who is in a group or in a community that is not yours.")
    trial.check_has("whom TLP:GREEN and TLP:AMBER are for", told, "TLP:GREEN is for any of your communities. " + AMBER)
    trial.check("and who is in the communities that are meant", rows(trial, "Communities") == [MEMBERS], rows(trial, "Communities"))
    trial.no_markup("a class's first text in the pane")
    trial.picture("shared")


def ask_about(trial: Trial, path: str) -> None:
    trial.click(f"[aria-label='Who? What opens {path}, and to whom']")


def of_one_class(trial: Trial, number: int) -> None:
    ask_about(trial, SECOND)
    trial.check_has("of a class it says what opens it", trial.browser.text("#shared p"), VICTIMS)
    trial.check("the gates on its way", [text.split(":")[0] for text in rows(trial, "Gates")] == ["level 3, everybody in the hub", "level 4, phishing (sharing group 1)"], rows(trial, "Gates"))
    trial.check("of the recipients those whom its label is for", rows(trial, "By its label TLP:RED") == ["Cleo (person 4): addressed Unaddress"], rows(trial, "By its label"))
    trial.check("and its permissions", [len(rows(trial, "By a permission")), rows(trial, "has ended")] == [2, []], rows(trial, "By a permission"))
    trial.check("of TLP:RED nothing of communities", rows(trial, "Communities") == [], rows(trial, "Communities"))
    ask_about(trial, f"{FIRST}/Method/0")
    trial.check("and who is in the communities", rows(trial, "Communities") == [MEMBERS], rows(trial, "Communities"))
    inside = rows(trial, "has ended")
    trial.check("a permission goes down to the next label", len(inside) == 1 and inside[0].startswith("payments (community 1), ended") and f", for {FIRST} " in inside[0], inside)
    trial.check("the gate of another class isn't on its way", rows(trial, "Gates") == ["level 3, everybody in the hub: the whole report Narrow"], rows(trial, "Gates"))
    trial.check("and a label goes down too", rows(trial, "By its label TLP:GREEN \u2191") != [], trial.browser.text("#shared h3"))
    ask_about(trial, f"{FIRST}/Method/1")
    trial.check("but no permission goes further", [rows(trial, "By a permission"), rows(trial, "has ended")] == [["There is none."], []], rows(trial, "has ended"))
    ask_about(trial, "/Incident/0/Contact/0")
    trial.check("or beside", [rows(trial, "By a permission"), rows(trial, "has ended")] == [["There is none."], []], rows(trial, "By a permission"))
    options = trial.browser.run("return [...document.querySelectorAll('#about option')].map(one => one.textContent)")
    trial.check("each class can be chosen, by place and text", options[0] == "all of the report" and "EventData/0: the page <b>x</b>" in options and len(options) == 8, options)
    trial.browser.run("const it = document.getElementById('about'); it.value = ''; it.dispatchEvent(new Event('change'))")
    trial.check("then all of the report again", len(rows(trial, "Permissions")) == 2, rows(trial, "Permissions"))


def beside_forms(trial: Trial, number: int) -> None:
    """Each form says what stands already, before anything is sent."""
    trial.put(PERMIT, {"Class": SECOND})
    told = trial.browser.run(STANDS, PERMIT)
    trial.check_has("a permission: whom it has already", told, "Permitted there already: ", "Telco (organisation 3), without an end",
                    "Cleo (person 4), until 2035-07-01 18:00 (UTC+02:00)")  # fmt: skip
    trial.put(PERMIT, {"Class": "/Incident/0/Contact/0"})
    told = trial.browser.run(STANDS, PERMIT)
    trial.check("or nobody", told == "Nobody has a permission there.", told)
    trial.put(DISTRIBUTE, {"a class": True, "Class": SECOND})
    told = trial.browser.run(STANDS, DISTRIBUTE)
    wanted = f"Gates there and on the way now: the whole report is at {EVERYBODY}; {SECOND} is at level 4, phishing (sharing group 1)."
    trial.check("a gate: those on its way", told == wanted, told)
    told = trial.browser.run(STANDS, REPLACE)
    wanted = (
        f"Now: revision 1, at {EVERYBODY}; TLP:GREEN is for any community of your organisation; {SECOND} is at level 4, phishing (sharing group 1). "
        "3 permissions, 1 of them ended. Addressed already: Cleo (person 4); Telco (organisation 3)."
    )
    trial.check("a Replace: all that it exchanges", told == wanted, told)
    told = trial.browser.run(STANDS, ADDRESS)
    trial.check("an Address: the recipients", told == "Addressed already: Cleo (person 4); Telco (organisation 3).", told)


def not_read(trial: Trial, number: int) -> None:
    trial.origin.instead[f"/incidents/{number}/sharing"] = (503, "application/json", b'{"code":"F1","detail":"","reason":"store failed"}')
    trial.go("#incidents/1")
    trial.go(f"#incidents/{number}")
    trial.browser.run("document.getElementById('shared').open = true")
    trial.check_has("where it can't be read, the pane says why", trial.browser.text("#shared"), "It is not known: ", "(F1)")
    trial.check("and forms say nothing of it", trial.browser.run(STANDS, ADDRESS) == "", trial.browser.run(STANDS, ADDRESS))
    trial.check_has("but the report is shown", trial.browser.text("#report"), "the victims")
    read_again(trial)
    trial.check("it is read again by its button", counts(trial).startswith("Shared with: level 3, "), counts(trial))


def taken_back(trial: Trial, number: int) -> None:
    trial.check_has("the partner is served the class", json.dumps(trial.circle.ask("telco", "GET", f"/incidents/{number}")), "the victims")
    press(trial, "Telco (organisation 3), without an end", "Withdraw")
    trial.done("a permission is withdrawn by its button", f"Withdrawn from Telco (organisation 3): the permission for {SECOND}.")
    trial.check("the pane is read again", [text.split(",")[0] for text in rows(trial, "Permissions")] == ["Cleo (person 4)"], rows(trial, "Permissions"))
    trial.check("and the partner isn't served it", "the victims" not in json.dumps(trial.circle.ask("telco", "GET", f"/incidents/{number}")))
    press(trial, "Cleo (person 4): cleared", "Unaddress")
    trial.done("a recipient is removed by its button", "Removed from the recipients: Cleo (person 4).")
    trial.check("at the hub too", stored(trial, number)["recipients"] == [["org", 3]], stored(trial, number))
    told = trial.browser.run(STANDS, ADDRESS)
    trial.check("and the form says so", told == "Addressed already: Telco (organisation 3).", told)
    at = trial.browser.run("return document.activeElement.parentNode.id")
    trial.check("the focus stays in the pane", at == "shared", at)
    trial.fill(WITHDRAW, {"Class": SECOND, "From": ["person", "4"]})
    trial.done("one is withdrawn by the form", f"Withdrawn from Cleo (person 4): the permission for {SECOND}.")
    ask_about(trial, SECOND)
    seen = trial.browser.run("const [bar, line] = ['said', 'shared'].map(id => document.getElementById(id).getBoundingClientRect()); return [bar.bottom, line.top]")
    trial.check("what the hub said last covers nothing of the answer", 0 < seen[0] <= seen[1], seen)
    trial.browser.run("const it = document.getElementById('about'); it.value = ''; it.dispatchEvent(new Event('change'))")
    trial.check("and the pane is read again", rows(trial, "Permissions") == ["There is none."], rows(trial, "Permissions"))


def changed_meanwhile(trial: Trial, number: int) -> None:
    """A colleague gives a later end to what has ended here."""
    grant(trial, number, FIRST, ("community", 1), ("until", "2035-01-01T00:00:00Z"))
    path = f"/incidents/{number}/withdraw"
    before = trial.sent("POST", path)
    press(trial, "payments (community 1), ended", "Withdraw")
    trial.check_has("what has another end now isn't withdrawn", trial.browser.text("#refused"), "not there any more as it was shown", "Nothing was sent.")
    trial.check("and isn't sent", trial.sent("POST", path) == before)
    now = rows(trial, "Permissions")
    trial.check("but shown", now == [f"payments (community 1), until 2035-01-01 01:00 (UTC+01:00): {PAGE} Withdraw"], now)
    grant(trial, number, FIRST, ("community", 1), ("until", "2024-06-01T00:00:00Z"))
    read_again(trial)
    press(trial, "payments (community 1), ended", "Withdraw")
    trial.done("what has ended is withdrawn", f"Withdrawn from payments (community 1): the permission for {FIRST}.")
    trial.check("and none is left", stored(trial, number)["permissions"] == [], stored(trial, number))


def narrowed(trial: Trial, number: int) -> None:
    press(trial, EVERYBODY, "Narrow")
    held = [trial.held(DISTRIBUTE, words) for words in ("the whole report", "a class", "Who may get it")]
    trial.check("a gate is narrowed by its form, which has chosen no level", held == [True, False, ""], held)
    focus = trial.browser.run("return document.activeElement.tagName + ' ' + document.activeElement.value")
    trial.check("and asks for the level", focus == "SELECT ", focus)
    trial.fill(DISTRIBUTE, {"Who may get it": "0"})
    trial.done("the whole report is narrowed", "Set the whole report to level 0, your organisation only.")
    trial.check("the pane says so, and no more can be taken", rows(trial, "Gates")[0] == "level 0, your organisation only: the whole report", rows(trial, "Gates"))
    press(trial, "level 4, phishing", "Narrow")
    held = [trial.held(DISTRIBUTE, words) for words in ("the whole report", "a class", "Class")]
    trial.check("that of a class too", held == [False, True, SECOND], held)


def replaced(trial: Trial, number: int) -> None:
    """A colleague replaces the report while it is shown."""
    trial.circle.ask("bank", "PUT", f"/incidents/{number}", query=[("revision", 1), ("level", 1), ("community", 1)],
                     report=report(incident("shared with", restriction="amber")))  # fmt: skip
    read_again(trial)
    trial.check_has("of another revision nothing is said", trial.browser.text("#shared"), "The report is at revision 2 now.")
    read_again(trial)
    trial.check("its button reads the report too", counts(trial) == "Shared with: level 1, 1 recipient", counts(trial))
    trial.check_has("with the community that it names", trial.browser.run("return document.getElementById('shared').textContent"), "TLP:GREEN is for payments (community 1).")


def of_others(trial: Trial, number: int) -> None:
    before = len(trial.origin.asked)
    trial.enter("telco")
    trial.go("#incidents/1")
    asked = [target for _, target in trial.origin.asked[before:] if target.endswith("/sharing")]
    trial.check("of another's report nothing is asked, and there is no pane", [asked, trial.browser.count("#shared")] == [[], 0], asked)
    trial.circle.ask("admin", "POST", "/persons", [("org", 2), ("name", "Gil"), ("role", "reader"), ("key", hashlib.sha256(b"gil-key").hexdigest())])
    trial.enter("gil-key")
    trial.go(f"#incidents/{number}")
    trial.check("a reader of the source is shown the pane", counts(trial) == "Shared with: level 1, 1 recipient", counts(trial))
    names = trial.browser.run("return [...document.querySelectorAll('#shared li button')].map(one => one.textContent)")
    trial.check("without buttons that change it", names == [], names)


def many_labels(trial: Trial) -> None:
    parts = [{"restriction": "red", "Description": [f"part {place}"]} for place in range(22)]
    body = report(incident("many labels", EventData=parts))
    number = trial.circle.ask("bank", "POST", "/incidents", query=[("level", 3)], report=body)["numbers"][0]
    trial.enter("bank")
    trial.go(f"#incidents/{number}")
    label = rows(trial, "Labels")[-1]
    trial.check("of a label with many classes the first twenty are listed, and the others counted", label.count("EventData /") == 20 and label.endswith("part 19and 2 more"), label)
    ask_about(trial, "/Incident/0/EventData/21")
    trial.check("nobody is addressed in person", rows(trial, "By its label") == ["Nobody is addressed in person."], rows(trial, "By its label"))


def switched_off(trial: Trial) -> None:
    """A colleague switches off the group of a gate and of a permission; the label is arranged."""
    body = report(incident("switched off", EventData=[{"restriction": "default", "Description": ["the mails"]}]))
    number = int(trial.circle.ask("bank", "POST", "/incidents", query=[("level", 3), ("gate", f"4:1:{FIRST}")], report=body)["numbers"][0])
    grant(trial, number, FIRST, ("group", 1))
    trial.enter("bank")
    trial.go(f"#incidents/{number}")
    ask_about(trial, FIRST)
    trial.check("of `default` it says whom it is for", rows(trial, "By its label as arranged, else TLP:RED default") == ["whom else you arranged it for"], rows(trial, "By its label"))
    trial.circle.ask("bank", "POST", "/groups/1/active", [("active", 0)])
    read_again(trial)
    opens = [rows(trial, "Gates")[-1].partition(":")[0], rows(trial, "By a permission")[0]]
    off = "phishing (sharing group 1), which is switched off and opens nothing"
    trial.check("of a group that is switched off it says so", opens == [f"level 4, {off}", f"{off}, without an end Withdraw"], opens)
    trial.circle.ask("bank", "POST", "/groups/1/active", [("active", 1)])
    read_again(trial)
    trial.check("and not when it is on again", "switched off" not in trial.browser.text("#shared > div:last-child"), trial.browser.text("#shared"))


def foreign_community(trial: Trial) -> None:
    other = int(trial.circle.ask("admin", "POST", "/communities", [("name", "campus")])["numbers"][0])
    number = int(trial.circle.ask("bank", "POST", "/incidents", query=[("level", 3), ("community", 1)], report=report(incident("foreign")))["numbers"][0])
    grant(trial, number, "/Incident/0", ("community", other))
    trial.enter("bank")
    trial.go(f"#incidents/{number}")
    told = rows(trial, "Communities")
    trial.check("of others' communities the members aren't known", told == [MEMBERS, f"community {other}: not one of yours, so its members are not known here"], told)


def own_reports(trial: Trial) -> None:
    trial.circle.ask("telco", "POST", "/incidents", query=[("level", 3)], report=report(incident("of the telco")))
    entries: list[dict[str, int]] = []
    while not entries or len(entries) % 100 == 0:
        after = entries[-1]["number"] if entries else 0
        entries += trial.circle.ask("bank", "GET", "/incidents", query=[("after", after)])["incidents"]
    ours = [each["number"] for each in entries if each["source"] == 2]
    trial.enter("bank")
    trial.browser.click("#ours")
    trial.browser.settle()
    listed = trial.browser.run("return [...document.querySelectorAll('#found a')].map(one => Number(one.dataset.number))")
    trial.check("the own reports are listed alone", listed == ours[::-1][:100], (listed, ours))
    trial.check_has("and counted", trial.browser.text("#count"), f"{len(ours)} incidents posted by your organisation, at")
    pressed = trial.browser.texts(".tabs [aria-pressed=true]")
    trial.check("their button is the pressed one", pressed == ["Ours"], pressed)


def own_circle(trial: Trial) -> None:
    trial.enter("telco")
    trial.go("#mine")
    trial.check_has("the own communities are listed with their members", trial.browser.text("#communityrows"), "payments (community 1)",
                    "Bank (organisation 2), Telco (organisation 3)", "Read at")  # fmt: skip
    trial.enter("university")
    trial.go("#mine")
    trial.check("or that there is none", trial.browser.text("#communityrows") == "Your organisation is in no community.", trial.browser.text("#communityrows"))


def begin_key(trial: Trial) -> str:
    trial.go("#mine")
    trial.browser.run("[...document.querySelectorAll('#pane button')].find(one => one.textContent === 'New key').click()")
    return str(trial.browser.run("return document.querySelector('#pane .secret').textContent"))


def exchange(trial: Trial) -> None:
    trial.browser.run("[...document.querySelectorAll('#pane button')].find(one => one.textContent.startsWith('I have stored it')).click()")
    trial.browser.settle()


def have_it(trial: Trial) -> None:
    trial.browser.run("[...document.querySelectorAll('#pane button')].find(one => one.textContent === 'I have it')?.click()")


def new_key(trial: Trial) -> None:
    trial.enter("gil-key")
    before = trial.sent("POST", "/me/key")
    key = begin_key(trial)
    sent = trial.sent("POST", "/me/key") - before
    trial.check("a new key is shown before it is sent", len(key) == 64 and sent == 0 and trial.circle.ask(key, "GET", "/me").get("code") == "K1", key)
    trial.browser.run("[...document.querySelectorAll('#pane button')].find(one => one.textContent === 'Discard it').click()")
    trial.check("one that is discarded is gone", key not in str(trial.browser.run("return document.documentElement.outerHTML")))
    other = begin_key(trial)
    trial.check("and the next one is another", other != key and len(other) == 64, other)
    exchange(trial)
    trial.done("the keys are exchanged", "The new key holds: the hub has answered a request with it.")
    told = [trial.circle.ask(each, "GET", "/me").get("code", "") for each in ("gil-key", other, key)]
    trial.check("the hub knows the new key, and the old one is nobody's", told == ["K1", "", "K1"], told)
    forms = trial.origin.forms("POST", "/me/key")[before:]
    trial.check("its digest alone was sent", forms == [{"key": hashlib.sha256(other.encode()).hexdigest()}], forms)
    trial.check("it is shown until it is said to be stored", trial.browser.text("#pane .secret") == other, trial.browser.text("#pane"))
    trial.check_has("and so is what a restored hub knows", trial.browser.text("#pane"), "Keep the old one for some hours", "restored from an earlier copy")
    trial.check("and can't be sent again", "exchange the keys" not in trial.browser.text("#pane"), trial.browser.text("#pane"))
    have_it(trial)
    trial.check("it isn't shown a second time", other not in str(trial.browser.run("return document.documentElement.outerHTML")))
    trial.check_has("what is sent is told", trial.browser.text("#pane"), "asks each hub of the circle with it", "sends its SHA-256")
    trial.go("#incidents/1")
    head = trial.origin.heads[-1][1]["Authorization"]
    trial.check("the page goes on with it", head == f"Bearer {other}" and trial.browser.text("#refused") == "", head)
    KEYS["gil"] = other


def new_key_of_lost_answer(trial: Trial) -> None:
    away = (503, "application/json", b'{"code":"Away","detail":"","reason":"hub restarts or is busy"}')
    trial.enter("gil")
    key = begin_key(trial)
    for code in ("F1", "F2"):
        trial.origin.instead["/me/key"] = (503, "application/json", json.dumps({"code": code, "detail": "", "reason": "given up"}).encode())
        exchange(trial)
        trial.check_has(f"of {code} it says when the change may hold", trial.browser.text("#refused"), "if its machine stops, a change may be there all the same", f"({code})")
    trial.check("and the new key stays, and can't be discarded", [trial.browser.text("#pane .secret"), "Discard" in trial.browser.text("#pane")] == [key, False])
    trial.origin.instead["/me/key"] = away
    exchange(trial)
    trial.check_has("of a lost request the old key holds", trial.browser.text("#refused"), "does not know the new key, so the old one still holds")
    trial.check("and the new one stays, to be tried again", trial.browser.text("#pane .secret") == key)
    trial.origin.lost.add("/me/key")
    exchange(trial)
    trial.done("of a lost answer the new one is proved", "The new key holds")
    trial.go("#incidents/1")
    trial.check("and the page goes on with it", trial.origin.heads[-1][1]["Authorization"] == f"Bearer {key}" and trial.browser.text("#refused") == "")
    trial.browser.cdp("Emulation.setTimezoneOverride", timezoneId="")
