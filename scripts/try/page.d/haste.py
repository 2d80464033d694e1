"""An analyst in haste: a wrong key, Enter too early, Back, two windows, a colleague in between. Nothing is shared that the form didn't say."""

import json

from browser import ENTER, SHIFT, SPACE, TAB
from trial import DISTRIBUTE, EXAMPLES, PERMIT, POST, REPLACE, TAKE_UP, WITHDRAW, Trial, incident, report

LEVEL = "Who may get it"
ADDRESS = "Address somebody"
FIRST, SECOND = "/Incident/0/EventData/0", "/Incident/0/EventData/1"
# Two parts that a colleague exchanges, one for everybody and one for nobody.
PARTS: list[dict[str, object]] = [{"restriction": "white", "Description": ["the page"]}, {"restriction": "red", "Description": ["the victims"]}]
FOCUS = "[...document.querySelectorAll('details.change')].find(one => one.querySelector('summary').textContent === arguments[0])"


# Fills the controls of each form one by one, and hands the form in behind each, as by an Enter too early. Nothing reaches the hub.
# Returns of each form its title, what was tried before the form said anything, and how often it was tried at all.
EARLY = """
const tried = [];
const ask = window.fetch;
window.fetch = (address, options) => {
  if (options.method === 'GET') return ask(address, options);
  tried.push(String(address));
  return Promise.resolve(new Response('{"code":"S1","detail":"","reason":"tried"}', { status: 409 }));
};
const value = control => control.tagName === 'SELECT' ? [...control.options].map(one => one.value).filter(Boolean).pop()
  : control.type === 'datetime-local' ? '2030-01-01T00:00' : control.pattern === '[0-9A-Fa-f]{64}' ? 'a'.repeat(64)
  : control.spellcheck || control.list ? '4' : control.tagName === 'TEXTAREA' && control.className !== 'few' ? arguments[0]
  : control.tagName === 'TEXTAREA' ? '0:0:/Incident/0' : '/Incident/0/Contact/0';
const found = [];
const forms = [...document.querySelectorAll('main form')].filter(form => form.querySelector('button.main') && form.textContent.includes('Make the report') === false);
for (const form of forms) {
  for (let above = form; above; above = above.parentElement) if (above.tagName === 'DETAILS') above.open = true;
  const [early, title] = [[], form.ariaLabel || form.querySelector('button.main').textContent];
  let count = 0;
  for (const control of [...form.elements].filter(one => !['submit', 'button', 'file', 'fieldset'].includes(one.type))) {
    if (control.disabled) continue;
    if (['radio', 'checkbox'].includes(control.type)) control.checked = true; else control.value = value(control);
    for (const kind of ['input', 'change']) control.dispatchEvent(new Event(kind, { bubbles: true }));
    const says = form.querySelector('.says')?.textContent || '';
    form.requestSubmit();
    do await new Promise(resume => setTimeout(resume, 30)); while (document.body.ariaBusy === 'true');
    count += tried.length;
    if (tried.splice(0).length && says === '') early.push(control.ariaLabel || control.labels[0].textContent);
  }
  found.push([title, early, count]);
}
window.fetch = ask;
return found;
"""


def posted(trial: Trial, name: str, level: int) -> int:
    """A report of the bank's with two parts, open in the page."""
    body = report(incident(name, EventData=PARTS))
    number = int(trial.circle.ask("bank", "POST", "/incidents", query=[("level", level)], report=body)["numbers"][0])
    trial.enter("bank")
    trial.go(f"#incidents/{number}")
    return number


def exchanged(trial: Trial, number: int, name: str, revision: int = 1) -> None:
    """Somebody else of the bank replaces the report: what was the first part is the second one."""
    body = report(incident(name, EventData=PARTS[::-1]))
    trial.circle.ask("bank", "PUT", f"/incidents/{number}", query=[("revision", revision), ("level", 3)], report=body)


def changes(trial: Trial) -> list[str]:
    """Each request so far that changed something, or was meant to."""
    return [target for method, target in trial.origin.asked if method != "GET"]


def served(trial: Trial, who: str, number: int) -> str:
    return json.dumps(trial.circle.ask(who, "GET", f"/incidents/{number}"))


def haste(trial: Trial) -> None:
    for each in (
        gate_twice, gate_of_nothing, gate_of_whole, gate_of_incident, gate_refused, gate_says, post_presets, post_says, replace_says,
        enter_too_early, end_of_another, permit_says, colleague, colleague_at_replace, colleague_at_address, two_windows, back_and_forth, enter_everywhere,
    ):  # fmt: skip
        each(trial)


def gate_twice(trial: Trial) -> None:
    """The second gate is meant for the same class: Shift-Tab, the level, Tab, Enter."""
    browser = trial.browser
    number = posted(trial, "gate twice", 1)
    browser.click(f"[aria-label='Share or restrict {FIRST}']")
    browser.run(f"const gate = {FOCUS}; gate.open = true; gate.querySelector('select').focus()", DISTRIBUTE)
    browser.keys("0", TAB, ENTER)
    browser.settle()
    trial.done("a gate is set by keys alone", f"Set {FIRST} to level 0, your organisation only.")
    browser.chord(SHIFT, TAB)
    browser.keys("3", TAB, ENTER)
    browser.settle()
    trial.done("the second one is of the same class", f"Set {FIRST} to level 3, everybody in the hub, also organisations in no community.")
    told = trial.circle.ask("university", "GET", f"/incidents/{number}").get("code")
    trial.check("and the report is still for the communities alone", told == "N1", told)
    held = [trial.held(DISTRIBUTE, words) for words in ("the whole report", "a class", "Class", LEVEL)]
    trial.check("the class stays, and its level is chosen anew", held == [False, True, FIRST, ""], held)
    browser.keys(ENTER)
    browser.settle()
    sent = trial.sent("POST", f"/incidents/{number}/gate")
    trial.check("one Enter more sends nothing", sent == 2, sent)


def gate_of_nothing(trial: Trial) -> None:
    number = posted(trial, "gate of nothing", 1)
    trial.fill(DISTRIBUTE, {LEVEL: "3"})
    trial.check_has(
        "a gate is of nothing that wasn't chosen", trial.browser.text("#refused"), "\u201cthe whole report\u201d or \u201ca class\u201d", "Nothing was sent."
    )
    trial.check("and isn't sent", trial.sent("POST", f"/incidents/{number}/gate") == 0)


def gate_of_whole(trial: Trial) -> None:
    """Each level but 0 is confirmed in its own words, each time."""
    number = posted(trial, "gate of whole", 3)
    path = f"/incidents/{number}/gate"
    trial.fill(DISTRIBUTE, {"the whole report": True, LEVEL: "0"})
    trial.done("level 0 of the whole report needs no confirmation", "Set the whole report to level 0, your organisation only.")
    words = {
        "1": "each organisation that shares any community with yours, whichever one the report names.",
        "2": "each organisation in one of your communities, or in a community that is connected to one of them.",
        "3": "everybody in the hub, also organisations in no community.",
        "4": "each organisation in phishing (sharing group 1), while the group is switched on.",
    }
    for level, told in words.items():
        before = trial.sent("POST", path)
        trial.fill(DISTRIBUTE, {"the whole report": True, LEVEL: level, **({"Sharing group": "1"} if level == "4" else {})})
        trial.check(f"level {level} of the whole report isn't sent before it is confirmed", trial.sent("POST", path) == before)
        label = trial.browser.run("return [...document.querySelectorAll('label.check')].map(one => one.innerText).find(text => text.startsWith('Yes, the whole report'))")
        trial.check("the confirmation has the level's own words", label == f"Yes, the whole report may reach {told}", label)
        trial.put(DISTRIBUTE, {"Yes, the whole report": True})
        other = "2" if level == "3" else "3"
        trial.put(DISTRIBUTE, {LEVEL: other})
        trial.put(DISTRIBUTE, {LEVEL: level})
        trial.check("and isn't that of another level", trial.held(DISTRIBUTE, "Yes, the whole report") is False)
        trial.fill(DISTRIBUTE, {"Yes, the whole report": True})
        trial.done(f"level {level} is set once it is confirmed", f"Set the whole report to level {level}, ")
        held = [trial.held(DISTRIBUTE, each) for each in ("the whole report", "a class", "Class", LEVEL)]
        trial.check("and nothing is chosen for the next one", held == [False, False, "", ""], held)


def gate_of_incident(trial: Trial) -> None:
    """The Incident is as good as the whole."""
    number = posted(trial, "gate of the Incident", 3)
    trial.fill(DISTRIBUTE, {"a class": True, "Class": "/Incident/0", LEVEL: "0"})
    trial.done("the Incident is for the source alone", "Set /Incident/0 to level 0")
    before = trial.sent("POST", f"/incidents/{number}/gate")
    trial.fill(DISTRIBUTE, {LEVEL: "3"})
    trial.check("another level isn't sent before it is confirmed", trial.sent("POST", f"/incidents/{number}/gate") == before)
    trial.fill(DISTRIBUTE, {"Yes, the whole Incident may reach everybody in the hub": True})
    trial.done("and is then", "Set /Incident/0 to level 3")


def gate_refused(trial: Trial) -> None:
    posted(trial, "gate refused", 1)
    for values, code in (({"Class": FIRST, LEVEL: "4", "Sharing group": "9"}, "N2"), ({"Class": SECOND, LEVEL: "0"}, "")):
        trial.fill(DISTRIBUTE, {"a class": True} | values)
        if code:
            trial.refused("a gate for a group that isn't there", code)
            held = [trial.held(DISTRIBUTE, words) for words in ("the whole report", "a class", "Class")]
            trial.check("after a refusal the class stays", held == [False, True, FIRST], held)
    trial.fill(DISTRIBUTE, {"a class": True, "Class": SECOND, LEVEL: "0"})
    trial.refused("the same gate again", "S1")
    held = [trial.held(DISTRIBUTE, words) for words in ("the whole report", "a class", "Class", LEVEL)]
    trial.check("after that too", held == [False, True, SECOND, "0"], held)


def gate_says(trial: Trial) -> None:
    number = posted(trial, "gate says", 1)
    trial.check("the button of a gate of nothing names nothing", trial.says(DISTRIBUTE) == " | Set a gate", trial.says(DISTRIBUTE))
    trial.put(DISTRIBUTE, {"the whole report": True, LEVEL: "3"})
    wanted = f"Sets the whole report of incident {number}, revision 1, to level 3, everybody in the hub, also organisations in no community."
    trial.check("the form says what it sets", trial.says(DISTRIBUTE) == f"{wanted} | Set the gate of the whole report", trial.says(DISTRIBUTE))
    trial.browser.click(f"[aria-label='Share or restrict {FIRST}']")
    trial.put(DISTRIBUTE, {LEVEL: "2"})
    wanted = f"Sets {FIRST} of incident {number}, revision 1, to level 2, your communities and those connected to them."
    trial.check("of a class too", trial.says(DISTRIBUTE) == f"{wanted} | Set the gate of {FIRST}", trial.says(DISTRIBUTE))


def post_presets(trial: Trial) -> None:
    trial.enter("bank")
    trial.go("#post")
    before = len(changes(trial))
    trial.fill(POST, {"or its text": report(incident("no community")).decode(), LEVEL: "3"})
    trial.check("a Post without a community isn't sent", len(changes(trial)) == before, changes(trial)[before:])
    words = ("Choose whom TLP:GREEN is for", "community N", "any community", "Nothing was sent.")
    trial.check_has("but told what to choose of", trial.browser.text("#refused"), *words)
    trial.fill(POST, {"community N": True})
    trial.check("a Post for a community without its number isn't sent", len(changes(trial)) == before, changes(trial)[before:])
    trial.browser.run("[...document.querySelectorAll('#pane label')].find(one => one.innerText.startsWith('Community, ')).control.focus()")
    trial.put(POST, {LEVEL: ""})
    trial.browser.keys("1", ENTER)
    trial.browser.settle()
    trial.check("nor by an Enter behind the community, before the level", len(changes(trial)) == before, changes(trial)[before:])
    trial.fill(POST, {LEVEL: "2"})
    trial.done("it is sent with both", "Posted as incident", "level 2", "TLP:GREEN is for payments (community 1); no class has a gate of its own.")
    trial.check("and the community isn't kept", [trial.held(POST, each) for each in ("community N", "any community")] == [False, False])


def post_says(trial: Trial) -> None:
    trial.enter("bank")
    trial.go("#post")
    text = (EXAMPLES / "phishing.json").read_text().replace("2026-0417", "post says")
    gates = f"4:1:{SECOND}\n0:0:/Incident/0/Contact/0\nodd"
    trial.put(POST, {"or its text": text, LEVEL: "1", "Levels of single": gates})
    trial.check("what isn't complete says nothing", trial.says(POST) == " | Post a report", trial.says(POST))
    trial.put(POST, {"any community": True})
    reach = (
        "at level 1, your communities, any of them (not only the named one); TLP:GREEN is for any community of your organisation; "
        f"{SECOND} is at level 4, phishing (sharing group 1); /Incident/0/Contact/0 is at level 0, your organisation only"
    )
    trial.check("the form says whom it reaches", trial.says(POST) == f"Posts csirt.example.com post says (TLP:GREEN, in it also TLP:CLEAR, TLP:AMBER+STRICT, TLP:RED), {reach}; odd. | Post a report", trial.says(POST))
    for body, told in (
        ('{"Incident":[{"restriction":"green"},{}]}', "an Incident without an IncidentID (TLP:GREEN), an Incident without an IncidentID (TLP:RED)"),
        ('{"Incident":[' + '{"a":' * 20000 + "{}" + "}" * 20000 + "]}", "this report"), ("{", "this report"),
    ):  # fmt: skip
        trial.put(POST, {"or its text": body})
        trial.check_has(f"of {body[:9]} it says what it can", trial.says(POST), f"Posts {told}, at level 1")
    trial.put(POST, {"or its text": text})
    trial.post({"Levels of single": gates.removesuffix("\nodd")})
    trial.done("and the answer tells the same", "Posted as incident", f", {reach}.")


def replace_says(trial: Trial) -> None:
    number = posted(trial, "replace says", 1)
    chosen = {"community N": True, "Community": "1", "these parts": True, "Levels of": f"3:0:{FIRST}", LEVEL: "0"}
    trial.put(REPLACE, {"or its text": report(incident("replace says", EventData=PARTS)).decode(), **chosen})
    reach = (
        ", at level 0, your organisation only; TLP:GREEN is for payments (community 1); "
        f"{FIRST} is at level 3, everybody in the hub, also organisations in no community."
    )
    wanted = f"Replaces incident {number}, revision 1, by csirt.example.com replace says (TLP:CLEAR, in it also TLP:RED){reach} All its permissions are removed, and its recipients stay. | Replace the report"
    trial.check("a Replace says whom it reaches", trial.says(REPLACE) == wanted, trial.says(REPLACE))
    trial.fill(REPLACE, {"All permissions": True})
    trial.done("and the answer tells the same", f"Replaced by revision 2{reach}")


def enter_too_early(trial: Trial) -> None:
    """Enter behind whom a class is for, before its end."""
    browser = trial.browser
    number = posted(trial, "enter too early", 3)
    path = f"/incidents/{number}/grant"
    browser.click(f"[aria-label='Share or restrict {SECOND}']")
    browser.keys(ENTER)
    at = browser.run("return document.activeElement.ariaLabel")
    trial.check("an Enter behind the class leads to whom it is for", at == "To: what kind", at)
    browser.keys("o", TAB, "4", ENTER)
    browser.settle()
    trial.check("a class isn't permitted by an Enter before its end", trial.sent("POST", path) == 0, trial.origin.forms("POST", path))
    trial.check_has("which is told", browser.text("#refused"), "\u201cwithout an end\u201d or \u201cto a moment\u201d", "Nothing was sent.")
    browser.keys(SPACE, ENTER)
    browser.settle()
    trial.done("and is then", f"Permitted {SECOND} to University (organisation 4), without an end.")
    browser.keys(ENTER, ENTER)
    browser.settle()
    trial.check("an Enter more sends nothing", trial.sent("POST", path) == 1, trial.origin.forms("POST", path))


def end_of_another(trial: Trial) -> None:
    number = posted(trial, "end of another", 3)
    for place, given, told in ((FIRST, {}, "without an end"), (SECOND, {"Up to": "2035-01-15T00:00"}, "until 2035-01-15 00:00")):
        other = SECOND if place == FIRST else FIRST
        trial.permit({"Class": place, "To": ["org", "3"], **given})
        trial.done(f"a class is permitted {told}", f"Permitted {place} to Telco (organisation 3), {told}")
        sent = trial.sent("POST", f"/incidents/{number}/grant")
        trial.browser.click(f"[aria-label='Share or restrict {other}']")
        held = [trial.held(PERMIT, words) for words in ("without an end", "to a moment", "Up to")]
        trial.check("another class hasn't the end of the one before", held == [False, False, ""], held)
        trial.fill(PERMIT, {"To": ["org", "4"]})
        trial.check("and isn't permitted without one", trial.sent("POST", f"/incidents/{number}/grant") == sent, trial.origin.forms("POST", f"/incidents/{number}/grant")[-1])


def permit_says(trial: Trial) -> None:
    number = posted(trial, "permit says", 3)
    trial.put(PERMIT, {"Class": SECOND, "To": ["org", "4"], "without an end": True})
    wanted = f"Permits {SECOND} of incident {number}, revision 1, to University (organisation 4), without an end."
    trial.check_has("a permission says class, revision, grantee and end", trial.says(PERMIT), wanted)
    trial.put(PERMIT, {"To": ["community", "4"]})
    trial.check_has("and what a wrong key makes of it", trial.says(PERMIT), "revision 1, to community 4, without an end.")
    trial.put(ADDRESS, {"To": ["org", "4"]})
    wanted = "Addresses University (organisation 4): its nominated persons are cleared for TLP:AMBER+STRICT, those of its clients for TLP:AMBER, "
    wanted += f"of incident {number}, revision 1 and later ones."
    trial.check_has("an address says whom it clears for what", trial.says(ADDRESS), wanted)
    trial.put(WITHDRAW, {"Class": SECOND, "From": ["org", "4"]})
    wanted = f"Withdraw a permission: incident {number}, path {SECOND}, University (organisation 4)."
    trial.check_has("and a withdrawal of what, from whom", trial.says(WITHDRAW), wanted)
    trial.go("#groups")
    trial.put("Add a member to a group", {"Group": "1", "Organisation": "4", "May it": "1"})
    wanted = "Add a member to a group: phishing (sharing group 1), University (organisation 4), extend 1."
    trial.check_has("each other form says what it is about to do", trial.says("Add a member to a group"), wanted)


def colleague(trial: Trial) -> None:
    """A colleague exchanges two parts while a form for the first one is open."""
    browser = trial.browser
    for title, values in ((PERMIT, {"To": ["org", "4"], "without an end": True}), (DISTRIBUTE, {"a class": True, LEVEL: "3"})):
        name = f"colleague at {title}"
        number = posted(trial, name, 1)
        trial.circle.ask("bank", "POST", f"/incidents/{number}/gate", [("revision", 1), ("path", ""), ("level", 3)])
        trial.put(title, {"Class": FIRST, **values})
        exchanged(trial, number, name)
        trial.fill(title, {})
        trial.refused(f"{title}, of a class that a colleague has moved", "S3", "somebody has replaced the report", "It is at revision 2 now.")
        trial.click("#refused button")
        trial.check_has("the other revision is read", browser.text("#report"), "revision 2")
        trial.check("the class isn't kept, as another may be there", trial.held(title, "Class") == "", trial.held(title, "Class"))
        trial.fill(title, {"Class": FIRST, **values})
        trial.refused("the form keeps the revision that it was begun with", "S3", "It is at revision 2 now.")
        form = browser.text(f"form[aria-label='{title}']")
        trial.check_has("and says so", form, "This form was begun with revision 1, and revision 2 is shown now: it is refused as it stands.")
        trial.check("nobody was served the victims", "the victims" not in served(trial, "university", number))
        browser.click(f"[aria-label='Share or restrict {SECOND}']")
        trial.fill(title, {})
        trial.done("a class that is chosen in the other revision is of that one", f"{SECOND}")
        trial.check_has("which is sent", trial.origin.forms("POST", f"/incidents/{number}/{'grant' if title == PERMIT else 'gate'}")[-1]["revision"], "2")


def colleague_at_replace(trial: Trial) -> None:
    """What was typed for revision 1 doesn't overwrite revision 2 in silence."""
    browser = trial.browser
    number = posted(trial, "colleague at replace", 3)
    mine = report(incident("colleague at replace", EventData=PARTS, Description=["mine"])).decode()
    chosen: dict[str, object] = {"any community": True, "no part": True, LEVEL: "3", "All permissions": True}
    trial.put(REPLACE, {"or its text": mine, **chosen})
    exchanged(trial, number, "colleague at replace")
    trial.go("#groups")
    trial.go(f"#incidents/{number}")
    trial.check_has("the other revision is shown", browser.text("#report"), "revision 2; you read revision 1 before")
    trial.fill(REPLACE, {})
    trial.refused("the form is still for the revision that it was begun with", "S3", "It is at revision 2 now.")
    revision = trial.circle.ask("bank", "GET", f"/incidents/{number}")["revision"]
    trial.check("and overwrites nothing", revision == 2, revision)
    browser.run(TAKE_UP, REPLACE)
    trial.check_has("its reader says that the other was looked at", trial.says(REPLACE), f"Replaces incident {number}, revision 2, ")
    trial.fill(REPLACE, {})
    trial.done("and replaces it", "Replaced by revision 3")
    number = posted(trial, "untouched", 3)
    exchanged(trial, number, "untouched")
    trial.go("#groups")
    trial.go(f"#incidents/{number}")
    trial.fill(REPLACE, {"or its text": report(incident("untouched")).decode(), **chosen})
    trial.done("a form with nothing in it is for the revision that is shown", "Replaced by revision 3")


def colleague_at_address(trial: Trial) -> None:
    """The hub takes no revision when somebody is addressed: the page asks for it first."""
    number = posted(trial, "colleague at address", 3)
    path = f"/incidents/{number}/address"
    trial.put(ADDRESS, {"To": ["person", "4"]})
    exchanged(trial, number, "colleague at address")
    trial.fill(ADDRESS, {})
    trial.refused("an address of a report that was replaced meanwhile", "S3", "It is at revision 2 now.")
    trial.check("isn't sent", trial.sent("POST", path) == 0)
    trial.click("#refused button")
    trial.browser.run(TAKE_UP, ADDRESS)
    trial.fill(ADDRESS, {})
    trial.done("and is, once its reader has looked at it", "Addressed Cleo (person 4).")


def two_windows(trial: Trial) -> None:
    """The same analyst in two windows: what was done in one is no news of the other's forms."""
    browser = trial.browser
    number = posted(trial, "two windows", 3)
    trial.put(PERMIT, {"Class": FIRST, "To": ["org", "4"], "without an end": True})
    trial.put(ADDRESS, {"To": ["person", "4"]})
    first = browser.call("GET", "/window")
    trial.note()
    second = browser.call("POST", "/window/new", {"type": "tab"})["handle"]
    browser.call("POST", "/window", {"handle": second})
    browser.open(trial.origin.address)
    browser.put("#key", "bank-key")
    browser.keys(ENTER)
    browser.settle()
    trial.go(f"#incidents/{number}")
    text = report(incident("two windows", EventData=PARTS[::-1])).decode()
    trial.fill(REPLACE, {"or its text": text, "any community": True, "no part": True, LEVEL: "3", "All permissions": True})
    trial.done("a report is replaced in a second window", "Replaced by revision 2")
    trial.note()
    browser.call("DELETE", "/window")
    browser.call("POST", "/window", {"handle": first})
    trial.fill(PERMIT, {})
    trial.refused("the form in the first one is of the revision before", "S3", "It is at revision 2 now.")
    trial.fill(ADDRESS, {})
    trial.refused("and so is one that names no class", "S3", "It is at revision 2 now.")
    trial.check("nobody was served the victims", "the victims" not in served(trial, "university", number))


def enter_everywhere(trial: Trial) -> None:
    """Behind each control of each form an Enter: nothing is sent before the form has said what it is about to do."""
    number = posted(trial, "enter everywhere", 3)
    body = report(incident("enter everywhere")).decode()
    for who, pane, count in (("bank", f"#incidents/{number}", 6), ("bank", "#post", 1), ("bank", "#groups", 8), ("admin", "#circle", 10)):
        trial.enter(who)
        trial.go(pane)
        found = trial.browser.run(EARLY, body)
        early = [(title, controls) for title, controls, _ in found if controls]
        trial.check(f"no form of {who} at {pane.split('/')[0]} sends what it didn't say", early == [], early)
        idle = [title for title, _, sent in found if sent == 0]
        trial.check(f"and each of {count} sends once it is whole", len(found) == count and idle == [], (len(found), idle))


def back_and_forth(trial: Trial) -> None:
    browser = trial.browser
    number = posted(trial, "back and forth", 3)
    trial.put(PERMIT, {"Class": SECOND, "To": ["org", "4"], "without an end": True})
    trial.put(DISTRIBUTE, {"a class": True, "Class": SECOND})
    before = len(changes(trial))
    trial.go("#incidents/1")
    trial.check("the forms of another report are empty", [trial.held(PERMIT, "Class"), trial.held(PERMIT, "To")] == ["", ["", ""]])
    browser.run("history.back()")
    browser.wait("document.getElementById('head').innerText.includes(arguments[0])", f"Incident {number}")
    browser.settle()
    held = [trial.held(title, words) for title, words in ((PERMIT, "Class"), (PERMIT, "without an end"), (DISTRIBUTE, "a class"), (WITHDRAW, "Class"))]
    trial.check("and so are those of the first, when it is opened again", held == ["", False, False, ""], held)
    trial.fill(PERMIT, {})
    trial.fill(DISTRIBUTE, {LEVEL: "3"})
    trial.check("so nothing is sent", len(changes(trial)) == before, changes(trial)[before:])
