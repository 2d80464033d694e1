"""What the page shows of a report that is about to be posted, compared with what the program's own `mark` reads."""

import json
import pathlib

from saving import saved
from trial import EXAMPLES, FORM, POST, REPLACE, Trial, incident, report
from writing import marked_by

LOOK = "What is about to be posted"
FIELDS: dict[str, object] = {"any community": True, "Who may get it": "3", "Levels of single": "", "or its text": ""}

# Puts values into the form of this title as FILL does, and doesn't hand it in; opens what shows the report.
PUT = f"const form = {FORM};" """
const [title, values] = arguments;
for (let above = form; above; above = above.parentElement) if (above.tagName === 'DETAILS') above.open = true;
for (const [words, value] of Object.entries(values)) {
  const label = [...form.querySelectorAll('label')].find(one => one.textContent.trim().startsWith(words));
  const control = label.control || label.querySelector('input');
  if (control.type === 'radio') control.checked = value; else control.value = value;
  for (const kind of ['input', 'change']) control.dispatchEvent(new Event(kind, { bubbles: true }));
}
[...form.querySelectorAll('details')].find(one => one.innerText.startsWith('What is about')).open = true;
"""
ROWS = """
return [...document.querySelectorAll(arguments[0] + ' .marks tbody tr')].map(row => [
  row.querySelector('.where').textContent, row.cells[1].innerText.replace(/\\s+/g, ' '), row.cells[2].innerText, row.cells[3].innerText]);
"""

COMMAND = "return document.querySelector('#pane .preview')?.textContent"


def odd() -> bytes:
    """Labels and names in each form that the hub takes, out of their stored order."""
    signs = "a\u2028\u007f\u001b\"\\/\u00e9\U0001f600<b>"
    texts = ("tlp:green", "TLP:AMBER", "TLP:amber+strict", "tlp:white", "TLP:RED", "red", "", signs)
    parts = [{"restriction": "ext-value", "ext-restriction": text} for text in texts]
    names = ("public", "white", "partner", "green", "need-to-know", "amber", "private", "red", "default")
    plain = [{"restriction": name, "ext-restriction": "TLP:CLEAR"} for name in names]
    members = ("\uffff", "\U0001f600", "10", "9", "__proto__", "constructor", "a~b/c", "<img src=x onerror=window.hit=1>")
    strange: dict[str, object] = {name: {"a": [{"b": {}}, 1, {}]} for name in members}
    one = incident("odd", Many=parts + plain + [{"x": "y"}], Last={"Deep": [{"Deeper": {}}]}, **strange)
    del one["restriction"]
    whole = {"z": {"q": {"restriction": "green", "r": {}}}, "Beside": [{"s": {}}], "Incident": [one, incident("second")]}
    return json.dumps(whole).encode()


def show(trial: Trial, title: str, values: dict[str, object], pane: str = "#pane") -> list[list[str]]:
    trial.browser.run(PUT, title, FIELDS | values if title == POST else values)
    trial.browser.wait("false", seconds=0.4)
    found: list[list[str]] = trial.browser.run(ROWS, pane)
    return found


def looking(trial: Trial, folder: pathlib.Path) -> None:
    browser = trial.browser
    into = folder / "looked"
    into.mkdir()
    browser.save_into(into)
    trial.enter("bank")
    trial.go("#post")
    examples = [path.read_bytes() for path in sorted(EXAMPLES.glob("*.json"))]
    for body in (*examples, odd(), report(incident("plain"))):
        text = body.decode()
        name = json.loads(text)["Incident"][0]["IncidentID"]["id"]
        rows = show(trial, POST, {"or its text": text})
        status, lines = marked_by(trial.circle.program, text)
        first = [[path, handling] for path, _, handling, _ in lines]
        shown = [[place, handling] for place, _, handling, _ in rows][: len(first)]
        trial.check(f"the classes of {name} are shown with their handling as mark reads them", status == 0 and shown == first and first != [], rows)
        browser.run("[...document.querySelectorAll('#pane button')].find(one => one.textContent === 'Save report.marks').click()")
        told = "".join(json.dumps(line, ensure_ascii=False, separators=(",", ":")) + "\n" for line in lines).replace("\\u007f", "\x7f")
        trial.check("and saved line for line as mark prints them", saved(into, "report.marks") == told, saved(into, "report.marks"))
        (into / "report.marks").unlink(missing_ok=True)
    two = show(trial, POST, {"or its text": odd().decode()})
    _, second = marked_by(trial.circle.program, odd().decode(), "--incident", "1")
    last = [[row[0], row[2]] for row in two][-len(second) :]
    trial.check("each Incident has a table of its own", last == [[line[0], line[2]] for line in second], two)
    trial.no_markup("a report that is about to be posted")
    levels(trial)
    wrongs(trial)
    trial.go("#incidents/1")
    again = {"or its text": report(incident("again")).decode(), "Who may get it": "1"}
    rows = show(trial, REPLACE, again | {"these parts": True, "Levels of": "0:0:/Incident/0/Contact/0"}, "#report")
    wanted = ["level 1", "level 1; level 0 at /Incident/0/Contact/0", "level 1"]
    trial.check("a new revision is shown too", [row[3] for row in rows] == wanted, rows)
    trial.go("#incidents/2")
    trial.go("#post")


def levels(trial: Trial) -> None:
    phishing = (EXAMPLES / "phishing.json").read_text()
    event, record = "/Incident/0/EventData/1", "/Incident/0/EventData/1/Record"
    given: dict[str, object] = {"or its text": phishing, "Levels of single": f"4:1:{event}\n0:0:{record}"}
    rows = show(trial, POST, given | {"Who may get it": ""})
    seen = {row[0]: row[3] for row in rows}
    trial.check("a level that isn't chosen is told", seen["/Incident/0"] == "no level is chosen yet", seen)
    asks(trial, "without a level", f"LEVEL --gate 4:1:{event} --gate 0:0:{record}")
    rows = show(trial, POST, given)
    seen = {row[0]: row[3] for row in rows}
    group = f"level 3; level 4, phishing (sharing group 1) at {event}"
    found = [seen[place] for place in ("/Incident/0", "/Incident/0/EventData/0", event)]
    trial.check("each class has the levels on its way", found == ["level 3", "level 3", group], seen)
    trial.check("from that of the report down", seen[record] == f"{group}; level 0 at {record}", seen)
    asks(trial, "with the levels of parts", f"3 --gate 4:1:{event} --gate 0:0:{record}")
    labels = {row[0]: row[1] for row in rows}
    found = [labels[place] for place in ("/Incident/0", "/Incident/0/Contact/0", event)]
    wanted = ["TLP:GREEN", "TLP:GREEN \u2191", "TLP:AMBER+STRICT need-to-know"]
    trial.check("and its label, with an arrow where it comes from above", found == wanted, labels)
    rows = show(trial, POST, {"or its text": phishing, "Who may get it": "4", "Sharing group": "phishing"})
    trial.check("a group that is chosen by name", {row[3] for row in rows} == {"level 4, phishing (sharing group 1)"}, rows[:2])
    asks(trial, "with a group that is chosen by name", "4 --group 1")
    trial.picture("look")
    show(trial, POST, {"or its text": phishing, "community N": True, "Community": "payments", "Levels of single": "0:0:/Incident/0/it's"})
    asks(trial, "with a community, and a place in quotes", "3 --community 1 --gate '0:0:/Incident/0/it'\\''s'")
    show(trial, POST, {"or its text": phishing, "community N": True, "Community": ""})
    asks(trial, "with a community that isn't given yet", "3 --community N")


def asks(trial: Trial, what: str, words: str) -> None:
    told = trial.browser.run(COMMAND)
    trial.check(f"the command that asks the engine, {what}", told == f"iodef-hub-ask preview report.json {words} --for everyone", told)


def wrongs(trial: Trial) -> None:
    browser = trial.browser
    for text, words in (
        ("", "There is no report yet."), ("{", "This is not valid JSON."), ("[1]", "There is no Incident in it."),
        ('{"a":' * 60 + "{}" + "}" * 60, "There is no Incident"),
    ):  # fmt: skip
        show(trial, POST, {"or its text": text})
        trial.check_has(f"of {text[:12] or 'nothing'} it is told that it is none", browser.text("#pane form details"), words)
    deep = report(incident("deep", Deep=json.loads('{"a":' * 60 + "{}" + "}" * 60))).decode()
    show(trial, POST, {"or its text": deep})
    trial.check_has("a report that is nested too deep", browser.text("#pane form details"), "nested too deep")
    bad: tuple[dict[str, object], ...] = (
        {"restriction": "pink"}, {"restriction": "ext-value"}, {"ext-restriction": "TLP:RED"}, {"restriction": ["green"]},
        {"restriction": "green", "ext-restriction": 1}, {"restriction": None},
    )  # fmt: skip
    for members in bad:
        text = report(incident("bad", Contact=[members | {"role": "creator"}])).decode()
        rows = show(trial, POST, {"or its text": text})
        status, _ = marked_by(trial.circle.program, text)
        told = {row[0]: row[1] for row in rows}["/Incident/0/Contact/0"]
        is_refused = status != 0 and told.startswith("none that the hub knows")
        trial.check(f"{json.dumps(members)} is no label, to the page and to the program", is_refused, (status, told))
    show(trial, POST, {"or its text": report(incident("x")).decode(), "Levels of single": "0:0:/Incident/0/Contact/9"})
    words = "There is no class at /Incident/0/Contact/9: the hub refuses this gate."
    trial.check_has("a level of no class is told", browser.text("#pane form details"), words)
    show(trial, POST, {})
