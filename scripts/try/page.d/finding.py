"""What helps to find, to copy and to notice: the list beside a report, capitals, commands, labels of indicators, labels that are given twice."""

import json
import pathlib
import subprocess

from browser import ENTER
from looking import COMMAND, show
from trial import EXAMPLES, FORM, NAMES, POST, REPLACE, Trial, incident, report

TWICE = "[...({}).querySelectorAll('.wrong')].find(one => one.innerText.startsWith('One object has a label twice'))"


def finding(trial: Trial, folder: pathlib.Path) -> None:
    trial.browser.save_into(folder)  # so that what is copied can be read back
    for each in (row_in_sight, capitals, whole_command, labels_of_indicators, labels_twice, nothing_twice, twice_in_replace):
        each(trial)


def row_in_sight(trial: Trial) -> None:
    """A click far down a long list opens its report, and leaves the row where it is seen."""
    browser = trial.browser
    trial.origin.listed = [1, *range(5001, 5071)]
    trial.enter("bank")
    browser.run("document.querySelectorAll('#found a')[70].scrollIntoView()")
    browser.click("#found a[data-number='1']")
    browser.settle()
    browser.wait("false", seconds=0.5)
    box = browser.run("const box = document.querySelector('#found a[data-number=\"1\"]').getBoundingClientRect(); return [box.top, box.bottom, innerHeight]")
    trial.check("a row behind 70 others stays in sight when its report is opened", 0 <= box[0] and box[1] <= box[2], box)
    head = browser.run("return document.getElementById('head').getBoundingClientRect().top")
    trial.check("beside the head of the report", 0 <= head <= 400, head)
    tall = browser.run("return document.querySelector('.side').getBoundingClientRect().height")
    trial.check("and the list is no longer than the window", tall < 900, tall)
    trial.origin.listed = None


def capitals(trial: Trial) -> None:
    browser = trial.browser
    body = report(incident("capitals", Description=["LockBit 3.0"]))
    trial.circle.ask("bank", "POST", "/incidents", query=[("level", 3)], report=body)
    trial.enter("bank")
    trial.check_has("a search says that it minds capitals", browser.text("#search label"), "capitals as written")
    for needle, told in (("lockbit", "no incident with \u201clockbit\u201d, capitals as written"), ("LockBit", "1 incident with \u201cLockBit\u201d, capitals as written")):
        browser.put("#needle", needle)
        browser.click("#search .ask button")
        browser.settle()
        trial.check_has(f"and so when it has looked for {needle}", browser.text("#count"), told)
    for needle, other in (("lockBit", "LockBit"), ("LOCK", "lOCK"), ("LockBit", ""), ("99", "")):
        browser.put("#needle", needle)
        browser.click("#search .ask button")
        browser.settle()
        offered = browser.texts("#count button")
        wanted = [f"Search for \u201c{other}\u201d"] if other else []
        trial.check(f"behind {needle} the other first letter is offered, if nothing was found and there is one", offered == wanted, offered)
    browser.put("#needle", "lockBit")
    browser.keys(ENTER)
    browser.settle()
    trial.click("#count button")
    told = [browser.text("#count"), browser.run("return [document.activeElement.id, document.activeElement.value]")]
    trial.check("and searched for by its button", told[0].startswith("1 incident with \u201cLockBit\u201d") and told[1] == ["needle", "LockBit"], told)
    browser.put("#needle", "")


def whole_command(trial: Trial) -> None:
    """The command is not cut at the edge, and the same is copied."""
    browser = trial.browser
    trial.enter("bank")
    trial.go("#post")
    deep = "/Incident/0/EventData/0/Flow/0/System/0/Node/Address/0"
    gates = "\n".join(f"{level}:0:{deep}" for level in (0, 1, 2))
    show(trial, POST, {"or its text": (EXAMPLES / "phishing.json").read_text(), "community N": True, "Community": "payments", "Levels of single": gates})
    wanted = f"iodef-hub-ask preview report.json 3 --community 1 --gate 0:0:{deep} --gate 1:0:{deep} --gate 2:0:{deep} --for everyone"
    trial.check("the command asks for every kind of reader", browser.run(COMMAND) == wanted, browser.run(COMMAND))
    for width in (1280, 390):
        browser.size(width, 900)
        cut = browser.run("return [...document.querySelectorAll('#pane pre')].filter(one => one.checkVisibility() && one.scrollWidth > one.clientWidth).length")
        trial.check(f"at {width} pixels no command is cut", cut == 0, cut)
    browser.size(1280, 900)
    browser.run("[...document.querySelectorAll('#pane .preview ~ .row button')].find(one => one.innerText === 'Copy the command').click()")
    trial.done("it is copied", "Copied: the command.")
    trial.check("as it stands", browser.copied() == wanted, browser.copied())
    show(trial, POST, {})


def labels_of_indicators(trial: Trial) -> None:
    """Each line ends with the label that holds at its class: written there, or above."""
    def bulk(value: str) -> dict[str, object]:
        return {"Observable": {"BulkObservable": {"type": "domain-name", "BulkObservableList": [value]}}}

    marks: tuple[tuple[dict[str, object], str], ...] = (
        ({}, "TLP:GREEN"), ({"restriction": "red"}, "TLP:RED"), ({"restriction": "amber"}, "TLP:AMBER+STRICT"), ({"restriction": "public"}, "TLP:CLEAR"),
        ({"restriction": "ext-value", "ext-restriction": "tlp:amber"}, "TLP:AMBER"), ({"restriction": "ext-value", "ext-restriction": "none of TLP"}, "TLP:RED"),
        ({"restriction": "default"}, "as arranged, else TLP:RED"),
    )  # fmt: skip
    listed = [members | bulk(f"{place}.example") for place, (members, _) in enumerate(marks)]
    body = report(incident("labels of indicators", restriction="green", Indicator=listed))
    number = trial.circle.ask("bank", "POST", "/incidents", query=[("level", 3)], report=body)["numbers"][0]
    script = "return document.querySelector('#report textarea[readonly]').value"
    place = "/Incident/0/Indicator/{}/Observable/BulkObservable"
    trial.enter("bank")
    trial.go(f"#incidents/{number}")
    lines = str(trial.browser.run(script)).splitlines()
    wanted = [f"domain-name\t{at}.example\t{place.format(at)}\tindicator\t{label}" for at, (_, label) in enumerate(marks)]
    trial.check("each indicator has its label, for its source", lines == wanted, lines)
    trial.enter("telco")
    trial.go(f"#incidents/{number}")
    lines = str(trial.browser.run(script)).splitlines()
    wanted = [f"domain-name\t{at}.example\t{place.format(here)}\tindicator\t{label}" for here, (at, label) in enumerate(((0, "TLP:GREEN"), (3, "TLP:CLEAR")))]
    trial.check("and for a partner", lines == wanted, lines)


def warned(trial: Trial, title: str = POST) -> str:
    trial.browser.wait("false", seconds=0.5)
    return str(trial.browser.run(f"const there = {TWICE.format(FORM)}; return there && there.checkVisibility() ? there.innerText : ''", title))


def twice(name: str, members: str) -> str:
    """A report whose first Contact has these members too."""
    text = report(incident(name)).decode()
    return text.replace('"role": "creator"', f'"role": "creator", {members}')


def labels_twice(trial: Trial) -> None:
    browser = trial.browser
    trial.enter("bank")
    trial.go("#post")
    place = "/Incident/0/Contact/0"
    cases = (
        ('"restriction": "red", "restriction": "white"', f"restriction at {place}: red, white. What holds is white."),
        ('"restriction": "white", "x": ["a", {"restriction": "red"}, 1], "restr\\u0069ction" : "red"', f"restriction at {place}: white, red. What holds is red."),
        (
            '"restriction": "ext-value", "ext-restriction": "TLP:RED", "ext-restriction": "TLP:CLEAR"',
            f"ext-restriction at {place}: TLP:RED, TLP:CLEAR. What holds is TLP:CLEAR.",
        ),
        ('"restriction":"green","restriction":"red","restriction":"green"', f"restriction at {place}: green, red, green. What holds is green."),
        ('"restriction": "red", "a": {"b/~": [{}, {"restriction": 1, "restriction": "amber"}]}', f"restriction at {place}/a/b~1~0/1: 1, amber. What holds is amber."),
    )
    for number, (members, wanted) in enumerate(cases):
        text = twice(f"twice {number}", members)
        trial.put(POST, {"or its text": text, "any community": True, "Who may get it": "3"})
        trial.check_has(f"a label that is there twice is told, with the one that holds, {number}", warned(trial), wanted)
        before = trial.sent("POST", "/incidents")
        trial.fill(POST, {})
        trial.check("and the report isn't sent before that is confirmed", trial.sent("POST", "/incidents") == before)
        marked = subprocess.run([trial.circle.program, "mark"], input=text.encode(), capture_output=True).stdout.decode()
        lines = [json.loads(line) for line in marked.splitlines()]
        held = wanted.rsplit(" ", 1)[1].removesuffix(".")
        told = wanted.split(" at ")[1].split(": ")[0]
        found = [spelling for path, spelling, *_ in lines if path == told]
        trial.check("the program reads the one that is told", found != [] and found[0].removeprefix("ext-value ") == held, lines)
    trial.fill(POST, {"Yes, the last one": True})
    trial.done("it is sent once that is confirmed", "Posted as incident")
    trial.check("the warning goes with the report", warned(trial) == "")
    # Handed in at once, before the page has looked.
    browser.run("window.setTimeout = () => 0")
    before = trial.sent("POST", "/incidents")
    trial.fill(POST, {"or its text": twice("at once", '"restriction": "red", "restriction": "white"'), "any community": True, "Who may get it": "3"})
    trial.check("a report that is handed in at once isn't sent either", trial.sent("POST", "/incidents") == before)
    trial.check_has("but told", browser.text("#refused"), "has a label twice in one object", "Nothing was sent.")
    trial.load()


def nothing_twice(trial: Trial) -> None:
    """What has no label twice is told nothing of, behind what has one."""
    trial.origin.names = json.dumps(NAMES).encode()
    trial.enter("bank")
    trial.go("#post")
    for text in (
        twice("once", '"restriction": "red", "x": {"restriction": "red"}, "y": [{"restriction": "red"}, {"restriction": "white"}]'),
        twice("value", '"a": "restriction", "b": "restriction", "c": ["restriction", "restriction"]'), twice("other", '"purpose": 1, "purpose": 2'),
        '{"restriction": "red", "restriction": "white"', "", "{", "[]", '"\\"restriction\\""',
    ):  # fmt: skip
        trial.put(POST, {"or its text": twice("before", '"restriction": "red", "restriction": "white"')})
        trial.check_has("a label is twice", warned(trial), "What holds is white.")
        trial.put(POST, {"or its text": text})
        trial.check(f"and none is in {text[:24] or 'nothing'}", warned(trial) == "", warned(trial))
    trial.put(POST, {"or its text": ""})


def twice_in_replace(trial: Trial) -> None:
    body = report(incident("twice again"))
    number = trial.circle.ask("bank", "POST", "/incidents", query=[("level", 3)], report=body)["numbers"][0]
    trial.enter("bank")
    trial.go(f"#incidents/{number}")
    chosen: dict[str, object] = {"any community": True, "no part": True, "Who may get it": "3", "All permissions": True}
    trial.fill(REPLACE, {"or its text": twice("twice again", '"restriction": "red", "restriction": "white"'), **chosen})
    trial.check("a Replace with a label twice isn't sent", trial.sent("PUT", f"/incidents/{number}") == 0)
    trial.check_has("but told", warned(trial, REPLACE), "What holds is white.")
    trial.fill(REPLACE, {"Yes, the last one": True})
    trial.done("and is sent once it is confirmed", "Replaced by revision 2")
