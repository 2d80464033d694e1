"""One trial of the page: the browser, the circle and the origin, what was checked, and how a form is filled in."""

import json
import pathlib
import typing

from browser import ENTER, Browser
from circle import KEYS, Circle
from origin import Origin

TOP = pathlib.Path(__file__).resolve().parent.parent.parent.parent
EXAMPLES = TOP / "docs" / "examples"
NAMES = {
    "orgs": {"1": "Hub", "2": "Bank", "3": "Telco", "4": "University"},
    "persons": {"2": "Ada", "3": "Ben", "4": "Cleo", "5": "Dan"},
    "communities": {"1": "payments"},
    "groups": {},
}

# The form of this title.
FORM = "[...document.querySelectorAll('main form')].find(one => [one.ariaLabel, one.querySelector('button.main')?.textContent].includes(arguments[0]))"

# Fills the form of this title, by the words that its labels begin with, and hands it in. Returns the words of which there is no label.
FILL = f"const form = {FORM};" """
const [title, values] = arguments;
const missing = [];
for (let above = form; above; above = above.parentElement) if (above.tagName === 'DETAILS') above.open = true;
const put = (control, value) => {
  if (['checkbox', 'radio'].includes(control.type)) control.checked = value; else control.value = value;
  control.dispatchEvent(new Event('change', { bubbles: true }));
};
for (const [words, value] of Object.entries(values)) {
  const label = [...form.querySelectorAll('label, legend')].find(one => one.textContent.trim().startsWith(words));
  if (!label) {
    missing.push(words);
  } else if (label.tagName === 'LEGEND') {
    put(label.parentNode.querySelector('select'), value[0]);
    put(label.parentNode.querySelector('input'), value[1]);
  } else put(label.control || label.querySelector('input'), value);
}
form.requestSubmit();
return missing;
"""

# What the controls of the form of this title hold, by the words that its labels begin with.
HELD = f"const form = {FORM};" """
const held = {};
for (const label of form.querySelectorAll('label, legend')) {
  const controls = label.tagName === 'LEGEND' ? [...label.parentNode.querySelectorAll('select, input')] : [label.control];
  const values = controls.filter(Boolean).map(one => ['checkbox', 'radio'].includes(one.type) ? one.checked : one.value);
  held[label.textContent.trim()] = label.tagName === 'LEGEND' ? values : values[0];
}
return held;
"""

# Says in the form of this title that the revision that is shown was looked at, if it asks that.
TAKE_UP = f"[...({FORM}).querySelectorAll('p.wrong button')].find(one => one.checkVisibility())?.click()"

# Elements and attributes that a served text could only have brought in as markup.
FOREIGN = """
const tags = ['IMG', 'SVG', 'IFRAME', 'OBJECT', 'EMBED', 'B', 'SCRIPT', 'STYLE', 'LINK', 'META', 'BASE', 'VIDEO', 'AUDIO'];
const found = [];
for (const node of document.querySelectorAll('body *')) {
  if (tags.includes(node.tagName.toUpperCase()) && node !== document.querySelector('body > script')) found.push(node.tagName);
  for (const { name } of node.attributes) if (name.startsWith('on') || ['style', 'srcdoc', 'src'].includes(name)) found.push(name);
  if (node.tagName === 'A' && !/^#[a-z]+(\\/[0-9]+)?$/.test(node.getAttribute('href'))) found.push(node.getAttribute('href'));
}
return found;
"""

# The titles of forms
PERMIT, WITHDRAW, DISTRIBUTE = "Permit a class to somebody", "Withdraw a permission", "Set a gate"
REPLACE, POST = "Replace the report", "Post a report"


def incident(name: str, **members: object) -> dict[str, object]:
    """An Incident with what IODEF wants, for everybody where no other label is given."""
    return {
        "purpose": "reporting",
        "restriction": "white",
        "GenerationTime": "2026-04-16T10:02:11Z",
        "IncidentID": {"id": name, "name": "csirt.example.com"},
        "Contact": [{"role": "creator", "type": "organization", "ContactName": ["CSIRT of Example"]}],
        **members,
    }


def report(*incidents: dict[str, object]) -> bytes:
    return json.dumps({"version": "2.0", "Incident": incidents}).encode()


class Trial:
    def __init__(self, circle: Circle, origin: Origin, browser: Browser, pictures: pathlib.Path | None) -> None:
        self.circle = circle
        self.origin = origin
        self.browser = browser
        self.pictures = pictures
        self.passed = 0
        self.failed = 0
        self.console: list[str] = []
        self.breaches: list[str] = []

    def check(self, what: str, held: bool, seen: object = "") -> None:
        if held:
            self.passed += 1
            print(f"ok: {what}", flush=True)
        else:
            self.failed += 1
            print(f"FAILED: {what}; seen: {str(seen)[:600]}", flush=True)

    def check_has(self, what: str, text: str, *wanted: str) -> None:
        missing = [one for one in wanted if one not in text]
        self.check(what, not missing, f"without {missing}: {text}")

    def note(self) -> None:
        """Takes down what the browser told of faults, before the page goes."""
        self.console += self.browser.console()
        self.breaches += self.browser.run("return window.breaches || []")

    def picture(self, name: str) -> None:
        if self.pictures is not None:
            self.browser.picture(self.pictures / f"{name}.png")

    def picture_for_readme(self, name: str, folded: str = "none") -> None:
        """One of those in docs/images: a window of this size, with what a selector names folded."""
        if self.pictures is None:
            return
        self.browser.size(1160, 820)
        self.browser.run(
            "document.querySelector('#search details').open = false;"
            "document.getElementById('report').classList.remove('places');"
            "for (const details of document.querySelectorAll(arguments[0])) details.open = false; scrollTo(0, 0);"
            "document.querySelector('.side').scrollTop = 0;",
            folded,
        )
        self.browser.picture(self.pictures / f"{name}.png", is_whole=False)
        self.browser.size(1280, 900)

    def load(self) -> None:
        self.note()
        self.browser.open(self.origin.address)

    def enter(self, who: str) -> None:
        if self.browser.texts("#forget"):
            self.browser.click("#forget")
        self.go("")
        self.browser.put("#key", KEYS.get(who, who))
        self.browser.keys(ENTER)
        self.browser.settle()

    def go(self, address: str) -> None:
        self.browser.run("location.hash = arguments[0]", address)
        self.browser.settle()

    def fill(self, title: str, values: typing.Mapping[str, object]) -> None:
        """Fills a form, and hands it in. A field that isn't there is a check that failed, and the others are filled."""
        self.filled(FILL, title, values)
        self.browser.settle()

    def put(self, title: str, values: typing.Mapping[str, object]) -> None:
        """Fills a form, and doesn't hand it in."""
        self.filled(FILL.replace("form.requestSubmit();", ""), title, values)

    def filled(self, script: str, title: str, values: typing.Mapping[str, object]) -> None:
        for words in self.browser.run(script, title, values):
            self.check(f"the form \u201c{title}\u201d has \u201c{words}\u201d", False)

    def click(self, selector: str) -> None:
        """Clicks on an element. One that isn't there is a check that failed."""
        if self.browser.count(selector):
            self.browser.click(selector)
        else:
            self.check(f"{selector} is there to be clicked", False, self.browser.text("#said"))
        self.browser.settle()

    def says(self, title: str) -> str:
        """What the form of this title says that its button is about to do, and the button's words."""
        parts = self.browser.run(f"return [...({FORM}).querySelectorAll('.says, button.main')].map(one => one.textContent)", title)
        return " | ".join(parts)

    def permit(self, values: typing.Mapping[str, object]) -> None:
        """Permits a class, without an end where none is given."""
        self.fill(PERMIT, {"to a moment" if "Up to" in values else "without an end": True} | values)

    def set_whole(self, values: typing.Mapping[str, object]) -> None:
        """Sets the gate of the whole report, which is confirmed once its level is chosen."""
        self.fill(DISTRIBUTE, {"the whole report": True} | values)
        self.fill(DISTRIBUTE, {"Yes, the whole report": True})

    def post(self, values: typing.Mapping[str, object]) -> None:
        """Posts a report, for any community where none is given."""
        self.fill(POST, {"community N" if "Community" in values else "any community": True} | values)

    def row_is_read(self, number: int) -> bool:
        """Waits until the row of an incident tells more than numbers."""
        link = f"#found a[data-number='{number}']"
        # Rows above it grow when they are read.
        return self.browser.wait("(document.querySelector(arguments[0]).scrollIntoView(), document.querySelector(arguments[0] + ' .chip'))", link)

    def no_markup(self, what: str) -> None:
        found = self.browser.run(FOREIGN)
        self.check(f"no element comes of {what}, and no script ran", found == [] and self.browser.run("return window.hit === undefined"), found)

    def held(self, title: str, words: str) -> typing.Any:
        """What the control holds whose label begins with these words, in the form of this title."""
        held = self.browser.run(HELD, title)
        return next((value for label, value in held.items() if label.startswith(words)), None)

    def sent(self, method: str, path: str) -> int:
        """How many requests of this method and path were sent, whatever their query."""
        return sum(1 for each, target in self.origin.asked if each == method and target.split("?")[0] == path)

    def classes_of(self, who: str) -> int:
        """How many classes of incident 1 somebody is served."""
        return int(self.circle.ask(who, "GET", "/incidents/1").get("classes", 0))

    def refused(self, what: str, code: str, *words: str) -> None:
        self.browser.wait("document.getElementById('refused').innerText.includes(arguments[0])", f"({code})")
        self.check_has(f"{what}: {code} in plain words", self.browser.text("#refused"), f"({code})", *words)

    def done(self, what: str, *words: str) -> None:
        self.browser.wait("document.getElementById('done').innerText !== ''")
        text = self.browser.text("#done")
        self.check_has(what, text or f"refused: {self.browser.text('#refused')}", *(words or ("Done",)))

    def place_of(self, path: str) -> str:
        """What is seen of the class at a place of the excerpt, without what is below it."""
        script = """
        const item = [...document.querySelectorAll('.tree li')].find(one => one.querySelector(':scope > details > .place')?.textContent === arguments[0]);
        if (!item) return '';
        return [...item.querySelectorAll(':scope > details > :not(ul)')].map(one => one.innerText).join('\\n');
        """
        return str(self.browser.run(script, path))
