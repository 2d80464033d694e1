"""Signs that nobody sees: those that are shown by their numbers, and those that scripts and emoji need."""

from trial import Trial, incident, report

TOLD = "return [...document.querySelectorAll(arguments[0] + ' .sign')].map(one => one.textContent)"
# The signs that are shown in each text of the first Description.
EACH = """
const description = [...document.querySelectorAll('#report .tree dt')].find(one => one.textContent === 'Description').nextSibling;
return [...description.children].map(text => [...text.querySelectorAll('.sign')].map(one => one.textContent));
"""
LINES = "return document.querySelector('#report textarea[readonly]').value"
# Controls, signs of direction and separators; what Unicode lets a program leave out (Default_Ignorable_Code_Point), assigned or not;
# a blank that is no space; the marks of notes.
ALWAYS = (
    0x01, 0x7F, 0x9F, 0xAD, 0x34F, 0x61C, 0x115F, 0x1160, 0x17B4, 0x17B5, 0x180B, 0x180E, 0x180F, 0x200B, 0x200E, 0x202E, 0x2028,
    0x2029, 0x2060, 0x2065, 0x206F, 0x2800, 0x3164, 0xFE00, 0xFE0E, 0xFEFF, 0xFFA0, 0xFFF0, 0xFFF8, 0xFFF9, 0xFFFA, 0xFFFB, 0x1BCA0, 0x1D173,
    0xE0000, 0xE0001, 0xE0041, 0xE007F, 0xE0100, 0xE01EF, 0xE0FFF,
)  # fmt: skip
# Each text with the signs of it that are shown: joiners and the selector of emoji beside ASCII alone.
JOINED: tuple[tuple[str, list[str]], ...] = (
    ("\u0645\u06cc\u200c\u062e\u0648\u0627\u0647\u0645", []),  # Persian
    ("\u0915\u094d\u200d\u0937", []),  # Devanagari
    ("\U0001f469\u200d\U0001f4bb", []),
    ("\u2764\ufe0f", []),
    ("pay\u200dpal", ["U+200D"]), ("pay\u200c", ["U+200C"]), ("\u200cpal", ["U+200C"]), ("\u0645\u200cx", ["U+200C"]), ("x\ufe0f", ["U+FE0F"]),
    ("p\u200d\u200c\u0645", ["U+200D"]),
)  # fmt: skip
SEEN = ("e\u0301", "a\u00a0b", "a\u3000b", "a\tb", "\u00e9", "\U0001f469", "\u05d0", "\u0e33")


def name_of(sign: int) -> str:
    return f"U+{sign:04X}"


def shown_in(trial: Trial, name: str, texts: list[str], **members: object) -> None:
    body = report(incident(name, Description=texts, **members))
    number = trial.circle.ask("bank", "POST", "/incidents", query=[("level", 3)], report=body)["numbers"][0]
    trial.enter("bank")
    trial.go(f"#incidents/{number}")


def signs(trial: Trial) -> None:
    browser = trial.browser
    shown_in(trial, "signs", [f"\u05d0{chr(sign)}\u05d0" for sign in ALWAYS])
    told = browser.run(TOLD, "#report .tree")
    missing = [name_of(sign) for sign in ALWAYS if name_of(sign) not in told]
    trial.check(f"each of {len(ALWAYS)} signs that nobody sees is shown by its number", missing == [] and len(told) == len(ALWAYS), (missing, told))
    sentence = "".join(chr(0xE0000 + ord(each)) for each in "Share it all")
    shown_in(trial, f"title{sentence}", ["x"])
    told = browser.run(TOLD, "#head")
    trial.check("so is a hidden sentence in a title", told == [f"U+{0xE0000 + ord(each):X}" for each in "Share it all"], told)
    trial.check_has("and in the list", browser.text("#found"), "U+E0053U+E0068")
    shown_in(trial, "joined", [text for text, _ in JOINED] + list(SEEN))
    each = browser.run(EACH)
    for (text, wanted), told in zip(JOINED, each):
        trial.check(f"in {ascii(text)} {' '.join(wanted) or 'nothing'} is shown", told == wanted, told)
    trial.check("what is seen isn't shown by its number", each[len(JOINED) :] == [[]] * len(SEEN), each)
    searched(trial)
    in_indicators(trial)


def searched(trial: Trial) -> None:
    """What is beside a sign counts also where what was searched for begins or ends there."""
    browser = trial.browser
    shown_in(trial, "searched", ["pay\u200d\u00e9 pay\u200d"])
    number = browser.run("return location.hash")
    browser.put("#needle", "pay")
    browser.click("#search .ask button")
    browser.settle()
    trial.go("")
    trial.go(str(number))
    trial.check("what was searched for is marked", browser.texts("#report .tree mark") == ["pay", "pay"], browser.texts("#report .tree mark"))
    trial.check("and the signs behind it are shown", browser.run(TOLD, "#report .tree") == ["U+200D", "U+200D"], browser.run(TOLD, "#report .tree"))
    browser.put("#needle", "")


def in_indicators(trial: Trial) -> None:
    browser = trial.browser
    values = ["\u043f\u0430\u0439\u200d\u043f\u0430\u043b", "\u2764\ufe0f", "a\u3164b\u2800\U000e0041"]
    bulk = {"type": "domain-name", "BulkObservableList": values}
    shown_in(trial, "in indicators", ["\u043f\u200d\u043f"], Indicator=[{"Observable": {"BulkObservable": bulk}}])
    told = browser.run(TOLD, "#report .tree")
    trial.check("joiners are shown in each indicator", told == ["U+200D", "U+FE0F", "U+3164", "U+2800", "U+E0041"], told)
    lines = [line.split("\t")[1] for line in str(browser.run(LINES)).splitlines()]
    wanted = ["\u043f\u0430\u0439\\u200d\u043f\u0430\u043b", "\u2764\\ufe0f", "a\\u3164b\\u2800\\U000e0041"]
    trial.check("and spelled in their lines", lines == wanted, lines)
