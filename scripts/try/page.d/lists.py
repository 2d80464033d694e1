"""What the lists of the page say of incidents, and how much is read for them."""

from trial import Trial, incident, report


def rows_of_list(trial: Trial) -> None:
    """What a list says of each incident, as far as its reader is shown it."""
    browser = trial.browser
    shown = (
        ("bank", ("csirt.example.com 2026-0417", "Mails in the name of a payroll provider", "2026-04-16", "TLP:RED")),
        ("telco", ("csirt.example.com 2026-0417", "Mails in the name of a payroll provider", "2026-04-16", "TLP:GREEN")),
        ("university", ("Incident 1\n", "The page's address", "TLP:CLEAR")),
    )
    for who, words in shown:
        trial.enter(who)
        trial.row_is_read(1)
        trial.check_has(
            f"a row tells what {who} is shown: name, description, date, strongest label, source",
            browser.text("#found a[data-number='1']"),
            *words,
            "Bank",
            "Incident 1",
        )
    row = browser.text("#found a[data-number='1']")
    trial.check("a row tells nothing that is withheld", "2026-0417" not in row and "2026-04-16" not in row, row)
    in_language: dict[str, object] = {"Description": [{"value": "Mit Sprache", "lang": "de"}], "GenerationTime": "never"}
    cases: tuple[tuple[str, dict[str, object], str], ...] = (
        ("in a language", in_language, "Mit Sprache"),
        ("of a part", {"Contact": [{"role": "creator", "Description": ["of the contact"]}]}, "of the contact"),
        ("as arranged", {"EventData": [{"restriction": "default"}, {"restriction": "amber"}]}, "as arranged, else TLP:RED"),
        ("that is long", {"Description": ["x" * 500]}, "x" * 160 + "\u2026"),
    )
    for name, members, wanted in cases:
        number = trial.circle.ask("bank", "POST", "/incidents", query=[("level", 0)], report=report(incident(name, **members)))["numbers"][0]
        trial.enter("bank")
        trial.row_is_read(number)
        text = browser.text(f"#found a[data-number='{number}']")
        trial.check_has(f"a row of a report {name}", text, wanted)
        trial.check("and without a date that is none", ("2026-04-16" in text) == ("GenerationTime" not in members), text)
    first = browser.run("return document.querySelector('#found a').dataset.number")
    trial.check("the newest incident is the first", first == str(number), first)


def sizes_of_list(trial: Trial) -> None:
    """What is read for a list: few excerpts, one after another, no long ones, and of many incidents the newest."""
    browser = trial.browser
    trial.enter("telco")
    newest = int(browser.run("return document.querySelector('#found a').dataset.number"))
    path = f"/incidents/{newest}"
    trial.row_is_read(newest)
    before = trial.sent("GET", path)
    browser.click("#all")
    browser.settle()
    trial.row_is_read(newest)
    trial.check("an excerpt is read again with the list", trial.sent("GET", path) == before + 1, trial.sent("GET", path) - before)
    browser.run("document.querySelector('#found').scrollIntoView(false); document.querySelector('#found').scrollIntoView()")
    browser.wait("false", seconds=1)
    trial.check("but not again when its row comes into sight", trial.sent("GET", path) == before + 1, trial.sent("GET", path) - before)
    trial.origin.instead[path] = (429, "application/json", b'{"code":"TooMany","detail":"","reason":"too many requests"}')
    trial.enter("telco")
    trial.check("a row that a proxy refuses is read later", trial.row_is_read(newest) and browser.text("#refused") == "", browser.text("#refused"))
    trial.origin.instead[path] = (200, "application/json", b'{"document":{},"x":"' + b"x" * 1048576 + b'"}')
    trial.enter("telco")
    row = f"#found a[data-number='{newest}']"
    browser.wait("document.querySelector(arguments[0]).innerText.includes('too large')", row)
    trial.check_has("an excerpt of more than 1 MB isn't read for the list", browser.text(row), "too large to be read for the list")
    trial.go(f"#incidents/{newest}")
    trial.check_has("but when it is opened", browser.text(row), "csirt.example.com many 6 15", "TLP:CLEAR", "2026-04-16")
    for total, numbers in ((1000, list(range(3, 2003, 2))), (1001, list(range(3, 2005, 2))), (5700, list(range(1, 5701)))):
        trial.origin.listed = numbers
        browser.click("#forget")
        asked = trial.sent("GET", "/incidents")
        trial.enter("telco")
        asked = trial.sent("GET", "/incidents") - asked
        window = f", numbers {numbers[-1] - 999} to {numbers[-1]}," if total > 1000 else ""
        count = sum(1 for number in numbers if total <= 1000 or number > numbers[-1] - 1000)
        trial.check_has(
            f"of {total} incidents the newest are told, and which thousand that is",
            browser.text("#count"),
            f"the newest 100 of {count} incidents{window} that you may read",
        )
        first = browser.run("return [...document.querySelectorAll('#found a')].map(one => Number(one.dataset.number))")
        trial.check("the newest first", first == numbers[:-101:-1], first)
        trial.check(f"by at most 35 requests ({asked})", asked <= 35, asked)
    while browser.text("#more").startswith("Next"):
        browser.click("#more")
        browser.settle()
    trial.check("the whole thousand is shown by and by", browser.count("#found a") == 1000, browser.count("#found a"))
    trial.check("and the one before can be asked for", browser.text("#more") == "Older: numbers 3701 to 4700", browser.text("#more"))
    browser.click("#more")
    browser.settle()
    trial.check_has("which is told", browser.text("#count"), "the newest 100 of 1000 incidents, numbers 3701 to 4700, that you may read")
    trial.check("the second thousand has its newest first", browser.text("#found li:first-child a").startswith("Incident 4700"))
    trial.origin.listed = list(range(9000, 9100))
    browser.size(1280, 9000)
    browser.run("scrollTo(0, 0)")
    trial.origin.most_at_once = 0
    before = len([1 for _, target in trial.origin.asked if target.startswith("/incidents/9")])
    trial.enter("telco")
    browser.wait("document.querySelectorAll('#found a')[19].innerText.includes(arguments[0])", "not shown any more")
    browser.wait("false", seconds=1)
    read = len([1 for _, target in trial.origin.asked if target.startswith("/incidents/9")]) - before
    trial.check("of more rows in sight at most 20 are read", read == 20, read)
    trial.check("one after another", trial.origin.most_at_once == 1, trial.origin.most_at_once)
    trial.check_has("what isn't shown any more is told", browser.text("#found li:first-child a"), "Incident 9099", "not shown any more")
    browser.size(1280, 900)
    trial.origin.listed = None
