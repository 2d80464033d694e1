"""Why a person sees the class that was clicked, where the excerpt's lists have closed up."""

from trial import Trial, incident, report

PERSON, CLASS = "Person", "Class"
ASK = "Why? Ask why a person sees "


def clicked(trial: Trial) -> None:
    for each in (closed_up, exact, frame, refused_again):
        each(trial)


def posted(trial: Trial, name: str, **members: object) -> int:
    """A report of the bank's, open to the administrator, who sees what is for everybody."""
    body = report(incident(name, **members))
    number = int(trial.circle.ask("bank", "POST", "/incidents", query=[("level", 3)], report=body)["numbers"][0])
    trial.enter("admin")
    trial.go(f"#incidents/{number}")
    return number


def click(trial: Trial, path: str) -> str:
    """Asks why at a class, and returns the words of its button."""
    script = "const why = [...document.querySelectorAll('.acts button')].find(one => one.ariaLabel.split(', ')[0] === arguments[0]); why.click(); return why.innerText"
    words = str(trial.browser.run(script, ASK + path))
    trial.browser.settle()
    return words


def closed_up(trial: Trial) -> None:
    browser = trial.browser
    hidden: dict[str, object] = {"restriction": "red", "role": "creator", "ContactName": ["Informant"]}
    office: dict[str, object] = {"restriction": "white", "role": "victim", "ContactName": ["Press office"]}
    number = posted(trial, "closed up", Contact=[hidden, office])
    words = click(trial, "/Incident/0/Contact/0")
    trial.check("the button says that a number may differ", words == "Why? (number may differ)", words)
    trial.check("the number is left empty", trial.held("Explain", CLASS) == "/Incident/0/Contact/", trial.held("Explain", CLASS))
    trial.check("and the incident is there", trial.held("Explain", "Incident") == str(number), trial.held("Explain", "Incident"))
    before = trial.sent("GET", "/explain")
    trial.fill("Explain", {PERSON: "4"})
    trial.check("nothing is asked without the number", trial.sent("GET", "/explain") == before)
    trial.check_has("which is told", browser.text("#refused"), "Put in the number that the class has in the posted report", "Nothing was sent.")
    trial.fill("Explain", {PERSON: "4", CLASS: "/Incident/0/Contact/0"})
    trial.check_has(
        "another class than the one that was clicked is told as another one", browser.text("#pane"),
        "This is not the class that you clicked, which is labelled white: what is explained is labelled red.",
    )  # fmt: skip
    trial.fill("Explain", {PERSON: "4", CLASS: "/Incident/0/Contact/1"})
    text = browser.text("#pane")
    trial.check_has("the one that was clicked is explained", text, "It is shown: it is for everybody (A)", "It has the label that you clicked; so may a class beside it.")
    trial.check("without a warning", "This is not the class" not in text, text)
    trial.fill("Explain", {PERSON: "4", CLASS: "/Incident/0"})
    trial.check("a class that was typed is compared with none", "you clicked" not in browser.text("#pane"), browser.text("#pane"))
    trial.check("an excerpt shows the class all the same", "Press office" in str(trial.circle.ask("university", "GET", f"/incidents/{number}")))


def exact(trial: Trial) -> None:
    """A class has its own path as long as nothing is withheld beside it or what is around it, whatever is elsewhere."""
    flow = [{"System": [{"restriction": "red", "category": "source"}, {"category": "target"}]}]
    events = [{"Description": ["x"], "Flow": flow}, {"Description": ["y"]}]
    posted(trial, "exact", EventData=events, Beside={"x": "y"})
    for path, wanted in (
        ("/Incident/0", "/Incident/0"),
        ("/Incident/0/EventData/1", "/Incident/0/EventData/1"),
        ("/Incident/0/EventData/0/Flow/0", "/Incident/0/EventData/0/Flow/0"),
        ("/Incident/0/EventData/0/Flow/0/System/0", "/Incident/0/EventData/0/Flow/0/System/"),
        ("/Incident/0/IncidentID", "/Incident/0/IncidentID"),
        ("/Incident/0/Beside", "/Incident/0/Beside"),
    ):
        words = click(trial, path)
        trial.check(f"of {path} the path {wanted} is known", trial.held("Explain", CLASS) == wanted, trial.held("Explain", CLASS))
        trial.check("and its button says so", (words == "Why?") == (path == wanted), words)
        trial.go("#incidents")
    posted(trial, "around", EventData=[{"restriction": "red"}, {"Flow": [{"System": [{"category": "target"}]}]}])
    click(trial, "/Incident/0/EventData/0/Flow/0/System/0")
    wanted = "/Incident/0/EventData//Flow/0/System/0"
    trial.check("each number that may differ is left empty", trial.held("Explain", CLASS) == wanted, trial.held("Explain", CLASS))


def frame(trial: Trial) -> None:
    """Of a frame no label is known."""
    posted(trial, "frame", restriction="green", Contact=[{"role": "creator", "restriction": "white"}], EventData=[{"Flow": [{"System": [{"restriction": "white"}]}]}])
    click(trial, "/Incident/0/EventData/0")
    trial.fill("Explain", {PERSON: "4", CLASS: "/Incident/0/EventData/0"})
    trial.check_has("of a frame that was clicked no label is compared", trial.browser.text("#pane"), "You clicked a frame, of which no label is known")


def refused_again(trial: Trial) -> None:
    browser = trial.browser
    trial.enter("admin")
    trial.go("#explain")
    trial.fill("Explain", {PERSON: "4", "Incident": "1", CLASS: "/Incident/0"})
    trial.check("an explanation is there", browser.text(".verdict") != "", browser.text("#pane"))
    for values, code in (({PERSON: "99"}, "N2"), ({PERSON: "4", CLASS: "/Incident/0/Contact/99"}, "N3")):
        trial.fill("Explain", {PERSON: "4", "Incident": "1", CLASS: "/Incident/0"})
        trial.fill("Explain", values)
        trial.refused("a second one that is refused", code)
        trial.check("takes the first one away", browser.count(".verdict") == 0 and browser.count(".trace") == 0, browser.text("#pane"))
    trial.fill("Explain", {PERSON: "4", CLASS: "/Incident/0"})
    trial.fill("Explain", {PERSON: "Nobody"})
    trial.check("so does a name that is nobody's", browser.count(".verdict") == 0, browser.text("#pane"))
