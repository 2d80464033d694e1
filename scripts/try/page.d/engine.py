"""The command that the page prints for a report that is about to be posted: it is run, and what it tells is what the page shows and, once
the report is posted, what each reader is served."""

import json
import pathlib
import shlex
import subprocess
import sys
import typing

from looking import COMMAND, show
from saving import saved
from trial import EXAMPLES, POST, TOP, Trial, incident, report

ASK = TOP / "clients" / "python" / "iodef-hub-ask"
# Cleo's organisation shares no community with the source.
STRANGER = ("unconnected", "-", "not in group 1")


def by_engine(trial: Trial, folder: pathlib.Path, redact: pathlib.Path | None) -> None:
    if redact is None:
        print("skipped: the command that the page prints isn't run, as --redact isn't given", flush=True)
        return
    into = folder / "asked"
    into.mkdir()
    trial.browser.save_into(into)
    phishing = (EXAMPLES / "phishing.json").read_text().replace("2026-0417", "asked of the engine")
    events = [{"Description": ["for the group"], "restriction": "amber"}, {"Description": ["for the community"], "restriction": "green"}]
    small = report(incident("asked of the engine, small", EventData=events)).decode()
    # Ben's organisation shares community 1 with the source, and is in group 1, which is on.
    for text, relation, values in (
        (phishing, "partner", {"Levels of single": "4:1:/Incident/0/EventData/1\n1:0:/Incident/0/Contact/0"}),
        (small, "named", {"community N": True, "Community": "payments", "Who may get it": "4", "Sharing group": "phishing"}),
    ):  # fmt: skip
        trial.enter("bank")
        trial.go("#post")
        rows = show(trial, POST, {"or its text": text, **values})
        table = asked(trial, into, redact)
        labels = sorted([row[0], row[1]] for row in rows)
        told = sorted([each["path"], each["label"]] for each in table.get("classes", []))
        is_same = len(told) == len(labels) and all(one[0] == other[0] and one[1].startswith(other[1]) for one, other in zip(labels, told))
        trial.check("the command's table has the classes and labels that the page shows", is_same and told != [], (labels, told))
        trial.fill(POST, {})
        trial.done("the same is posted", "Posted as incident")
        number = int(trial.browser.text("#done a").removeprefix("incident "))
        for who, profile in (("telco", (relation, "-", "in group 1")), ("university", STRANGER)):
            served = trial.circle.ask(who, "GET", f"/incidents/{number}")
            wanted = None if "code" in served else [served[name] for name in ("classes", "document", "withheld")]
            column = column_of(table, profile)
            trial.check(f"the command tells what {who} is served then", column != [] and column == [wanted], (column, wanted))


def asked(trial: Trial, into: pathlib.Path, redact: pathlib.Path) -> dict[str, typing.Any]:
    """What the page's command tells in JSON, of the file that the page saves."""
    trial.browser.run("[...document.querySelectorAll('#pane button')].find(one => one.textContent === 'Save report.json').click()")
    saved(into, "report.json")
    command, *words = shlex.split(str(trial.browser.run(COMMAND)))
    line = [sys.executable, "-B", str(ASK), "--json", *words, "--engine", str(redact)]
    ran = subprocess.run(line, cwd=into, stdin=subprocess.DEVNULL, capture_output=True, text=True)
    trial.check("the command that the page prints is one of iodef-hub-ask's", (command, ran.returncode) == ("iodef-hub-ask", 0), (command, ran))
    (into / "report.json").unlink(missing_ok=True)
    value: dict[str, typing.Any] = json.loads(ran.stdout) if ran.returncode == 0 else {}
    return value


def column_of(table: dict[str, typing.Any], profile: tuple[str, ...]) -> list[typing.Any]:
    """What the column of a reader tells that a hub does too: once, if there is one such column."""
    found = [
        each["view"] for each in table.get("columns", [])
        if any(all(word in words for word, words in zip(profile, product)) for product in each["readers"])
    ]  # fmt: skip
    return [view and [view[name] for name in ("classes", "document", "withheld")] for view in found]
