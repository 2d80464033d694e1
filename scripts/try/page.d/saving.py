"""What is saved and copied out of the page, compared with what the hub serves and with what iodef-hub-ask tells."""

import pathlib
import subprocess
import sys
import time

from circle import KEYS
from trial import TOP, Trial, incident, report

CLIENT = TOP / "clients" / "python" / "iodef_hub.py"


def saved(folder: pathlib.Path, name: str) -> str:
    """The text of a file, once the browser has written it: before, the file is empty, and its bytes are in one named *.crdownload."""
    file = folder / name
    end = time.monotonic() + 20
    while time.monotonic() < end and not (file.exists() and file.stat().st_size and not list(folder.glob("*.crdownload"))):
        time.sleep(0.05)
    return file.read_bytes().decode() if file.exists() else f"no {name}, but {[it.name for it in folder.iterdir()]}"


def told_by_client(trial: Trial, who: str, number: int, *words: str) -> str:
    command = [sys.executable, "-B", str(CLIENT), "--url", f"http://127.0.0.1:{trial.circle.port}", "indicators", str(number), *words]
    return subprocess.run(command, env={"IODEF_HUB_KEY": KEYS[who]}, capture_output=True, check=True).stdout.decode()


def system(category: object, value: str, **members: object) -> dict[str, object]:
    return {"category": category, "Node": {"Address": [{"category": "ipv4-addr", "value": value}]}, **members}


def odd_report() -> bytes:
    """Values of each kind, in each role, and in forms that IODEF doesn't have; signs that would forge a line or a file's name."""
    systems = [
        system("source", "192.0.2.1"), system("target", "203.0.113.1"), system("source", "203.0.113.2", spoofed="yes"),
        system(["source"], "203.0.113.3"),
        {"category": "target", "AdditionalData": [{"System": system("source", "192.0.2.3")}], "URL": "http://v.example"},
    ]  # fmt: skip
    values = ["a\tb\nc", "\u202egpj.exe", "\u00e9\u00a0x", "\U000e0001y", 7, "<b>&amp;", "</textarea><img src=x onerror=window.hit=1>"]
    bulk = {"type": "domain-name", "BulkObservableList": values}
    file = {"FileName": "f", "HashData": {"Hash": [{"DigestValue": "d"}]}}
    return report(
        incident(
            "../../etc/x.html",
            EventData=[{"Flow": [{"System": systems}], "Counter": [18446744073709551615]}],
            Indicator=[{"Observable": {"System": system("target", "192.0.2.4"), "BulkObservable": bulk}, "Reference": [{"URL": ["http://c.example"]}]}],
            Method=[{"BulkObservable": {"BulkObservableList": "one  two\nthree"}, "File": file}],
            Key=[{"KeyName": "k"}], Address=[{"value": 1}, {"value": "x", "category": 2}, {"value": "constructor"}], constructor={"URL": ["u", 1]},
        )
    )  # fmt: skip


def saving(trial: Trial, folder: pathlib.Path) -> None:
    browser = trial.browser
    into = folder / "saved"
    into.mkdir()
    browser.save_into(into)
    odd = int(trial.circle.ask("bank", "POST", "/incidents", query=[("level", 3)], report=odd_report())["numbers"][0])
    for who, number in (("bank", 1), ("telco", 1), ("university", 1), ("telco", odd)):
        trial.enter(who)
        trial.go(f"#incidents/{number}")
        revision = trial.circle.ask(who, "GET", f"/incidents/{number}")["revision"]
        name = f"incident-{number}-revision-{revision}"
        browser.run("[...document.querySelectorAll('#report button')].find(one => one.textContent === 'Save as JSON').click()")
        text = saved(into, f"{name}.json")
        served = trial.circle.text(who, "GET", f"/incidents/{number}")
        whole = text.startswith('{"') and served.startswith('{"classes":') and f',"document":{text},"number":' in served
        trial.check(f"the excerpt of {who} of incident {number} is saved byte for byte as it is served", whole, text)
        (into / f"{name}.json").unlink()
        browser.run("[...document.querySelectorAll('#report summary')].find(one => one.textContent.startsWith('Indicators')).click()")
        indicators(trial, into, who, number, name)
    trial.no_markup("lines of indicators")
    trial.check("what is saved is named by numbers alone", [it.name for it in into.iterdir()] == [], list(into.iterdir()))
    trial.check_has("signs that forge a line are spelled", told_by_client(trial, "telco", odd), "a\\u0009b\\u000ac", "\\u202egpj.exe", "\\U000e0001y")
    numbers = trial.circle.ask("bank", "POST", "/incidents", query=[("level", 3)], report=report(incident("without")))["numbers"]
    trial.go(f"#incidents/{numbers[0]}")
    trial.check("of a report without one no indicators are offered", browser.count("#report .tools") == 0)


def indicators(trial: Trial, into: pathlib.Path, who: str, number: int, name: str) -> None:
    """The lines of indicators of the report that is open: those to block or look for, and all of them."""
    browser = trial.browser

    def act(words: str) -> None:
        browser.run("[...document.querySelectorAll('#report button')].find(one => one.textContent === arguments[0]).click()", words)

    for words, what in (((), "lines to block"), (("--all",), "lines of all values")):
        told = told_by_client(trial, who, number, *words)
        shown = str(browser.run("return document.querySelector('#report textarea[readonly]').value"))
        found = shown == told != ""
        trial.check(f"the {what} of {who} of incident {number} are those that iodef-hub-ask tells", found, (shown, told))
        act("Save the lines")
        text = saved(into, f"{name}-indicators.txt")
        trial.check(f"and are saved so, {what}", text == shown, text)
        (into / f"{name}-indicators.txt").unlink(missing_ok=True)
        act("Copy the lines")
        trial.done("they are copied", f"Copied: {shown.count(chr(10))} indicator")
        trial.check("the same lines", browser.copied() == shown, browser.copied())
        browser.run("const box = document.querySelector('#report .tools input[type=checkbox]'); if (box) box.click();")
