"""What `iodef-hub-ask preview` asks of the engine, what it refuses before, and what it prints of the answers. The engine here is a
stand-in that keeps what it is given; everyone.py and scripts/try/redact ask the program itself."""
from __future__ import annotations

import json
import os
import pathlib
import subprocess
import sys
import time
from collections.abc import Callable
from typing import Any

Check = Callable[..., None]
# Keeps its words, the view descriptions and the report beside it, and answers as the files `answer`, `told` and `status` say. Several
# run at once, so each description is one write.
# With `each` it gives a connected reader another answer.
ENGINE = """#!/bin/sh
here=${0%/*}
echo "$1 $2" >"$here/words"
printf '%s\\n' "$(cat "$3")" >>"$here/descriptions"
cat >"$here/report"
[ ! -e "$here/each" ] || ! grep -q '"connected": true' "$3" || { cat "$here/each"; exit 0; }
cat "$here/answer"
cat "$here/told" >&2
exit "$(cat "$here/status")"
"""
# As a launcher that proves first: it says so, and goes on.
SLOW = """#!/bin/sh
cat >/dev/null
echo 'proving, for about an hour' >&2
sleep 3
echo '{"classes":0,"document":{},"withheld":[]}'
"""
VIEW = '{"classes":2,"document":{"a":["\\u001b"]},"withheld":[["/Incident/0","H-GREEN"],["","G4"]]}'
SOURCE = {"source": 0}
NOBODY = {"who": 1, "org": 1}
CONNECTED = {**NOBODY, "connected": True}
PARTNER = {**NOBODY, "community": True, "peer": True}
OTHER_PARTNER = {**NOBODY, "community": True}
NOMINATED = {"addressed": True, "nominated": True}
EVENT = "/Incident/0/EventData/1"


class Previews:
    """The command with the stand-in."""

    def __init__(self, command: pathlib.Path, report: pathlib.Path, folder: pathlib.Path) -> None:
        self.command, self.report, self.folder = command, report, folder
        folder.mkdir()
        self.engine = folder / "engine"
        self.engine.write_text(ENGINE)
        self.engine.chmod(0o755)
        self.errors = ""
        self.answers(VIEW)

    def answers(self, text: str, told: str = "", status: int = 0) -> None:
        for name, value in (("answer", text), ("told", told), ("status", str(status))):
            (self.folder / name).write_text(value)

    def ask(self, *words: str, given: bytes = b"", by: str = "") -> tuple[int, str]:
        before = ("--json",) if words[:1] == ("--json",) else ()
        (self.folder / "descriptions").unlink(missing_ok=True)
        line = [sys.executable, "-B", str(self.command), *before, "preview", *words[len(before):], "--engine", by or str(self.engine)]
        ran = subprocess.run(line, input=given, capture_output=True, env={"PATH": os.environ["PATH"]}, timeout=120)
        self.errors = ran.stderr.decode()
        return ran.returncode, ran.stdout.decode()

    def asked(self, *words: str) -> list[Any]:
        """The view descriptions that the engine was asked with."""
        self.ask(str(self.report), *words)
        file = self.folder / "descriptions"
        return [json.loads(line) for line in file.read_text().splitlines()] if file.exists() else []

    def readers(self, *words: str) -> list[Any]:
        return [each["reader"] for each in self.asked(*words)]


def by_previews(check: Check, command: pathlib.Path, report: pathlib.Path, folder: pathlib.Path) -> None:
    previews = Previews(command, report, folder)
    by_answers(check, previews)
    by_words(check, previews)
    by_reader_files(check, previews)
    by_refusals(check, previews)
    by_engines(check, previews)


def by_answers(check: Check, previews: Previews) -> None:
    ask, report = previews.ask, str(previews.report)
    check("preview needs neither hub nor key", ask(report, "3", "--for", "partner"), (0, '{\n  "a": [\n    "\\u001b"\n  ]\n}\n'))
    check("and tells on standard error what is withheld, and why", previews.errors.splitlines(), [
        "withheld at /Incident/0: marked GREEN, for the source's communities, or for the one that the incident names (H-GREEN)",
        "withheld at the root: for a sharing group that your organisation isn't a member of (G4)"])
    check("the engine is asked for an excerpt", (previews.folder / "words").read_text(), "excerpt --for\n")
    check("of the report as it is", (previews.folder / "report").read_bytes(), previews.report.read_bytes())
    check("the engine's own answer", ask("--json", report, "3", "--for", "stranger"), (0, VIEW + "\n"))
    check("the report may come on standard input", (ask("-", "3", "--for", "stranger", given=previews.report.read_bytes())[0],
                                                    (previews.folder / "report").read_bytes()), (0, previews.report.read_bytes()))
    doubled = b'{"Incident":[{"restriction":"red","restriction":"white"}]}'
    check("a label that is written twice is told", (ask("-", "3", "--for", "partner", given=doubled)[0], previews.errors.splitlines()[0]),
          (0, 'iodef-hub-ask: /Incident/0 has restriction twice: JSON takes the last one, "white"'))


def by_words(check: Check, previews: Previews) -> None:
    """Whom each word means."""
    root = {"path": "", "level": 3}
    readers = previews.readers
    check("a partner", previews.asked("3", "--for", "partner"), [{"incident": 0, "case": {**SOURCE, "gates": [root]}, "reader": PARTNER}])
    check("a stranger is connected or not", readers("3", "--for", "stranger"), [NOBODY, CONNECTED])
    check("each of the two has a word", [readers("3", "--for", word) for word in ("unconnected", "connected")], [[NOBODY], [CONNECTED]])
    statuses = {"client": {"client": True, "nominated": True}, "organisation": {"addressed": True}, "addressed": NOMINATED, "person": {"person": True}}
    for word, members in statuses.items():
        check(f"{word}, of a partner", readers("3", "--for", word), [{**PARTNER, **members}])
        check("  and of somebody connected", readers("3", "--for", f"connected+{word}"), [{**CONNECTED, **members}])
    named = ("1", "--community", "5", "--for")
    check("with a community a partner is in it or not", readers(*named, "partner"), [OTHER_PARTNER, PARTNER])
    check("and who is in it has a word", readers(*named, "named+person"), [{**PARTNER, "person": True}])
    check("which is none without one", (previews.ask(str(previews.report), "1", "--for", "named"), previews.errors),
          ((2, ""), "iodef-hub-ask: named is for a report with --community\n"))
    groups = previews.asked("4", "--group", "7", "--for", "partner", "--in-group", "7", "--in-group", "8")[0]
    check("a group of the report, and the reader's groups", (groups["case"]["gates"], groups["reader"]),
          ([{"path": "", "level": 4, "group": 7}], {**PARTNER, "groups": [7, 8], "active_groups": [7, 8]}))
    everyone = previews.readers("4", "--group", "7", "--for", "everyone", "--in-group", "7")
    check("and of everyone", (len(everyone) >= 15, {str(each.get("groups")) for each in everyone}, {str(each.get("active_groups")) for each in everyone}), (True, {"[7]"}, {"[7]"}))
    parts = previews.asked("1", "--community", "5", "--gate", "4:2:/Incident/0/Contact/0", "--gate", "5:0:/Incident/0", "--incident", "3", "--for", "named")[0]
    check("a community, and levels of parts", (parts["case"], parts["incident"]), ({**SOURCE, "community": 5, "gates": [
        {"path": "", "level": 1}, {"path": "/Incident/0/Contact/0", "level": 4, "group": 2}, {"path": "/Incident/0", "level": 5}]}, 3))
    (previews.folder / "each").write_text('{"classes":1,"document":{},"withheld":[]}')
    for words, which in ((("2", "--for", "stranger"), "unconnected or connected?"), (("2", "--for", "stranger+client"), "unconnected+client or connected+client?")):
        check(f"{words[-1]} where that matters is a question", (previews.ask(str(previews.report), *words), which in previews.errors), ((2, ""), True))
    (previews.folder / "each").unlink()
    check("a reader is wanted", (previews.ask(str(previews.report), "3")[0], "--for" in previews.errors), (2, True))


def by_reader_files(check: Check, previews: Previews) -> None:
    reader, report = previews.folder / "reader.json", str(previews.report)
    reader.write_text('{"who":4,"org":2,"peer":true}')
    check("a reader of a file", previews.readers("3", "--for", str(reader)), [{"who": 4, "org": 2, "peer": True}])
    for text, why in (("{", "is not JSON"), ("[]", "is not a JSON object"), ("4", "is not a JSON object"), ('{"peer":false,"peer":true}', "has a member twice")):
        reader.write_text(text)
        check(f"a file of {text} is no reader", (previews.ask(report, "3", "--for", str(reader))[0], f"{reader} {why}\n" in previews.errors), (2, True))
    for word in (str(previews.folder / "nowhere"), "everybody", "partner+", "+client", "partner+friend", "-", "partner+-+client"):
        check(f"{word.split('/')[-1]} is none", previews.ask(report, "3", "--for", word)[0], 2)


def by_refusals(check: Check, previews: Previews) -> None:
    """What a hub refuses: the engine isn't asked."""
    report = json.loads(previews.report.read_bytes())
    one = report["Incident"][0]
    other = {**one, "IncidentID": {**one["IncidentID"], "id": "other"}}
    turned = {**one, "IncidentID": dict(reversed(one["IncidentID"].items()))}
    alike = {**one, "IncidentID": {"id": 1}}, {**one, "IncidentID": {"id": True}}
    gate = f"1:0:{EVENT}"
    cases: tuple[tuple[str, list[Any], tuple[str, ...], str], ...] = (
        ("several Incidents with a gate", [one, other], ("3", "--gate", gate), "gates: a report of several"),
        ("two gates at one place", [one], ("3", "--gate", gate, "--gate", f"3:0:{EVENT}"), "gates: there is one gate"),
        ("a second gate at the root", [one], ("3", "--gate", "1:0:"), "gates: there is one gate"),
        ("a class's group at level 3", [one], ("3", "--gate", f"3:1:{EVENT}"), "gates: GROUP"), ("and none at level 4", [one], ("3", "--gate", f"4:0:{EVENT}"), "gates: GROUP"),
        ("level 6 of a class", [one], ("3", "--gate", f"6:0:{EVENT}"), "gates: GROUP"), ("level 5 of the root", [one], ("5",), "level: it is 0 to 4"),
        ("level 4 without --group", [one], ("4",), "group: level 4"), ("also with --in-group", [one], ("4", "--in-group", "0"), "group: level 4"),
        ("level 3 with --group", [one], ("3", "--group", "1"), "group: level 4"), ("group 0", [one], ("4", "--group", "0", "--in-group", "0"), "group: groups are numbered"),
        ("--in-group 0", [one], ("3", "--in-group", "0"), "group: groups are numbered"),
        ("an IncidentID twice", [one, one], ("3",), "IncidentID: two"), ("its members in another order", [one, turned], ("3",), "IncidentID: two"))
    for reader in ("partner", "everyone"):
        for what, incidents, words, why in cases:
            ran = previews.ask("-", *words, "--for", reader, given=json.dumps({**report, "Incident": incidents}).encode())
            asked = (previews.folder / "descriptions").exists()
            check(f"{what} is refused as by a hub, for {reader}", (ran, f"a hub refuses the report: {why}" in previews.errors, asked), ((2, ""), True, False))
    for what, incidents in (("another id", [one, other]), ("1 and true", list(alike))):
        check(f"{what} isn't the same", previews.ask("-", "3", "--for", "partner", given=json.dumps({**report, "Incident": incidents}).encode())[0], 0)


def by_engines(check: Check, previews: Previews) -> None:
    """Faults of the engine, and what it says while it runs."""
    ask, report, engine = previews.ask, str(previews.report), previews.engine
    previews.answers("", "NothingVisible\nno class of it is visible\n", 1)
    check("a reader who would get nothing", ask(report, "3", "--for", "stranger"), (1, ""))
    check("is told in words", previews.errors, "iodef-hub-ask: such a reader would get nothing\n")
    previews.answers("", "NoClass\nno class is at that place\n", 1)
    check("another fault of the engine", (ask(report, "3", "--for", "stranger"), previews.errors),
          ((2, ""), f"iodef-hub-ask: {engine}: NoClass no class is at that place\n"))
    check("  for everyone too", (ask(report, "3", "--for", "everyone"), previews.errors), ((2, ""), f"iodef-hub-ask: {engine}: NoClass no class is at that place\n"))
    previews.answers("", "", 7)
    check("an engine that says nothing", (ask(report, "3", "--for", "partner"), previews.errors), ((2, ""), f"iodef-hub-ask: {engine}: status 7\n"))
    check("no engine", (ask(report, "3", "--for", "stranger", by="/nowhere"), previews.errors),
          ((2, ""), "iodef-hub-ask: /nowhere was not found: install it, or name the program with --engine\n"))
    check("what can't be run", (ask(report, "3", "--for", "stranger", by=str(previews.report)), previews.errors), ((2, ""), f"iodef-hub-ask: {previews.report} can't be run\n"))
    previews.answers("", "usage: engine\nwords\n", 2)
    check("an engine that doesn't know the words", (ask(report, "3", "--for", "partner"), previews.errors), ((2, ""), f"usage: engine\nwords\niodef-hub-ask: {engine}: status 2\n"))
    previews.answers("no JSON")
    check("an answer that is no JSON", ask(report, "3", "--for", "stranger"), (2, ""))
    slow = previews.folder / "slow"
    slow.write_text(SLOW)
    slow.chmod(0o755)
    line = [sys.executable, "-B", str(previews.command), "preview", report, "3", "--for", "partner", "--engine", str(slow)]
    ran = subprocess.Popen(line, stdout=subprocess.PIPE, stderr=subprocess.PIPE, text=True)
    assert ran.stderr
    first, began = ran.stderr.readline(), time.monotonic()
    rest = ran.communicate()
    check("what an engine says while it runs is shown at once", (first, ran.returncode, rest[1], time.monotonic() - began > 1), ("proving, for about an hour\n", 0, "", True))
