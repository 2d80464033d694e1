"""The commands of docs/EXCHANGE.md as they stand there, from a report in XML to a partner's poll by TAXII; and MISP's event of it."""
from __future__ import annotations

import json
import pathlib
import re
import shutil
import subprocess
import sys
from collections.abc import Iterator
from typing import Any

from common import TOP
from small_hub import Hub, digest

from .context import Context, same

SECTION = "page"
PAGE = TOP / "docs" / "EXCHANGE.md"
CLIENTS = TOP / "clients" / "python"
REPORT = pathlib.Path(__file__).with_name("page_report.xml")
HUB = "https://hub.example.org"
# What of the report a member of the source's community may see by its labels, and what not.
HASH = "9f86d081884c7d659a2feaa0c55ad015a3bf4f1b2b0b822cd15d6c15b0f00a08"
SHOWN = ("payroll-portal.example.net", "login-payroll.example.net", "192.0.2.77", "csirt@csirt.example.com", "invoice.js", HASH,
         "CVE-2026-20417", "Mail with link delivered", "2026-1187")
WITHHELD = ("Jane Victim", "jane.victim", "payroll01", "198.51.100.9", "I-1187-3", "taken over", "takeover-account")
MAP: dict[str, Any] = {"hub": "hub.example.org", "groups": [], "organisations": [
    {"number": 2, "uuid": "55f6ea5e-2c60-40e5-964f-47a8950d210f", "name": "csirt.example.com"}]}


def blocks() -> list[str]:
    """The page's commands, a text for each block."""
    found = re.findall(r"(?:^    .*\n)+", PAGE.read_text(), re.M)
    return [re.sub("^    ", "", each, flags=re.M) for each in found]


def block(begin: str) -> str:
    (found,) = [each for each in blocks() if each.startswith(begin)]
    return found


class Desk:
    """A team's shell, with the commands on its path and its files."""

    def __init__(self, folder: pathlib.Path, hub: int, redact: str | None) -> None:
        self.folder, self.hub = folder, hub
        commands = folder / "bin"
        commands.mkdir()
        for name in ("ask", "stix", "taxii", "xml"):
            (commands / f"iodef-hub-{name}").symlink_to(CLIENTS / f"iodef-hub-{name}")
        (commands / "iodef-hub-misp").symlink_to(CLIENTS / "iodef_hub_misp.py")
        (commands / "python3").symlink_to(sys.executable)
        if redact is not None:
            (commands / "iodef-redact").symlink_to(pathlib.Path(redact).resolve())

    def run(self, script: str, key: str, port: int | None = None) -> tuple[int, str, str]:
        """Status and outputs of a script that bash runs, for the hub or another server on loopback."""
        export = block("export IODEF_HUB_URL").replace(HUB, f"http://127.0.0.1:{port or self.hub}").replace("ada.key", f"{key}.key")
        environment = {"HOME": str(self.folder), "PATH": f"{self.folder / 'bin'}:/usr/bin:/bin", "PYTHONDONTWRITEBYTECODE": "1"}
        ran = subprocess.run(["bash", "-eo", "pipefail", "-c", export + script], cwd=self.folder, env=environment, capture_output=True,
                             text=True, timeout=300)
        return ran.returncode, ran.stdout, ran.stderr


def circle(hub: Hub, folder: pathlib.Path) -> None:
    """As docs/INSTALL.md has the first people: Ada of organisation 2 and Ben of organisation 3, in a community."""
    for number, (name, role) in enumerate((("Ada", "poster"), ("Ben", "reader")), 2):
        key = f"key-of-{name}"
        hub.done("admin", "POST", "/orgs", f"name=Organisation {number}".encode())
        hub.done("admin", "POST", "/persons", f"org={number}&name={name}&role={role}&key={digest(key)}".encode())
        (folder / f"{name.lower()}.key").write_text(key)
    hub.done("admin", "POST", "/communities", b"name=payments")
    for number in (2, 3):
        hub.done("admin", "POST", "/communities/1/join", f"org={number}".encode())


def told(what: str, ran: tuple[int, str, str], *but: str) -> tuple[bool, str]:
    """Whether a partner's text has what the labels show to it, but for some of it, and nothing else."""
    status, text, errors = ran
    found = status, [each for each in SHOWN if each not in text and each not in but], [each for each in WITHHELD if each in text]
    return same(f"a partner's {what} has what the partner may see, and nothing else", (*found, errors if status else ""), (0, [], [], ""))


def by_page(desk: Desk, port: int, redact: str | None) -> Iterator[tuple[bool, str]]:
    (desk.folder / "report.xml").write_bytes(REPORT.read_bytes())
    lines = block("iodef-hub-xml to-json")
    status, said, errors = desk.run(lines if redact else re.sub("^iodef-hub-ask preview.*\n", "", lines, flags=re.M), "ada")
    found = status, said.splitlines()[-1:], errors if status else ""
    yield same("the lines of XML post the report, and make XML of it", found, (0, ["1"], ""))
    yield told("XML", desk.run(lines.splitlines()[-1].partition(" > ")[0], "ben"), HASH)  # which is in base64 there
    lines = block("iodef-hub-ask --json show 1 | iodef-hub-stix")
    yield told("bundle", desk.run(lines.replace("> bundle.json", "| tee bundle.json"), "ben"))
    (desk.folder / "map.json").write_text(json.dumps(MAP))
    event = desk.run("iodef-hub-ask --json show 1 | iodef-hub-misp to-misp --map map.json", "ben")
    yield told("event for MISP", event, "csirt@csirt.example.com", "2026-1187")  # a Contact and the id of a report are left out
    polled = desk.run(block("taxii() {"), "ben", port)
    yield told("poll by TAXII", polled)
    types = {each["type"] for each in json.loads(polled[1] or "[]")}
    yield same("and it is objects of STIX", {"report", "indicator", "vulnerability"} <= types)


def event(uuid: str, distribution: int) -> dict[str, object]:
    """An event of MISP of organisation 2."""
    (organisation,) = MAP["organisations"]
    return {"Event": {
        "uuid": uuid, "info": f"event {uuid}", "date": "2026-11-30", "timestamp": "1796000000", "published": True, "analysis": "2",
        "threat_level_id": "2", "distribution": str(distribution), "Orgc": {"uuid": organisation["uuid"], "name": organisation["name"]},
        "Tag": [{"name": "tlp:green"}],
        "Attribute": [{"uuid": "f" + uuid[1:], "type": "ip-dst", "category": "Network activity", "to_ids": True, "distribution": "5",
                       "value": "192.0.2.77"}]}}


def beside_misp(desk: Desk) -> Iterator[tuple[bool, str]]:
    """The lines that mail what goes to all, with a program that keeps what it is given in the place of iodef-redact-mail."""
    mail, events = desk.folder / "bin" / "iodef-redact-mail", desk.folder / "events.json"
    mail.write_text('#!/bin/sh\necho "$@" >>mailed; cat >>mailed\n')
    mail.chmod(0o755)
    (desk.folder / "map.json").write_text(json.dumps(MAP))
    mailed, shared, own = desk.folder / "mailed", f"{1:08}-0000-4000-8000-{0:012}", f"{2:08}-0000-4000-8000-{0:012}"
    for what, text, wanted in (("events", json.dumps([event(shared, 3), event(own, 0)]), (True, True, False, 1)),
                               ("a fault behind an event", json.dumps([event(shared, 3), {"Event": {}}]), (False, False, False, 0)),
                               ("nothing", "", (False, False, False, 0))):
        events.write_text(text)
        mailed.write_text("")
        status, _, _ = desk.run(block("set -o pipefail"), "ada")
        told = mailed.read_text()
        found = status == 0, f"event {shared}" in told, f"event {own}" in told, told.count("--to partners.json --send -\n")
        yield same(f"beside MISP, of {what}: done, the one for all, that for none, and how many are mailed", found, wanted)


def checks(context: Context) -> Iterator[tuple[bool, str]]:
    missing = [each for each in ("curl", "jq") if shutil.which(each) is None]
    yield same("this machine has curl and jq", missing, [])
    if context.program is None or missing:
        return
    hub = Hub(context.program, context.folder / "hub" / "hub.db", next(context.ports))
    hub.make("admin")
    hub.start()
    desk, port = Desk(context.folder, hub.port, context.redact), next(context.ports)
    words = [sys.executable, "-B", str(CLIENTS / "iodef-hub-taxii"), "--hub", f"http://127.0.0.1:{hub.port}", "--name", "hub.example.org",
             "--state", str(context.folder / "state.db"), "--port", str(port)]
    taxii = subprocess.Popen(words, stdout=subprocess.PIPE, stderr=subprocess.DEVNULL, text=True)
    try:
        assert taxii.stdout is not None and taxii.stdout.readline() == f"listening {port}\n"
        circle(hub, context.folder)
        yield from by_page(desk, port, context.redact)
        yield from beside_misp(desk)
    finally:
        taxii.kill()
        taxii.wait()
        hub.stop()
