"""What the packages of a release are as Debian's and to a shell: lintian, man pages, completions, and which commit they say they are of."""
from __future__ import annotations

import os
import pathlib
import re
import shutil
import subprocess
from collections.abc import Callable, Iterator

Tell = Callable[[str, bool, object], None]
HERE = pathlib.Path(__file__).resolve().parent
COMPLETE = HERE / "complete.bash"
# How the library was compiled decides which overrides of its package are used.
UNUSED = r"I: libiodef-redact: unused-override .*|N: \d+ hints? overridden; \d+ unused overrides?"
# The files and the circles of the table below.
FILES, CIRCLES = ("hub-1.db", "hub-2.db", "report.json", "logs/receipts.log"), ("health", "payments")
# What is offered at the end of a line: all that begins with what is written. `MARK` is run by whoever takes a word for a command.
MARK = "$(touch${IFS}marked)"
OFFERED = {
    "iodef-hub ": "explain help init mark migrate serve view",
    "iodef-hub m": "mark migrate",
    "iodef-hub mark --": "--help --incident",
    "iodef-hub mark --incident ": "",
    "iodef-hub init hub-": "hub-1.db hub-2.db",
    "iodef-hub serve hub-1.db ": "",
    "iodef-hub help v": "view",
    "iodef-redact ": "excerpt explain finds help marks",
    "iodef-redact excerpt --clearance ": "AMBER CLEAR GREEN RED STRICT",
    "iodef-redact excerpt --clearance GREEN --w": "--whole",
    "iodef-redact excerpt --for rep": "report.json",
    "iodef-hub-ask --url https://hub.example:8443/2 group-": "group-active group-add group-remove",
    "iodef-hub-ask --url=https://hub.example add-": "add-community add-org add-person",
    "iodef-hub-ask grant 1 /Incident/0 ": "community group org person",
    "iodef-hub-ask grant --until 2026-12-31T18:00 1 /Incident/0 p": "person",
    "iodef-hub-ask add-person 2 Ada ": "administrator coordinator poster reader",
    "iodef-hub-ask post --gate 4:1:/Incident/0/EventData/1 rep": "report.json",
    "iodef-hub-ask indicators 1 --": "--all --help",
    "iodef-hub-misp to-iodef --untagged ": "amber amber+strict clear green red",
    "iodef-hub-stix t": "table to-iodef to-stix",
    "iodef-hub-stix to-stix --names rep": "report.json",
    "iodef-hub-taxii --s": "--state",
    "iodef-hub-xml t": "table to-json to-xml",
    "iodef-hub-xml to-json --": "--help --schema",
    "iodef-hub-xml to-xml --schema rep": "report.json",
    "iodef-redact-mail --to rep": "report.json",
    "iodef-redact-mail --tls ": "implicit none starttls",
    "iodef-redact-mail --s": "--send --state",
    "iodef-redact-mail rep": "report.json",
    "iodef-hub-standby ": "check fetch give point status take-over",
    "iodef-hub-standby take-over payments --": "--newest --pointed",
    "iodef-hub-setup ": "health payments",
    "iodef-hub-restore p": "payments",
    "iodef-hub-restore payments hub-2": "hub-2.db",
    "iodef-hub-restore payments hub-2.db --": "--anyway",
    "iodef-hub-erase h": "health hub-1.db hub-2.db",
    "iodef-hub-receipts hub-1.db --log ": "logs",
    "iodef-hub-version ": "",
    f"iodef-hub-ask --{MARK} {MARK} ": "",
    f"iodef-hub-restore {MARK}": "",
}


class Installed:
    """The packages of a release, unpacked into one folder."""

    def __init__(self, dist: pathlib.Path, room: pathlib.Path) -> None:
        self.dist, self.root = dist, room / "installed"
        for file in self.packages():
            subprocess.run(["dpkg-deb", "-x", file, self.root], check=True)
        shared = self.root / "usr/share"
        folders = ":".join(str(shared / it) for it in ("iodef-hub/client", "iodef-hub/demo", "iodef-redact/client"))
        self.given = {**os.environ, "PYTHONPATH": folders, "PYTHONDONTWRITEBYTECODE": "1", "DPKG_ROOT": str(self.root)}

    def packages(self) -> list[pathlib.Path]:
        return sorted(self.dist.glob("*.deb"))

    def commands(self) -> list[pathlib.Path]:
        return sorted(it for folder in ("usr/bin", "usr/sbin") for it in (self.root / folder).iterdir())

    def run(self, *words: object) -> subprocess.CompletedProcess[str]:
        return subprocess.run([str(it) for it in words], env=self.given, stdin=subprocess.DEVNULL, capture_output=True, text=True)

    def completion(self, name: str) -> pathlib.Path:
        return self.root / "usr/share/bash-completion/completions" / name


def lintian(package: pathlib.Path) -> list[str]:
    """All that it says of a package, but for overrides of the library's that nothing uses."""
    words = ["lintian", "--allow-root", "--display-info", "--info", "--display-experimental", "--pedantic", str(package)]
    told = subprocess.run(words, stdout=subprocess.PIPE, stderr=subprocess.STDOUT, text=True).stdout
    said = [line for line in told.splitlines() if line.strip() and not re.fullmatch(UNUSED, line)]
    return [line for line in said if not line.startswith("N:")] or [line for line in said if not told.startswith(("I:", "N:"))]


def of_lintian(installed: Installed, room: pathlib.Path, tell: Tell) -> None:
    for file in installed.packages():
        said = lintian(file)
        tell(f"lintian has nothing to say of {file.name}", not said, said)
    # A package with a fault of each weight: a file that anybody may write, and a page of a manual that is empty.
    odd, made = room / "odd", room / "iodef-hub_9_all.deb"
    subprocess.run(["dpkg-deb", "-R", installed.packages()[0], odd], check=True)
    (odd / "usr/share/iodef-hub/page/index.html").chmod(0o777)
    (odd / "usr/share/man/man1/iodef-hub.1.gz").unlink()
    subprocess.run(["dpkg-deb", "--root-owner-group", "-Zgzip", "-b", odd, made], check=True, stdout=subprocess.DEVNULL)
    said = lintian(made)
    wanted = ["non-standard-executable-perm", "no-manual-page"]
    tell("and tells what is planted in one", all(any(it in line for line in said) for it in wanted), said)


def offered(completion: pathlib.Path, line: str, folder: pathlib.Path, given: dict[str, str]) -> str:
    """What is offered at the end of a line, which readline cuts at blanks, colons and equals signs."""
    words = re.findall(r"[:=]+|[^\s:=]+", line) + [""] * line.endswith((" ", "=", ":"))
    ran = subprocess.run(["bash", COMPLETE, completion, line, *words], cwd=folder, env=given, capture_output=True, text=True)
    return " ".join(sorted(ran.stdout.split()))


def of_completion(installed: Installed, room: pathlib.Path, tell: Tell) -> None:
    folder, circles = room / "files", room / "circles"
    for file in [*(folder / it for it in FILES), *(circles / f"{it}.conf" for it in CIRCLES)]:
        file.parent.mkdir(parents=True, exist_ok=True)
        file.touch()
    given = {**installed.given, "IODEF_HUB_SETTINGS": str(circles)}
    for line, wanted in OFFERED.items():
        found = offered(installed.completion(line.split(" ")[0]), line, folder, given)
        tell(f"completion: {line!r} offers {wanted or 'nothing'}", found == wanted, found)
    tell("and nothing that is written is run", not list(room.rglob("marked")), list(room.rglob("marked")))
    for command, words, options in (it for command in installed.commands() for it in helps(installed, command)):
        line = " ".join([command.name, *words, "--"])
        found = offered(installed.completion(command.name), line, folder, given)
        tell(f"completion: {line} offers the options of its help", found.split() == sorted(options), (found, sorted(options)))


def options_in(text: str) -> set[str]:
    """The long options that begin a line of a help; if there is none, those of its first line, and its own."""
    listed = {it for line in re.findall(r"^ +(?:-\w, )?(--.*)$", text, re.M) for it in re.findall(r"(?:^|, )(--[\w-]+)", re.split(r"  ", line)[0])}
    return listed or {"--help", *re.findall(r"--[\w-]+", text.split("\n")[0])}


def helps(installed: Installed, command: pathlib.Path) -> Iterator[tuple[pathlib.Path, list[str], set[str]]]:
    """What a command says of itself: the words in front, and the options. Of a shell script nothing, which has no such word."""
    if command.read_bytes().startswith((b"#!/bin/sh", b"#!/usr/bin/env bash")):
        return
    ran = installed.run(command, "--help")
    told = ran.stdout + ran.stderr
    if not told.lower().startswith("usage"):
        return
    yield command, [], options_in(told)
    listed = told[told.lower().rfind("commands:\n") :] if "ommands:\n" in told else told[told.find("positional arguments:") :]
    for name in re.findall(r"^ {2,4}([a-z][\w-]*)(?: |$)", listed, re.M):
        if name != "help":
            ran = installed.run(command, name, "--help")
            yield command, [name], options_in(ran.stdout + ran.stderr)


def of_manuals(installed: Installed, room: pathlib.Path, tell: Tell) -> None:
    """Each command's page is clean and has each of its options."""
    for command in installed.commands():
        pages = list((installed.root / "usr/share/man").glob(f"man[18]/{command.name}.[18].gz"))
        if len(pages) != 1:
            tell(f"there is a man page of {command.name}", False, pages)
            continue
        plain = room / pages[0].stem
        plain.write_bytes(subprocess.run(["zcat", pages[0]], stdout=subprocess.PIPE, check=True).stdout)
        faults = installed.run("mandoc", "-T", "lint", "-W", "warning", plain).stdout
        printed = installed.run("mandoc", "-T", "ascii", "-O", "width=200", plain).stdout
        # Bold letters are printed twice, and a line may end behind a hyphen.
        text = re.sub(r"-\n +", "-", re.sub(r".\x08", "", printed))
        options = {it for _, _, found in helps(installed, command) for it in found} - {"--help"}
        lacking = sorted(it for it in options if not re.search(rf"{it}(?![\w-])", text))
        is_right = bool(printed) and not faults and not lacking
        tell(f"the man page of {command.name} is clean, and has its {len(options)} options", is_right, (faults, lacking))


def of_version(installed: Installed, commit: str, kit: str, tell: Tell) -> None:
    """One command says which commit and which logic all packages are of, and what isn't as it was packed."""
    name, _, logic = kit.partition(" logic ")
    asks = installed.root / "usr/bin/iodef-hub-version"
    ran = installed.run(asks)
    due = {f"commit {commit}", "proof whole", f"logic {logic}", f"kit {name}"}
    parts = [set(it.splitlines()) for it in ran.stdout.strip().split("\n\n")]
    tell("iodef-hub-version says it of all three", ran.returncode == 0 and len(parts) == 3 and all(due <= it for it in parts), ran.stdout)
    file = installed.root / "usr/bin/iodef-redact"
    content = file.read_bytes()
    file.write_bytes(content + b"\0")
    ran = installed.run(asks)
    tell("and that a program isn't the one that was packed", ran.returncode == 1 and ran.stdout.count("changed /usr/bin/iodef-redact\n") == 1, ran.stdout)
    file.write_bytes(content)


def tried(dist: pathlib.Path, room: pathlib.Path, commit: str, kit: str, tell: Tell) -> None:
    lacking = [it for it in ("lintian", "mandoc") if not shutil.which(it)]
    lacking += ["bash-completion"] * (not pathlib.Path("/usr/share/bash-completion/bash_completion").exists())
    if lacking:
        return tell("there is what the packages are tried with", False, f"install {', '.join(lacking)}")
    installed = Installed(dist, room)
    of_lintian(installed, room, tell)
    of_completion(installed, room, tell)
    of_manuals(installed, room, tell)
    of_version(installed, commit, kit, tell)
