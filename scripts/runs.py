"""The runs that scripts/verdict asks for, by scripts/subjects.toml; what scripts left in out/runs.jsonl, and gates also elsewhere; and
their last whole runs, which bench/runs.jsonl keeps, one line for each."""
from __future__ import annotations

import json
import pathlib
import re
import subprocess
import tomllib
from collections.abc import Iterable
from dataclasses import dataclass
from typing import Any

import gate_line
import record

TOP = record.TOP
LEFT, KEPT, SUBJECTS = record.LINES, TOP / "bench" / "runs.jsonl", TOP / "scripts" / "subjects.toml"
# Words that say where a run takes place, and not what it tries.
FREE = {"--port", "--ports", "--folder", "--jobs", "--seed", "--keep", "--kit", "--picture", "--pictures"}
# What scripts/verdict writes is no subject.
WRITTEN = (":!docs/TESTED.md", ":!bench/README.md", ":!bench/runs.jsonl", ":!bench/gate.jsonl")
# Words that every run has which can; a reader isn't told of them.
USUAL = {"--program", "--redact", "--library", "--hub", "--key", "--older", "FILE"}

Line = dict[str, Any]


class Unknown(Exception):
    """The repository doesn't have what is asked."""


@dataclass(frozen=True)
class Wanted:
    """A run that is asked for: the script with the words of a whole run, what it shows, and the paths of its subject."""

    name: str
    shows: str
    subject: tuple[str, ...]

    @property
    def script(self) -> str:
        return self.name.split()[0]

    @property
    def words(self) -> list[str]:
        """The words, each with its value."""
        return re.findall(r"--\S+(?: [^-\s]\S*)?|\S+", self.name.partition(" ")[2])

    @property
    def called(self) -> list[str]:
        """Those words by which it differs from other runs of the script."""
        return [it for it in self.words if it not in USUAL]

    @property
    def is_measurement(self) -> bool:
        return self.script.startswith("bench/")

    def is_of(self, line: Line) -> bool:
        """Whether the line is of a whole run of it."""
        free = FREE | (USUAL if self.is_measurement else set())
        given = {it for it in line["words"] if it.split()[0] not in free}
        return line["script"] == self.script and given == set(self.words)

    def paths(self) -> list[str]:
        """The files and folders of its subject, its own among them."""
        own = [self.script, *[f"{self.script}.d"] * (TOP / f"{self.script}.d").is_dir()]
        return own + [path for it in self.subject for path in (sources(it[7:]) if it.startswith("crates:") else [it])]


def wanted() -> list[Wanted]:
    said = tomllib.loads(SUBJECTS.read_text())
    return [Wanted(name, it.get("shows", ""), tuple(it["subject"])) for name, it in said.items()]


def sources(name: str) -> list[str]:
    """The folders of the sources of a crate and of all crates of the repository below it."""
    said = dict(re.findall(r"^(\w+)(?: staticlib)?:(.*)$", (TOP / "crates.txt").read_text(), re.M))
    found, left = set[str](), [name]
    while left:
        crate = left.pop()
        if crate in said and crate not in found:
            found.add(crate)
            left += said[crate].split()
    if not found:
        raise Unknown(f"{SUBJECTS.name}: crates.txt has no crate {name}")
    return [f"crates/{it}/src" for it in sorted(found)]


def lines(text: str) -> list[Line]:
    return [json.loads(it) for it in text.splitlines() if it]


def left() -> list[Line]:
    """What scripts left in this clone, and gates over commits of this history in any clone on this machine."""
    return [it for it in gate_line.on_machine() if is_of_this_history(it["commit"])] + (lines(LEFT.read_text()) if LEFT.exists() else [])


def kept() -> dict[str, Line]:
    """The last whole runs, by their names."""
    return {it["run"]: it for it in lines(KEPT.read_text())} if KEPT.exists() else {}


def keep(last: dict[str, Line]) -> None:
    KEPT.write_text("".join(json.dumps(it, ensure_ascii=False) + "\n" for _, it in sorted(last.items())))


def git(*words: str) -> subprocess.CompletedProcess[str]:
    return subprocess.run(["git", "-C", str(TOP), *words], capture_output=True, text=True)


def is_of_this_history(commit: str | None) -> bool:
    return bool(commit) and git("merge-base", "--is-ancestor", str(commit), "HEAD").returncode == 0


def changed(commit: str, paths: Iterable[str]) -> list[str]:
    """Which files of these paths differ from those of the commit: in the tree as it is, committed or not."""
    ran = git("diff", "--name-only", commit, "--", *paths, *WRITTEN)
    if ran.returncode:
        raise Unknown(f"{commit[:8]}: {ran.stderr.strip()}")
    new = git("ls-files", "--others", "--exclude-standard", "--", *paths, *WRITTEN)
    return ran.stdout.split("\n")[:-1] + new.stdout.split("\n")[:-1]


def is_failed(line: Line) -> bool:
    return bool(line.get("status") or line.get("failed"))


def due(asked: Wanted, last: dict[str, Line]) -> str | None:
    """Why it has to run: it never did, it failed, or its subject changed; None if its last run is of the tree as it is."""
    line = last.get(asked.name)
    if line is None:
        return "no whole run is kept"
    if line["commit"] is None:
        return "its commit isn't known"
    if not is_of_this_history(line["commit"]):
        return f"{short(line)} isn't in this history"
    if files := changed(line["commit"], asked.paths()):
        more = f" and {len(files) - 5} more" if len(files) > 5 else ""
        return f"since {short(line)} changed {', '.join(files[:5])}{more}"
    return f"{counts(line)} at {short(line)}" if is_failed(line) else None


def short(line: Line) -> str:
    return str(line["commit"])[:8]


def counts(line: Line) -> str:
    """How it ended, in words."""
    told = [f"{line[it]:,} {it}" for it in ("passed", "failed") if it == "passed" and it in line or line.get(it)]
    return ", ".join(told) or (f"status {line['status']}" if line["status"] else str(line.get("note", "passed")))
