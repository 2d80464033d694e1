"""A fault in a copy of the tree, and what tells it: the first check that fails, of those that are asked one after another."""
from __future__ import annotations

import contextlib
import fnmatch
import functools
import json
import os
import pathlib
import re
import selectors
import shutil
import signal
import subprocess
import tempfile
import threading
import time
import tomllib
from collections.abc import Generator, Iterable, Iterator
from dataclasses import dataclass

from fault import Fault, changed

HERE = pathlib.Path(__file__).resolve().parent
TOP = HERE.parent.parent
ROOM = TOP / "out" / "plant"
FAILURE, HOLDS = re.compile(r"FAIL(?:ED)?:? +(.*)"), re.compile(r"ok:? +(.+)")
# Failed checks that say nothing of behaviour: that a part broke off, or that a text is another.
BROKEN_OFF = re.compile(r"is asked to its end|comes to its end|came to its end|ended early|can be tried here")
OF_TEXT = re.compile(r"mypy|has its lines|in deploy/promises.toml")
# What says that a part can't be asked. With a fault alone it means that what reads the file refuses it at once.
SKIPPED = re.compile(r"skip [\w-]+(?=: )")
# A run has its own processes, its own loopback and nothing else of the network. Its session has the priority of the one that began it.
ALONE = ["unshare", "--net", "--pid", "--fork", "--kill-child", "--mount-proc", "sh", "-c"]
BEGIN = 'ip link set lo up; [ -z "$0" ] || echo "$0" >/proc/self/autogroup; exec "$@"'
PRIORITY = pathlib.Path("/proc/self/autogroup")
GIT = ["git", "-c", "user.name=plant", "-c", "user.email=plant@example.com", "-c", "commit.gpgsign=false", "-c", "gc.auto=0"]


@dataclass(frozen=True)
class Check:
    """A command that may tell faults of some files."""

    words: str
    paths: tuple[str, ...]
    without_hands: bool

    def command(self, programs: dict[str, str]) -> list[str] | None:
        """The command, or None if a program that it wants isn't given."""
        wanted = re.findall(r"\{(\w+)\}", self.words)
        return self.words.format(**programs).split() if all(it in programs for it in wanted) else None


@functools.cache
def all_checks() -> list[Check]:
    said = tomllib.loads((HERE / "checks.toml").read_text())["check"]
    return [Check(it["words"], tuple(it["paths"]), it.get("without_hands", False)) for it in said]


def checks_of(path: str) -> list[Check]:
    """Those that may tell a fault of this file: first those that run without hands."""
    found = [it for it in all_checks() if any(fnmatch.fnmatch(path, pattern) for pattern in it.paths)]
    return sorted(found, key=lambda it: not it.without_hands)


@dataclass(frozen=True)
class Answer:
    """What a check said: `told` with the failed check's line, `kept`, `broke off`, `late`, or `refused`."""

    kind: str
    line: str = ""


# A folder that a run made for itself, and one that was made in it.
OWN_FOLDER = re.compile(rf"{re.escape(tempfile.gettempdir())}(?:/(?:plant-|tmp)\w+)+")


def without_folders(line: str) -> str:
    """The beginning of a line, with a word for the folders that only this run had."""
    return OWN_FOLDER.sub("TMP", line)[:300]


def judged(line: str, known: frozenset[str]) -> Answer | None:
    skipped = SKIPPED.match(line)
    if skipped and skipped[0] not in known:
        return Answer("refused", without_folders(line))
    found = FAILURE.match(line)
    if found is None or OF_TEXT.search(found[1]) or promise_of(found[1]) in known:
        return None
    return Answer("broke off" if BROKEN_OFF.search(found[1]) else "told", without_folders(found[1]))


def promise_of(line: str) -> str:
    """The name of a check, without what it found."""
    return line.partition(": ")[0]


def lines_of(process: subprocess.Popen[bytes], end: float) -> Iterator[str]:
    """What a process prints, until it ends or its time is over."""
    output, rest = process.stdout, b""
    assert output is not None
    with selectors.DefaultSelector() as ready:
        ready.register(output, selectors.EVENT_READ)
        while (left := end - time.monotonic()) > 0:
            if not ready.select(left) or not (piece := os.read(output.fileno(), 65_536)):
                break
            *lines, rest = (rest + piece).split(b"\n")
            yield from (line.decode(errors="replace") for line in lines)


def priority() -> str:
    """That of this session, if the kernel has groups for sessions."""
    return PRIORITY.read_text().split()[-1] if PRIORITY.exists() else ""


def ended(process: subprocess.Popen[bytes]) -> None:
    """Ends a process and all that it started, which go with its namespace."""
    with contextlib.suppress(ProcessLookupError):
        os.killpg(process.pid, signal.SIGKILL)
    process.wait()


class Tree:
    """A clone of the repository, in which one fault after another is planted."""

    def __init__(self, name: str, commit: str) -> None:
        self.folder, self.commit = ROOM / name, commit
        if not (self.folder / ".git").exists():
            subprocess.run(["git", "clone", "-q", "--shared", str(TOP), str(self.folder)], check=True)
        self.git("fetch", "-q", str(TOP), commit)
        self.back()

    def git(self, *words: str) -> None:
        subprocess.run([*GIT, "-C", str(self.folder), *words], check=True, stdout=subprocess.DEVNULL)

    def back(self) -> None:
        self.git("checkout", "-q", "--force", "--detach", self.commit)
        self.git("clean", "-q", "-ffdx")

    @contextlib.contextmanager
    def planted(self, fault: Fault | None) -> Iterator[None]:
        """The tree with a fault, which is in its last commit, too, as a release is made of that. A program has its fault by itself."""
        if fault is None:
            yield
            return
        file = self.folder / fault.path
        text = file.read_bytes()
        file.write_bytes(changed(text, fault.change))
        try:
            if "release" in fault.path or fault.path.startswith("deploy/deb/"):
                self.git("commit", "-q", "-a", "-m", "a change")
                yield
                self.back()
            else:
                yield
        finally:
            file.write_bytes(text)

    def lines(self, command: list[str], end: float) -> Generator[str, None, None]:
        """What a script of scripts/try prints, until its time is over or nobody asks for more."""
        room = tempfile.mkdtemp(prefix="plant-")
        os.chmod(room, 0o755)
        around = {**os.environ, "TMPDIR": room, "RECORDED": "1", "PYTHONDONTWRITEBYTECODE": "1"}
        script = self.folder / "scripts" / "try" / command[0]
        process = subprocess.Popen(
            [*ALONE, BEGIN, priority(), str(script), *command[1:]], stdin=subprocess.DEVNULL, stdout=subprocess.PIPE, stderr=subprocess.STDOUT,
            cwd=self.folder, env=around, start_new_session=True,
        )  # fmt: skip
        try:
            yield from lines_of(process, end)
        finally:
            ended(process)
            shutil.rmtree(room, ignore_errors=True)

    def without(self, command: list[str], told: Answer, seconds: float) -> tuple[list[str], list[str]]:
        """What holds and what fails without a fault, up to the check that told one, within so many seconds."""
        with contextlib.closing(self.lines(command, time.monotonic() + seconds)) as lines:
            return ran(lines, told)

    def ask(self, command: list[str], known: frozenset[str], seconds: float) -> Answer:
        """Runs a script until a check fails that isn't known to fail."""
        end, last = time.monotonic() + seconds, ""
        with contextlib.closing(self.lines(command, end)) as lines:
            for line in lines:
                found = judged(line, known)
                if found and found.kind != "broke off":
                    return found
                last = line.strip() or last
        if time.monotonic() >= end:
            return Answer("late", without_folders(last))
        return Answer("kept" if re.fullmatch(r"\d+ passed, \d+ failed", last) else "broke off", without_folders(last))


def is_decided(told: Answer, holds: list[str], fails: list[str]) -> bool:
    """Whether it is known what the check that told a fault says without it."""
    return promise_of(told.line) in fails or any(told.line.startswith(it) for it in holds)


def ran(lines: Iterable[str], told: Answer | None = None) -> tuple[list[str], list[str]]:
    """What holds and what fails by the lines of a run, up to the check that told a fault. A part in which anything is asked isn't skipped."""
    holds, fails = list[str](), list[str]()
    for line in lines:
        if found := HOLDS.match(line):
            holds.append(without_folders(found[1]))
        elif failure := judged(line, frozenset()):
            fails.append(promise_of(failure.line))
        if told and (is_decided(told, holds[-1:], fails[-1:]) or holds and told.kind == "refused"):
            break
    return holds, fails


class Known:
    """By commands, what holds and what fails without a fault, as far as it was asked. What fails tells nothing. It is asked anew when
    something changes that it tries."""

    def __init__(self, state: str) -> None:
        self.file, self.state, self.writing = ROOM / "known.json", state, threading.Lock()
        self.said: dict[str, dict[str, list[str]]] = json.loads(self.file.read_text()) if self.file.exists() else {}

    def of(self, words: str, what: str) -> list[str]:
        return self.said.get(f"{self.state} {words}", {}).get(what, [])

    def fails(self, words: str) -> frozenset[str]:
        return frozenset(self.of(words, "fails"))

    def decides(self, words: str, told: Answer) -> bool:
        return is_decided(told, self.of(words, "holds"), self.of(words, "fails"))

    def add(self, words: str, holds: list[str], fails: list[str]) -> None:
        with self.writing:
            both = {"holds": sorted({*self.of(words, "holds"), *holds}), "fails": sorted({*self.of(words, "fails"), *fails})}
            self.said[f"{self.state} {words}"] = both
            self.file.write_text(json.dumps(self.said, indent=1))
