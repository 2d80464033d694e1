#!/usr/bin/env python3
"""Leaves a line in out/runs.jsonl of each run of a script that tries or measures; scripts/verdict reads them.

A script in Python ends with `record.run(main)`. One in bash begins with a line that starts it again by this file:

    [ "${RECORDED-}" ] || exec "$(dirname "$0")/../record.py" "$0" "$@"

The gate's is left by scripts/gate_line.py.

A line is a JSON object: the `script`, its `words` (options and numbers, without names of files), the `commit`, whether the tree was
`clean` from beginning to end, the SHA-256 of the `programs` that the words name, whether all of them are `proved` (the launcher's files are
beside), `passed`, `failed` and the names of the `failures`, the `status`, `seconds`, when it `began` (UTC), and the machine's
`processors`.

A run that is cut off leaves no line: the last line of its output, `N passed, M failed`, must agree with its status; and a measurement must
return. Nor does a run within a run, as its checks are the outer one's. A line that can't be written changes no status.
"""
from __future__ import annotations

import datetime
import fcntl
import hashlib
import json
import os
import pathlib
import re
import signal
import subprocess
import sys
import threading
import time
from collections.abc import Callable, Iterable
from typing import Any, NoReturn

TOP = pathlib.Path(__file__).resolve().parent.parent
LINES = TOP / "out" / "runs.jsonl"
# A run in whose environment this is stands in another run.
MARK = "RECORDED"
COUNTED = re.compile(r"(\d+) passed, (\d+) failed")
FAILURE = re.compile(r"FAIL(?:ED)?:? +(.*)")
# So many names of failures, each of so many characters, are in a line.
MOST_FAILURES, FAILURE_LENGTH = 20, 120
GIT_SECONDS = 60
# So long is waited for the rest of the output of a script that has ended.
AFTER_SECONDS = 3


def git(*words: str) -> str | None:
    """What git prints, or None if there is no git or no repository."""
    try:
        ran = subprocess.run(["git", "-C", str(TOP), *words], capture_output=True, text=True, timeout=GIT_SECONDS)
    except (OSError, subprocess.TimeoutExpired):
        return None
    return None if ran.returncode else ran.stdout.strip()


def state() -> dict[str, Any]:
    """The commit, and whether the tree has nothing that isn't in it."""
    changes = git("status", "--porcelain")
    return {"commit": git("rev-parse", "HEAD"), "clean": None if changes is None else changes == ""}


def after(before: dict[str, Any]) -> dict[str, Any]:
    """The state of a whole run: clean if the tree was so at both ends, and the commit the same."""
    now = state()
    clean = None if before["clean"] is None else before["clean"] and now == before
    return {"commit": before["commit"], "clean": clean}


def is_place(word: str) -> bool:
    return "/" in word or (not word.isdecimal() and pathlib.Path(word).exists())


def words_and_files(given: Iterable[str]) -> tuple[list[str], dict[str, pathlib.Path]]:
    """The words of a run, in which a file's name is left out or, without an option, is `FILE`; and the files by their words."""
    words: list[str] = []
    files: dict[str, pathlib.Path] = {}
    is_option = False
    for word in given:
        name, equals, value = word.partition("=")
        if word.startswith("--"):
            words.append(name)
            word, is_option = value, True
            if not equals:
                continue
        elif not is_option:
            words.append("FILE")
        if is_place(word):
            files[words[-1]] = pathlib.Path(word)
        else:
            words[-1] = f"{words[-1]} {word}" if is_option else word
        is_option = False
    return words, files


def programs_of(files: dict[str, pathlib.Path]) -> dict[str, str]:
    """The digests of those files that can be started, by their words."""
    programs = {word: it for word, it in files.items() if it.is_file() and os.access(it, os.X_OK)}
    return {word: hashlib.sha256(it.read_bytes()).hexdigest() for word, it in programs.items()}


def is_proved(files: dict[str, pathlib.Path], programs: Iterable[str]) -> bool | None:
    """Whether the launcher's files are beside each program; None without one."""
    beside = [files[it].with_name(f"{files[it].name}.{kind}").is_file() for it in programs for kind in ("sources", "toolchain")]
    return all(beside) if beside else None


def now() -> datetime.datetime:
    return datetime.datetime.now(datetime.timezone.utc)


def add(line: dict[str, Any], lines: pathlib.Path, most: float = float("inf")) -> None:
    """Adds the line to a file, which is begun anew if it has more bytes than `most`."""
    with lines.open("a") as file:
        fcntl.flock(file, fcntl.LOCK_EX)
        if file.tell() > most:
            file.truncate(0)
        file.write(json.dumps(line, ensure_ascii=False) + "\n")


def leave(line: dict[str, Any]) -> None:
    """Adds the line. Where that fails, a word on standard error says so."""
    try:
        LINES.parent.mkdir(exist_ok=True)
        add(line, LINES)
    except OSError as fault:
        print(f"this run isn't recorded: {fault}", file=sys.stderr)


class Heard:
    """A stream that remembers the last line that was written, and the lines of failed checks."""

    def __init__(self, stream: Any) -> None:
        self.stream, self.open, self.last = stream, "", ""
        self.failures: list[str] = []

    def write(self, text: str) -> int:
        *lines, self.open = (self.open + text).split("\n")
        for line in lines:
            self.hear(line)
        return int(self.stream.write(text))

    def hear(self, line: str) -> None:
        self.last = line
        if (found := FAILURE.match(line)) and len(self.failures) < MOST_FAILURES:
            self.failures.append(found[1][:FAILURE_LENGTH])

    def __getattr__(self, name: str) -> Any:
        return getattr(self.stream, name)


class Run:
    """A run of a script that has begun."""

    def __init__(self, script: pathlib.Path, given: list[str], by_default: str = "") -> None:
        self.began, self.clock, self.before = now(), time.monotonic(), state()
        words, files = words_and_files(given)
        if by_default and not files:
            files = {"by default": TOP / by_default}
        programs = programs_of(files)
        self.line = {"script": str(script.relative_to(TOP)), "words": words, "programs": programs, "proved": is_proved(files, programs)}

    def ended(self, status: int, heard: Heard, is_returned: bool) -> None:
        """Leaves the line, unless the run was cut off."""
        found = COUNTED.fullmatch(heard.last)
        is_whole = (int(found[2]) == 0) == (status == 0) if found else is_returned and status == 0
        if not is_whole:
            return
        counts = {"passed": int(found[1]), "failed": int(found[2]), "failures": heard.failures} if found else {}
        seconds = round(time.monotonic() - self.clock, 1)
        when = {"status": status, "seconds": seconds, "began": f"{self.began:%Y-%m-%dT%H:%M:%SZ}", "processors": os.cpu_count()}
        leave({**self.line, **after(self.before), **counts, **when})


def status_of(code: object) -> int:
    """The exit status of `sys.exit(code)`."""
    return int(code) if isinstance(code, int) else 0 if code is None else 1


def run(main: Callable[[], int | None], program: str = "") -> NoReturn:
    """Calls the `main` of the script that was started, leaves its line, and exits with its status. `program` is the one that it
    starts if no word names one. A measurement that prints no count has ended when its `main` returns."""
    if os.environ.get(MARK):
        sys.exit(main())
    os.environ[MARK] = "1"
    begun, heard, code, is_returned = Run(pathlib.Path(sys.argv[0]).resolve(), sys.argv[1:], program), Heard(sys.stdout), None, False
    sys.stdout = heard  # type: ignore[assignment]
    try:
        code, is_returned = main(), True
    except SystemExit as end:
        code = end.code  # type: ignore[assignment]
    finally:
        sys.stdout = heard.stream
    begun.ended(status_of(code), heard, is_returned)
    sys.exit(code)


def pass_on(output: Iterable[str], heard: Heard) -> None:
    for line in output:
        heard.write(line)
        heard.flush()


def run_script(script: pathlib.Path, given: list[str]) -> int:
    """Runs a script that isn't in Python, and passes on what it prints and the signals that it gets. Returns its status."""
    begun, heard = Run(script, given), Heard(sys.stdout)
    # Of SIGINT a terminal tells the script, too.
    signal.signal(signal.SIGINT, lambda *_: None)
    child = subprocess.Popen([script, *given], stdout=subprocess.PIPE, text=True, errors="surrogateescape", env=os.environ | {MARK: "1"})
    for number in (signal.SIGTERM, signal.SIGHUP):
        signal.signal(number, lambda it, _: child.send_signal(it))
    hearing = threading.Thread(target=pass_on, args=(child.stdout, heard), daemon=True)
    hearing.start()
    status = child.wait()
    # What the script left running may hold its output open.
    hearing.join(AFTER_SECONDS)
    status = 128 - status if status < 0 else status
    begun.ended(status, heard, False)
    return status


def main() -> int:
    match sys.argv[1:]:
        case [script, *given] if not script.startswith("-"):
            return run_script(pathlib.Path(script).resolve(), given)
        case _:
            print(__doc__)
            return 0 if sys.argv[1:] in (["-h"], ["--help"]) else 2
    return 0


if __name__ == "__main__":
    sys.exit(main())
