"""What iodef-redact, the proved program that redacts, says of a report and a view description."""
from __future__ import annotations

import io
import json
import pathlib
import re
import subprocess
import sys
import tempfile
import threading
from collections.abc import Mapping
from dataclasses import dataclass
from typing import IO, Any

from .telling import Usage

FAULT = re.compile(r"[A-Z][A-Za-z0-9]*\n?")  # the first line of a fault is its name alone


@dataclass(frozen=True)
class Answer:
    """The status, standard output, and the lines of a fault."""

    status: int
    output: bytes
    said: tuple[str, ...]


def _relayed(pipe: IO[str], held: list[str]) -> None:
    """Prints what a program says on standard error at once, such as that it is being proved. A fault's lines are held back."""
    for line in pipe:
        if held or FAULT.fullmatch(line):
            held.append(line)
        else:
            sys.stderr.write(line)
            sys.stderr.flush()


class Engine:
    """The program, and the report that it is asked of."""

    def __init__(self, program: str, report: bytes) -> None:
        self.program, self.report = program, report

    def ask(self, description: Mapping[str, object], command: str, *words: str) -> Answer:
        """Runs a command of the program with a view description."""
        with tempfile.TemporaryDirectory() as name:
            view = pathlib.Path(name) / "view.json"
            view.write_text(json.dumps(description))
            try:
                pipe = subprocess.PIPE
                ran = subprocess.Popen([self.program, command, "--for", view, *words], stdin=pipe, stdout=pipe, stderr=pipe)
            except (FileNotFoundError, PermissionError) as fault:
                why = "was not found: install it, or name the program with --engine" if isinstance(fault, FileNotFoundError) else "can't be run"
                raise Usage(f"{self.program} {why}") from None
            return self._heard(ran)

    def _heard(self, ran: subprocess.Popen[bytes]) -> Answer:
        assert ran.stdin and ran.stdout and ran.stderr
        held: list[str] = []
        relaying = threading.Thread(target=_relayed, args=(io.TextIOWrapper(ran.stderr, errors="replace"), held))
        writing = threading.Thread(target=self._give, args=(ran.stdin,))
        with ran:
            relaying.start()
            writing.start()
            output = ran.stdout.read()
            relaying.join()
            writing.join()
        return Answer(ran.returncode, output, tuple(each.rstrip("\n") for each in held))

    def _give(self, pipe: IO[bytes]) -> None:
        try:
            with pipe:
                pipe.write(self.report)
        except BrokenPipeError:
            pass  # a program that refuses the view doesn't read the report

    def excerpt(self, description: Mapping[str, object]) -> bytes | None:
        """The body of the View that such a reader gets; None if no class is visible. Raises Usage with the program's words if it has
        no answer."""
        answer = self.ask(description, "excerpt")
        if answer.status == 0:
            return answer.output
        if answer.status == 1 and "NothingVisible" in answer.said:
            return None
        raise self.refusal(answer)

    def verdict(self, description: Mapping[str, object], path: str) -> str:
        """`shown`, or the rule that hides a class."""
        answer = self.ask(description, "explain", path)
        words: list[Any] = answer.output.decode(errors="replace").split("\n")[0].split(" ")
        if answer.status or len(words) != 3 or words[0] != "verdict":
            raise self.refusal(answer)
        return "shown" if words[1] == "Shown" else str(words[2])

    def refusal(self, answer: Answer) -> Usage:
        return Usage(f"{self.program}: {' '.join(answer.said).strip() or f'status {answer.status}'}")
