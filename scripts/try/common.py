"""The words that scripts of this folder are started with: `--program FILE`, `--port N` and `--help`; `say_progress`; and `run`,
which calls a script's `main` and leaves a line of the run.

A word that is missing or wrong ends a script with status 2 and a message. No script builds a program.
"""

import argparse
import os
import pathlib
import socket
import sys
from collections.abc import Callable

TOP = pathlib.Path(__file__).resolve().parent.parent.parent
sys.path.insert(0, str(TOP / "scripts"))

import progress  # noqa: E402
import record  # noqa: E402

run = record.run


def say_progress(script: str, minutes: float, done: Callable[[], int], share: float = 1) -> None:
    """Says how many minutes a run takes and how many checks it has, and while it runs how many are done. `minutes` are those of
    a whole run, of which this one is a share."""
    progress.say(minutes * share, done, round(progress.checks_of(script) * share))


def free_port() -> int:
    """A port of loopback that nobody has."""
    with socket.create_server(("127.0.0.1", 0)) as listener:
        return int(listener.getsockname()[1])


def _program(name: str) -> str:
    """The whole path of a program that can be started, which the launcher isn't, since it may build one."""
    path = pathlib.Path(name).resolve()
    if path in (TOP / "iodef-hub", TOP / "iodef-redact"):
        raise argparse.ArgumentTypeError(f"{name} is the launcher, which may build: name the program that it built in out/")
    if not path.is_file() or not os.access(path, os.X_OK):
        raise argparse.ArgumentTypeError(f"{name} is no program")
    return str(path)


def _port(text: str) -> int:
    if not text.isdecimal() or not 1 <= int(text) <= 65535:
        raise argparse.ArgumentTypeError(f"{text} is no port, which is a number from 1 to 65535")
    return int(text)


def _count(text: str) -> int:
    if not text.isdecimal() or int(text) == 0:
        raise argparse.ArgumentTypeError(f"{text} is no number from 1 on")
    return int(text)


class Words(argparse.ArgumentParser):
    """Reads the words of a script, whose head is the help."""

    def __init__(self, head: str | None) -> None:
        super().__init__(description=head, formatter_class=argparse.RawDescriptionHelpFormatter, allow_abbrev=False)

    def take_program(self, required: bool = True) -> None:
        self.add_argument(
            "--program", metavar="FILE", type=_program, required=required, help="the built iodef-hub, such as out/iodef-hub"
        )

    def take_redact(self) -> None:
        self.add_argument("--redact", metavar="FILE", type=_program, help="the built iodef-redact, such as out/iodef-redact")

    def take_port(self) -> None:
        self.add_argument(
            "--port", metavar="N", type=_port, default=free_port(), help="the port of loopback that its hub takes; by default a free one"
        )

    def take_count(self, name: str, default: int, help: str) -> None:
        self.add_argument(name, metavar="N", type=_count, default=default, help=f"{help}; by default %(default)s")
