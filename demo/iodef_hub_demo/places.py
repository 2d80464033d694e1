"""Where the demo's files are: below the top of the repository, or as the package installs them."""
from __future__ import annotations

import contextlib
import os
import pathlib
import shutil
import signal
import subprocess
from dataclasses import dataclass

# The folder demo of the repository, or /usr/share/iodef-hub/demo. What is beside it has other names in a package.
HERE = pathlib.Path(__file__).resolve().parent.parent
ROOT = HERE.parent
SECONDS_TO_END = 20


class Fault(Exception):
    """Why there is no demo: a name, and a sentence."""

    def __init__(self, name: str, text: str) -> None:
        super().__init__(f"{name}: {text}")


def first(*paths: pathlib.Path) -> pathlib.Path:
    """The first of the paths that is there."""
    for path in paths:
        if path.exists():
            return path
    raise Fault("NoFile", f"{paths[0]} isn't there: install the whole package iodef-hub, or take the whole repository")


def page() -> pathlib.Path:
    """The page for people."""
    return first(ROOT / "page" / "index.html", ROOT / "web" / "index.html")


def frame() -> pathlib.Path:
    """The page around the three readers."""
    return first(HERE / "page.html")


def client() -> pathlib.Path:
    """The folder of the module iodef_hub."""
    return first(ROOT / "client", ROOT / "clients" / "python")


def report(name: str) -> bytes:
    return first(HERE / "reports" / f"{name}.json", ROOT / "docs" / "examples" / f"{name}.json").read_bytes()


@dataclass(frozen=True)
class Program:
    path: str
    is_unproved: bool


def program(named: str | None, is_unproved: bool) -> Program:
    """The program to run: the one that is named; else that of the repository, which its launcher makes; else iodef-hub of the PATH."""
    launcher = ROOT / "iodef-hub"
    if named is None and launcher.is_file():
        return made_by(launcher)
    found = shutil.which(named or "iodef-hub")
    if found is None and named:
        raise Fault("NoProgram", f"{named} isn't a program")
    if found is None:
        raise Fault("NoProgram", "there is no iodef-hub on the PATH: install the package iodef-hub")
    content = pathlib.Path(found).read_bytes()
    if content.startswith(b"#!"):
        raise Fault("NoProgram", f"{found} is a script: name the program, such as out/iodef-hub of the repository")
    # Only a program that is compiled without proof has an address sanitizer.
    return Program(str(pathlib.Path(found).resolve()), is_unproved or b"__asan_init" in content)


def made_by(launcher: pathlib.Path) -> Program:
    """The program of the repository: the proved one if it is there, else one that is compiled now."""
    # In a session of its own, so that all of its processes can be ended.
    with subprocess.Popen([launcher, "--look", "--where"], stdin=subprocess.DEVNULL, stdout=subprocess.PIPE, text=True, start_new_session=True) as making:
        try:
            path = making.communicate()[0].strip()
        except BaseException:
            end_group(making)
            raise
    if making.returncode:
        raise Fault("NoProgram", "the launcher made no program, as its lines above say")
    return Program(path, path.endswith("-unproved"))


def end_group(process: subprocess.Popen[str]) -> None:
    """Ends a process as Ctrl-C does, and then all that it started and left."""
    os.killpg(process.pid, signal.SIGINT)
    with contextlib.suppress(subprocess.TimeoutExpired):
        process.wait(SECONDS_TO_END)
    with contextlib.suppress(ProcessLookupError):
        os.killpg(process.pid, signal.SIGKILL)
