"""The command that prints what is new at the hubs, and runs a program for each."""
from __future__ import annotations

import argparse
import json
import os
import pathlib
import shutil
import subprocess
import sys
import time
from collections.abc import Sequence
from dataclasses import asdict

from iodef_hub import LAST_NUMBER, Entry, Hub, Hubs, Refused, Unreachable

from .characters import shown
from .kept import write
from .telling import Usage, entry_line

COMMAND_SECONDS = 60  # of a command that a watch runs


def number_in(value: object) -> int:
    if type(value) is not int:
        raise ValueError("not a number")
    return value


class Watched:
    """The incidents that a watch has reported: the highest number, or with --all the revision of each; and those that address the
    caller. A file keeps them from one run to the next. If the file is new and --from isn't given, nothing that the hub has already
    is news, so `is_first` is true for one look."""

    def __init__(self, file: str | None, start: int | None, is_all: bool) -> None:
        self.file, self.is_all, self.last = file, is_all, start or 0
        self.revisions: dict[int, int] = {}
        self.addressed: set[int] = set()
        self.reported: set[int] = set()  # since what is addressed was read last
        self.is_first = file is not None and start is None
        self.known = LAST_NUMBER if self.is_first else self.last  # up to here, what is addressed at the first look isn't news
        if file is not None and os.path.exists(file):
            self.read(file)

    def read(self, file: str) -> None:
        bad = Usage(f"{file} was not written by a watch {'with' if self.is_all else 'without'} --all")
        try:
            value = json.loads(pathlib.Path(file).read_bytes())
            self.last = number_in(value["last"])
            revisions = value.get("revisions")
            if isinstance(revisions, dict) != self.is_all:
                raise bad
            self.revisions = {int(number): number_in(revision) for number, revision in (revisions or {}).items()}
            self.addressed = {number_in(each) for each in value.get("addressed", [])}
        except (AttributeError, KeyError, RecursionError, TypeError, ValueError):
            raise bad from None
        self.is_first, self.known = False, 0

    def is_news(self, entry: Entry) -> bool:
        return self.revisions.get(entry.number) != entry.revision if self.is_all else entry.number > self.last

    def note(self, entry: Entry) -> None:
        self.last = max(self.last, entry.number)
        self.reported.add(entry.number)
        if self.is_all:
            self.revisions[entry.number] = entry.revision

    def is_newly_addressed(self, entry: Entry) -> bool:
        return entry.number not in self.addressed and entry.number not in self.reported and entry.number > self.known

    def note_addressed(self, numbers: set[int]) -> None:
        """Keeps which incidents address the caller, after all of them were reported."""
        self.addressed, self.known, self.is_first = numbers, 0, False
        self.reported.clear()

    def keep(self) -> None:
        """Writes the file, whole or not at all."""
        if self.file is None:
            return
        kept = {"last": self.last, "addressed": sorted(self.addressed), **({"revisions": self.revisions} if self.is_all else {})}
        write(pathlib.Path(self.file), kept)


def handed_over(command: str, entry: Entry, before: str = "") -> bool:
    """Runs a command with the number and the source of an incident, and returns whether it succeeded. It gets nothing else: no
    content, no key, an empty standard input."""
    environment = {name: value for name, value in os.environ.items() if name not in ("IODEF_HUB_KEY", "IODEF_HUB_KEY_FILE")}
    incident = f"{before}{entry.number}"
    words = [command, incident, str(entry.source)]
    try:
        status = subprocess.run(words, stdin=subprocess.DEVNULL, stdout=sys.stderr, env=environment, timeout=COMMAND_SECONDS).returncode
        if status == 0:
            return True
        why = f"ended with status {status}" if status > 0 else f"was killed by signal {-status}"
    except subprocess.TimeoutExpired:
        why = f"didn't end within {COMMAND_SECONDS} seconds"
    except OSError as fault:
        why = f"couldn't be run: {fault.strerror}"
    told = f"{command} {why}; incident {incident} and those after it are tried again at the next look"
    print(f"iodef-hub-ask: {shown(told)}", file=sys.stderr, flush=True)
    return False


def is_reported(given: argparse.Namespace, entry: Entry, at: int) -> bool:
    """Reports an incident, and returns whether its command, if there is one, succeeded. If there are several hubs, `at` is the number
    of this one, else 0."""
    before, named = (f"{at}/", {"hub": at}) if at else ("", {})
    if given.exec is not None and not handed_over(given.exec, entry, before):
        return False
    print(json.dumps({**named, **asdict(entry)}, separators=(",", ":")) if given.json else before + entry_line(entry), flush=True)
    return True


def look(hub: Hub, given: argparse.Namespace, watched: Watched, at: int) -> None:
    """Reports what is new, and then what addresses the caller since the last look. All of that is read each time, as an old incident
    can be addressed late. If the command fails, the look ends there, so that incidents are reported in order."""
    addressed = list(hub.every_addressed())
    for entry in hub.every_incident(0 if given.all else watched.last):
        if not watched.is_news(entry):
            continue
        if not watched.is_first and not is_reported(given, entry, at):
            return
        watched.note(entry)
        if not watched.is_first:
            watched.keep()
    look_at_addressed(given, watched, addressed, at)


def look_at_addressed(given: argparse.Namespace, watched: Watched, addressed: Sequence[Entry], at: int) -> None:
    """Reports those that address the caller since the last look, unless this look has reported them as new."""
    for entry in addressed:
        if watched.is_newly_addressed(entry):
            if not is_reported(given, entry, at):
                return
            watched.addressed.add(entry.number)
            watched.keep()
    numbers = {entry.number for entry in addressed}
    is_other = watched.is_first or numbers != watched.addressed
    watched.note_addressed(numbers)
    if is_other:
        watched.keep()


def watched_of(given: argparse.Namespace, count: int) -> list[Watched]:
    """What was reported of each hub. The state of the first is in the file of --state, that of the second in FILE.2, and so on. If
    the first one's exists, the circle was watched before it had a further hub, so everything at that hub is new."""
    if count > 1 and given.start is not None:
        raise Usage("--from is an incident number of one hub: name only that hub with --url")
    was_watched = given.state is not None and os.path.exists(given.state)
    watched = [Watched(given.state, given.start, given.all)]
    for at in range(2, count + 1):
        file = None if given.state is None else f"{given.state}.{at}"
        watched.append(Watched(file, 0 if was_watched else None, given.all))
    return watched


def do_watch(hubs: Hubs, given: argparse.Namespace) -> None:
    """Reports new incidents by number, and what addresses the caller; with --all also new revisions and what becomes visible, for which
    each look reads the whole list."""
    if given.exec is not None and shutil.which(given.exec) is None:
        raise Usage(f"--exec {given.exec}: there is no such program")
    has_several = len(hubs.all) > 1
    each = list(zip(range(1, len(hubs.all) + 1), hubs.all, watched_of(given, len(hubs.all))))
    rounds = 0
    while True:
        for at, hub, watched in each:
            try:
                look(hub, given, watched, at if has_several else 0)
            except (Unreachable, Refused) as fault:
                if isinstance(fault, Refused) and fault.status not in (429, 502, 503, 504):
                    raise
                which = f"hub {at}: " if has_several else ""
                print(f"iodef-hub-ask: {which}{shown(str(fault))}; the watch goes on", file=sys.stderr, flush=True)
        rounds += 1
        if rounds == given.rounds:
            return
        time.sleep(given.every)
