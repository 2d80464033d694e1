"""Which faults are drawn: of a kind by chance, first the operator, then the file, then the place."""
from __future__ import annotations

import fnmatch
import pathlib
import random
import tomllib
from collections.abc import Iterator
from types import ModuleType

import of_page
import of_python
import of_rattle
import of_settings
import of_shell
from fault import Change, Fault, changed, fault_of

HERE = pathlib.Path(__file__).resolve().parent
KINDS = tomllib.loads((HERE / "kinds.toml").read_text())


def reader(path: str, text: bytes) -> ModuleType:
    """The module that finds the faults of a file."""
    first, name = text.partition(b"\n")[0], pathlib.PurePath(path)
    if name.suffix in (".rt", ".html"):
        return of_rattle if name.suffix == ".rt" else of_page
    if name.suffix == ".py" or first.startswith(b"#!") and b"python" in first:
        return of_python
    return of_shell if first.startswith(b"#!") else of_settings


def files(kind: str, top: pathlib.Path) -> list[str]:
    said = KINDS[kind]
    found = {str(it.relative_to(top)) for pattern in said["files"] for it in top.glob(pattern) if it.is_file() and not it.is_symlink()}
    return sorted(it for it in found if not any(fnmatch.fnmatch(it, pattern) for pattern in said.get("without", ())))


class Kind:
    """All faults of a kind: by operator and file."""

    def __init__(self, kind: str, top: pathlib.Path) -> None:
        self.texts = {path: (top / path).read_bytes() for path in files(kind, top)}
        self.readers = {path: reader(path, text) for path, text in self.texts.items()}
        self.changes: dict[str, dict[str, list[Change]]] = {}
        for path, text in self.texts.items():
            for change in self.readers[path].changes(text):
                self.changes.setdefault(change.operator, {}).setdefault(path, []).append(change)

    def fault(self, chance: random.Random) -> Fault:
        by_file = self.changes[chance.choice(sorted(self.changes))]
        path = chance.choice(sorted(by_file))
        return fault_of(path, self.texts[path], chance.choice(by_file[path]))

    def refusal(self, fault: Fault) -> str:
        """Why its reader refuses the file at once, or nothing."""
        return str(self.readers[fault.path].refusal(changed(self.texts[fault.path], fault.change), fault.path))


def drawn(kind: str, top: pathlib.Path, seed: str) -> Iterator[Fault]:
    """Faults without an end, each once, of which those aren't drawn that don't start."""
    chance, known, of = random.Random(f"{seed} {kind}"), set[str](), Kind(kind, top)
    while True:
        fault = of.fault(chance)
        if fault.name not in known and not of.refusal(fault):
            known.add(fault.name)
            yield fault
