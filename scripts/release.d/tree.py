"""What the files of a commit say of a release: their digests, crates and edits, the kit's logic, and what its gate must print."""
from __future__ import annotations

import datetime
import hashlib
import json
import pathlib
import re
import subprocess
import sys
from collections.abc import Iterable, Iterator
from typing import Any

TOP = pathlib.Path(__file__).resolve().parent.parent.parent
# The packages of a release, each with the crate of its program or library, and what is proved in it, by the names of the files beside.
PACKAGES = {"iodef-hub": "hub_cli", "iodef-redact": "iodef_redact", "libiodef-redact": "redact_c"}
PROVED = {"iodef-hub": "iodef-hub", "iodef-redact": "iodef-redact", "libiodef-redact": "libiodef_redact"}
# The file that lists the digests of all others, and its signature.
SUMS, SIGNATURE = "SHA256SUMS", "SHA256SUMS.asc"
SBOM, PROVENANCE = "sbom.cdx.json", "PROVENANCE.json"


class Refused(Exception):
    """Why no release is made, or why one can't be read."""


def git(*words: str) -> str:
    told = subprocess.run(["git", "-C", TOP, *words], capture_output=True, text=True)
    if told.returncode:
        raise Refused(f"git {words[0]}: {told.stderr.strip()}")
    return told.stdout.strip()


def sha256(file: pathlib.Path) -> str:
    return hashlib.sha256(file.read_bytes()).hexdigest()


def logic_of(line: str) -> str | None:
    """The digest of a kit's logic, of the line that `rt version` prints."""
    found = re.fullmatch(r"rattle-kit-\S+ logic ([0-9a-f]+)", line)
    return found[1] if found else None


class Tree:
    """The files of a commit, in a new folder."""

    def __init__(self, commit: str, folder: pathlib.Path) -> None:
        try:
            self.commit = git("rev-parse", "--verify", "--quiet", f"{commit}^{{commit}}")
        except Refused:
            raise Refused(f"{commit} is no commit of this repository") from None
        self.seconds = int(git("show", "-s", "--format=%ct", self.commit))
        self.folder = folder
        folder.mkdir()
        words = ["git", "-C", str(TOP), "-c", "tar.umask=0022", "archive", self.commit]
        with subprocess.Popen(words, stdout=subprocess.PIPE) as packed:
            subprocess.run(["tar", "-x", "-C", folder], stdin=packed.stdout, check=True)
        if packed.returncode:
            raise Refused(f"git archive {self.commit} failed")

    def text(self, path: str) -> str:
        return (self.folder / path).read_text()

    def moment(self) -> str:
        """When it was committed, in UTC."""
        return datetime.datetime.fromtimestamp(self.seconds, datetime.timezone.utc).strftime("%Y-%m-%dT%H:%M:%SZ")

    def digest(self, files: Iterable[pathlib.Path]) -> dict[str, Any]:
        """The SHA-256 of what `sha256sum` prints of the files in the order of their paths, and their number."""
        lines = sorted(self.lines(files))
        return {"files": len(lines), "sha256": hashlib.sha256("".join(it for _, it in lines).encode()).hexdigest()}

    def lines(self, files: Iterable[pathlib.Path]) -> Iterator[tuple[str, str]]:
        """The path of each file, and what `sha256sum` prints of it."""
        for it in files:
            if it.is_file():
                path = str(it.relative_to(self.folder))
                yield path, f"{sha256(it)}  {path}\n"

    def sources_of(self, package: str) -> str:
        """The digest of all that the program or library of a package is made of and its proofs read, as it is written beside: by the
        launcher of the program's own crates, by scripts/build-redact-library of all. Older launchers took all, too."""
        if package == "libiodef-redact" or not re.search(r"^chain\(\)", self.text("iodef-hub"), re.M):
            return str(self.sources()["sha256"])
        chain = self.below([PACKAGES[package]])
        listed = [it for it in self.text("crates.txt").splitlines(True) if re.split(r"[ :]", it)[0] in chain]
        head = hashlib.sha256("".join([self.text("HANDLES"), *listed]).encode()).hexdigest()
        lines = "".join(line for _, line in sorted(self.lines(it for name in chain for it in self.proved_files(f"crates/{name}"))))
        return hashlib.sha256(f"{head}  -\n{lines}".encode()).hexdigest()

    def sources(self) -> dict[str, Any]:
        """Of all that the programs are made of and their proofs read."""
        return self.digest([self.folder / "HANDLES", self.folder / "crates.txt", *self.proved_files("crates")])

    def proved_files(self, folder: str) -> list[pathlib.Path]:
        """The files below a folder but for the edits that a prover must refuse."""
        return [it for it in (self.folder / folder).rglob("*") if "must-fail" not in it.parts]

    def definitions(self) -> dict[str, Any]:
        return self.digest((self.folder / "crates").glob("*/specs/**/*"))

    def crates(self) -> dict[str, list[str]]:
        """Each crate with the libraries that it uses, of the repository and of the kit."""
        return {name: uses.split() for name, uses in re.findall(r"^(\w+)(?: staticlib)?:(.*)$", self.text("crates.txt"), re.M)}

    def packages(self) -> list[str]:
        """The packages that the commit's build-deb makes."""
        named = re.findall(r"^Package: (\S+)$", self.text("deploy/deb/build-deb"), re.M)
        return [it for it in PACKAGES if it in named]

    def of_packages(self) -> list[str]:
        """The crates of the packages' programs and library, and those that they stand on."""
        return self.below([PACKAGES[it] for it in self.packages()])

    def below(self, names: list[str]) -> list[str]:
        """These crates and those that they stand on."""
        crates, found, left = self.crates(), set[str](), list(names)
        while left:
            name = left.pop()
            if name in crates and name not in found:
                found.add(name)
                left += crates[name]
        return sorted(found)

    def edits(self) -> int:
        return len(list((self.folder / "crates").glob("*/must-fail/*.edit")))

    def logic(self) -> str:
        """The digest of the logic in which README says that it is proved. Kits of other names may have the same."""
        found = re.search(r"^    (?:rattle-kit-\S+ )?logic ([0-9a-f]+)$", self.text("README.md"), re.M)
        if not found:
            raise Refused("README.md names no logic of a kit")
        return found[1]

    def judge_kit(self, line: str) -> None:
        """Refuses a kit of another logic. `line` is what `rt version` prints."""
        if logic_of(line) != self.logic():
            raise Refused(f"the kits differ: {line!r} isn't of logic {self.logic()}, which README names")

    def gate(self, log: str) -> dict[str, Any]:
        """The last lines and the counts of a log of `rt ci`, which passes each crate and refuses each edit of this tree."""
        lines = log.rstrip("\n").split("\n")
        ends = re.fullmatch(r"(\d+) passed, (\d+) failed", lines[-1])
        said = [it for it in lines[-20:] if "ok; handles allowed: " in it]
        if not ends or ends[2] != "0" or not said:
            raise Refused(f"the gate's log isn't that of a gate that passed; it ends with: {lines[-1]}")
        due = len(self.crates()) + self.edits()
        if int(ends[1]) != due:
            raise Refused(f"the gate's log is of {ends[1]} crates and edits, but {self.commit[:10]} has {due}")
        return {"passed": due, "failed": 0, "lines": [said[-1], lines[-1]]}

    def runs(self) -> list[dict[str, Any]]:
        """The last whole run of each trial and measurement that the commit keeps. Older commits keep none."""
        kept = self.folder / "bench" / "runs.jsonl"
        return [json.loads(it) for it in kept.read_text().splitlines()] if kept.exists() else []

    def provenance(self, log: str, version: str, programs: dict[str, str], kit: str) -> dict[str, Any]:
        """`kit` is what `rt version` printed of the kit that built the programs."""
        self.judge_kit(kit)
        return {
            "commit": self.commit,
            "committed": self.moment(),
            "definitions": self.definitions(),
            "gate": self.gate(log),
            "kit": kit,
            "policy": {"sha256": subprocess.check_output([sys.executable, "scripts/check-docs", "--policy-digest"], cwd=self.folder, text=True).strip()},
            "programs": programs,
            "runs": self.runs(),
            "sources": self.sources(),
            "version": version,
        }
