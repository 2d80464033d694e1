#!/usr/bin/env python3
"""Measures calls per second of the library iodef_redact from C and from Python, beside the plain Rust peer: the same excerpts of the same
reports, from the report's bytes to those of the answer, in one run. Prints ratios: below 1 the library is faster.

usage: bench/redacting.py [--library FOLDER] [--peer FILE] [--seconds N] [--instructions]

FOLDER is what scripts/build-redact-library made, by default out/. FILE is target/release/peer beside peer/; peer/README.md says how
to build it. A time is that of a processor (user and system) of the fastest of five runs, each of about N seconds (0.5), without the
start of the process. Trust it only on a machine that has nothing else to do. --instructions counts instructions by callgrind
instead: they are the same for the same programs and reports, whatever else the machine does. It takes two minutes; with
--instructions about as long. Needs: Python 3.11, gcc, and valgrind for --instructions.
"""
from __future__ import annotations

import argparse
import json
import os
import pathlib
import re
import resource
import subprocess
import sys
import tempfile
from collections.abc import Sequence
from dataclasses import dataclass

HERE = pathlib.Path(__file__).resolve().parent
TOP = HERE.parent
sys.dont_write_bytecode = True
sys.path[:0] = [str(TOP / "scripts"), str(HERE / "peer")]
import bench  # noqa: E402
import progress  # noqa: E402
import record  # noqa: E402

RUNS = 5
MORE = 50
VIEWS = {
    "a stranger": json.dumps({"clearance": "CLEAR"}),
    "the source": json.dumps({"case": {"source": 1, "gates": [{"path": "", "level": 3}]}, "reader": {"who": 1, "org": 1, "source": True}}),
}
CALLS = """
import sys, iodef_redact
report, view, call = sys.stdin.buffer.read(), iodef_redact.View(sys.argv[1]), getattr(iodef_redact, sys.argv[3])
for _ in range(int(sys.argv[2])):
    answer = call(report, view)
sys.stdout.buffer.write(answer.text if sys.argv[3] == "excerpt" else answer)
"""


@dataclass(frozen=True)
class Caller:
    """A program that redacts the report on standard input so many times: its words, up to how many times and behind."""

    name: str
    words: tuple[str, ...]
    behind: tuple[str, ...] = ()

    def start(self, turns: int) -> list[str]:
        return [*self.words, str(turns), *self.behind]


def reports() -> dict[str, bytes]:
    made: bytes = bench.document(0, 60)
    return {"phishing.json": (TOP / "docs" / "examples" / "phishing.json").read_bytes(), "of 60 `EventData`": made}


def callers(made: pathlib.Path, peer: pathlib.Path, whom: str, view: str) -> list[Caller]:
    python = (sys.executable, "-B", "-c", CALLS, view)
    return [
        Caller("peer", (str(peer), "redact", whom.rpartition(" ")[2])), Caller("C", (str(made), view)),
        Caller("Python, `document`", python, ("document",)), Caller("Python, `excerpt`", python, ("excerpt",)),
    ]


def built(folder: pathlib.Path, library: pathlib.Path) -> pathlib.Path:
    """The caller in C, with the static library."""
    made = folder / "redacting"
    subprocess.run(["gcc", "-O2", f"-I{library}", HERE / "redacting.c", library / "libiodef_redact.a", "-o", made], check=True)
    return made


def told(words: Sequence[str], report: bytes) -> bytes:
    return subprocess.run(words, input=report, stdout=subprocess.PIPE, check=True).stdout


def seconds(words: Sequence[str], report: bytes) -> float:
    """The seconds of a processor that a run takes."""
    before = resource.getrusage(resource.RUSAGE_CHILDREN)
    told(words, report)
    after = resource.getrusage(resource.RUSAGE_CHILDREN)
    return after.ru_utime + after.ru_stime - before.ru_utime - before.ru_stime


def seconds_of_call(caller: Caller, report: bytes, about: float) -> float:
    """What a call more takes: so many calls that the start of the process counts for little."""
    start = min(seconds(caller.start(1), report) for _ in range(RUNS))
    turns = 100
    while (spent := seconds(caller.start(turns), report) - start) < max(about / 4, start):
        turns *= 4
    turns = round(turns * max(about, 2 * start) / spent)
    return (min(seconds(caller.start(turns), report) for _ in range(RUNS)) - start) / (turns - 1)


def instructions(words: Sequence[str], report: bytes, folder: pathlib.Path) -> int:
    valgrind = ("valgrind", "--tool=callgrind", f"--callgrind-out-file={folder}/out")
    how = {**os.environ, "PYTHONHASHSEED": "0"}
    run = subprocess.run([*valgrind, *words], input=report, stdout=subprocess.DEVNULL, stderr=subprocess.PIPE, env=how, check=True)
    found = re.search(r"refs:\s*([\d,]+)", run.stderr.decode())
    assert found, run.stderr
    return int(found[1].replace(",", ""))


def instructions_of_call(caller: Caller, report: bytes, folder: pathlib.Path) -> float:
    """What a call more takes."""
    return (instructions(caller.start(1 + MORE), report, folder) - instructions(caller.start(1), report, folder)) / MORE


def check_same(made: Sequence[Caller], report: bytes) -> None:
    """All answer the same, but for `document`, which is a part of it."""
    answers = {each.name: told(each.start(1), report) for each in made}
    whole = answers["peer"]
    for name, answer in answers.items():
        if answer not in whole or (name != "Python, `document`" and answer != whole):
            sys.exit(f"redacting.py: {name} answers {answer[:200]!r}, and the peer {whole[:200]!r}")


def cells(costs: Sequence[float], counts: bool) -> list[str]:
    """The cost of each caller's call beside the first one's."""
    said = [f"{each / 1e6:.2f} million" if counts else f"{1 / each:,.0f}" for each in costs]
    return [said[0], *(f"{text}: {each / costs[0]:.2f}" for text, each in zip(said[1:], costs[1:]))]


def main() -> None:
    words = argparse.ArgumentParser(description=__doc__, formatter_class=argparse.RawDescriptionHelpFormatter)
    words.add_argument("--library", type=pathlib.Path, default=TOP / "out")
    words.add_argument("--peer", type=pathlib.Path, default=HERE / "peer" / "target" / "release" / "peer")
    words.add_argument("--seconds", type=float, default=0.5)
    words.add_argument("--instructions", action="store_true")
    given = words.parse_args()
    library, peer = given.library.resolve(), given.peer.resolve()
    if not (library / "libiodef_redact.a").is_file() or not peer.is_file():
        words.error(f"{library}/libiodef_redact.a and {peer} are needed")
    os.environ["IODEF_REDACT_LIBRARY"] = str(library / "libiodef_redact.so.1")
    os.environ["PYTHONPATH"] = str(TOP / "clients" / "python")
    done: list[float] = []
    progress.say(2, lambda: len(done), 16, "measurements")
    what = "instructions of a call" if given.instructions else "calls a second"
    print(f"| Excerpt, {what} | Bytes | The peer | C: C/peer | Python, `document`: /peer | Python, `excerpt`: /peer |\n|---|---|---|---|---|---|")
    with tempfile.TemporaryDirectory() as name:
        folder = pathlib.Path(name)
        made = built(folder, library)
        for title, report in reports().items():
            for whom, view in VIEWS.items():
                all_of_them = callers(made, peer, whom, view)
                check_same(all_of_them, report)
                costs = []
                for caller in all_of_them:
                    costs.append(instructions_of_call(caller, report, folder) if given.instructions else seconds_of_call(caller, report, given.seconds))
                    done.append(costs[-1])
                print(f"| {title}, for {whom} | {len(report):,} | {' | '.join(cells(costs, given.instructions))} |", flush=True)


if __name__ == "__main__":
    record.run(main)
