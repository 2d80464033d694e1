#!/usr/bin/env python3
"""Leaves the line of a gate, for .ci/run:

    scripts/gate_line.py --state PID                     before the gate: prints the state of the tree
    scripts/gate_line.py --watch PID GATE FILE           beside it: notes in FILE what was seen of it, once it has ended
    scripts/gate_line.py --leave PID STATUS STATE FILE   behind it

PID is the shell that waits for the process GATE. The line has what record.py's have, and the `kit`, the `cpu_minutes`, `parts` and
`gb_at_once` (scripts/gate_costs.py), and if the gate passed how many `crates` and `edits` there are, and how many of the crates were
`kept`: not proved in this run. The counts are read from the shell's output, if that is a file.

The line is in out/runs.jsonl and, as the gate's clone may be thrown away, a second time in iodef-hub-gates.jsonl beside the folder
rattle-kept, in which the kit keeps what gates proved, for all clones on the machine.
"""
from __future__ import annotations

import contextlib
import datetime
import json
import os
import pathlib
import re
import shutil
import stat
import subprocess
import sys
import time
from typing import Any

sys.dont_write_bytecode = True

import gate_costs  # noqa: E402
import record  # noqa: E402

# So long is waited for what was seen, once the gate has ended.
SECONDS = 3
# The file of the machine is begun anew when it is longer, and of an output this end is read.
MOST_BYTES, END_BYTES = 4_000_000, 4_096


def machine() -> pathlib.Path | None:
    """The file of all clones on this machine, if there is a kit that keeps what gates proved."""
    rt = shutil.which("rt")
    folder = pathlib.Path(rt).resolve().parent.parent.parent if rt else None
    return folder / "iodef-hub-gates.jsonl" if folder and (folder / "rattle-kept").is_dir() else None


def on_machine() -> list[dict[str, Any]]:
    """The gates of all clones on this machine. A line that a full disk cut is passed over."""
    file, found = machine(), list[dict[str, Any]]()
    with contextlib.suppress(OSError):
        for it in file.read_text().splitlines() if file else []:
            with contextlib.suppress(ValueError):
                found.append(json.loads(it))
    return found


def output(pid: int) -> int:
    """The bytes of the file that is the shell's output, or -1 if it is none."""
    with contextlib.suppress(OSError):
        found = os.stat(f"/proc/{pid}/fd/1")
        return found.st_size if stat.S_ISREG(found.st_mode) else -1
    return -1


def counts(pid: int, status: int, begin: int) -> dict[str, int]:
    """What the last line of the output behind the byte `begin` counts, if it agrees with the status."""
    size = output(pid)
    if begin < 0 or size < begin:
        return {}
    with open(f"/proc/{pid}/fd/1", errors="replace") as file:
        file.seek(max(begin, size - END_BYTES))
        found = record.COUNTED.fullmatch(file.read().rstrip("\n").rpartition("\n")[2])
    is_whole = found is not None and (found[2] == "0") == (status == 0)
    return {"passed": int(found[1]), "failed": int(found[2])} if found and is_whole else {}


def seen(file: pathlib.Path) -> dict[str, Any]:
    """What the watcher saw, which it writes when the gate has ended; nothing if it doesn't."""
    until = time.monotonic() + SECONDS
    while time.monotonic() < until:
        with contextlib.suppress(OSError, ValueError):
            return dict(json.loads(file.read_text()))
        time.sleep(0.1)
    return {}


def share(parts: dict[str, dict[str, float]]) -> dict[str, int]:
    """How many crates and edits there are, and how many of the crates no process proved."""
    crates = re.findall(r"^(\w+)[^:#]*:", (record.TOP / "crates.txt").read_text(), re.M)
    edits = sum(1 for _ in record.TOP.glob("crates/*/must-fail/*.edit"))
    return {"crates": len(crates), "edits": edits, "kept": sum(not parts.get(it, {}).get("proof") for it in crates)}


def line(pid: int, status: int, before: dict[str, Any], file: pathlib.Path) -> dict[str, Any]:
    begin, shell = before.pop("output"), gate_costs.process(pid)
    assert shell is not None
    seconds = float(pathlib.Path("/proc/uptime").read_text().split()[0]) - shell.start / gate_costs.TICK
    began = record.now() - datetime.timedelta(seconds=seconds)
    kit = subprocess.run(["rt", "version"], capture_output=True, text=True, timeout=record.GIT_SECONDS).stdout.strip()
    costs: dict[str, Any] = {"cpu_minutes": round(shell.seconds / 60, 1), **seen(file)}
    return {
        "script": ".ci/run",
        "words": [],
        "programs": {},
        "kit": kit,
        **record.after(before),
        **counts(pid, status, begin),
        **{"status": status, "seconds": round(seconds, 1), "began": f"{began:%Y-%m-%dT%H:%M:%SZ}", "processors": os.cpu_count()},
        **costs,
        **(share(costs["parts"]) if status == 0 and "parts" in costs else {}),
    }


def watch(pid: int, gate: int, file: str) -> None:
    told = json.dumps(gate_costs.watch(pid, gate))
    # It isn't made anew where it was removed.
    with open(file, "r+") as it:
        it.write(told)


def leave(whole: dict[str, Any]) -> None:
    record.leave(whole)
    if lines := machine():
        record.add(whole, lines, MOST_BYTES)


def main() -> int:
    match sys.argv[1:]:
        case ["--state", pid]:
            print(json.dumps(record.state() | {"output": output(int(pid))}))
        case ["--watch", pid, gate, file]:
            watch(int(pid), int(gate), file)
        case ["--leave", pid, status, before, file]:
            leave(line(int(pid), int(status), json.loads(before), pathlib.Path(file)))
        case _:
            print(__doc__)
            return 0 if sys.argv[1:] in (["-h"], ["--help"]) else 2
    return 0


if __name__ == "__main__":
    sys.exit(main())
