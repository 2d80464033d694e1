#!/usr/bin/env python3
"""What one call costs on reports that keep every limit and are made to cost: instructions by callgrind, and peak memory.

    python3 bench/dear.py crates/redact_bench/out/redact_bench ['gated finds' ..]

The reports have 27 classes in one another, each in an array and under a long name, and many classes below the last. With
`--print ROW` it prints what the program gets on standard input. It needs valgrind and GNU time.
"""

import argparse
import pathlib
import re
import subprocess
import sys
import tempfile

sys.path.insert(0, str(pathlib.Path(__file__).resolve().parent.parent / "scripts"))
import record  # noqa: E402

# How many classes are in one another, below the Incident, and how many bytes each of their names has.
CHAIN, NAME = 27, "n" * 8_000

# The Incident's label, one of the classes below the last, and how many of these there are.
REPORTS = {
    "gated": ("public", "{}", 3_900),
    "red": ("public", '{"restriction":"red"}', 1_950),
    "frames": ("red", '{"a":{"restriction":"public"}}', 1_300),
}

# Of each row the report, the call, and how many gates and permissions stand at the many classes.
ROWS = {
    "gated finds": ("gated", "finds", 16, 64),
    "ungated finds": ("gated", "finds", 0, 0),
    "gated excerpt": ("gated", "excerpt", 16, 64),
    "ungated excerpt": ("gated", "excerpt", 0, 0),
    "hidden excerpt": ("red", "excerpt", 0, 0),
    "shown excerpt": ("red", "source", 0, 0),
    "frames excerpt": ("frames", "excerpt", 0, 0),
}


def report(name):
    """The report, and on a second line the pointer of the array of the many classes."""
    label, one, count = REPORTS[name]
    chain = f'"{NAME}":[{{' * CHAIN + '"e":[' + ",".join([one] * count) + "]" + "}]" * CHAIN
    body = f'{{"Incident":[{{"Contact":[],"GenerationTime":"g","IncidentID":"1",{chain},"purpose":"p","restriction":"{label}"}}]}}'
    pointer = "/Incident/0" + f"/{NAME}/0" * CHAIN + "/e"
    return f"{body}\n{pointer}\n".encode()


def words(row, turns):
    _, call, gates, permissions = ROWS[row]
    return [str(turns), call, str(gates), str(permissions)]


def instructions(program, row, turns):
    with tempfile.NamedTemporaryFile() as out:
        command = ["valgrind", "--tool=callgrind", "--callgrind-out-file=" + out.name, program, *words(row, turns)]
        run = subprocess.run(command, input=report(ROWS[row][0]), stdout=subprocess.DEVNULL, stderr=subprocess.PIPE, check=True)
    return int(re.search(rb"refs:\s+([\d,]+)", run.stderr)[1].replace(b",", b""))


def peak(program, row):
    """What one call prints, and the most memory that the program had, in megabytes."""
    command = ["/usr/bin/time", "-f", "%M", program, *words(row, 1)]
    run = subprocess.run(command, input=report(ROWS[row][0]), capture_output=True)
    if run.returncode:
        sys.exit(f"{row}: status {run.returncode}")
    return run.stdout.decode().strip(), int(run.stderr.split()[-1]) / 1024


def main():
    parser = argparse.ArgumentParser(description=__doc__, formatter_class=argparse.RawDescriptionHelpFormatter)
    parser.add_argument("program", nargs="?")
    parser.add_argument("rows", nargs="*", metavar="ROW")
    parser.add_argument("--print", metavar="ROW", choices=ROWS)
    asked = parser.parse_args()
    if asked.print:
        sys.stdout.buffer.write(report(ROWS[asked.print][0]))
        return
    if not asked.program:
        parser.error("which program?")
    if unknown := [it for it in asked.rows if it not in ROWS]:
        parser.error(f"no row {', '.join(unknown)}; the rows are {', '.join(ROWS)}")
    for row in asked.rows or ROWS:
        said, memory = peak(asked.program, row)
        once = instructions(asked.program, row, 2) - instructions(asked.program, row, 1)
        print(f"{row:18}{once / 1e6:10.1f} million instructions{memory:7.0f} MB   answers {said}")


if __name__ == "__main__":
    record.run(main)
