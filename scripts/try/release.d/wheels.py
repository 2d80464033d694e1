"""The wheel of a release: that pip installs it in a fresh environment without a network, and that the library inside is called."""
from __future__ import annotations

import os
import pathlib
import re
import subprocess
import sys
from collections.abc import Callable

Tell = Callable[[str, bool, object], None]
TOP = pathlib.Path(__file__).resolve().parent.parent.parent.parent
REPORT = TOP / "docs/examples/phishing.json"
# What clients/python/REDACT.md shows of this report.
SHOWN = "(15, 'TLP:GREEN') Withheld(place='/Incident/0', rule='H-RED')"
ASKED = """
import iodef_redact, pathlib, sys
report = pathlib.Path(sys.argv[1]).read_bytes()
try:
    seen = iodef_redact.excerpt(report, to="GREEN")
    print((seen.classes, seen.label), seen.withheld[0])
    pathlib.Path("document").write_bytes(iodef_redact.document(report, to="GREEN"))
except iodef_redact.Fault as fault:
    print(type(fault).__name__)
"""


def alone(*words: str | pathlib.Path, folder: pathlib.Path) -> tuple[int, str]:
    """Runs it without a network, if that can be taken away, and without any library but its own."""
    given = {name: it for name, it in os.environ.items() if name not in ("IODEF_REDACT_LIBRARY", "PYTHONPATH")}
    cut = ["unshare", "--net"] if os.geteuid() == 0 else []
    ran = subprocess.run([*cut, *(str(it) for it in words)], cwd=folder, env=given, stdout=subprocess.PIPE, stderr=subprocess.STDOUT, text=True)
    return ran.returncode, ran.stdout


def tag_of(library: pathlib.Path) -> str:
    """The tag by what binutils says of a library: of the C library's versions the newest, and the machine."""
    told = subprocess.run(["objdump", "-T", "-f", library], capture_output=True, text=True, check=True).stdout
    newest = max([(2, 17), *((int(a), int(b)) for a, b in re.findall(r"GLIBC_(\d+)\.(\d+)", told))])
    machine = "x86_64" if "x86-64" in told else "aarch64"
    return f"py3-none-manylinux_{newest[0]}_{newest[1]}_{machine}"


def tried(dist: pathlib.Path, room: pathlib.Path, library: pathlib.Path, redact: pathlib.Path | None, version: str, tell: Tell) -> None:
    """`redact` is the program iodef-redact, if there is one; without it the library is one whose calls answer NoMemory."""
    wheel, = dist.glob("*.whl")
    due = f"iodef_hub_client-{version}-{tag_of(library)}.whl"
    tell("the wheel is called by its version, and for the machines of its library", wheel.name == due, (wheel.name, due))
    folder = room / "fresh"
    subprocess.run([sys.executable, "-m", "venv", folder], check=True)
    status, told = alone(folder / "bin/pip", "install", "--no-index", wheel, folder=room)
    tell("pip installs it in a fresh environment, without a network", status == 0, told)
    status, told = alone(folder / "bin/python", "-c", ASKED, REPORT, folder=room)
    if redact:
        tell("the library inside answers what REDACT.md shows", (status, told.strip()) == (0, SHOWN), told)
        words = [str(redact), "excerpt", "--clearance", "GREEN", "--document"]
        wanted = subprocess.run(words, stdin=REPORT.open("rb"), capture_output=True, check=True).stdout
        found = (room / "document").read_bytes()
        tell("byte for byte what iodef-redact prints", found.rstrip(b"\n") == wanted.rstrip(b"\n"), (found[:200], wanted[:200]))
    else:
        tell("the library inside is the one that is called", (status, told.strip()) == (0, "NoMemory"), told)
    status, told = alone(folder / "bin/iodef-hub-ask", "--version", folder=room)
    tell("its commands run", status == 0 and told.startswith("iodef-hub-ask "), told)
    inside, = folder.glob("lib/python*/site-packages/iodef_redact/libiodef_redact.so.1")
    inside.unlink()
    status, told = alone(folder / "bin/python", "-c", ASKED, REPORT, folder=room)
    tell("without it there is no library", status != 0 and "OSError" in told or "libiodef_redact.so.1" in told, told)
