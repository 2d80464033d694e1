"""What a manager of systemd's makes of the units: each of their properties, beside those of units that are written from the tables by hand,
and with what an enabled one is started."""

from __future__ import annotations

import os
import pathlib
import re
import tempfile

from asking import DEPLOY, Checks, Missing, compared, program, run, same
from units import AROUND, LINES, TIMERS, stripped

MANAGER = pathlib.Path("/lib/systemd/systemd")
# A manager of a user, who has no systemd but this one, in mounts and processes of its own. It starts nothing.
ASKED = """
mount -t tmpfs tmpfs /run && mkdir -p /run/systemd/system /run/own
mount -t tmpfs tmpfs /sys/fs/cgroup && mount -t cgroup2 cgroup2 /sys/fs/cgroup
export XDG_RUNTIME_DIR=/run/own HOME=/run/own SYSTEMD_UNIT_PATH="$1:/usr/lib/systemd/user"
"$2" --user --unit=basic.target >/dev/null 2>&1 &
shift 2
for _ in $(seq 200); do [ ! -S /run/own/systemd/private ] || break; sleep 0.2; done
for each; do echo "== $each"; systemctl --user show "$each"; done
kill $!
"""
# What differs from one manager to the next, or is for people.
OWN = re.compile(r"FragmentPath|Description|Documentation|InvocationID|.*Timestamp(Monotonic)?|UnitFile(State|Preset)")
# Names whose order says nothing.
UNORDERED = re.compile(r"IPAddress(Allow|Deny)|After|Before|Requires|Wants|WantedBy|Conflicts")


def names() -> list[str]:
    """Each unit, of a template one of its circles."""
    units = [f"{unit}.service" for unit in LINES] + [f"{unit}.timer" for unit in TIMERS]
    return [it.replace("@", "@payments") for it in units]


def file_of(name: str) -> str:
    return name.replace("@payments", "@")


def by_hand(folder: pathlib.Path) -> pathlib.Path:
    """The folder, with units of the lines that stand in the tables."""
    folder.mkdir()
    for unit, text in LINES.items():
        around = stripped(AROUND[unit])
        first = [line for line in around if not line.startswith("WantedBy=")]
        (folder / f"{unit}.service").write_text("\n".join(["[Unit]", *first, "[Service]", *stripped(text), ""]))
    for unit, lines in TIMERS.items():
        (folder / f"{unit}.timer").write_text("\n".join(["[Unit]", "[Timer]", *lines, ""]))
    return folder


def properties(folder: pathlib.Path) -> dict[str, dict[str, str]]:
    """Of each unit of a folder what the manager knows of it."""
    words = ["unshare", "--mount", "--pid", "--fork", "--kill-child", "--mount-proc", "sh", "-c", ASKED, "sh", folder, MANAGER, *names()]
    told = run(*words).stdout.split("== ")[1:]
    found = {}
    for part in told:
        name, *lines = part.splitlines()
        pairs = (line.partition("=")[::2] for line in lines)
        found[name] = {key: in_order(key, value) for key, value in pairs if not OWN.fullmatch(key)}
    return found


def in_order(key: str, value: str) -> str:
    """A value as it is compared."""
    value = re.sub(r" ; next_elapse=[^}]*", "", value)
    return " ".join(sorted(value.split())) if UNORDERED.fullmatch(key) else value


def managed() -> Checks:
    if os.geteuid() != 0 or not MANAGER.exists():
        raise Missing("only root can start a manager, of Debian's systemd")
    with tempfile.TemporaryDirectory() as name:
        room = pathlib.Path(name)
        room.chmod(0o755)
        wanted, found = properties(by_hand(room / "by-hand")), properties(DEPLOY / "systemd")
        if not all(it.get("LoadState") == "loaded" for it in wanted.values()) or not wanted:
            raise Missing("no manager reads units here")
        for unit in names():
            yield compared(f"systemd makes of {unit} what is promised", wanted[unit], found.get(unit, {}))
        yield from enabled(room / "root")


def enabled(root: pathlib.Path) -> Checks:
    """The folders of links that a machine gets of each unit that is enabled."""
    place = root / "usr" / "lib" / "systemd" / "system"
    place.mkdir(parents=True)
    for file in (DEPLOY / "systemd").iterdir():
        (place / file.name).write_bytes(file.read_bytes())
    for unit in names():
        said = "WantedBy=timers.target" if unit.endswith(".timer") else AROUND[file_of(unit).removesuffix(".service")]
        wanted = next(iter(re.findall(r"WantedBy=(\S+)", said)), None)
        run(program("systemctl", "systemd"), f"--root={root}", "enable", unit)
        links = sorted(it.parent.name for it in (root / "etc").rglob("*") if it.name == unit)
        yield same(f"{unit} is started with {wanted or 'nothing'}", [f"{wanted}.wants"] if wanted else [], links)
