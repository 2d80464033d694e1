"""The tools of deploy/bin where a disk is full, read-only or lost: a table of tools and disks with the status and the word of each fault.

Each case runs in a mount namespace of this process, over file systems in memory that vanish with it: nothing of the machine changes.
Of a disk that fills up each free space is tried, from none in steps of 32 KiB, until the tool succeeds. However it ends: a tool that
says that it failed has left every file as it was, and no other; one that says it succeeded has done all of it.
"""
from __future__ import annotations

import ctypes
import dataclasses
import os
import pathlib
import re
import shutil
import sqlite3
import subprocess
import typing
from collections.abc import Callable, Iterator

import common

BIN = common.TOP / "deploy" / "bin"
STEP, MOST = 32_768, 4_194_304
SECONDS = 60
CIRCLE = "payments"
HOME = pathlib.Path("/var/lib/private/iodef-hub") / CIRCLE
STANDBY, SETTINGS, BACKUPS = (
    pathlib.Path("/var/lib/iodef-hub-standby") / CIRCLE,
    pathlib.Path("/etc/iodef-hub-standby"),
    pathlib.Path("/var/backups/iodef-hub"),
)
# In place of systemd's commands, and of ssh, which runs what rsync asks of the machine that serves.
STAND_INS = {
    "systemctl": "#!/bin/sh\nexit 0\n",
    "systemd-run": '#!/bin/bash\nwhile [ "$1" != /bin/sh ]; do shift; done\nmkdir -p "/var/lib/private/iodef-hub/'
    + CIRCLE
    + '" || exit 1\n'
    '[ -e /var/lib/iodef-hub ] || ln -s private/iodef-hub /var/lib/iodef-hub || exit 1\nexec "$@"\n',
    "ssh": '#!/bin/sh\nwhile [ "$1" != rsync ] && [ $# -gt 0 ]; do shift; done\n[ $# -gt 0 ] || exit 255\ncd "$GIVEN" && exec "$@"\n',
}


@dataclasses.dataclass
class Place:
    """Where a case runs: the program, the store of the trial, an older one, stand-ins, and a file system for each disk."""

    program: str
    store: pathlib.Path
    older: pathlib.Path
    room: pathlib.Path

    def environment(self) -> dict[str, str]:
        tools = self.room / "tools"
        return {
            "PATH": f"{tools}:/usr/bin:/bin:/usr/sbin:/sbin",
            "HOME": "/root",
            "LC_ALL": "C.UTF-8",
            "TMPDIR": str(self.room / "tmp"),
            "IODEF_HUB_PROGRAM": self.program,
            "GIVEN": str(self.room / "given"),
        }


class Tool(typing.NamedTuple):
    """A tool with one of the disks that it needs: what is put there, the command, what it has to leave if it succeeds, and what it says
    and leaves of each fault. `full` and `read_only` are words on standard error, none if the tool doesn't need to write there: Python takes
    another folder where TMPDIR can't be written. `lost` is a status with a word of what is printed."""

    name: str
    disk: str
    prepare: Callable[[Place], None]
    words: tuple[str, ...]
    is_done: Callable[[Place], bool]
    full: str
    read_only: str
    lost: tuple[int, str]


# ---- the machine


def alone() -> None:
    """Gives this process a mount namespace of its own, from which nothing gets out."""
    libc = ctypes.CDLL(None, use_errno=True)
    if libc.unshare(0x0002_0000) != 0:
        raise OSError(ctypes.get_errno(), "unshare")
    mount("--make-rprivate", "/")


def mount(*words: str) -> None:
    subprocess.run(["mount", *words], check=True)


def place_of(program: str, store: pathlib.Path, older: pathlib.Path, room: pathlib.Path) -> Place:
    for folder in ("tools", "given"):
        (room / folder).mkdir(parents=True)
    for name, text in STAND_INS.items():
        (room / "tools" / name).write_text(text)
        (room / "tools" / name).chmod(0o755)
    (room / "tools" / "iodef-hub").symlink_to(program)
    return Place(program, store, older, room)


class Disks:
    """The file systems of one case, of which one has a fault."""

    def __init__(self, place: Place) -> None:
        self.place = place
        self.at = {
            "store": pathlib.Path("/var/lib"),
            "copies": pathlib.Path("/var/backups"),
            "temporary": place.room / "tmp",
            "settings": pathlib.Path("/etc/iodef-hub"),
            "pointing": SETTINGS,
        }

    def __enter__(self) -> Disks:
        changes = self.place.room / "etc"
        for folder in (changes, self.at["temporary"]):
            folder.mkdir(exist_ok=True)
        mount("-t", "tmpfs", "tmpfs", str(changes))
        for name in ("upper", "work"):
            (changes / name).mkdir()
        mount("-t", "overlay", "overlay", "-o", f"lowerdir=/etc,upperdir={changes}/upper,workdir={changes}/work", "/etc")
        self.at["settings"].mkdir(exist_ok=True)
        SETTINGS.mkdir(exist_ok=True)
        for folder in self.at.values():
            mount("-t", "tmpfs", "-o", f"size={MOST}", "tmpfs", str(folder))
        return self

    def __exit__(self, *_: object) -> None:
        for folder in [*self.at.values(), pathlib.Path("/etc"), self.place.room / "etc"]:
            subprocess.run(["umount", "--lazy", str(folder)], check=False, capture_output=True)

    def fill(self, disk: str, free: int) -> None:
        """Leaves so many bytes of a disk free."""
        stat = os.statvfs(self.at[disk])
        (self.at[disk] / "fill").write_bytes(bytes(max(0, stat.f_bavail * stat.f_frsize - free)))

    def protect(self, disk: str) -> None:
        mount("-o", "remount,ro", str(self.at[disk]))

    def lose(self, disk: str) -> None:
        subprocess.run(["umount", "--lazy", str(self.at[disk])], check=True)


def files_of(folders: typing.Iterable[pathlib.Path]) -> dict[str, bytes]:
    """Each file below the folders with its bytes. The indexes of logs and locks don't count, nor a log without a change, nor what a
    standby keeps for its next transfer."""
    found = {}
    for top in folders:
        for file in sorted(top.rglob("*")):
            if (
                file.is_file()
                and file.name not in ("fill", "lock", "in.db")
                and not file.name.endswith("-shm")
            ):
                found[str(file)] = file.read_bytes()
    return {name: it for name, it in found.items() if not name.endswith("-wal") or len(it) > 41}


# ---- what is put there, and what is done


def circle(place: Place) -> None:
    HOME.mkdir(parents=True)
    shutil.copy(place.store, HOME / "hub.db")


def older_circle(place: Place) -> None:
    HOME.mkdir(parents=True)
    shutil.copy(place.older, HOME / "hub.db")


def circle_and_copy(place: Place) -> None:
    circle(place)
    BACKUPS.mkdir()
    shutil.copy(place.store, BACKUPS / "copy.db")


def backups(place: Place) -> None:
    circle(place)
    BACKUPS.mkdir()


def nothing(place: Place) -> None:
    pass


def logged(place: Place) -> None:
    circle(place)
    (pathlib.Path("/var/lib") / "receipts.log").touch()


def standby(place: Place) -> None:
    STANDBY.mkdir(parents=True)
    shutil.copy(place.store, place.room / "given" / "copy.db")
    (SETTINGS / f"{CIRCLE}.conf").write_text("FROM=root@first\nPORT=21010\n")


def standby_with_copy(place: Place) -> None:
    standby(place)
    shutil.copy(place.store, STANDBY / "hub-20260101T000000.000000000Z.db")


def pointing(place: Place) -> None:
    """Where a proxy passes requests, which is what it notes before it changes that."""
    (SETTINGS / f"{CIRCLE}.upstream").write_text("server 192.0.2.2:21010 max_fails=0;\n")
    (SETTINGS / f"{CIRCLE}.upstream.before").write_text("192.0.2.2:21010\n")


def erasable(place: Place) -> None:
    """A store with bytes without use that have a text."""
    circle(place)
    with sqlite3.connect(HOME / "hub.db") as rows:
        rows.execute("PRAGMA journal_mode = DELETE")
        rows.execute("PRAGMA secure_delete = OFF")
        rows.executemany(
            "INSERT INTO item VALUES (9, ?, 1, 'zz', 1, 1, ?)", ((place, f"a text to be erased {place}") for place in range(1000))
        )
        rows.commit()
        rows.execute("DELETE FROM item WHERE incident = 9")
        rows.commit()
    rows.close()
    (place.room / "texts").write_text("a text to be erased\n")


def asked(file: pathlib.Path, text: str) -> typing.Any:
    rows = sqlite3.connect(f"file:{file}?mode=ro&immutable=1", uri=True)
    try:
        return rows.execute(text).fetchone()[0]
    finally:
        rows.close()


def is_sound(file: pathlib.Path) -> bool:
    return subprocess.run([BIN / "iodef-hub-check", file, "--documents"], capture_output=True).returncode == 0


def one(folder: pathlib.Path, pattern: str) -> pathlib.Path:
    (found,) = folder.glob(pattern)
    return found


def has_one_copy(_: Place) -> bool:
    return is_sound(one(BACKUPS, "hub-*.db"))


def is_restored(place: Place) -> bool:
    return is_sound(HOME / "hub.db") and one(HOME, "hub.db.*Z").read_bytes() == place.store.read_bytes()


def is_migrated(place: Place) -> bool:
    return asked(HOME / "hub.db", "SELECT version FROM hub") == 4 and one(HOME, "hub.db.*Z").read_bytes() == place.older.read_bytes()


def is_rekeyed(_: Place) -> bool:
    return bool(asked(HOME / "hub.db", "SELECT hex(key) FROM person WHERE number = 1") == "0" * 64) and is_sound(
        one(HOME, "hub.db.before-rekey-*Z")
    )


def is_closed(_: Place) -> bool:
    return asked(HOME / "hub.db", "SELECT level FROM gate WHERE incident = 1 AND path = ''") == 0 and is_sound(
        one(HOME, "hub.db.before-close-*")
    )


def is_shrunk(_: Place) -> bool:
    return asked(HOME / "hub.db", "SELECT count(*) FROM item WHERE incident = 1") < 20 and is_sound(one(HOME, "hub.db.before-shrink-*"))


def is_erased(_: Place) -> bool:
    return b"to be erased" not in (HOME / "hub.db").read_bytes() and is_sound(HOME / "hub.db")


def is_set_up(_: Place) -> bool:
    return (
        asked(HOME / "hub.db", "SELECT count(*) FROM person") == 1
        and pathlib.Path(f"/etc/iodef-hub/{CIRCLE}.conf").read_text() == "PORT=21010\n"
    )


def is_fetched(_: Place) -> bool:
    return is_sound(one(STANDBY, "hub-*.db"))


def is_taken_over(_: Place) -> bool:
    return is_sound(HOME / "hub.db") and pathlib.Path(f"/etc/iodef-hub/{CIRCLE}.conf").read_text() == "PORT=21010\n"


def is_pointed(_: Place) -> bool:
    return (SETTINGS / f"{CIRCLE}.upstream").read_text() == "server 192.0.2.1:21010 max_fails=0;\n"


def always(_: Place) -> bool:
    return True


STORE, SPACE, MISSING = str(HOME / "hub.db"), "(No space left on device|disk is full|disk I/O error|can't be changed)", "there is no "
READ_ONLY = "([Rr]ead-only|readonly|unable to open|can't be changed)"
NEW_KEY = "0" * 64
TOOLS = [
    Tool("iodef-hub-backup", "copies", backups, (STORE, str(BACKUPS)), has_one_copy, SPACE, READ_ONLY, (0, "hub-")),
    Tool("iodef-hub-backup", "store", backups, (STORE, str(BACKUPS)), has_one_copy, "", "", (1, MISSING)),
    Tool("iodef-hub-restore", "store", circle_and_copy, (CIRCLE, str(BACKUPS / "copy.db")), is_restored, SPACE, READ_ONLY, (1, MISSING)),
    Tool("iodef-hub-restore", "copies", circle_and_copy, (CIRCLE, str(BACKUPS / "copy.db")), is_restored, "", "", (1, MISSING)),
    Tool("iodef-hub-migrate", "store", older_circle, (CIRCLE,), is_migrated, "the hub stays stopped", READ_ONLY, (1, MISSING)),
    Tool("iodef-hub-rekey", "store", circle, (STORE, "1", NEW_KEY), is_rekeyed, SPACE, READ_ONLY, (1, MISSING)),
    Tool("iodef-hub-rekey", "temporary", circle, (STORE, "1", NEW_KEY), is_rekeyed, SPACE, READ_ONLY, (0, "has the new key")),
    Tool("iodef-hub-costly", "store", circle, (STORE, "--close", "1", "--yes"), is_closed, SPACE, READ_ONLY, (1, MISSING)),
    Tool("iodef-hub-costly", "temporary", circle, (STORE, "--close", "1", "--yes"), is_closed, SPACE, "", (0, "done")),
    Tool("iodef-hub-shrink", "store", circle, (STORE, "2", "1", "--yes"), is_shrunk, SPACE, READ_ONLY, (1, MISSING)),
    Tool("iodef-hub-shrink", "temporary", circle, (STORE, "2", "1", "--yes"), is_shrunk, SPACE, "", (0, "done")),
    Tool("iodef-hub-erase", "store", erasable, (str(HOME), "--texts", "TEXTS", "--yes"), is_erased, SPACE, READ_ONLY, (1, MISSING)),
    Tool(
        "iodef-hub-setup",
        "store",
        nothing,
        (CIRCLE, "21010", "Hub"),
        is_set_up,
        "the store was not made",
        "the store was not made",
        (0, "serves"),
    ),
    Tool("iodef-hub-setup", "settings", nothing, (CIRCLE, "21010", "Hub"), is_set_up, "the settings", "the settings", (0, "serves")),
    Tool(
        "iodef-hub-standby",
        "store",
        standby,
        ("fetch", CIRCLE),
        is_fetched,
        "(No space left on device|disk is full)",
        READ_ONLY,
        (0, "hub-"),
    ),
    Tool(
        "iodef-hub-standby",
        "store",
        standby_with_copy,
        ("take-over", CIRCLE, "--pointed"),
        is_taken_over,
        SPACE,
        READ_ONLY,
        (1, "there is no copy"),
    ),
    Tool(
        "iodef-hub-standby",
        "settings",
        standby_with_copy,
        ("take-over", CIRCLE, "--pointed"),
        is_taken_over,
        SPACE,
        READ_ONLY,
        (0, "is served from"),
    ),
    Tool(
        "iodef-hub-standby",
        "pointing",
        pointing,
        ("point", CIRCLE, "192.0.2.1:21010", "--by-hand"),
        is_pointed,
        SPACE,
        READ_ONLY,
        (0, "are passed only to"),
    ),
    Tool("iodef-hub-drill", "temporary", circle_and_copy, (STORE, str(BACKUPS / "copy.db")), always, SPACE, "", (0, "0 differ")),
    Tool("iodef-hub-check", "store", circle, (STORE, "--documents"), always, "", "", (3, MISSING)),
    Tool("iodef-hub-directory", "store", circle, (STORE,), always, "", "", (1, MISSING)),
    Tool(
        "iodef-hub-directory",
        "copies",
        circle_and_copy,
        (STORE, "--names", str(BACKUPS / "names.json")),
        lambda _: (BACKUPS / "names.json").stat().st_size > 2,
        SPACE,
        READ_ONLY,
        (1, "isn't written"),
    ),
    Tool("iodef-hub-receipts", "store", logged, (STORE, "--log", "/var/lib"), always, "", "", (1, MISSING)),
]


class End(typing.NamedTuple):
    """How a tool ended: its status, what it printed, and whether each file is as it was."""

    status: int
    told: str
    errors: str
    changed: list[str]


def run(tool: Tool, place: Place, disks: Disks) -> End:
    words = [str(place.room / "texts") if it == "TEXTS" else it for it in tool.words]
    if tool.name == "iodef-hub-drill":
        words += ["--program", place.program]
    folders = list(disks.at.values())
    before = files_of(folders)
    ran = subprocess.run(
        [BIN / tool.name, *words], capture_output=True, text=True, env=place.environment(), stdin=subprocess.DEVNULL, timeout=SECONDS
    )
    after = files_of(folders)
    changed = sorted(name for name in {*before, *after} if before.get(name) != after.get(name))
    return End(ran.returncode, ran.stdout, ran.stderr, changed)


def wrong(tool: Tool, place: Place, end: End, word: str) -> str | None:
    """What isn't as it should be of a tool on a full or read-only disk."""
    if end.status == 0:
        return None if tool.is_done(place) else f"status 0, and not all is done: {end}"
    if "Traceback" in end.errors:
        return f"it ends by an exception: {end.errors.splitlines()[-1]}"
    if end.status != 1 or not word or not re.search(word, end.errors):
        return f"status {end.status}, and no word like {word!r}: {end.errors!r}"
    return f"files are changed: {end.changed}" if end.changed else None


def by_space(tool: Tool, place: Place) -> str | None:
    """Tries each free space, until the tool succeeds. Returns what is wrong first."""
    for free in range(0, MOST, STEP):
        with Disks(place) as disks:
            tool.prepare(place)
            disks.fill(tool.disk, free)
            end = run(tool, place, disks)
            fault = wrong(tool, place, end, tool.full)
            # (with none Python takes another folder than TMPDIR)
            if fault or end.status == 0 and (free or not tool.full):
                return f"with {free >> 10} KiB: {fault}" if fault else None
    return "it succeeds with no space"


def by_protection(tool: Tool, place: Place) -> str | None:
    with Disks(place) as disks:
        tool.prepare(place)
        disks.protect(tool.disk)
        end = run(tool, place, disks)
        fault = wrong(tool, place, end, tool.read_only)
        return fault or ("it succeeds" if tool.read_only and end.status == 0 else None)


def by_loss(tool: Tool, place: Place) -> str | None:
    with Disks(place) as disks:
        tool.prepare(place)
        disks.lose(tool.disk)
        if tool.disk == "store":
            # what is below the mount is of the machine
            mount("-t", "tmpfs", "tmpfs", "/var/lib")
        elif tool.disk == "copies":
            mount("-t", "tmpfs", "tmpfs", "/var/backups")
        end = run(tool, place, disks)
        status, word = tool.lost
        if "Traceback" in end.errors or end.status != status or word not in end.told + end.errors:
            return f"status {end.status}, not {status} with {word!r}: {end.told!r}, {end.errors!r}"
        return f"files are changed: {end.changed}" if end.status and end.changed else None


def by_output(tool: Tool, place: Place) -> str | None:
    """What the tool prints goes to a full disk."""
    with Disks(place), open("/dev/full", "wb") as full:
        tool.prepare(place)
        words = [str(place.room / "texts") if it == "TEXTS" else it for it in tool.words]
        ran = subprocess.run(
            [BIN / tool.name, *words], stdout=full, stderr=subprocess.PIPE, text=True, env=place.environment(), timeout=SECONDS
        )
        return (
            None
            if ran.returncode and "No space left" in ran.stderr and "Traceback" not in ran.stderr
            else f"status {ran.returncode}: {ran.stderr!r}"
        )


def cases(place: Place, only: str | None) -> Iterator[tuple[bool, str]]:
    """Each tool, or only one, on each of its disks with each fault."""
    asked = [tool for tool in TOOLS if only in (None, tool.name)]
    faults = (("a full disk", by_space), ("a read-only disk", by_protection), ("a lost disk", by_loss))
    for tool in asked:
        for what, by_fault in faults:
            fault = by_fault(tool, place)
            yield fault is None, f"{tool.name} {tool.words[0] if tool.name == 'iodef-hub-standby' else ''}, {what} of {tool.disk}" + (
                f": {fault}" if fault else ""
            )
    for tool in asked:
        if tool.name in ("iodef-hub-check", "iodef-hub-directory", "iodef-hub-receipts") and tool.disk == "store":
            fault = by_output(tool, place)
            yield fault is None, f"{tool.name}, what it prints fills the disk" + (f": {fault}" if fault else "")
