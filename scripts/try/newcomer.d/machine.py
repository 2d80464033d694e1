"""A Debian that has nothing, in a folder: each run is in a copy of it, and sees no other file of this machine."""
from __future__ import annotations

import os
import pathlib
import resource
import shlex
import shutil
import subprocess
import time
from dataclasses import dataclass

MIRROR = "http://deb.debian.org/debian"
# Of the machine that runs the trial only what a network needs is passed on.
PASSED = ("http_proxy", "https_proxy", "no_proxy")
PATH = "/usr/local/sbin:/usr/local/bin:/usr/sbin:/usr/bin:/sbin:/bin"


@dataclass
class Ran:
    """What a run came to. `busy` are the minutes of a processor, `clock` those by the clock."""

    status: int
    out: str
    told: str
    busy: float
    clock: float


def made(folder: pathlib.Path) -> pathlib.Path:
    """The Debian without anything, which is made once for a folder."""
    bare = folder / "bare"
    if not (bare / "made").exists():
        shutil.rmtree(bare, ignore_errors=True)
        with (folder / "debootstrap.log").open("w") as log:
            subprocess.run(["debootstrap", "--variant=minbase", "bookworm", bare, MIRROR], stdout=log, stderr=log, check=True)
        # No daemon is started by its installation.
        rule = bare / "usr/sbin/policy-rc.d"
        rule.write_text("#!/bin/sh\nexit 101\n")
        rule.chmod(0o755)
        (bare / "made").touch()
    return bare


class Machine:
    """A copy of the Debian, which is there until `close`."""

    def __init__(self, folder: pathlib.Path, name: str, more: dict[pathlib.Path, str]) -> None:
        """`more` are folders of this machine that it sees, read-only, and where."""
        self.room = folder / name
        shutil.rmtree(self.room, ignore_errors=True)
        self.top = self.room / "top"
        for each in ("top", "over", "work"):
            (self.room / each).mkdir(parents=True)
        over = f"lowerdir={made(folder)},upperdir={self.room / 'over'},workdir={self.room / 'work'}"
        self.mounts: list[pathlib.Path] = []
        self.mount("-t", "overlay", "overlay", "-o", over, at=self.top)
        for one, at in more.items():
            place = self.top / at.lstrip("/")
            place.mkdir(parents=True)
            self.mount("--bind", str(one), at=place)
            self.mount("-o", "remount,bind,ro", at=place, is_new=False)
        # Packages that were fetched once.
        archives = folder / "archives"
        (archives / "partial").mkdir(parents=True, exist_ok=True)
        self.mount("--bind", str(archives), at=self.top / "var/cache/apt/archives")

    def mount(self, *words: str, at: pathlib.Path, is_new: bool = True) -> None:
        subprocess.run(["mount", *words, at], check=True)
        if is_new:
            self.mounts.append(at)

    def close(self) -> None:
        for at in reversed(self.mounts):
            subprocess.run(["umount", at], check=True)
        shutil.rmtree(self.room, ignore_errors=True)

    def path(self, name: str) -> pathlib.Path:
        return self.top / name.lstrip("/")

    def run(self, script: str, folder: str = "/root", path: str = "", online: bool = False, minutes: float = 60) -> Ran:
        """Runs bash there as root, as a person types the script. Without `online` its only network is a loopback of its own."""
        inside = f"mount -t proc proc /proc && cd {shlex.quote(folder)} && exec bash --norc"
        setup = f"ip link set lo up 2>/dev/null; exec chroot {shlex.quote(str(self.top))} /bin/bash -c {shlex.quote(inside)}"
        words = ["unshare", "--mount", "--pid", "--fork", "--kill-child", *([] if online else ["--net"]), "bash", "-c", setup]
        environment = {"PATH": f"{path}:{PATH}".lstrip(":"), "HOME": "/root", "LANG": "C.UTF-8", "DEBIAN_FRONTEND": "noninteractive"}
        environment |= {name: os.environ[name] for name in PASSED if name in os.environ}
        before, begun = resource.getrusage(resource.RUSAGE_CHILDREN), time.monotonic()
        with subprocess.Popen(words, stdin=-1, stdout=-1, stderr=-1, text=True, errors="replace", env=environment) as started:
            try:
                out, told = started.communicate(script, timeout=minutes * 60)
            except BaseException:
                started.kill()
                raise
        after = resource.getrusage(resource.RUSAGE_CHILDREN)
        busy = after.ru_utime + after.ru_stime - before.ru_utime - before.ru_stime
        return Ran(started.returncode, out, told, busy / 60, (time.monotonic() - begun) / 60)
