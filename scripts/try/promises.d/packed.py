"""The package: which files it has, with which modes, which folders its installation makes, and what a purge leaves. By hand.

The program in it is another one, as only its name and mode are looked at.
"""

from __future__ import annotations

import os
import pathlib
import re
import shutil
import tempfile

import purged
from asking import DEPLOY, Check, Checks, Missing, program, run

# Folders with all their files. A folder that isn't named has no program and no setting.
FILES = {
    "usr/bin": "iodef-hub iodef-hub-ask iodef-hub-demo iodef-hub-misp iodef-hub-stix iodef-hub-taxii iodef-hub-version iodef-hub-xml",
    "usr/sbin": "iodef-hub-backup iodef-hub-check iodef-hub-costly iodef-hub-directory iodef-hub-drill iodef-hub-erase iodef-hub-migrate iodef-hub-receipts"
                " iodef-hub-rekey iodef-hub-restore iodef-hub-setup iodef-hub-shrink iodef-hub-standby",
    "usr/lib/iodef-hub": "iodef-hub-metrics iodef-hub-room limit-memory nginx-prepare wait-ready",
    "lib/systemd/system": "iodef-hub-backup@.service iodef-hub-backup@.timer iodef-hub-metrics.service iodef-hub-metrics.timer iodef-hub-room.service"
                          " iodef-hub-standby@.service iodef-hub-standby@.timer iodef-hub-taxii@.service iodef-hub-watch@.service iodef-hub@.service",
    "usr/share/iodef-hub/nginx": "iodef-hub-answer-headers.conf iodef-hub-api.conf iodef-hub-csp.conf iodef-hub-errors.conf iodef-hub-health.conf"
                                 " iodef-hub-http.conf iodef-hub-page-files.conf iodef-hub-page-headers.conf iodef-hub-page-names.conf iodef-hub-page.conf"
                                 " iodef-hub-second.conf iodef-hub-server.conf iodef-hub-taxii.conf iodef-hub-tls.conf iodef-hub-unit.conf",
    "usr/share/iodef-hub/nftables": "iodef-hub-callers.nft",
    "usr/share/iodef-hub/page": "index.html",
    "usr/share/doc/iodef-hub/examples": "alerts.yml haproxy.cfg iodef-hub.nft mail-news rt-drafts site.conf",
}
STARTED = {"usr/bin", "usr/sbin", "usr/lib/iodef-hub"}
ALSO_STARTED = {"usr/share/doc/iodef-hub/examples/mail-news", "usr/share/doc/iodef-hub/examples/rt-drafts"}
# The folders that its installation makes, on a machine without them.
MADE = {"/var/backups/iodef-hub": "700 root root", "/var/lib/iodef-hub-names": "755 root root", "/var/lib/prometheus/node-exporter": "755 root root"}
# In folders of its own for all of the system's that it might touch, and without a systemd that it could ask.
INSTALL = """
set -e
for each in /var/backups /var/lib /run; do mount -t tmpfs tmpfs $each; done
umask 022
sh "$1" configure '' >&2
shift
for each; do stat -c '%n %a %U %G' "$each" || true; done
"""


def built(folder: pathlib.Path) -> pathlib.Path:
    """The package, with a small program in place of the proved one."""
    for name, package in (("dh", "debhelper"), ("dpkg-buildpackage", "dpkg-dev")):
        program(name, package)
    shutil.copy(program("true", "coreutils"), folder / "iodef-hub")
    quick = {"DPKG_DEB_COMPRESSOR_TYPE": "gzip", "DPKG_DEB_COMPRESSOR_LEVEL": "1", "IODEF_HUB_COMMIT": "0" * 40}
    ran = run(DEPLOY / "deb" / "build-deb", folder / "iodef-hub", folder, env={**os.environ, **quick}, timeout=600)
    if ran.returncode:
        raise ValueError(f"build-deb: {ran.stderr[-300:]}")
    return next(folder.glob("iodef-hub_*.deb"))


def rows(package: pathlib.Path) -> dict[str, tuple[str, str]]:
    """Of each path that isn't a folder's the mode as `ls` writes it, and the owner; of a folder with a slash at its end."""
    told = run("dpkg-deb", "-c", package).stdout.split("\n")
    return {cells[5].removeprefix("./"): (cells[0], cells[1]) for cells in map(str.split, told) if len(cells) >= 6}


def mode_of(path: str) -> str:
    if path.endswith("/") or not path:
        return "drwxr-xr-x"
    return "-rwxr-xr-x" if path.rpartition("/")[0] in STARTED or path in ALSO_STARTED else "-rw-r--r--"


def packed() -> Checks:
    with tempfile.TemporaryDirectory() as name:
        folder = pathlib.Path(name)
        package = built(folder)
        found = rows(package)
        for place, wanted in FILES.items():
            there = {path.rpartition("/")[2] for path in found if re.fullmatch(rf"{place}/[^/]+", path)} - {"changelog.gz"}
            differ = sorted(there ^ set(wanted.split()))
            yield Check(f"{place} has its files", f"{', '.join(differ)}: too many, or missing" if differ else "")
        wrong = [f"{path or '.'} is {mode} of {owner}" for path, (mode, owner) in found.items() if mode[0] != "l" and (mode, owner) != (mode_of(path), "root/root")]
        yield Check("root owns each file, and nobody else writes one; only programs can be started", "; ".join(wrong[:5]))
        yield from installed(folder, package)


def installed(folder: pathlib.Path, package: pathlib.Path) -> Checks:
    if os.geteuid() != 0:
        raise Missing("only root can try what an installation makes")
    run("dpkg-deb", "-e", package, folder / "control", check=True)
    ran = run("unshare", "--mount", "sh", "-c", INSTALL, "sh", folder / "control" / "postinst", *MADE)
    if "permission denied" in ran.stderr.lower():
        raise Missing("no folders of its own can be had here")
    told = dict(line.split(" ", 1) for line in ran.stdout.split("\n") if line)
    wrong = [f"{place} is {told.get(place)}" for place, mode in MADE.items() if told.get(place) != mode]
    yield Check("its installation makes the folders, that of the copies for root alone", "; ".join(wrong) + (ran.stderr[-200:] if wrong else ""))
    yield from purged.left(folder / "control" / "postrm")
