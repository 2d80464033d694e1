#!/usr/bin/env python3
"""promised.py: asks the machine on which it runs for each promise of deploy/promises.toml, as root. It prints `ok TEXT` or `not TEXT`.

nginx is asked by curl and openssl, the units by `systemd-analyze security`, with what they may be exposed to by the table of
scripts/try/promises, the firewall by `nft -j`, files by stat, alerts by promtool, and metrics in the files of the exporter.
"""

import glob
import grp
import json
import os
import pathlib
import pwd
import stat
import subprocess
import sys
import tomllib
import typing
from collections.abc import Iterator

sys.dont_write_bytecode = True

TOP = pathlib.Path(__file__).resolve().parent.parent.parent.parent
sys.path.insert(0, str(TOP / "scripts" / "try" / "promises.d"))

import units  # noqa: E402

AUTHORITY, NAME = "/etc/ssl/iodef-hub/authority.pem", "payments.hub.example"
EXPORTED = pathlib.Path("/var/lib/prometheus/node-exporter")
PACKAGED = pathlib.Path("/usr/share/doc/iodef-hub/examples")
Told = Iterator[tuple[str, str]]
Row = dict[str, typing.Any]
# Of each kind of answer what it is asked by.
ASKED = {"page": ("/ui/", "/ui/names.json"), "answer": ("/me", "/ui/none", "/healthz", "/incidents/1")}
VERSIONS = {"TLSv1": "-tls1", "TLSv1.1": "-tls1_1", "TLSv1.2": "-tls1_2", "TLSv1.3": "-tls1_3"}


def run(*words: object, given: str = "") -> str:
    ran = subprocess.run([str(word) for word in words], input=given, capture_output=True, text=True, timeout=120)
    return ran.stdout + ran.stderr


def headers(promised: Row) -> Told:
    for kind, paths in ASKED.items():
        for path in paths:
            head = run("curl", "-s", "-D", "-", "-o", "/dev/null", "--cacert", AUTHORITY, f"https://{NAME}{path}")
            found = {name.lower(): value.strip() for name, _, value in (line.partition(":") for line in head.split("\n"))}
            wrong = [name for name, value in promised["headers"][kind].items() if found.get(name.lower()) != value]
            yield f"an answer to {path} has each field that is promised", ", ".join(wrong)


def handshakes(promised: Row) -> Told:
    for version, word in VERSIONS.items():
        # By its address: beside IPv6 addresses openssl looks no name up whose only address is of loopback.
        told = run("openssl", "s_client", "-connect", "127.0.0.1:443", "-servername", NAME, word, given="Q\n")
        is_taken, is_promised = "Cipher is (NONE)" not in told and "Cipher is" in told, version in promised["tls"]["ssl_protocols"].split()
        yield f"{version} is {'taken' if is_promised else 'refused'}", "" if is_taken == is_promised else "it isn't"


def in_set(value: object) -> set[str]:
    """A set of nft's, or one value, as words."""
    members = value["set"] if isinstance(value, dict) else [value]  # type: ignore[index]
    return {str(it) for it in members}


def user(name: str) -> str:
    return str(pwd.getpwnam(name).pw_uid) if not name.isdigit() else name


def firewall(promised: Row) -> Told:
    rules = [it["rule"]["expr"] for it in json.loads(run("nft", "-j", "list", "table", "inet", "iodef_hub_local"))["nftables"] if "rule" in it]
    found = []
    for rule in rules:
        matches = {json.dumps(it["match"]["left"]): it["match"] for it in rule if "match" in it}
        ports = next((in_set(it["right"]) for left, it in matches.items() if "dport" in left), set())
        users = next((in_set(it["right"]) for left, it in matches.items() if "skuid" in left and it["op"] == "!="), set())
        found.append((ports, {user(it) for it in users}, any("reject" in it for it in rule)))
    for port in promised["port"]:
        wanted = ({str(it) for it in port["numbers"]}, {user(it) for it in port["users"]}, True)
        yield f"the ports of {port['of']} are closed to all but {' and '.join(port['users'])}", "" if wanted in found else str(found)


def sandboxes(promised: Row) -> Told:
    for unit in promised["unit"]:
        name = unit["name"].replace("@", "@payments")
        told = subprocess.run(["systemd-analyze", "security", "--no-pager", "--json=short", f"{name}.service"], capture_output=True, text=True)
        # Only of a unit that doesn't run systemd says that it has no mounts of its own.
        differ = (units.EXPOSED[unit["name"]] ^ units.exposed(unit["name"], json.loads(told.stdout))) - {"PrivateMounts="}
        yield f"{name} is exposed to nothing else than it must be", ", ".join(sorted(differ))


def mode_of(it: os.stat_result) -> str:
    return f"{stat.S_IMODE(it.st_mode):o} {pwd.getpwuid(it.st_uid).pw_name} {grp.getgrgid(it.st_gid).gr_name}"


def modes(promised: Row) -> Told:
    for row in promised["mode"]:
        for pattern in row["paths"]:
            found = {path: os.stat(path) for path in glob.glob(pattern)}
            wrong = [path for path, it in found.items() if mode_of(it) != row["mode"]]
            yield f"{pattern} has mode {row['mode']}", ", ".join(wrong) if found else "there is none"


def alerts(promised: Row) -> Told:
    tests = json.loads(run(TOP / "scripts" / "promises", "--alerts"))
    tests["rule_files"] = [str(PACKAGED / "alerts.yml")]
    file = pathlib.Path("/try/alerts.json")
    file.write_text(json.dumps(tests))
    told = run("promtool", "test", "rules", file)
    is_well = "SUCCESS" in told and "FAILED" not in told
    yield f"each of {len(promised['alert'])} alerts is raised by its series alone", "" if is_well else " ".join(told.split())[:300]


def headed(metric: Row) -> str:
    """The beginning of a metric in a file of the exporter."""
    name = f"iodef_hub_{metric['name']}"
    # This machine has no TAXII, so nothing is measured of it.
    first = "" if metric["name"].startswith("taxii_") else f'{name}{{circle="'
    return f'# HELP {name} {metric["help"]}\n# TYPE {name} {metric["kind"]}\n{first}'


def metrics(promised: Row) -> Told:
    for is_room, name in ((False, "iodef-hub.prom"), (True, "iodef-hub-room.prom")):
        text = (EXPORTED / name).read_text()
        rows = [it for it in promised["metric"] if it.get("room", False) is is_room]
        lacks = [it["name"] for it in rows if headed(it) not in text]
        yield f"{name} has each metric that is promised, with its help", ", ".join(lacks)


def main() -> None:
    promised = tomllib.loads((TOP / "deploy" / "promises.toml").read_text())
    for part in (headers, handshakes, firewall, sandboxes, modes, alerts, metrics):
        try:
            for text, wrong in part(promised):
                print(f"not {text}: {wrong}" if wrong else f"ok {text}", flush=True)
        except Exception as fault:  # a part that breaks off is a promise that isn't kept
            print(f"not {part.__name__} are asked to their end: {type(fault).__name__}: {fault}", flush=True)


if __name__ == "__main__":
    main()
