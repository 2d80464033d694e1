"""What a purge leaves: its script runs over folders of its own, in which each file is that it may find. By hand."""

from __future__ import annotations

import pathlib
import re

from asking import Check, Checks, Missing, run, same

# What a purge removes, what it keeps and names, each with the reason, and what isn't the package's.
REMOVED = """/etc/iodef-hub/payments.conf /etc/iodef-hub-standby/payments.conf /etc/iodef-hub-taxii/payments.conf /etc/iodef-hub-watch/payments
/var/lib/iodef-hub-names/payments.json /var/lib/private/iodef-hub-watch/a /var/lib/private/iodef-hub-taxii/a
/etc/systemd/system/iodef-hub@payments.service.d/a.conf /etc/systemd/system/iodef-hub-room.service.d/a.conf
/etc/systemd/system/multi-user.target.wants/iodef-hub@payments.service /etc/systemd/system/timers.target.wants/iodef-hub-backup@payments.timer
/var/lib/systemd/timers/stamp-iodef-hub-backup@payments.timer /etc/systemd/system/nginx.service.d/iodef-hub.conf
/var/lib/prometheus/node-exporter/iodef-hub.prom /var/lib/prometheus/node-exporter/iodef-hub-room.prom
/etc/nginx/sites-enabled/iodef-hub /etc/nginx/sites-available/iodef-hub /etc/nginx/iodef-hub-nginx.conf
/var/log/nginx/iodef-hub.log /var/log/nginx/iodef-hub.log.1 /var/log/nginx/iodef-hub-error.log
/etc/rsyslog.d/10-iodef-hub-receipts.conf /etc/tmpfiles.d/iodef-hub-receipts.conf /run/iodef-hub-receipts/haproxy""".split()
REPORTS, KEYS, RECEIPTS = "it holds incident reports", "it holds keys of TLS", "nothing else says who was served which report"
KEPT = {
    "/var/lib/private/iodef-hub/payments/hub.db": REPORTS, "/var/backups/iodef-hub/payments/hub-1.db": REPORTS,
    "/var/lib/iodef-hub-standby/payments/hub.db": REPORTS, "/etc/ssl/iodef-hub/payments.pem": KEYS, "/var/log/iodef-hub-receipts/2026.log": RECEIPTS,
}  # fmt: skip
FIREWALL, RULE = "/etc/iodef-hub.nft", "/etc/logrotate.d/iodef-hub-receipts"
OTHERS = ["/etc/nginx/nginx.conf", "/etc/nginx/sites-enabled/other", "/var/log/nginx/access.log", "/etc/systemd/system/other.service"]
# The words, if any, of a file behind `=`. The network is another one, so that no table of this machine's firewall is touched.
PURGE = """
set -e
script=$1
shift
for each in /etc /var/backups /var/lib /var/log /run; do mount -t tmpfs tmpfs $each; done
for each; do mkdir -p "$(dirname "${each%%=*}")"; printf %s "${each#*=}" >"${each%%=*}"; done
sh "$script" purge >&2 || echo "status $?"
find /etc /var/backups /var/lib /var/log /run ! -type d
find /etc /var/backups /var/lib /var/log /run -type d -name '*iodef*' -printf '%p/\\n'
"""


def purge(script: pathlib.Path, files: dict[str, str]) -> tuple[set[str], list[str]]:
    """What is there behind it, folders of ours with a slash at the end, and what it says."""
    ran = run("unshare", "--mount", "--net", "sh", "-c", PURGE, "sh", script, *(f"{name}={text}" for name, text in files.items()))
    if "permission denied" in ran.stderr.lower():
        raise Missing("no folders of its own can be had here")
    return set(ran.stdout.split("\n")) - {""}, re.findall(r"^iodef-hub: .*", ran.stderr, re.M)


def told(path: str, reason: str) -> str:
    return f"iodef-hub: {path} is kept, as {reason}: remove it by hand."


def folder_of(path: str) -> str:
    """The folder of ours in which a file is."""
    return re.match(r".*?/(?=iodef-hub[^/]*/)iodef-hub[^/]*", path)[0]  # type: ignore[index]


def left(script: pathlib.Path) -> Checks:
    files = dict.fromkeys([*REMOVED, *KEPT, *OTHERS, FIREWALL, RULE], "")
    there, said = purge(script, files)
    found = {it for it in there if not it.endswith("/")}
    yield Check("a purge keeps stores, copies, receipts with their rule, keys of TLS, and what isn't its own",
                ", ".join(sorted({*KEPT, RULE, *OTHERS} - found)))
    yield Check("and nothing else", ", ".join(sorted(found - {*KEPT, RULE, *OTHERS})))
    yield same("it names each of them with the reason", sorted(told(folder_of(it), why) for it, why in KEPT.items()), sorted(said))
    yield same("where there is none of them, no file and no folder of its own is left", (set(OTHERS), []),
               purge(script, dict.fromkeys([*REMOVED, *OTHERS, FIREWALL, RULE], "")))
    yield same("where there is nothing, it ends well", (set(OTHERS), []), purge(script, dict.fromkeys(OTHERS, "")))
    there, said = purge(script, {FIREWALL: "", "/etc/nftables.conf": 'include "/etc/iodef-hub.nft"'})
    yield same("a file that the host's firewall includes is kept and named", ({FIREWALL, "/etc/nftables.conf"}, [told(FIREWALL, "the host's firewall includes it")]), (there, said))
    site = {"/etc/nginx/sites-enabled/circles": "include /usr/share/iodef-hub/nginx/iodef-hub-http.conf;", "/etc/haproxy/haproxy.cfg": "backend iodef_hub_turns"}
    _, said = purge(script, site)
    wanted = ["iodef-hub: /etc/haproxy/haproxy.cfg still has the circles.",
              "iodef-hub: nginx doesn't start any more, as /etc/nginx/sites-enabled/circles includes files that are gone."]
    yield same("sites of nginx that lack files, and a HAProxy that has the circles, are told", wanted, sorted(said))
