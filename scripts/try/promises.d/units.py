"""The units: what systemd makes of their sandbox, and each of their lines, also those that others imply. The tables are written by hand."""

from __future__ import annotations

import json
import pathlib
import re
import tempfile

from asking import DEPLOY, Check, Checks, program, run, same

# What a unit is exposed to, by systemd's own names; it has nothing else. Each sees the machine's folders, and names devices that every
# program may use. One that needs the network can't be without it, nor one that reads stores without the right to read them.
EACH = {"RootDirectory=/RootImage=", "PrivateMounts=", "DeviceAllow="}
INTERNET = {"PrivateNetwork=", "RestrictAddressFamilies=~AF_(INET|INET6)"}
LOCAL, ANY_ADDRESS, SOCKETS = {"IPAddressDeny= localhost"}, {"IPAddressDeny= none"}, {"RestrictAddressFamilies=~AF_UNIX"}
ROOT = {"User=/DynamicUser=", "PrivateUsers=", "CapabilityBoundingSet=~CAP_(DAC_*|FOWNER|IPC_OWNER)"}
CALLS = {"SystemCallFilter=~@resources", "SystemCallFilter=~@privileged"}
PROCESSES = {"ProtectProc=", "ProcSubset="}
# The metrics ask systemd, the journal and the processes of all hubs, as root.
METRICS = {
    "CapabilityBoundingSet=*", "RestrictAddressFamilies=~AF_NETLINK", "ProtectClock=", "ProtectHostname=", "ProtectKernelLogs=", "RestrictRealtime=", "UMask=",
}
EXPOSED = {
    "iodef-hub@": EACH | INTERNET | LOCAL,
    "iodef-hub-watch@": EACH | INTERNET | ANY_ADDRESS | SOCKETS,
    "iodef-hub-taxii@": EACH | INTERNET | LOCAL,
    "iodef-hub-backup@": EACH | ROOT | ANY_ADDRESS | {"SystemCallFilter=~@resources"},
    "iodef-hub-standby@": EACH | ROOT | INTERNET | ANY_ADDRESS | SOCKETS | CALLS | {"CapabilityBoundingSet=~CAP_(CHOWN|FSETID|SETFCAP)"},
    "iodef-hub-metrics": (EACH - {"DeviceAllow="}) | ROOT | INTERNET | LOCAL | SOCKETS | CALLS | PROCESSES | METRICS,
    "iodef-hub-room": EACH | ROOT | ANY_ADDRESS | SOCKETS | CALLS | PROCESSES | {"UMask="},
}
# How systemd weighs what it says of addresses.
ADDRESSES = {"0.1": "localhost", "0.2": "none"}

# What each unit has; what those have but the metrics; but iodef-hub-room too; and what those have that are no part of root.
CONFINED = """
    NoNewPrivileges=yes
    ProtectSystem=strict
    ProtectHome=yes
    PrivateTmp=yes
    PrivateDevices=yes
    ProtectKernelTunables=yes
    ProtectKernelModules=yes
    ProtectControlGroups=yes
    RestrictNamespaces=yes
    RestrictSUIDSGID=yes
    LockPersonality=yes
    MemoryDenyWriteExecute=yes
    SystemCallArchitectures=native
    SystemCallErrorNumber=EPERM
    SystemCallFilter=@system-service
"""
MORE = CONFINED + """
    ProtectKernelLogs=yes
    ProtectClock=yes
    ProtectHostname=yes
    RestrictRealtime=yes
"""
MOST = MORE + """
    UMask=0077
    ProtectProc=invisible
    ProcSubset=pid
"""
DYNAMIC = MOST + """
    DynamicUser=yes
    PrivateUsers=yes
    RemoveIPC=yes
    AmbientCapabilities=
    CapabilityBoundingSet=
    StateDirectoryMode=0700
    LimitCORE=0
"""
# All lines of [Service].
LINES = {
    "iodef-hub@": DYNAMIC + """
        Type=exec
        EnvironmentFile=/etc/iodef-hub/%i.conf
        ExecStart=/usr/lib/iodef-hub/limit-memory %S/iodef-hub/%i/hub.db /usr/bin/iodef-hub serve %S/iodef-hub/%i/hub.db ${PORT} 4294967295
        RestartPreventExitStatus=78
        SyslogIdentifier=iodef-hub
        ExecStartPost=+/usr/lib/iodef-hub/wait-ready ${PORT}
        NotifyAccess=exec
        TimeoutStartSec=10min
        Restart=always
        RestartSec=500ms
        KillSignal=SIGTERM
        TimeoutStopSec=5
        SuccessExitStatus=SIGTERM
        StateDirectory=iodef-hub/%i
        MemoryMax=1G
        MemorySwapMax=0
        TasksMax=8
        LimitNOFILE=64
        CPUWeight=80
        SystemCallFilter=~@privileged @resources @aio @keyring @ipc @setuid @sync
        SystemCallFilter=fsync fdatasync prlimit64 pipe pipe2
        IPAddressAllow=localhost
        SocketBindDeny=any
        SocketBindAllow=ipv4:tcp:21000-21999
        DevicePolicy=closed
        InaccessiblePaths=-/boot -/root -/mnt -/media -/srv
        User=iodef-hub-%i
        RestrictAddressFamilies=AF_INET
        IPAddressDeny=any
        DeviceAllow=
        KeyringMode=private
    """,
    "iodef-hub-watch@": DYNAMIC + """
        Type=exec
        Environment=EVERY=300 WATCH_WORDS=
        EnvironmentFile=/etc/iodef-hub-watch/%i.conf
        LoadCredential=key:/etc/iodef-hub-watch/%i.key
        Environment=IODEF_HUB_KEY_FILE=%d/key
        ExecStart=/usr/bin/iodef-hub-ask watch --every ${EVERY} --state %S/iodef-hub-watch/%i/told --exec /etc/iodef-hub-watch/%i.news $WATCH_WORDS
        SyslogIdentifier=iodef-hub-watch
        Restart=always
        RestartSec=60
        StateDirectory=iodef-hub-watch/%i
        MemoryMax=512M
        TasksMax=32
        SystemCallFilter=~@privileged @resources
        SystemCallFilter=prlimit64
        InaccessiblePaths=-/var/lib/private/iodef-hub -/var/backups/iodef-hub
        RestrictAddressFamilies=AF_INET AF_INET6 AF_UNIX
    """,
    "iodef-hub-taxii@": DYNAMIC + """
        Type=exec
        Environment=TAXII_WORDS=
        EnvironmentFile=/etc/iodef-hub-taxii/%i.conf
        ExecStart=/usr/bin/iodef-hub-taxii --hub ${HUB_URL} --name ${HUB_NAME} --state %S/iodef-hub-taxii/%i/state.db --port ${PORT} $TAXII_WORDS
        SyslogIdentifier=iodef-hub-taxii
        Restart=always
        RestartSec=5
        RestartPreventExitStatus=1 2
        StateDirectory=iodef-hub-taxii/%i
        CPUWeight=50
        MemoryMax=1G
        MemorySwapMax=0
        TasksMax=96
        SystemCallFilter=~@privileged @resources
        SystemCallFilter=prlimit64
        IPAddressAllow=localhost
        SocketBindDeny=any
        SocketBindAllow=ipv4:tcp:21000-21999
        DevicePolicy=closed
        InaccessiblePaths=-/var/lib/private/iodef-hub -/var/backups/iodef-hub -/boot -/root -/mnt -/media -/srv
        RestrictAddressFamilies=AF_INET
        IPAddressDeny=any
        DeviceAllow=
        KeyringMode=private
    """,
    "iodef-hub-backup@": MOST + """
        Type=oneshot
        ExecStart=/usr/sbin/iodef-hub-backup /var/lib/private/iodef-hub/%i/hub.db /var/backups/iodef-hub/%i 48
        TimeoutStartSec=30min
        Nice=10
        CPUWeight=20
        IOSchedulingClass=idle
        ReadWritePaths=/var/backups/iodef-hub
        SystemCallFilter=~@privileged @resources
        SystemCallFilter=sync ioprio_set
        PrivateNetwork=yes
        CapabilityBoundingSet=CAP_DAC_READ_SEARCH CAP_DAC_OVERRIDE
        RestrictAddressFamilies=none
    """,
    "iodef-hub-standby@": MOST + """
        Type=oneshot
        ExecStart=/usr/sbin/iodef-hub-standby fetch %i
        TimeoutStartSec=15min
        StateDirectory=iodef-hub-standby
        StateDirectoryMode=0700
        Nice=10
        CPUWeight=20
        IOSchedulingClass=idle
        CapabilityBoundingSet=CAP_DAC_READ_SEARCH CAP_DAC_OVERRIDE CAP_CHOWN CAP_FOWNER
        RestrictAddressFamilies=AF_INET AF_INET6 AF_UNIX
    """,
    "iodef-hub-metrics": CONFINED + """
        Type=oneshot
        ExecStart=/usr/lib/iodef-hub/iodef-hub-metrics /var/lib/prometheus/node-exporter/iodef-hub.prom
        TimeoutStartSec=50
        Nice=10
        CPUWeight=20
        ReadWritePaths=/var/lib/prometheus/node-exporter
        IPAddressAllow=localhost
        RestrictAddressFamilies=AF_UNIX AF_INET AF_NETLINK
        IPAddressDeny=any
    """,
    "iodef-hub-room": MORE + """
        Type=exec
        ExecStart=/usr/lib/iodef-hub/iodef-hub-room /var/lib/prometheus/node-exporter/iodef-hub-room.prom
        SyslogIdentifier=iodef-hub-room
        Restart=always
        RestartSec=5
        Nice=10
        MemoryMax=256M
        TasksMax=16
        ReadWritePaths=/var/lib/prometheus/node-exporter
        PrivateNetwork=yes
        CapabilityBoundingSet=CAP_DAC_READ_SEARCH CAP_DAC_OVERRIDE
        RestrictAddressFamilies=AF_UNIX
    """,
}
# The lines of [Unit] and [Install], without its words for people.
AROUND = {
    "iodef-hub@": """
        Wants=time-sync.target
        After=network.target time-sync.target
        ConditionPathExists=/var/lib/private/iodef-hub/%i/hub.db
        StartLimitIntervalSec=0
        WantedBy=multi-user.target
    """,
    "iodef-hub-watch@": """
        Wants=network-online.target
        After=network-online.target
        ConditionPathExists=/etc/iodef-hub-watch/%i.news
        StartLimitIntervalSec=0
        WantedBy=multi-user.target
    """,
    "iodef-hub-taxii@": """
        After=network.target haproxy.service
        ConditionPathExists=/etc/iodef-hub-taxii/%i.conf
        StartLimitIntervalSec=0
        WantedBy=multi-user.target
    """,
    "iodef-hub-backup@": "ConditionPathExists=/var/lib/private/iodef-hub/%i/hub.db",
    "iodef-hub-standby@": """
        Wants=network-online.target
        After=network-online.target
        ConditionPathExists=/etc/iodef-hub-standby/%i.conf
    """,
    "iodef-hub-metrics": "ConditionPathExists=/etc/iodef-hub",
    "iodef-hub-room": """
        After=haproxy.service
        WantedBy=multi-user.target
    """,
}
TIMERS = {
    "iodef-hub-backup@": ["OnCalendar=hourly", "RandomizedDelaySec=5m", "Persistent=yes"],
    "iodef-hub-metrics": ["OnCalendar=minutely", "AccuracySec=5s"],
    "iodef-hub-standby@": ["OnCalendar=minutely", "AccuracySec=1s"],
}

def section(file: pathlib.Path, name: str) -> list[str]:
    """The lines of a section of a unit."""
    text = re.search(rf"^\[{name}\]\n(.*?)(?=^\[|\Z)", file.read_text(), re.M | re.S)
    return [line for line in (text[1] if text else "").split("\n") if line and not line.startswith("#")]


def stripped(text: str) -> list[str]:
    return [line.strip() for line in text.split("\n") if line.strip()]


def judged(name: str, folder: pathlib.Path) -> list[dict[str, str | None]]:
    """What systemd says of a unit, a row for each name."""
    unit = folder / f"{name.replace('@', '@try')}.service"
    unit.write_bytes((DEPLOY / "systemd" / f"{name}.service").read_bytes())
    told = run(program("systemd-analyze", "systemd"), "security", "--offline=true", "--no-pager", "--json=short", unit)
    return json.loads(told.stdout)


def exposure(row: dict[str, str | None]) -> str:
    """The name of a row; of addresses with what systemd found."""
    return f"{row['name']} {ADDRESSES[str(row['exposure'])]}" if row["name"] == "IPAddressDeny=" else str(row["name"])


def exposed(name: str, rows: list[dict[str, str | None]]) -> set[str]:
    found = {exposure(row) for row in rows if row["exposure"]}
    if "CapabilityBoundingSet=*" in EXPOSED[name]:
        found = {it for it in found if not it.startswith("CapabilityBoundingSet=") or it in ROOT} | {"CapabilityBoundingSet=*"}
    return found


def differ(promise: str, wanted: set[str], found: set[str], more: str) -> Check:
    rows = [f"{more} {it}" for it in sorted(found - wanted)] + [f"{it} is missing" for it in sorted(wanted - found)]
    return Check(promise, "; ".join(rows))


def sandboxes() -> Checks:
    """What systemd finds of each unit, with the lines of the units that it judges."""
    with tempfile.TemporaryDirectory() as name:
        for unit, wanted in EXPOSED.items():
            yield differ(f"{unit} is exposed to nothing else than it must be", wanted, exposed(unit, judged(unit, pathlib.Path(name))), "it is exposed to")


def lines() -> Checks:
    shipped = {file.stem for file in (DEPLOY / "systemd").glob("*.service")}
    yield differ("each unit is looked at", set(EXPOSED), shipped, "not looked at is")
    for unit, text in LINES.items():
        file, wanted = DEPLOY / "systemd" / f"{unit}.service", stripped(text)
        yield differ(f"{unit} has its lines", set(wanted), set(section(file, "Service")), "it has")
        # A later filter allows, or takes back, what is in an earlier one.
        filters = [line for line in wanted if line.startswith("SystemCallFilter=")]
        yield same(f"the filters of {unit} are in their order", filters, [line for line in section(file, "Service") if line in filters])
        found = [line for line in section(file, "Unit") + section(file, "Install") if not line.startswith(("Description=", "Documentation="))]
        yield differ(f"{unit} waits for what it must, and starts with the machine if it should", set(stripped(AROUND[unit])), set(found), "it has")
    for unit, wanted_lines in TIMERS.items():
        yield differ(f"the timer of {unit} has its lines", set(wanted_lines), set(section(DEPLOY / "systemd" / f"{unit}.timer", "Timer")), "it has")
