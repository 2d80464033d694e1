"""What deploy/promises.toml must name, by hand: a row that it lacks, or that isn't named here, is told."""

from __future__ import annotations

import pathlib
import tempfile
import tomllib

from asking import TOP, Check, Checks, compared, program, run

ROWS = {
    "port": {"hubs", "HAProxy's queues"},
    "time": {
        "a head, until it is whole", "a body, between two pieces of it", "a connection without a request", "a caller that takes nothing of its answer",
        "nginx, until HAProxy has answered", "nginx, until it knows whether a hub lives", "HAProxy, between two tries to connect to a hub",
        "HAProxy, for a caller",
    },
    "closed": {
        "/healthz, to all but this machine", "nginx's version, and a server without a circle's name", "what a caller asked, to nginx's log of errors",
        "fields of a caller but its key, to the hub",
    },
    "mode": {"/usr/bin/iodef-hub", "/lib/systemd/system/iodef-hub*", "/var/backups/iodef-hub", "/var/lib/iodef-hub-names", "/var/log/nginx/iodef-hub.log"},
    "unit": {"iodef-hub@", "iodef-hub-watch@", "iodef-hub-taxii@", "iodef-hub-backup@", "iodef-hub-standby@", "iodef-hub-metrics", "iodef-hub-room"},
    "metric": {
        "up", "answer_seconds", "restarts_total", "store_bytes", "log_bytes", "memory_bytes", "memory_limit_bytes", "waiting", "queue", "queue_seconds",
        "backup_timestamp_seconds", "faults_last_hour", "refused_last_hour", "next_start_bytes", "next_start_limit_bytes", "posts_stopped", "rows",
        "taxii_up", "taxii_requests_total", "taxii_refused_total", "taxii_failed_total", "taxii_unfit_total", "taxii_hub_requests_total", "taxii_readers",
        "taxii_excerpts", "taxii_oldest_read_seconds", "taxii_store_bytes",
    },
}
# Of each limit that OPERATIONS names how much it is.
LIMITS = {
    "requests a second of one address": "10; of a burst 20 pass at once, 20 wait up to 2 s",
    "changes a second of one address (all but GET)": "1; of a burst 10 pass at once, 10 wait up to 10 s",
    "requests of one address in hand": "20",
    "requests of a circle in hand": "300",
    "lists and searches in hand, of one person and of one address": "2",
    "reports and new revisions in hand, of one person": "2",
    "reports in hand with 1,024 commas and opening brackets or more, of a circle": "4",
    "reports and new revisions of one person in a day": "500",
    "new groups of one person in a day": "20",
    "requests by a new key while its exchange is in hand": "0",
    "bytes of the name of a member in a report, an escape of JSON as one to five": "256",
    "memory that the next start needs": "80 % of what it may take",
    "time until a request is whole": "15 s",
    "time in the queue; time of the hub's answer": "45 s; 60 s",
    "connections at HAProxy": "1,000",
    "connections at each process of nginx": "4,096",
    "bytes of a reply that a caller has yet to take": "512 MiB",
    "requests on one connection": "100",
    "connections of one address at port 443": "60",
    "new connections a second of one address": "20; of a burst 200",
}


def name_of(row: dict[str, object]) -> str:
    return str(row.get("of") or row.get("name") or row["paths"][0])  # type: ignore[index]


def rows() -> Checks:
    """The rows of each kind, and the table of limits as a reader of OPERATIONS has it."""
    promised = tomllib.loads((TOP / "deploy" / "promises.toml").read_text())
    for kind, wanted in ROWS.items():
        found = {name_of(row) for row in promised[kind]}
        wrong = [f"it lacks {it}" for it in sorted(wanted - found)] + [f"{it} isn't expected" for it in sorted(found - wanted)]
        yield Check(f"each {kind} is in deploy/promises.toml", "; ".join(wrong))
    page = (TOP / "docs" / "OPERATIONS.md").read_text().partition("\n## Limits\n")[2].partition("\n## ")[0]
    told = [[cell.strip() for cell in line.strip("|").split("|")] for line in page.split("\n") if line.startswith("| ")][1:]
    yield compared("OPERATIONS has each limit", LIMITS, {cells[0]: cells[1] for cells in told})


def written() -> Checks:
    """The files are as deploy/promises.toml has them, and its alerts are raised by their series."""
    told = run(TOP / "scripts" / "promises")
    wrong = "" if told.returncode == 0 else told.stdout.strip().replace("\n", "; ")[:600] + told.stderr[-300:]
    yield Check("each file is as deploy/promises.toml has it", wrong)
    promtool = program("promtool", "prometheus")
    with tempfile.TemporaryDirectory() as name:
        file = pathlib.Path(name) / "tests.yml"
        file.write_text(run(TOP / "scripts" / "promises", "--alerts").stdout)
        tested = run(promtool, "test", "rules", file)
    wrong = "" if tested.returncode == 0 else " ".join((tested.stdout + tested.stderr).split())[:600]
    yield Check("each of its alerts is raised by its series alone", wrong)
