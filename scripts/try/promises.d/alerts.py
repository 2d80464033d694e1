"""The alerts: of each, series at its limit, which raise nothing, and series just above, which raise it after its time. By hand."""

from __future__ import annotations

import json
import pathlib
import re
import tempfile
import typing

from asking import DEPLOY, Check, Checks, program, run

FILE = DEPLOY / "monitoring" / "alerts.yml"
MIB = 1 << 20


class Alert(typing.NamedTuple):
    """The metrics at the limit and above it, the minutes that it waits, its text, and its labels beside the circle."""

    quiet: dict[str, object]
    raised: dict[str, object]
    minutes: int
    text: str
    labels: dict[str, str] = {}
    # The minute at which it is looked for, where the metrics are moments or counted over an hour.
    at: int = 0


def refused(why: str, count: int) -> dict[str, object]:
    return {f'refused_last_hour why="{why}"': count}


def fault(name: str, count: int) -> dict[str, object]:
    return {f'faults_last_hour fault="{name}"': count}


def failed(name: str) -> Alert:
    return Alert(fault(name, 0) | fault("Truncated", 5), fault(name, 1), 0, f"The hub of payments said {name}.", {"fault": name})


def many(why: str) -> Alert:
    text = f"21 requests to payments were above what a person or an address may have in hand or post in a day ({why})."
    return Alert(refused(why, 20), refused(why, 21), 0, text, {"why": why})


TIGHT = "The next start of the hub of payments needs 701MiB of 1000MiB."
HOURS = "0x30 {}x30"
ALERTS: list[tuple[str, Alert]] = [
    ("HubAway", Alert({"up": 1}, {"up": 0}, 2, "The hub of payments doesn't answer.")),
    ("HubSlow", Alert({"answer_seconds": 5}, {"answer_seconds": 5.5}, 5, "The hub of payments takes 5.5 s for its shortest answer.")),
    ("HubQueue", Alert({"queue": 20}, {"queue": 21}, 5, "21 requests wait for the hub of payments.")),
    ("HubWaits", Alert({"queue_seconds": 2, "queue": 3}, {"queue_seconds": 2.5, "queue": 1}, 2, "Requests to payments wait 2.5 s for their turn: who asks so much?")),
    ("HubWaits", Alert({"queue_seconds": 9, "queue": 0}, {"queue_seconds": 9, "queue": 1}, 2, "Requests to payments wait 9 s for their turn: who asks so much?")),
    ("HubShort", Alert(refused("away", 20), refused("away", 21), 0, "21 requests to payments were answered Away within an hour.", {"why": "away"})),
    ("HubRestarts", Alert({"restarts_total": HOURS.format(2)}, {"restarts_total": HOURS.format(3)}, 0, "The hub of payments was restarted 3 times within an hour.", {}, 60)),
    ("HubMemory", Alert({"memory_bytes": 800 * MIB, "memory_limit_bytes": 1000 * MIB}, {"memory_bytes": 801 * MIB, "memory_limit_bytes": 1000 * MIB}, 2,
                        "The hub of payments takes 801MiB, above 80 % of its limit.")),
    ("HubMemory", Alert({"memory_bytes": 9000 * MIB, "memory_limit_bytes": 0}, {"memory_bytes": 2 * MIB, "memory_limit_bytes": 2 * MIB}, 2,
                        "The hub of payments takes 2MiB, above 80 % of its limit.")),
    ("HubStartTight", Alert({"next_start_bytes": 700 * MIB, "next_start_limit_bytes": 1000 * MIB},
                            {"next_start_bytes": 701 * MIB, "next_start_limit_bytes": 1000 * MIB}, 0, TIGHT)),
    ("HubStartTight", Alert({"next_start_bytes": 9000 * MIB, "next_start_limit_bytes": 0},
                            {"next_start_bytes": 701 * MIB, "next_start_limit_bytes": 1000 * MIB}, 0, TIGHT)),
    ("HubPostsStopped", Alert({"posts_stopped": 0}, {"posts_stopped": 1}, 0, "Posts to payments are refused, as its next start has little memory left.")),
    ("HubMemoryWanted", Alert(fault("NoMemory", 0) | refused("F2", 0), fault("NoMemory", 1), 0,
                              "The hub of payments had no memory for 1 requests within an hour.", {"fault": "NoMemory"})),
    ("HubMemoryWanted", Alert(refused("F2", 0) | refused("F1", 9), refused("F2", 2), 0, "The hub of payments had no memory for 2 requests within an hour.", {"why": "F2"})),
    *(("HubStoreFails", failed(name)) for name in ("Failed", "NotOurs", "WrongVersion", "ListenFailed")),
    ("HubStoreRefuses", Alert(refused("F1", 0), refused("F1", 1), 0, "The hub of payments answered F1 1 times within an hour: is the disk full?", {"why": "F1"})),
    ("HubShutsOut", Alert(refused("connections", 0), refused("connections", 1), 0,
                          "1 requests to payments were refused, because an address or the circle had too many in hand.", {"why": "connections"})),
    ("HubDripped", Alert(refused("slow", 20), refused("slow", 21), 0, "21 requests to payments were not complete within 15 seconds.", {"why": "slow"})),
    *(("HubTurns", many(why)) for why in ("turns", "posts")),
    ("HubRate", Alert(refused("rate", 100), refused("rate", 101), 0, "101 requests to payments came faster than an address may send them.", {"why": "rate"})),
    ("HubLogGrows", Alert({"log_bytes": 64_000_000}, {"log_bytes": 64_000_001}, 15, "The log of payments isn't written into its store.")),
    ("TaxiiAway", Alert({"taxii_up": 1}, {"taxii_up": 0}, 2, "iodef-hub-taxii of payments doesn't answer.")),
    ("TaxiiBehind", Alert({"taxii_oldest_read_seconds": 3600}, {"taxii_oldest_read_seconds": 3660}, 10,
                          "Polls of payments may be 1h 1m 0s behind the hub: is --look too short?")),
    # 10,800 and 10,801 seconds before the minute 181; 600 and 601 before the minute 11.
    ("HubCopyOld", Alert({"backup_timestamp_seconds": 60}, {"backup_timestamp_seconds": 59}, 0, "The newest copy of payments is older than three hours.", {}, 181)),
]
OLD = [(name, f"{name} is old: iodef-hub-metrics or iodef-hub-room doesn't run.") for name in ("/p/iodef-hub.prom", "/p/iodef-hub-room.prom")]
NAMES = {name for name, _ in ALERTS} | {"HubMetricsOld"}


def series(metrics: dict[str, object]) -> list[dict[str, str]]:
    told = []
    for words, value in metrics.items():
        name, _, label = words.partition(" ")
        told.append({"series": f'iodef_hub_{name}{{circle="payments"{label and f",{label}"}}}', "values": value if isinstance(value, str) else f"{value}x200"})
    return told


def looked(name: str, given: list[dict[str, str]], at: int, *raised: dict[str, object]) -> dict[str, object]:
    return {"interval": "1m", "input_series": given, "alert_rule_test": [{"eval_time": f"{at}m", "alertname": name, "exp_alerts": list(raised)}]}


def trials(name: str, it: Alert) -> list[dict[str, object]]:
    """At the limit nothing; above it nothing before its time, and then the alert."""
    at = it.at or it.minutes
    told = {"exp_labels": {"circle": "payments", **it.labels}, "exp_annotations": {"summary": it.text}}
    before = [looked(name, series(it.raised), at - 1)] if it.minutes else []
    return [looked(name, series(it.quiet), at + 30 * (not it.at)), *before, looked(name, series(it.raised), at, told)]


def old_metrics(file: str, text: str) -> list[dict[str, object]]:
    def moment(seconds: int) -> list[dict[str, str]]:
        return [{"series": f'node_textfile_mtime_seconds{{file="{file}"}}', "values": f"{seconds}x200"}]

    return [looked("HubMetricsOld", moment(60), 11), looked("HubMetricsOld", moment(59), 11, {"exp_labels": {"file": file}, "exp_annotations": {"summary": text}})]


def asked(promtool: str, tests: list[dict[str, object]]) -> str:
    """What promtool finds, in one line."""
    with tempfile.TemporaryDirectory() as name:
        file = pathlib.Path(name) / "tests.yml"
        file.write_text(json.dumps({"rule_files": [str(FILE)], "tests": tests}))
        told = run(promtool, "test", "rules", file)
        return "" if told.returncode == 0 else " ".join((told.stdout + told.stderr).replace(str(file), "").split())[:600]


def all_trials() -> dict[str, list[dict[str, object]]]:
    """Of each promise its tests."""
    told = {}
    for name, it in ALERTS:
        metrics = ", ".join(f"{metric} {value}" for metric, value in it.raised.items())
        told[f"{name} is raised by {metrics}, and not by {', '.join(map(str, it.quiet.values()))}"] = trials(name, it)
    return told | {f"HubMetricsOld is raised by {file}": old_metrics(file, text) for file, text in OLD}


def raised() -> Checks:
    """All at once, as promtool takes a while to start, and one by one only if one isn't kept."""
    promtool, tests = program("promtool", "prometheus"), all_trials()
    is_well = not asked(promtool, [test for each in tests.values() for test in each])
    for promise, each in tests.items():
        yield Check(promise, "" if is_well else asked(promtool, each))


def names() -> Checks:
    found = set(re.findall(r"^ *- alert: (\w+)$", FILE.read_text(), re.M))
    wrong = [f"there is no {it}" for it in sorted(NAMES - found)] + [f"{it} has no series" for it in sorted(found - NAMES)]
    yield Check("there is each alert, and each has its series", "; ".join(wrong))
