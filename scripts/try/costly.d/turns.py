"""Readers behind the shipped proxies that ask for list after list, or leave before they are answered, and what others feel meanwhile."""

from __future__ import annotations

import collections
import contextlib
import dataclasses
import os
import pathlib
import subprocess
import threading
import time
from collections.abc import Iterator

from proxies import NAME, Proxies

SEARCH = "/search?needle=none-"
# The longest that a request takes by itself beside one in hand, on a busy machine.
BESIDE = 1.0
IN_HAND = 20
# What others ask, and of twelve times once a search, which no hub answers faster than one after another.
QUICK = ["/me", "/incidents/1", "/me/groups"]


@dataclasses.dataclass
class Ends:
    """When an attack ends, and how its requests ended."""

    until: float
    statuses: collections.Counter[int] = dataclasses.field(default_factory=collections.Counter)

    def note(self, status: int) -> None:
        self.statuses[status] += 1


def at_95(took: list[float]) -> float:
    return sorted(took)[int(len(took) * 0.95)] if took else 0.0


def request(key: str, target: str) -> bytes:
    return f"GET {target} HTTP/1.1\r\nHost: {NAME}\r\nAuthorization: Bearer {key}\r\nConnection: close\r\n\r\n".encode()


def status_of(proxies: Proxies, source: str, key: str, target: str, leaves: float | None = None) -> int:
    """The status of an answer; 0 without one, or if the caller leaves."""
    with proxies.connect(source) as it:
        it.sendall(request(key, target))
        if leaves is not None:
            time.sleep(leaves)
            return 0
        answer = b""
        while piece := it.recv(65_536):
            answer += piece
    return int(answer[9:12] or 0)


def leaves(proxies: Proxies, ends: Ends, source: str, key: str) -> None:
    """One request after another, each of which is left before it is answered."""
    turn = 0
    while time.monotonic() < ends.until:
        turn += 1
        with contextlib.suppress(OSError, ValueError):
            ends.note(status_of(proxies, source, key, f"{SEARCH}{turn}", 0.5))


def reads(proxies: Proxies, ends: Ends, source: str, key: str, how: str) -> None:
    """As many requests in hand as an address may have, by curl: with HTTP/2 as streams of one connection."""
    version = ["--http2"] if how == "http2" else ["--http1.1", "--parallel-immediate"]
    more = [*version, "-Z", "--parallel-max", str(IN_HAND), "-o", "/dev/null", "-w", "%{http_code}\n"]
    words = proxies.curl(source, key, f"{SEARCH}[1-60]", *more)
    while time.monotonic() < ends.until:
        with subprocess.Popen(words, stdout=subprocess.PIPE, stderr=subprocess.DEVNULL, text=True) as it:
            for line in it.stdout or ():
                ends.note(int(line))
                if time.monotonic() >= ends.until:
                    it.kill()


def attack(proxies: Proxies, ends: Ends, run: int, readers: int, how: str) -> list[threading.Thread]:
    """So many readers, each with a key and an address of its own, of `http1`, `http2` or who `leave`."""
    running = []
    for at in range(readers):
        source, its = f"127.47.{run}.{at + 1}", f"reader{at}"
        if how == "leave":
            running += [threading.Thread(target=leaves, args=(proxies, ends, source, its)) for _ in range(2)]
        else:
            running.append(threading.Thread(target=reads, args=(proxies, ends, source, its, how)))
    for each in running:
        each.start()
    return running


@dataclasses.dataclass
class Felt:
    """What one request was answered, when it was asked, in seconds, and how long it took."""

    target: str
    status: int
    asked: float
    took: float


def others(proxies: Proxies, ends: Ends, keys: list[str], targets: list[str], run: int, pause: float) -> list[Felt]:
    """What persons feel that ask once in so many seconds, each from its own address."""
    felt: list[Felt] = []
    first = time.monotonic()

    def one(turn: int) -> None:
        target, begun, status = targets[turn % len(targets)], time.monotonic(), 0
        with contextlib.suppress(OSError, ValueError):
            status = status_of(proxies, f"127.46.{run}.{turn % 200 + 1}", keys[turn % len(keys)], target)
        felt.append(Felt(target, status, begun - first, time.monotonic() - begun))

    running: list[threading.Thread] = []
    while time.monotonic() < ends.until:
        running.append(threading.Thread(target=one, args=(len(running),)))
        running[-1].start()
        time.sleep(pause)
    for each in running:
        each.join()
    return felt


def processor_time(process: int) -> float:
    """The seconds of a processor that a process has had."""
    fields = pathlib.Path(f"/proc/{process}/stat").read_text().rpartition(")")[2].split()
    return (int(fields[11]) + int(fields[12])) / os.sysconf("SC_CLK_TCK")


def share(proxies: Proxies, run: int, readers: int, how: str, keys: list[str], alone: float, seconds: float, hub: int) -> Iterator[tuple[bool, str]]:
    """Beside these readers nobody else is answered Away, 95 of 100 quick requests wait for one in hand at most, and others' searches
    go before theirs. A search alone takes `alone` seconds. Each run has addresses of its own. The hub is the process `hub`."""
    begun, had = time.monotonic(), processor_time(hub)
    for target in QUICK:
        status_of(proxies, "127.45.0.1", keys[0], target)
    quiet = time.monotonic() - begun
    ends = Ends(time.monotonic() + seconds)
    running = attack(proxies, ends, run, readers, how)
    time.sleep(3)
    felt = others(proxies, ends, keys, [*QUICK * 4, f"{SEARCH}other"], run, max(0.5, quiet))
    for each in running:
        each.join()
    had = (processor_time(hub) - had) / (time.monotonic() - begun)
    name = f"beside {readers} {'reader' if readers == 1 else 'readers'}, {how},"
    bad = collections.Counter(each.status for each in felt if each.status != 200)
    yield not bad, f"{name} each of {len(felt)} other requests is answered: {dict(bad) or 'all are'}"
    # By nginx's clock, as the threads of all these callers wait for one another here.
    took = proxies.waited(rf"127\.46\.{run}\.\d+", f"(?:{'|'.join(QUICK)})")
    # The hub is never idle for long, so this is what one search takes beside all else on this machine, with room for some that take longer.
    searches = proxies.waited(rf"127\.4[67]\.{run}\.\d+", "/search")
    one = max(2 * alone, 3 * (time.monotonic() - begun) / max(len(searches), 1))
    yield at_95(took) <= one + quiet + BESIDE, f"{name} 95 of 100 wait at most {at_95(took):.1f} s, one in hand takes {one:.1f} s, all else {quiet:.1f} s"
    # The first search of each reader is like anybody's. Behind these, those of others go first, so that they wait less and less.
    searched = [each.took for each in sorted(felt, key=lambda each: each.asked) if each.target.startswith("/search")] or [0.0]
    told = ", ".join(f"{each:.1f}" for each in searched)
    yield searched[-1] <= max(2 * one + BESIDE, 0.75 * max(searched)), f"{name} others' searches, one after another, take {told} s"
    # A hub that has half of a processor, as others take the rest, is too slow for what the honest ask here.
    yield ends.statuses.total() > 0, f"  the readers' answers: {dict(ends.statuses)}; the hub had {had:.0%} of a processor"
