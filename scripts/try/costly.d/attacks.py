"""Cases of costly: what one caller or a few may try at the edge, and what honest persons feel beside it. Each says in CASES which change to
the shipped files lets it succeed; with --weakened these are made, and the case must fail."""

from __future__ import annotations

import collections
import concurrent.futures
import contextlib
import functools
import itertools
import pathlib
import re
import shutil
import subprocess
import time
import typing
from collections.abc import Callable, Iterator

import edge
from edge import Changes, Check, Edge, Honest, Served, ask, digest, request, send, small_report
from proxies import DEPLOY, NAME, Room
from streams import Streams

ADMIN, ADA, CEM, BEN = "admin-key", "ada-key", "cem-key", "ben-key"
MIB = 1 << 20
BESIDE = 64 * MIB
SECONDS = 40.0
IS_WEAKENED = False
# Reports and new revisions of a day, in place of 500.
FEW = ("int(500)", "int(6)")
# More time in the queue, in place of a faster machine.
PATIENT: Changes = {"haproxy.cfg": [("timeout queue        45s", "timeout queue        150s")], "iodef-hub-api.conf": [("proxy_read_timeout         115s", "proxy_read_timeout         300s")]}


class Trial(typing.NamedTuple):
    """A hub behind the edge, with an ordinary report, and honest persons."""

    hub: Served
    proxies: Edge
    honest: Honest

    def folder(self) -> pathlib.Path:
        return self.hub.store.parent


@contextlib.contextmanager
def trial(hub: Served, changes: Changes, weaker: Changes) -> Iterator[Trial]:
    number = hub.post(small_report("ordinary"))[0]
    both = {name: [*changes.get(name, []), *weaker.get(name, [])] for name in {*changes, *weaker}}
    proxies = Edge(hub.store.parent / "edge", hub.port, both)
    try:
        honest = Honest(proxies, hub, number)
        honest.admit(ADMIN)
        yield Trial(hub, proxies, honest)
    finally:
        proxies.close()


def at_once(count: int, does: Callable[[int], typing.Any]) -> list[typing.Any]:
    """What so many callers get that begin at once."""
    with concurrent.futures.ThreadPoolExecutor(count) as callers:
        return list(callers.map(does, range(count)))


def alone(hub: Served, key: str, method: str, target: str, body: bytes = b"") -> float:
    begun = time.monotonic()
    typing.cast(typing.Any, hub).ask(key, method, target, body)
    return time.monotonic() - begun


def incidents(first: int, count: int, header: str, label: str = "public") -> bytes:
    each = [f'{{"Contact":0,"GenerationTime":0,"IncidentID":{first + at},"purpose":0,"restriction":"{label}"}}' for at in range(count)]
    return f'{{"Incident":[{",".join(each)}]{header and "," + header}}}'.encode()


def lines(count: int, name: str = "a") -> str:
    return f'"{name}":[' + ",".join(["1"] * count) + "]"


def dear_view(first: int, places: int = 650) -> bytes:
    """A report whose View has more than a hundred megabytes: 650 places below 27 classes with long names. It is posted at the hub's own port,
    as the proxy has a limit of names."""
    name, frame = "n" * 7_700, '{"a":{"restriction":"public"}}'
    more = f'"{name}":[{{' * 27 + '"e":[' + ",".join([frame] * places) + "]" + "}]" * 27
    return f'{{"Incident":[{{"Contact":0,"GenerationTime":0,"IncidentID":{first},"purpose":0,"restriction":"red",{more}}}]}}'.encode()


def costs(hub: Served, number: int) -> float:
    return max(alone(hub, BEN, "GET", f"/incidents/{number}") for _ in range(2))


# ---- turns


def views_before_lists(hub: Served, weaker: Changes) -> Iterator[Check]:
    """One reader with 20 dear Views in hand by HTTP/2, who asks for no list: nor may others wait for theirs until it ends."""
    dear = hub.post(dear_view(7))[0]
    one = costs(hub, dear)
    with trial(hub, {}, weaker) as at:
        statuses = collections.Counter[int]()

        def attack(goes_on: Callable[[], bool]) -> None:
            words = at.proxies.curl("127.47.1.1", BEN, f"/incidents/{dear}#[1-60]", "--http2", "-Z", "--parallel-max", "20", "-m", "42", "-o", "/dev/null", "-w", "%{http_code}\n")
            while goes_on():
                with subprocess.Popen(words, stdout=subprocess.PIPE, stderr=subprocess.DEVNULL, text=True) as it:
                    for line in it.stdout or ():
                        statuses[int(line)] += 1
                        if not goes_on():
                            it.kill()

        took = at.honest.run(attack, SECONDS)
        yield from at.honest.checks("one reader's dear Views", max(2 * one, took / max(statuses[200], 1)), one)
        yield statuses[200] > 0, f"  a View alone took {one:.1f} s; its answers: {dict(statuses)}"


def refused_posts_before_lists(hub: Served, weaker: Changes) -> Iterator[Check]:
    """One poster at 20 addresses whose reports are refused when most of the work is done; they don't count for its day."""
    bad = incidents(100, 16, lines(4_060)).replace(b'"public"', b'"publix"')
    one = max(alone(hub, ADA, "POST", "/incidents?level=3", bad) for _ in range(3))
    with trial(hub, {}, weaker) as at:
        statuses = collections.Counter[int]()

        def one_caller(place: int, goes_on: Callable[[], bool]) -> None:
            while goes_on():
                statuses[ask(at.proxies, f"127.47.2.{place + 1}", ADA, "POST", "/incidents?level=3", bad).status] += 1

        def attack(goes_on: Callable[[], bool]) -> None:
            at_once(20, lambda place: one_caller(place, goes_on))

        at.honest.run(attack, SECONDS)
        yield from at.honest.checks("reports that are refused", 2 * one, one)
        yield statuses[422] > 0 and statuses[429] > 0, f"  one alone took {one:.2f} s; its answers: {dict(statuses)}"


def streams_left(hub: Served, weaker: Changes) -> Iterator[Check]:
    """Streams of HTTP/2 that are reset at once, of 5 addresses: dear Views and searches, as fast as a connection takes them."""
    dear = hub.post(dear_view(7))[0]
    one = costs(hub, dear)
    with trial(hub, {}, weaker) as at:
        sent = collections.Counter[str]()

        def one_caller(place: int, goes_on: Callable[[], bool]) -> None:
            while goes_on():
                with contextlib.suppress(OSError):
                    it = Streams(at.proxies, f"127.47.3.{place + 1}")
                    for turn in range(20):
                        it.send(BEN, [f"/search?needle=left-{turn}", f"/incidents/{dear}"] * 10, True)
                        sent["streams"] += 20
                        time.sleep(0.05)
                    it.close()
                    sent["connections"] += 1

        def attack(goes_on: Callable[[], bool]) -> None:
            at_once(5, lambda place: one_caller(place, goes_on))

        at.honest.run(attack, SECONDS)
        yield from at.honest.checks("streams that are reset", 2 * one, one)
        yield sent["streams"] > 1_000, f"  a View alone took {one:.1f} s; {dict(sent)}"


def bodies_held(hub: Served, weaker: Changes) -> Iterator[Check]:
    """14 addresses hold 20 requests each that wait for `100 Continue`, or send no more of a body, nearly all that a circle may have."""
    with trial(hub, {}, weaker) as at:
        ends = collections.Counter[str]()

        def holds(place: int, goes_on: Callable[[], bool]) -> None:
            fields = ["Expect: 100-continue"] if place % 2 else []
            whole = request(ADA, "POST", "/incidents?level=3", b"x" * 100_000, *fields)[: 400 if place % 3 else 50_000]
            while goes_on():
                told = send(at.proxies, f"127.47.4.{place % 14 + 1}", whole)
                ends[str(told.status)] += 1
                time.sleep(0.2)

        def attack(goes_on: Callable[[], bool]) -> None:
            at_once(280, lambda place: holds(place, goes_on))

        at.honest.run(attack, SECONDS)
        yield from at.honest.checks("280 bodies that are held", 0.0, 0.2)
        yield ends["408"] > 100, f"  their ends: {dict(ends)}"


def visits_beside_readers(hub: Served, weaker: Changes) -> Iterator[Check]:
    """Ten readers with search after search, two in hand each, and three visitors who open 20 reports one after another. Each of these takes
    the hub a tenth of a second, and waits for the search in hand alone."""
    seen, one = hub.post(dear_view(7, 60))[0], 0.0
    for turn in range(10):
        hub.done(ADMIN, "POST", "/persons", f"org=3&name=many{turn}&role=reader&key={digest(f'many{turn}')}".encode())
    # More than the hub keeps in memory.
    for turn in range(40):
        if (one := min(alone(hub, BEN, "GET", f"/search?needle=none-{again}") for again in range(3))) > 0.5:
            break
        hub.post(incidents(1_000 + 16 * turn, 16, lines(4_060)))
    view = costs(hub, seen)
    with trial(hub, {}, weaker) as at:
        lists, visits = collections.Counter[int](), list[edge.Told]()
        until = time.monotonic() + SECONDS

        def one_caller(place: int) -> None:
            turn, reader = 0, (place - 3) // 2
            while time.monotonic() < until and not (place < 3 and turn == 20):
                turn += 1
                if place < 3:
                    visits.append(ask(at.proxies, f"127.47.14.{place + 1}", at.honest.KEYS[place], "GET", f"/incidents/{seen}"))
                else:
                    told = ask(at.proxies, f"127.47.13.{reader + 1}", f"many{reader}", "GET", f"/search?needle=visit-{place}-{turn}")
                    lists[told.status] += 1

        at_once(23, one_caller)
        bad = [each.status for each in visits if each.status != 200]
        yield not bad and len(visits) == 60, f"beside ten readers each of 60 Views of three visitors is answered: {len(visits)}, {bad or 'all are'}"
        took, most = [each.took for each in visits], 2 * one + 3 * view + edge.BESIDE
        told = ", ".join(f"{edge.at_share(took, share):.1f}" for share in (0.5, 0.95, 1))
        yield edge.at_share(took, 0.95) <= most, f"  50, 95 and all of 100 took {told} s, of at most {most:.1f}; alone {view:.2f} s"
        yield one > 0.5 and lists[200] > 10, f"  a search alone takes {one:.1f} s; the readers' answers: {dict(lists)}"


# ---- who is who


def other_spellings(hub: Served, weaker: Changes) -> Iterator[Check]:
    """Keys with commas, which `http_auth_bearer` cuts, and other spellings of keys, methods and paths: the count of a day holds for all."""
    keys = [",comma", "a,b", "a,c"]
    for key in keys:
        hub.done(ADMIN, "POST", "/persons", f"org=2&name=of{digest(key)[:6]}&role=poster&key={digest(key)}".encode())
    with trial(hub, {"haproxy.cfg": [FEW]}, weaker) as at:
        def posted(source: str, key: str, name: str, target: str = "/incidents?level=3", method: str = "POST", word: str = "Bearer ") -> edge.Told:
            whole = request("", method, target, small_report(name), f"Authorization: {word}{key}")
            told = send(at.proxies, source, whole)
            if told.status == 200:
                hub.expected += told.said["numbers"]
            return told

        for at_key, key in enumerate(keys):
            got = collections.Counter(posted(f"127.48.{at_key}.{turn + 1}", key, f"{digest(key)}-{turn}").status for turn in range(12))
            yield got == {200: 6, 429: 6}, f"of 12 reports by the key {key!r} at 12 addresses 6 are taken, as a day has: {dict(got)}"
        words = ["Bearer ", "bearer ", "BEARER ", "Bearer  ", "Bearer\t", "Bear ", "Basic ", "Bearer ,", 'Bearer "', ""]
        got = collections.Counter(posted(f"127.48.9.{turn + 1}", ADA, f"word-{turn}", word=word).status for turn, word in enumerate(words * 3))
        yield got[200] == 6, f"the key with {len(words)} other words before it, each three times: {dict(got)}"
        targets = ["//incidents", "/incidents/", "/./incidents", "/%69ncidents", "/incidents;x", "/ui/../incidents", "/INCIDENTS", "/incidents/0", "/incidents%3f",
                   f"https://{NAME}/incidents", "/incidents%00", "/me/../incidents"]
        hub.done(ADMIN, "POST", "/persons", f"org=2&name=eva&role=poster&key={digest('eva-key')}".encode())
        for method in ("POST", "post", "PUT", "PATCH", "POSTX"):
            told = [posted(f"127.49.{turn}.{len(method)}", "eva-key", f"path-{method}-{turn}", f"{target}?level=3", method) for turn, target in enumerate(targets)]
            taken = [target for target, each in zip(targets, told) if each.status == 200]
            most = [f"https://{NAME}/incidents"] if method == "POST" else []
            yield taken == most, f"{method} of {len(targets)} other spellings of the path: {len(taken)} taken, {dict(collections.Counter(each.status for each in told))}"
        hub.expected.sort()
        yield from searches_by_other_paths(at)


def searches_by_other_paths(at: Trial) -> Iterator[Check]:
    targets = ["/search/", "//search", "/SEARCH", "/%73earch", "/search;x", "/ui/../search", "/me/../search", "/search%3fneedle=x", "/.//search", "/incidents/", "//incidents", "/me//addressed"]
    told = [ask(at.proxies, f"127.48.11.{turn + 1}", BEN, "GET", f"{target}?needle=x") for turn, target in enumerate(targets)]
    told += [send(at.proxies, f"127.48.12.{turn + 1}", request(BEN, method, "/search?needle=x")) for turn, method in enumerate(("HEAD", "OPTIONS", "get", "TRACE"))]
    yield not any(each.status == 200 for each in told), f"no other spelling of a list's path is answered: {dict(collections.Counter(each.status for each in told))}"


def random_keys(hub: Served, weaker: Changes) -> Iterator[Check]:
    """Keys that nobody has, more than HAProxy's tables hold: the counts of those that are somebody's stay."""
    sizes = ("size 20k", "size 200")
    with trial(hub, {"haproxy.cfg": [FEW, sizes]}, weaker) as at:
        def posts(first: int, count: int) -> collections.Counter[int]:
            told = [ask(at.proxies, f"127.48.20.{first + turn}", ADA, "POST", "/incidents?level=3", small_report(f"random-{first}-{turn}")) for turn in range(count)]
            hub.expected.extend(number for each in told if each.status == 200 for number in each.said["numbers"])
            return collections.Counter(each.status for each in told)

        first = posts(1, 6)
        yield first == {200: 6}, f"a poster has its day's 6 reports: {dict(first)}"
        methods = [("GET", "/me", b""), ("GET", "/search?needle=x", b""), ("POST", "/incidents?level=3", small_report("none"))]

        def one(turn: int) -> int:
            method, target, body = methods[turn % 3]
            return ask(at.proxies, f"127.49.{turn // 200 % 200}.{turn % 200 + 1}", f"random-{turn}", method, target, body).status

        with concurrent.futures.ThreadPoolExecutor(20) as callers:
            got = collections.Counter(callers.map(one, range(2_000)))
        yield got == {401: 2_000}, f"2,000 keys that nobody has, over tables for 200: {dict(got)}"
        again = posts(10, 3)
        yield again == {429: 3}, f"then the poster has still none left: {dict(again)}"
        hub.expected.sort()


def one_key_many_addresses(hub: Served, weaker: Changes) -> Iterator[Check]:
    """One poster at 30 addresses with a report each in hand, as large in the store as they may be, and ten readers of one address with lists."""
    for turn in range(10):
        hub.done(ADMIN, "POST", "/persons", f"org=3&name=many{turn}&role=reader&key={digest(f'many{turn}')}".encode())
    with trial(hub, {}, weaker) as at:
        posts, lists = collections.Counter[int](), collections.Counter[int]()
        turns = itertools.count()

        def one_caller(place: int, goes_on: Callable[[], bool]) -> None:
            while goes_on():
                if place < 30:
                    told = ask(at.proxies, f"127.47.6.{place + 1}", ADA, "POST", "/incidents?level=3", incidents(1_000 + 16 * next(turns), 16, lines(4_060)))
                    posts[told.status] += 1
                    if told.status == 200:
                        hub.expected.extend(told.said["numbers"])
                    time.sleep(1)
                else:
                    lists[ask(at.proxies, "127.47.7.1", f"many{place % 10}", "GET", f"/search?needle=many-{place}").status] += 1
                    time.sleep(0.5)

        def attack(goes_on: Callable[[], bool]) -> None:
            at_once(40, lambda place: one_caller(place, goes_on))

        took = at.honest.run(attack, 30.0)
        one = took / max(posts[200], 1)
        yield from at.honest.checks("a poster at 30 addresses and ten readers at one", 2 * one, one)
        yield posts[429] > posts[200] > 0, f"  one takes {one:.1f} s at most; posts: {dict(posts)}; lists: {dict(lists)}"


def exchanged_keys(hub: Served, weaker: Changes) -> Iterator[Check]:
    """A poster that exchanges its key behind every two reports, and sends reports by the next key while the exchange waits for a View: the
    count of a day holds for all keys of a person, and none is served by a key that is being made."""
    dear = hub.post(dear_view(7))[0]
    hub.done(ADMIN, "POST", "/persons", f"org=2&name=eva&role=poster&key={digest('key-0')}".encode())
    with trial(hub, {"haproxy.cfg": [FEW]}, weaker) as at:
        own, early = collections.Counter[int](), collections.Counter[int]()

        def posts(key: str, source: str, name: str) -> int:
            told = ask(at.proxies, source, key, "POST", "/incidents?level=3", small_report(name))
            hub.expected.extend(told.said["numbers"] if told.status == 200 else [])
            return told.status

        def one_of(number: int, place: int) -> int:
            """A View, then the exchange, then reports by the new key."""
            time.sleep(0.1 * place)
            old, new, source = f"key-{number}", f"key-{number + 1}", f"127.48.{50 + number}.{place + 1}"
            if place == 0:
                return ask(at.proxies, source, BEN, "GET", f"/incidents/{dear}").status
            if place == 1:
                return ask(at.proxies, source, old, "POST", "/me/key", f"key={digest(new)}".encode()).status
            return posts(new, source, f"early-{number}-{place}")

        for number in range(5):
            own.update(posts(f"key-{number}", f"127.48.{60 + number}.{turn + 1}", f"own-{number}-{turn}") for turn in range(2))
            seen, exchanged, *told = at_once(4, functools.partial(one_of, number))
            yield (seen, exchanged) == (200, 200), f"a View and an exchange: {seen}, {exchanged}"
            early.update(told)
        hub.expected.sort()
        yield own == {200: 6, 429: 4}, f"of ten reports by five keys of a poster six are taken, as a day has: {dict(own)}"
        yield early == {429: 10}, f"of ten by a key that is being made none is: {dict(early)}"


def health_key(hub: Served, weaker: Changes) -> Iterator[Check]:
    """Strangers with the key that nginx sends for /healthz, while ten readers search: the monitor is answered all the same."""
    for turn in range(2):
        hub.post(incidents(1_000 + 16 * turn, 16, lines(4_060)))
    one = alone(hub, BEN, "GET", "/search?needle=none")
    with trial(hub, {}, weaker) as at:
        answers, monitor = collections.Counter[int](), list[edge.Told]()

        def one_caller(place: int, goes_on: Callable[[], bool]) -> None:
            while goes_on():
                if place == 0:
                    monitor.append(ask(at.proxies, "127.0.0.1", "", "GET", "/healthz"))
                    time.sleep(0.5)
                elif place <= 20:
                    ask(at.proxies, f"127.47.11.{place}", at.honest.KEYS[place % 10], "GET", f"/search?needle=health-{place}")
                else:
                    answers[ask(at.proxies, f"127.47.12.{place // 4}", "healthz", "GET", "/me").status] += 1

        until = time.monotonic() + 25
        at_once(61, lambda place: one_caller(place, lambda: time.monotonic() < until))
        bad = [each.status for each in monitor if each.status != 200]
        took = [each.took for each in monitor]
        yield not bad and len(monitor) > 5, f"of {len(monitor)} questions to /healthz each is answered: {bad or 'all are'}"
        most = 2 * one + edge.BESIDE
        yield edge.at_share(took, 0.95) <= most, f"  95 of 100 within {edge.at_share(took, 0.95):.1f} s, of at most {most:.1f}; a search alone takes {one:.1f} s"
        yield answers.total() > 20, f"  the strangers' answers: {dict(answers)}"


# ---- room


def next_start(hub: Served, most: int) -> tuple[int, str]:
    """What limit-memory says of the next start over a store that was stopped, whose unit may take so many bytes."""
    with contextlib.ExitStack() as around:
        folder = hub.store.parent / "groups"
        group = re.search(r"^0::(.*)$", pathlib.Path("/proc/self/cgroup").read_text(), re.M)
        inside = pathlib.Path(f"{folder}{group[1] if group else ''}")
        inside.mkdir(parents=True, exist_ok=True)
        around.callback(shutil.rmtree, folder)
        (inside / "memory.max").write_text(f"{most}\n")
        words = [str(DEPLOY / "lib" / "limit-memory"), str(hub.store), "sh", "-c", "ulimit -d"]
        done = subprocess.run(words, capture_output=True, text=True, env={"PATH": "/usr/bin:/bin:/usr/sbin", "IODEF_HUB_CGROUPS": str(folder)})
    return done.returncode, (done.stdout + done.stderr).strip()


def long_names(hub: Served, weaker: Changes) -> Iterator[Check]:
    """Reports of some kilobytes whose one long name is stored for each line and Incident, hidden in each way that JSON has."""
    names = {"plain": "m" * 3_000, "257 bytes": "m" * 257, "quotes": '\\"' * 257, "escapes": "\\u0001" * 300, "colons": '":' .replace('"', '\\"') * 200, "UTF-8": "\u00e9" * 129}
    space = {"plain": "", "257 bytes": " ", "quotes": "\n\t", "escapes": "\r", "colons": " " * 300, "UTF-8": ""}
    before = '"t":"' + "x" * 300 + '","u":["' + "y" * 300 + '",":",1],'
    with trial(hub, {}, weaker) as at:
        size = hub.store.stat().st_size
        number = hub.post(small_report("replaced"))[0]
        for turn, (name, text) in enumerate(names.items()):
            header = before + f'"{text}"{space[name]}:[' + ",".join(["1"] * 2_000) + "]"
            told = ask(at.proxies, f"127.48.30.{turn + 1}", ADA, "POST", "/incidents?level=3", incidents(3_000 + 16 * turn, 16, header))
            hub.expected += told.said.get("numbers", []) if told.status == 200 else []
            yield (told.status, told.said.get("detail")) == (422, "LongName"), f"a report of 2,000 lines with a long name ({name}) is refused: {told.status} {told.said}"
        put = small_report("replaced").replace(b'{"Incident":[{', b'{"Incident":[{"' + b"m" * 300 + b'":[1,1],')
        told = ask(at.proxies, "127.48.31.1", ADA, "PUT", f"/incidents/{number}?revision=1&level=3", put)
        yield told.status == 422, f"and so is a new revision: {told.status} {told.said}"
        grown = hub.store.stat().st_size + pathlib.Path(f"{hub.store}-wal").stat().st_size - size
        yield grown < 16 * MIB, f"the store grew by {grown // 1024} KiB"
        good = before + f'"{"m" * 256}":[1,1],"long":"{"z" * 100_000}","":[":"]'
        told = ask(at.proxies, "127.48.32.1", ADA, "POST", "/incidents?level=3", incidents(9_000, 16, good))
        hub.expected += told.said.get("numbers", [])
        yield told.status == 200, f"a name of 256 bytes, and long texts, are taken: {told.status} {told.said}"
        worst = collections.Counter(ask(at.proxies, f"127.48.33.{turn + 1}", ADA, "POST", "/incidents?level=3", b'"' * 262_000 if turn % 2 else b'{"' + b"\\" * 262_000).status for turn in range(6))
        yield worst == {422: 6}, f"bodies that are quotes or backslashes are refused by the hub: {dict(worst)}"
        before_me = ask(at.proxies, "127.48.34.1", BEN, "GET", "/me")
        yield before_me.status == 200 and before_me.took < 1, f"the next request is answered after {before_me.took:.2f} s"
    hub.stop()
    status, line = next_start(hub, hub.limit + BESIDE)
    yield status == 0, f"the next start of the unit succeeds: {status}, {line}"
    hub.start()


@contextlib.contextmanager
def watched(at: Trial, most: int, changes: list[tuple[str, str]]) -> Iterator[Room]:
    """iodef-hub-room with these changes, which knows a copy of the store as it is."""
    folder = at.hub.store.parent
    lib = folder / "lib"
    shutil.copytree(DEPLOY / "lib", lib)
    (lib / "iodef-hub-room").write_text(edge.changed((lib / "iodef-hub-room").read_text(), changes, "iodef-hub-room"))
    copies = folder / "copied"
    subprocess.run([DEPLOY / "bin" / "iodef-hub-backup", at.hub.store, copies], check=True, stdout=subprocess.DEVNULL)
    with contextlib.closing(Room(folder / "room", at.hub.store, at.proxies, most, lib, copies)) as room:
        while room.metric("next_start_bytes") < 0:
            time.sleep(0.2)
        yield room


def posts_within_the_watch(hub: Served, weaker: Changes) -> Iterator[Check]:
    """Ten posters with two reports each in hand, as large in the store as they may be, from when there is least room that the watch lets pass."""
    keys = [f"burst{at}" for at in range(10)]
    for key in keys:
        hub.done(ADMIN, "POST", "/persons", f"org=2&name={key}&role=poster&key={digest(key)}".encode())
    most, header = hub.limit + BESIDE, lines(4_060, "m" * 256)
    for turn in range(16):
        hub.post(incidents(10_000 + 16 * turn, 16, header))
    own = {"haproxy.cfg": weaker.get("haproxy.cfg", [])}
    with trial(hub, PATIENT, own) as at, watched(at, most, weaker.get("iodef-hub-room", [])) as room:
        begun = room.metric("next_start_bytes")
        statuses = collections.Counter[tuple[int, str]]()
        until = time.monotonic() + 150

        def one_caller(place: int) -> None:
            turn = 0
            while time.monotonic() < until and statuses[429, "no room for reports"] < 40:
                turn += 1
                body = incidents(100_000 + (place * 1_000 + turn) * 16, 16, header)
                told = ask(at.proxies, f"127.50.{turn % 200}.{place + 1}", keys[place // 2], "POST", "/incidents?level=3", body)
                statuses[told.status, told.reason()] += 1
                hub.expected.extend(told.said["numbers"] if told.status == 200 else [])

        at_once(20, one_caller)
        hub.expected.sort()
        told = f"{dict(statuses)}; {begun // MIB} MiB of {hub.limit // MIB} before; {room.said()}"
        yield statuses[429, "no room for reports"] > 0, f"ten posters are refused when there is no room: {told}"
        me = ask(at.proxies, "127.50.200.1", BEN, "GET", "/me")
        yield me.status == 200 and me.took < 5, f"the next request is answered after {me.took:.1f} s"
    hub.stop()
    status, line = next_start(hub, most)
    yield status == 0, f"the next start of the unit succeeds: {status}, {line}"
    hub.start()


def groups_taken(hub: Served, weaker: Changes) -> Iterator[Check]:
    """A coordinator at 30 addresses that makes groups, of which a hub has a thousand and loses none."""
    hub.done(ADMIN, "POST", "/persons", f"org=3&name=gil&role=coordinator&key={digest('gil-key')}".encode())
    with trial(hub, {}, weaker) as at:
        got = collections.Counter(ask(at.proxies, f"127.48.40.{turn + 1}", CEM, "POST", "/groups", f"name=g{turn}&releasability=".encode()).status for turn in range(30))
        yield got == {200: 20, 429: 10}, f"of 30 new groups of one coordinator 20 are made, as a day has: {dict(got)}"
        told = ask(at.proxies, "127.48.41.1", "gil-key", "POST", "/groups", b"name=other&releasability=")
        yield told.status == 200, f"another coordinator makes one: {told.status}"
        told = ask(at.proxies, "127.48.41.2", CEM, "POST", "/groups/1/active", b"active=0")
        yield told.status == 200, f"and the first may change its own: {told.status}"


# ---- logs


def refused_flood(hub: Served, weaker: Changes) -> Iterator[Check]:
    """One address whose requests nginx refuses, by HTTP/2 and with the longest paths, as fast as it can."""
    with trial(hub, {}, weaker) as at:
        sent = collections.Counter[str]()
        paths = ["/me", "/" + "a" * 3_500, "/", "/a^b", "/incidents?" + "q" * 3_000]

        def one_caller(place: int, goes_on: Callable[[], bool]) -> None:
            while goes_on():
                with contextlib.suppress(OSError):
                    it = Streams(at.proxies, "127.47.9.1")
                    for turn in range(5):
                        it.send("nobody", [paths[(turn + place) % len(paths)]] * 20, False)
                        sent["requests"] += 20
                    sent["ended"] += it.ended(60)
                    it.close()
                    sent["connections"] += 1

        begun = at.proxies.log.stat().st_size

        def attack(goes_on: Callable[[], bool]) -> None:
            at_once(8, lambda place: one_caller(place, goes_on))

        took = at.honest.run(attack, 20.0)
        yield from at.honest.checks("one address that is refused", 0.0, 0.2)
        logged = [line for line in at.proxies.log.read_text().splitlines() if " 127.47.9.1 " in line]
        size = at.proxies.log.stat().st_size - begun
        # Each connection's first ten and one of ten, and what the rate lets pass.
        most = 20 * sent["connections"] + 15 * took + 40
        yield len(logged) <= most, f"  of {sent['requests']} requests on {sent['connections']} connections {len(logged)} are logged, of at most {most:.0f}"
        yield max(map(len, logged)) <= 250, f"  the longest line has {max(map(len, logged))} bytes; the log grew by {size / took / 1000:.0f} kB/s"
        yield sum(" 429 " in line for line in logged) > 0, "  and those that were refused are among them"


# Only lists wait until nothing else does, whoever asks.
WITHOUT_CLASS = {"haproxy.cfg": [("{ sc_conn_cur(0) gt 4 } or { sc_http_req_rate(0) gt 600 } or { var(txn.behind) -m int gt 60000 } or is_list {", "is_list {")]}
ATTACKS: dict[str, tuple[Callable[[Served, Changes], Iterator[Check]], Changes]] = {
    "views-before-lists": (views_before_lists, WITHOUT_CLASS),
    "refused-posts-before-lists": (refused_posts_before_lists, {"haproxy.cfg": [(" or is_report { sc_conn_cur(0) gt 2 }", ""), *WITHOUT_CLASS["haproxy.cfg"]]}),
    "streams-left": (streams_left, WITHOUT_CLASS),
    "visits-beside-readers": (visits_beside_readers, {"haproxy.cfg": [("gt 60000 }", "gt 5000 }")]}),
    "bodies-held": (bodies_held, {"haproxy.cfg": [("    option http-buffer-request ", "    #")]}),
    "other-spellings": (other_spellings, {"haproxy.cfg": [("set-var(txn.key) req.fhdr(authorization),bytes(7),sha2(256),hex,lower if { req.fhdr(authorization) -m reg -i '^bearer [!-~]{1,128}$' }",
                                                           "set-var(txn.key) http_auth_bearer,sha2(256),hex,lower if { http_auth_bearer -m found }")]}),
    "random-keys": (random_keys, {"haproxy.cfg": [("    http-response track-sc2 var(txn.person) table iodef_hub_posts if is_report { status 200 }",
                                                   "    http-response track-sc2 var(txn.person) table iodef_hub_posts")]}),
    "one-key-many-addresses": (one_key_many_addresses, {"haproxy.cfg": [(" or is_report { sc_conn_cur(0) gt 2 }", ""), *WITHOUT_CLASS["haproxy.cfg"]]}),
    "exchanged-keys": (exchanged_keys, {"haproxy.cfg": [("    http-response set-map(/dev/null) %[var(txn.next)] %[var(txn.person)] if is_key { status 200 }\n", ""),
                                                        ("if !is_known { var(txn.own),concat(/next),table_conn_cur(iodef_hub_turns) gt 0 } or is_key", "if is_key")]}),
    "health-key": (health_key, {"haproxy.cfg": [('    http-request set-var-fmt(txn.person)  "%[var(txn.person)]/own" if !{ var(txn.address) -m found }', "")]}),
    "long-names": (long_names, {"haproxy.cfg": [("if is_report has_long_name", "if { always_false }")]}),
    "posts-within-the-watch": (posts_within_the_watch, {"haproxy.cfg": [(" if is_report { sc_conn_cur(1) gt 4 }", " if { always_false }")],
                                                        "iodef-hub-room": [("EVERY, MINUTE = 1.0,", "EVERY, MINUTE = 5.0,")]}),
    "groups-taken": (groups_taken, {"haproxy.cfg": [("int(20)", "int(2000)")]}),
    "refused-flood": (refused_flood, {"iodef-hub-server.conf": [(" if=$iodef_hub_logged;", ";")], "iodef-hub-http.conf": [("[^?#]{1,64}", "[^?#]+")]}),
}


def run(name: str, hub: Served) -> Iterator[Check]:
    case, weaker = ATTACKS[name]
    yield from case(hub, weaker if IS_WEAKENED else {})
