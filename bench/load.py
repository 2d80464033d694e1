#!/usr/bin/env python3
"""A day of 200 organisations and 1,000 persons, pressed into ten minutes, through nginx and HAProxy: how long each kind of request
takes, what is refused, and the memory, beside the plain peer.

usage: bench/load.py --program FILE [--peer FILE] [--nginx FILE] [--haproxy FILE] [--reports N,N,..] [--minutes M] [--peer-minutes M]
                     [--organisations N] [--pressed N] [--port N] [--folder FOLDER] [--stores FOLDER [--make-stores]]

The day. An organisation has five persons: a coordinator, a poster and three readers. It is in one of eight communities, one of four
in a second one; two pairs of communities are connected. Of the reports (4 KB, 204 lines each) 55 % are for the source's communities,
30 % for everybody, 5 % for connected communities, 5 % for a group of six organisations, 5 % for the source alone. In a day:

    kind           how many                    why so many
    look           288 an organisation         a unit of iodef-hub-watch of each, at its 300 s: a list above the last number it knows
    import         new reports that it sees,   a program takes each into the organisation's own tools
                   for every second one
    visit          one of four persons         the others have nothing new to read; a visit asks as web/index.html
                                               does: the page, /me, /me/groups, the pages of the list up to the newest thousand, the
                                               20 rows in sight, and three reports that are opened
    addressed      every second visit          the list of what is addressed to the person
    search         one of ten persons          an indicator in hand: three of four aren't in the hub, so that each report is read; one
                                               of four is in most of them
    post           one an organisation         50,000 reports a year of 200 organisations
    replace        one of ten posts            a report is mended once in a while
    address, grant each one of ten posts       most reports are shared by their level alone
    sharing        each own report that is     the page asks how it is shared, once for the own communities, and again behind each
                   opened, addressed, ..       address, grant and replace
    explain        one of ten posts            somebody asks an administrator why a class isn't shown
    person         five for 200 organisations  people come and go
    health         one a minute                the operator's monitor

The moment of each request is drawn before the run. The request begins then, whether or not earlier ones have ended, and its time
counts from that moment to its last byte, so a hub that falls behind is seen. The requests of one visit begin one after another, as a page
does, a tenth of a second apart or later; their times count from their moments all the same. Looks have a period, all else is drawn
evenly over the day. Each request is a connection of its own with a TLS handshake, from the address of its organisation
(127.20.0.0/16), as a team shares one address. nginx runs with the files of deploy/nginx and HAProxy with deploy/haproxy/haproxy.cfg;
only ports and folders differ, and HAProxy writes no log. The hub has no limit of memory.

Of a run of M minutes the requests are those of M/10 of the day, at the same rate. With --pressed N the day is N times as fast (144).
If bench/peer is built, the same requests, except those that the peer doesn't know, are sent to it for --peer-minutes, through the
same proxies and after the hub. The table has `below 2 s` if 95 of 100 of each kind were answered within 2 seconds, and refusals by their
code. --stores names a folder that keeps the hub's stores; a run makes those that aren't there, and serves copies. --make-stores makes
them, and measures nothing.

It ends with `N passed, M failed`: it checks that nothing was answered but 200 and the proxies' 429 and 503, and that each post
that was answered is served to its source. Needs: Python 3.11, nginx, HAProxy, openssl, and four processors that do nothing else.
"""

import argparse
import asyncio
import collections
import contextlib
import dataclasses
import json
import pathlib
import random
import re
import shutil
import sqlite3
import ssl
import subprocess
import sys
import tempfile
import threading
import time
from collections.abc import Iterator

import many
from opening import document

sys.path.insert(0, str(many.TOP / "scripts"))
import progress  # noqa: E402
import record  # noqa: E402

DAY = 86_400
EACH = 5                     # persons of an organisation
ADMINISTRATORS = 3
COMMUNITIES = 8
LINKS = ((1, 2), (3, 4))
GROUP_SIZE = 6
LEVELS = (1,) * 55 + (3,) * 30 + (2,) * 5 + (4,) * 5 + (0,) * 5
LABELS = ("green", "green", "public", "amber")    # of the first reports, whose lines the others have
EVERY = 300                  # seconds between two looks of iodef-hub-watch
ROWS_IN_SIGHT, OPENED = 20, 3
PAGE, MOST_OF_LIST = 100, 1_000                   # as web/index.html has them
BETWEEN = 0.1                # seconds between two requests of a page that is opened
WITHIN = 2.0
LONGEST = 150.0              # seconds until a caller gives up
NAMES = {"hub": "payments.hub.example", "peer": "health.hub.example"}
MAY_BE = (200, 429, 503)

KINDS = {
    "page": "the page, nginx alone", "me": "`/me`, `/me/groups`", "look": "a look for news", "list": "a list's page", "addressed": "addressed",
    "view": "a View", "search": "a search", "post": "a post", "replace": "a new revision", "share": "a recipient or permission",
    "sharing": "how a report is shared, `/me/communities`",
    "explain": "an explanation", "person": "a new person", "health": "`/healthz`",
}
PEER_KNOWS = ("page", "look", "list", "view", "search", "post")


# ---- the circle


class World:
    """Who is in the circle, and of each report whose it is and for whom. Organisation 1 is the hub's own."""

    def __init__(self, organisations: int, reports: int) -> None:
        drawn = random.Random(f"{organisations} {reports}")
        self.reports = reports
        self.orgs = range(2, organisations + 2)
        self.communities = {org: {org % COMMUNITIES + 1} | ({org * 3 % COMMUNITIES + 1} if org % 4 == 0 else set()) for org in self.orgs}
        count = max(organisations // 10, 1)
        self.groups = {group: [self.orgs[(group * 7 + at * 11) % len(self.orgs)] for at in range(GROUP_SIZE)] for group in range(1, count + 1)}
        self.source = [0] + [self.orgs[0]] * len(LABELS) + [drawn.choice(self.orgs) for _ in range(reports - len(LABELS))]
        self.level = [0] + [3] * len(LABELS) + [drawn.choice(LEVELS) for _ in range(reports - len(LABELS))]
        self.group = [drawn.choice(list(self.groups)) if level == 4 else None for level in self.level]
        self.seen: dict[int, list[int]] = {}

    def person(self, org: int, place: int) -> int:
        return ADMINISTRATORS + 1 + (org - 2) * EACH + place

    def org_of(self, person: int) -> int:
        return 1 if person <= ADMINISTRATORS else (person - ADMINISTRATORS - 1) // EACH + 2

    def report(self, number: int) -> many.Report:
        return many.Report(number % len(LABELS) + 1, self.source[number], self.level[number], self.group[number])

    def passes(self, org: int, number: int) -> bool:
        """Whether the level lets the organisation see what is marked public."""
        level, source, group = self.level[number], self.source[number], self.group[number]
        mine, theirs = self.communities[org], self.communities[source]
        linked = any((min(a, b), max(a, b)) in LINKS for a in mine for b in theirs)
        inside = group is not None and org in self.groups[group]
        return org == source or level == 3 or (level in (1, 2) and bool(mine & theirs)) or (level == 2 and linked) or inside

    def visible(self, org: int) -> list[int]:
        if org not in self.seen:
            self.seen[org] = [number for number in range(1, self.reports + 1) if self.passes(org, number)]
        return self.seen[org]


def body_of(ident: str, label: str = "green") -> bytes:
    whole = document({"id": ident, "name": many.ISSUER}, 20)
    incidents = whole["Incident"]
    assert isinstance(incidents, list)
    incidents[0]["restriction"] = label
    return many.compact(whole)


def people(world: World) -> Iterator[tuple[int, int, str, int]]:
    """Number, organisation, name and role (1 coordinator, 2 poster, 3 reader) of each person but the first."""
    for number in range(2, ADMINISTRATORS + 1):
        yield number, 1, f"administrator {number}", 0
    for org in world.orgs:
        for place in range(EACH):
            yield world.person(org, place), org, f"person {place}", min(place + 1, 3)


def key_of(person: int) -> str:
    return f"key-{person}"


def hash_of(person: int) -> bytes:
    return bytes.fromhex(many.digest(key_of(person)))


def make_store(program: str, store: pathlib.Path, port: int, world: World) -> None:
    """The hub's store: the circle by SQL, the first reports by posts, the others like these."""
    subprocess.run([program, "init", str(store), "Hub", many.digest(key_of(1))], check=True, stdout=subprocess.DEVNULL)
    rows = sqlite3.connect(store)
    rows.executemany("INSERT INTO org VALUES (?, ?)", ((org, f"Organisation {org}") for org in world.orgs))
    for number, org, name, role in people(world):
        rows.execute("INSERT INTO person VALUES (?, ?, ?, ?, ?, 1, 0)", (number, org, name, role, hash_of(number)))
    rows.executemany("INSERT INTO community VALUES (?, ?)", ((number, f"Community {number}") for number in range(1, COMMUNITIES + 1)))
    pair = "INSERT INTO pair VALUES (?, ?, ?, ?)"
    rows.executemany(pair, (("member", one, org, None) for org in world.orgs for one in sorted(world.communities[org])))
    rows.executemany(pair, (("link", low, high, None) for low, high in LINKS))
    for group, members in world.groups.items():
        rows.execute("INSERT INTO grp VALUES (?, ?, ?, '', 1)", (group, members[0], f"group {group}"))
        rows.executemany(pair, (("grp_member", group, org, 1) for org in sorted(set(members))))
    rows.commit()
    rows.execute("PRAGMA wal_checkpoint(TRUNCATE)")
    rows.close()
    hub = many.Hub(program, store, port)
    for number, label in enumerate(LABELS, 1):
        hub.done(key_of(world.person(world.orgs[0], 1)), "POST", "/incidents?level=3", body_of(many.identity(number), label))
    hub.close()
    many.fill(store, world.reports, world.report)


def label_of(world: World, number: int) -> str:
    return LABELS[(number if number <= len(LABELS) else world.report(number).template) - 1]


def make_peer_store(program: str, store: pathlib.Path, world: World) -> None:
    """The same circle and reports for the peer."""
    subprocess.run([program, "init", str(store), "Hub", many.digest(key_of(1))], check=True, stdout=subprocess.DEVNULL)
    rows = sqlite3.connect(store)
    rows.execute("PRAGMA synchronous = OFF")
    rows.executemany("INSERT INTO org VALUES (?, ?)", ((org, f"Organisation {org}") for org in world.orgs))
    roles = ("administrator", "coordinator", "poster", "reader")
    for number, org, name, role in people(world):
        rows.execute("INSERT INTO person VALUES (?, ?, ?, ?, ?, 1, 0)", (number, org, name, roles[role], hash_of(number)))
    rows.executemany("INSERT INTO member VALUES (?, ?)", ((one, org) for org in world.orgs for one in sorted(world.communities[org])))
    rows.executemany("INSERT INTO link VALUES (?, ?)", LINKS)
    for group, members in world.groups.items():
        rows.execute("INSERT INTO grp VALUES (?, ?, ?, 1)", (group, members[0], f"group {group}"))
        rows.executemany("INSERT INTO grp_member VALUES (?, ?)", ((group, org) for org in sorted(set(members))))
    many.fill_peer(rows, range(1, world.reports + 1), world.report, lambda number: body_of(many.identity(number), label_of(world, number)))
    rows.commit()
    rows.execute("PRAGMA wal_checkpoint(TRUNCATE)")
    rows.close()


# ---- the day


@dataclasses.dataclass(frozen=True)
class Request:
    """What is asked at a moment of the run, in seconds. A look asks above the last number that its organisation knows."""

    moment: float
    kind: str
    person: int
    method: str
    target: str
    body: bytes = b""
    visit: int = 0     # the visit that it is part of, if any


def page_lists(seen: list[int]) -> list[int]:
    """The numbers above which the page asks until it has the newest thousand of these, as `wholeList` in web/index.html."""
    asked: list[int] = []

    def above(after: int) -> list[int]:
        asked.append(after)
        low, high = 0, len(seen)
        while low < high:
            middle = (low + high) // 2
            low, high = (middle + 1, high) if seen[middle] <= after else (low, middle)
        return seen[low : low + PAGE]

    def entries(after: int, last: float) -> tuple[list[int], bool]:
        found: list[int] = []
        while True:
            answer = above(found[-1] if found else after)
            found += answer
            if len(answer) < PAGE or len(found) > MOST_OF_LIST or answer[-1] >= last:
                return found, len(answer) < PAGE

    def newest(low: int) -> int:
        step = MOST_OF_LIST
        high: int | None = None
        while high is None or low < high:
            after = low + step if high is None else (low + high) // 2
            answer = above(after)
            low, high = (answer[-1], high) if answer else (low, after)
            if 0 < len(answer) < PAGE:
                return low
            step *= 2
        return low

    first, is_whole = entries(0, float("inf"))
    if len(first) > MOST_OF_LIST:
        last = first[-1] if is_whole else newest(first[-1])
        entries(max(last - MOST_OF_LIST, 0), last)
    return asked


class Day:
    """The requests of a run, which is this part of a day."""

    def __init__(self, world: World, seconds: float, pressed: float) -> None:
        self.world, self.seconds, self.pressed = world, seconds, pressed
        self.part = seconds * pressed / DAY
        self.drawn = random.Random(f"{len(world.orgs)} {world.reports} {seconds} {pressed}")
        self.requests: list[Request] = []
        self.changed: set[int] = set()
        self.visits = 0
        self.own: dict[int, list[int]] = collections.defaultdict(list)
        for number in range(len(LABELS) + 1, world.reports + 1):
            self.own[world.source[number]].append(number)

    def made(self) -> list[Request]:
        orgs = len(self.world.orgs)
        self.looks()
        self.imports()
        for _ in range(self.count(orgs * EACH / 4)):
            self.visit()
        self.each(orgs * EACH / 8, lambda org: self.ask("addressed", self.reader(org), "/me/addressed"))
        self.each(orgs * EACH / 10, self.search)
        self.each(orgs, self.post)
        self.each(orgs / 10, self.replace)
        self.each(orgs / 10, self.address)
        self.each(orgs / 10, self.grant)
        self.each(orgs / 10, self.explain)
        self.each(orgs / 40, self.add_person)
        for _ in range(self.count(DAY / 60)):
            self.ask("health", 0, "/healthz")
        return sorted(self.requests, key=lambda it: it.moment)

    def count(self, day: float) -> int:
        """Of so many in a day those of the run, at least one."""
        return max(round(day * self.part), 1)

    def each(self, day: float, adds: "collections.abc.Callable[[int], None]") -> None:
        for _ in range(self.count(day)):
            adds(self.drawn.choice(self.world.orgs))

    def ask(self, kind: str, person: int, target: str, method: str = "GET", body: bytes = b"", moment: float | None = None, visit: int = 0) -> None:
        at = self.drawn.uniform(0, self.seconds) if moment is None else moment
        if at < self.seconds:
            self.requests.append(Request(at, kind, person, method, target, body, visit))

    def reader(self, org: int) -> int:
        return self.world.person(org, self.drawn.randrange(2, EACH))

    def looks(self) -> None:
        period = EVERY / self.pressed
        for org in self.world.orgs:
            moment = self.drawn.uniform(0, period)
            while moment < self.seconds:
                self.ask("look", self.world.person(org, 2), "", moment=moment)
                moment += period

    def imports(self) -> None:
        new = len(self.world.orgs)
        for org in list(self.world.orgs)[::2]:
            seen = [number for number in self.world.visible(org) if number > self.world.reports - new]
            for _ in range(round(len(seen) * self.part)):
                self.ask("view", self.world.person(org, 3), f"/incidents/{self.drawn.choice(seen)}")

    def visit(self) -> None:
        org = self.drawn.choice(self.world.orgs)
        person, seen = self.reader(org), self.world.visible(org)
        moment = self.drawn.uniform(0, self.seconds)
        self.visits += 1
        asked = [("page", "/ui/"), ("me", "/me"), ("me", "/me/groups")]
        asked += [("list", f"/incidents?after={after}" if after else "/incidents") for after in page_lists(seen)]
        asked += [("view", f"/incidents/{number}") for number in seen[: -ROWS_IN_SIGHT - 1 : -1]]
        for at, (kind, target) in enumerate(asked):
            self.ask(kind, person, target, moment=moment + at * BETWEEN, visit=self.visits)
        opened = [(moment + self.drawn.uniform(5, 15), self.drawn.choice(seen[-MOST_OF_LIST:])) for _ in range(OPENED)]
        own = [(at, number) for at, number in opened if self.world.source[number] == org]
        for at, number in opened:
            self.ask("view", person, f"/incidents/{number}", moment=at, visit=self.visits)
        if own:
            self.ask("sharing", person, "/me/communities", moment=min(own)[0] + BETWEEN, visit=self.visits)
        for at, number in own:
            self.ask("sharing", person, f"/incidents/{number}/sharing", moment=at + 2 * BETWEEN, visit=self.visits)

    def search(self, org: int) -> None:
        needle = f"198.51.100.{self.drawn.randrange(256)}" if self.drawn.random() < 0.75 else f"192.0.2.{self.drawn.randrange(20)}"
        self.ask("search", self.reader(org), f"/search?needle={needle}")

    def post(self, org: int) -> None:
        ident = f"load-{len(self.requests)}"
        self.ask("post", self.world.person(org, 1), f"/incidents?level={self.drawn.choice((1, 1, 3))}", "POST", body_of(ident))

    def unchanged(self, org: int) -> int | None:
        """A report of the organisation that no other request of the run changes."""
        free = [number for number in self.own[org] if number not in self.changed]
        if not free:
            return None
        number = self.drawn.choice(free)
        self.changed.add(number)
        return number

    def change(self, kind: str, person: int, number: int, target: str, method: str, body: bytes) -> None:
        """A change of an own report, behind which the page asks how it is shared."""
        at = self.drawn.uniform(0, self.seconds)
        self.ask(kind, person, target, method, body, moment=at)
        self.ask("sharing", person, f"/incidents/{number}/sharing", moment=at + BETWEEN)

    def replace(self, org: int) -> None:
        if number := self.unchanged(org):
            label = LABELS[self.world.report(number).template - 1]
            body = body_of(many.identity(number), label)
            self.change("replace", self.world.person(org, 1), number, f"/incidents/{number}?revision=1&level=3", "PUT", body)

    def address(self, org: int) -> None:
        if number := self.unchanged(org):
            form = f"org={self.drawn.choice(self.world.orgs)}"
            self.change("share", self.world.person(org, 1), number, f"/incidents/{number}/address", "POST", form.encode())

    def grant(self, org: int) -> None:
        if number := self.unchanged(org):
            form = f"revision=1&path=/Incident/0/EventData/3&org={self.drawn.choice(self.world.orgs)}"
            self.change("share", self.world.person(org, 0), number, f"/incidents/{number}/grant", "POST", form.encode())

    def explain(self, org: int) -> None:
        words = f"person={self.reader(org)}&incident={self.drawn.randrange(1, self.world.reports + 1)}&path=/Incident/0/EventData/3"
        self.ask("explain", self.drawn.randrange(1, ADMINISTRATORS + 1), f"/explain?{words}")

    def add_person(self, org: int) -> None:
        form = f"org={org}&name=new&role=reader&key={many.digest(f'new-{len(self.requests)}')}"
        self.ask("person", 1, "/persons", "POST", form.encode())


# ---- the proxies


@dataclasses.dataclass(frozen=True)
class Ports:
    """One behind another from the first: nginx, and of hub and peer the queue and the program."""

    first: int

    def of(self, text: str) -> str:
        """A file of deploy with these ports in place of those of its two circles."""
        for shipped, at in (("21011", 1), ("21010", 2), ("21021", 3), ("21020", 4)):
            text = text.replace(f"127.0.0.1:{shipped}", f"127.0.0.1:{self.first + at}")
        return text

    def program(self, whose: str) -> int:
        return self.first + (2 if whose == "hub" else 4)


MAIN = """user www-data;
worker_processes auto;
worker_rlimit_nofile 16384;
daemon off;
pid FOLDER/pid;
events { worker_connections 4096; }
http {
    sendfile on;
    tcp_nopush on;
    types_hash_max_size 2048;
    include /etc/nginx/mime.types;
    default_type application/octet-stream;
    gzip on;
    access_log off;
    client_body_temp_path FOLDER/body;
    proxy_temp_path FOLDER/proxy;
    fastcgi_temp_path FOLDER/fastcgi;
    uwsgi_temp_path FOLDER/uwsgi;
    scgi_temp_path FOLDER/scgi;
    include FOLDER/site.conf;
}
"""


class Proxies:
    """nginx and HAProxy with the files of deploy, in a folder and on ports of their own."""

    def __init__(self, said: argparse.Namespace, folder: pathlib.Path, ports: Ports) -> None:
        self.folder = folder
        folder.mkdir()
        self.write_nginx(ports)
        queue = folder / "haproxy.cfg"
        queue.write_text("".join(
            line for line in ports.of((many.DEPLOY / "haproxy" / "haproxy.cfg").read_text()).splitlines(keepends=True)
            if not re.match(r" *(log|stats|user|group) ", line)
        ))
        self.authority = folder / "payments.pem"
        both = [[said.haproxy, "-db", "-f", str(queue)], [said.nginx, "-e", str(folder / "nginx.log"), "-p", str(folder), "-c", str(folder / "nginx.conf")]]
        self.processes = [subprocess.Popen(words, stdout=subprocess.DEVNULL, stderr=(folder / "said").open("a")) for words in both]
        time.sleep(1)
        if any(each.poll() is not None for each in self.processes):
            sys.exit(f"load.py: a proxy doesn't start: {(folder / 'said').read_text()}{(folder / 'nginx.log').read_text()}")

    def write_nginx(self, ports: Ports) -> None:
        """deploy/nginx with the folder and ports of the run; certificates; the page."""
        for path in (many.DEPLOY / "nginx").glob("*.conf"):
            text = ports.of(path.read_text()).replace("/usr/share/iodef-hub/nginx", str(self.folder)).replace("/var/log/nginx", str(self.folder))
            text = text.replace("/usr/share/iodef-hub/page", str(self.folder / "page")).replace("/etc/ssl/iodef-hub", str(self.folder))
            text = re.sub(r"^ *listen \[::\]:443.*\n", "", text, flags=re.M).replace("listen 443 ", f"listen 127.0.0.1:{ports.first} ")
            (self.folder / path.name).write_text(text)
        (self.folder / "nginx.conf").write_text(MAIN.replace("FOLDER", str(self.folder)))
        (self.folder / "page").mkdir()
        shutil.copy(many.TOP / "web" / "index.html", self.folder / "page" / "index.html")
        policy = subprocess.run([many.DEPLOY / "nginx" / "make-csp", many.TOP / "web" / "index.html"], check=True, capture_output=True)
        (self.folder / "iodef-hub-csp.conf").write_bytes(policy.stdout)
        names = ",".join(f"DNS:{name}" for name in NAMES.values())
        subprocess.run(["openssl", "req", "-x509", "-newkey", "rsa:2048", "-nodes", "-days", "2", "-subj", "/CN=load", "-addext", f"subjectAltName={names}",
                        "-keyout", self.folder / "payments.key", "-out", self.folder / "payments.pem"], check=True, capture_output=True)
        for end in ("pem", "key"):
            shutil.copy(self.folder / f"payments.{end}", self.folder / f"health.{end}")

    def data(self) -> float:
        """The data of HAProxy, in megabytes."""
        return many.data_megabytes(self.processes[0].pid)

    def close(self) -> None:
        for each in self.processes:
            each.terminate()
            each.wait()


# ---- a run


@dataclasses.dataclass(frozen=True)
class Outcome:
    """Of one request how late it began and how long it took from its moment, in seconds, its status and the code of a refusal."""

    kind: str
    late: float
    took: float
    status: int
    code: str


class Callers:
    """Asks the requests of a run at their moments."""

    def __init__(self, world: World, whose: str, ports: Ports, authority: pathlib.Path) -> None:
        self.world, self.name, self.port = world, NAMES[whose], ports.first
        self.context = ssl.create_default_context(cafile=str(authority))
        self.told = dict.fromkeys(world.orgs, world.reports)
        self.outcomes: list[Outcome] = []
        self.posted: list[tuple[int, int]] = []     # a number, and who posted it

    def run(self, requests: list[Request]) -> None:
        asyncio.run(self.all(requests))

    async def all(self, requests: list[Request]) -> None:
        begun = time.perf_counter() + 0.5
        asked = []
        last: dict[int, asyncio.Task[None]] = {}
        for request in requests:
            wait = begun + request.moment - time.perf_counter()
            await asyncio.sleep(max(wait, 0))
            task = asyncio.create_task(self.one(request, begun + request.moment, last.get(request.visit)))
            if request.visit:
                last[request.visit] = task
            asked.append(task)
        await asyncio.gather(*asked)

    async def one(self, request: Request, moment: float, behind: "asyncio.Task[None] | None") -> None:
        """Asks a request, behind the one before it of its visit."""
        late = time.perf_counter() - moment
        if behind is not None:
            await asyncio.wait([behind])
        try:
            answer = await asyncio.wait_for(self.asked(request), LONGEST)
            status, told = int(answer[9:12]), answer.partition(b"\r\n\r\n")[2]
            code = "" if status == 200 else str(json.loads(told)["code"])
        except (OSError, ValueError, KeyError, asyncio.TimeoutError, asyncio.IncompleteReadError) as fault:
            status, told, code = 0, b"", type(fault).__name__
        self.outcomes.append(Outcome(request.kind, late, time.perf_counter() - moment, status, code))
        if status == 200:
            self.note(request, told)

    def note(self, request: Request, told: bytes) -> None:
        """Keeps the newest number that an organisation knows, and which posts were answered."""
        if request.kind == "look" and (entries := json.loads(told)["incidents"]):
            org = self.world.org_of(request.person)
            self.told[org] = max(self.told[org], entries[-1]["number"])
        if request.kind == "post":
            self.posted += [(number, request.person) for number in json.loads(told)["numbers"]]

    async def asked(self, request: Request) -> bytes:
        org = self.world.org_of(request.person) if request.person else 0
        source = f"127.20.{org // 250}.{org % 250 + 1}" if request.person else "127.0.0.1"
        target = f"/incidents?after={self.told[org]}" if request.kind == "look" else request.target
        reader, writer = await asyncio.open_connection(
            "127.0.0.1", self.port, ssl=self.context, server_hostname=self.name, local_addr=(source, 0), limit=1 << 22)
        fields = f"Host: {self.name}\r\nConnection: close\r\n"
        fields += f"Authorization: Bearer {key_of(request.person)}\r\n" if request.kind not in ("page", "health") else ""
        fields += f"Content-Length: {len(request.body)}\r\n" if request.method != "GET" else ""
        try:
            writer.write(f"{request.method} {target} HTTP/1.1\r\n{fields}\r\n".encode() + request.body)
            return await reader.read()
        finally:
            writer.close()
            with contextlib.suppress(OSError, ssl.SSLError):
                await writer.wait_closed()


class Watch(threading.Thread):
    """The most data of the program and of HAProxy while a run goes on."""

    def __init__(self, pid: int, proxies: Proxies) -> None:
        super().__init__(daemon=True)
        self.pid, self.proxies, self.program, self.queue = pid, proxies, 0.0, 0.0
        self.ended = threading.Event()

    def run(self) -> None:
        while not self.ended.wait(0.2):
            self.program = max(self.program, many.data_megabytes(self.pid))
            self.queue = max(self.queue, self.proxies.data())


@dataclasses.dataclass(frozen=True)
class Run:
    """The outcomes of a run, and what it took: the program's share of a processor, the most data of it and of HAProxy in megabytes."""

    outcomes: list[Outcome]
    share: float
    data: float
    queue: float

    def of(self, kind: str) -> list[Outcome]:
        return [it for it in self.outcomes if it.kind == kind]


def share_of(values: list[float], share: float) -> float:
    """The value that so large a share of these doesn't exceed."""
    ordered = sorted(values)
    return ordered[min(int(len(ordered) * share), len(ordered) - 1)]


def took(outcomes: list[Outcome], share: float) -> float:
    return share_of([it.took for it in outcomes if it.status == 200] or [float("nan")], share)


def is_within(run: Run) -> bool:
    """Whether of each kind 95 of 100 were answered by 200 in time; one that was refused wasn't."""
    for kind in KINDS:
        found = [it.took if it.status == 200 else float("inf") for it in run.of(kind)]
        if found and share_of(found, 0.95) > WITHIN:
            return False
    return True


def kept_store(said: argparse.Namespace, world: World) -> pathlib.Path:
    """The store of this world in the folder of stores, made unless it is there. It gets its name when it is whole."""
    kept = pathlib.Path(said.stores) / f"hub-{len(world.orgs)}-{world.reports}.db"
    if kept.exists():
        return kept
    with tempfile.TemporaryDirectory(dir=kept.parent) as made:
        store = pathlib.Path(made) / "hub.db"
        make_store(said.program, store, Ports(said.port).program("hub"), world)
        store.rename(kept)
    return kept


class Load:
    def __init__(self, said: argparse.Namespace, folder: pathlib.Path, checks: many.Checks) -> None:
        self.said, self.folder, self.checks = said, folder, checks
        self.ports = Ports(said.port)
        self.proxies = Proxies(said, folder / "proxies", self.ports)
        self.answered = 0
        self.callers: Callers | None = None

    def done(self) -> int:
        return self.answered + (len(self.callers.outcomes) if self.callers else 0)

    def measure(self, reports: int) -> dict[str, Run]:
        world = World(self.said.organisations, reports)
        runs = {"hub": self.run("hub", world, self.said.minutes)}
        if self.said.peer:
            runs["peer"] = self.run("peer", world, self.said.peer_minutes)
        return runs

    def run(self, whose: str, world: World, minutes: float) -> Run:
        requests = Day(world, minutes * 60, self.said.pressed).made()
        store = self.folder / f"{whose}.db"
        program = self.said.program if whose == "hub" else self.said.peer
        if whose == "hub":
            self.take_store(store, world)
        else:
            make_peer_store(program, store, world)
            requests = [it for it in requests if it.kind in PEER_KNOWS]
        served = many.Hub(program, store, self.ports.program(whose))
        callers = self.callers = Callers(world, whose, self.ports, self.proxies.authority)
        print(f"{world.reports:,} reports, {whose}: {len(requests):,} requests in {minutes:g} minutes", file=sys.stderr, flush=True)
        try:
            run = self.timed(served, callers, requests)
            self.check(whose, world, callers)
        finally:
            served.close()
        for each in self.folder.glob(f"{whose}.db*"):
            each.unlink()
        self.answered += len(callers.outcomes)
        self.callers = None
        return run

    def take_store(self, store: pathlib.Path, world: World) -> None:
        """A new store of the hub, or a copy of the one that is kept."""
        if self.said.stores:
            shutil.copyfile(kept_store(self.said, world), store)
        else:
            make_store(self.said.program, store, self.ports.program("hub"), world)

    def timed(self, served: many.Hub, callers: Callers, requests: list[Request]) -> Run:
        watch = Watch(served.process.pid, self.proxies)
        watch.start()
        worked, begun = many.all_seconds(served.process.pid), time.perf_counter()
        callers.run(requests)
        share = (many.all_seconds(served.process.pid) - worked) / (time.perf_counter() - begun)
        watch.ended.set()
        watch.join()
        return Run(callers.outcomes, share, watch.program, watch.queue)

    def check(self, whose: str, world: World, callers: Callers) -> None:
        odd = collections.Counter((it.kind, it.status, it.code) for it in callers.outcomes if it.status not in MAY_BE)
        self.checks.same(f"{world.reports} reports, {whose}: answers but 200, 429 and 503", dict(odd), {})
        numbers = [number for number, _ in callers.posted]
        fresh = len({number for number in numbers if number > world.reports})
        self.checks.same(f"{world.reports} reports, {whose}: posts with a number of their own", fresh, len(numbers))
        statuses = {many.ask(self.ports.program(whose), key_of(person), "GET", f"/incidents/{number}")[0] for number, person in callers.posted}
        self.checks.same(f"{world.reports} reports, {whose}: what was posted is served to its source", statuses, {200} if numbers else set())


# ---- the tables


def seconds(value: float) -> str:
    return "–" if value != value else f"{value:.2f} s" if value >= 0.995 else f"{value * 1e3:.0f} ms"


def refused(outcomes: list[Outcome]) -> str:
    codes = collections.Counter(f"{it.code} {it.status}" for it in outcomes if it.status != 200)
    return ", ".join(f"{count:,} {code}" for code, count in codes.most_common()) or "0"


def print_runs(reports: int, runs: dict[str, Run]) -> None:
    hub, peer = runs["hub"], runs.get("peer")
    print(f"\n| Over {reports:,} reports | Asked | 50th | 95th | 99th | Refused |{' Peer: 50th | 95th | 99th | Refused |' if peer else ''}")
    print(f"|---|---|---|---|---|---|{'---|---|---|---|' if peer else ''}")
    for kind, name in [*KINDS.items(), ("", "all")]:
        mine = hub.of(kind) if kind else hub.outcomes
        if not mine:
            continue
        cells = [name, f"{len(mine):,}", *(seconds(took(mine, share)) for share in (0.5, 0.95, 0.99)), refused(mine)]
        if peer:
            theirs = peer.of(kind) if kind else peer.outcomes
            cells += [*(seconds(took(theirs, share)) for share in (0.5, 0.95, 0.99)), refused(theirs)] if theirs else ["–"] * 4
        print(f"| {' | '.join(cells)} |")
    for whose, run in runs.items():
        late = share_of([it.late for it in run.outcomes], 0.99)
        data = f"{run.data:.0f} MB of data" if run.data else "unknown data"
        print(f"\nThe {whose}: {run.share:.0%} of a processor, {data}; HAProxy {run.queue:.0f} MB; "
              f"99 of 100 requests were begun within {late * 1e3:.0f} ms of their moment; "
              f"{'below 2 s: yes' if is_within(run) else 'below 2 s: no'}.", flush=True)


def run(said: argparse.Namespace, folder: pathlib.Path, checks: many.Checks) -> None:
    minutes = said.minutes + (said.peer_minutes if said.peer else 0)
    load = Load(said, folder, checks)
    progress.say((minutes + 0.7) * len(said.reports), load.done, of="requests were answered")
    try:
        print(f"{said.organisations} organisations with {said.organisations * EACH:,} persons, a day in {DAY / said.pressed / 60:.1f} minutes, "
              f"of which {said.minutes:g} (of the peer {said.peer_minutes:g}); {many.provenance(said.program)}", flush=True)
        within = []
        for reports in said.reports:
            runs = load.measure(reports)
            print_runs(reports, runs)
            if is_within(runs["hub"]):
                within.append(reports)
    finally:
        load.proxies.close()
    print(f"\nThe largest of these stores at which 95 of 100 of each kind are answered within {WITHIN:g} s: {max(within):,}" if within else "\nNone is within 2 s")


def built_peer() -> str | None:
    """The peer that bench/peer/README.md builds, if it is there."""
    path = many.TOP / "bench" / "peer" / "target" / "release" / "peer"
    return str(path) if path.exists() else None


def numbers(text: str) -> list[int]:
    return sorted(int(each) for each in text.split(","))


def main() -> None:
    words = argparse.ArgumentParser(description=__doc__, formatter_class=argparse.RawDescriptionHelpFormatter, allow_abbrev=False)
    words.add_argument("--program", metavar="FILE", required=True)
    words.add_argument("--peer", metavar="FILE", default=built_peer(), help="the plain peer; by default that of bench/peer, if it is built")
    words.add_argument("--nginx", metavar="FILE", default="/usr/sbin/nginx")
    words.add_argument("--haproxy", metavar="FILE", default="/usr/sbin/haproxy")
    words.add_argument("--reports", type=numbers, default=numbers("1000,5000,20000"))
    words.add_argument("--minutes", type=float, default=10)
    words.add_argument("--peer-minutes", type=float, help="by default as --minutes")
    words.add_argument("--organisations", type=int, default=200)
    words.add_argument("--pressed", type=float, default=144)
    words.add_argument("--port", type=int, default=24210, help="the first of five ports; by default %(default)s")
    words.add_argument("--folder", help="the folder in which the stores are made and removed")
    words.add_argument("--stores", metavar="FOLDER", help="where the hub's stores are kept")
    words.add_argument("--make-stores", action="store_true")
    said = words.parse_args()
    if said.make_stores and not said.stores:
        words.error("--make-stores wants --stores")
    for each in (said.program, said.peer, said.nginx, said.haproxy):
        if each and not many.is_program(each):
            words.error(f"{each} is no program")
    if said.reports[0] < 2 * len(LABELS) or said.organisations < GROUP_SIZE:
        words.error(f"a store has {2 * len(LABELS)} reports or more, and a circle {GROUP_SIZE} organisations")
    said.peer_minutes = said.peer_minutes or said.minutes
    checks = many.Checks()
    many.end_in_order()
    begun = time.monotonic()
    if said.make_stores:
        for reports in said.reports:
            print(kept_store(said, World(said.organisations, reports)))
        return
    with tempfile.TemporaryDirectory(dir=said.folder) as made:
        folder = pathlib.Path(made)
        folder.chmod(0o711)
        run(said, folder, checks)
    print(f"\nit took {(time.monotonic() - begun) / 60:.1f} minutes")
    checks.end()


if __name__ == "__main__":
    main() if "--make-stores" in sys.argv else record.run(main)
