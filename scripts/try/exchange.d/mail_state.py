"""What a later run sends: nothing twice, what surely wasn't taken, and what was cut only by --again."""
from __future__ import annotations

import fcntl
import json
import resource
import subprocess
from collections.abc import Iterator

from .context import Context, same
from .mail_command import Mailer, parsed
from .mail_keys import Ring
from .mail_sent import EXAMPLE, new
from .mail_server import CUT, KEPT_AND_CUT, NO_ANSWER, REFUSED_DATA, REFUSED_MESSAGE, REFUSED_TO, SLOW, Server, running

TO = ("a@x.example", "b@x.example", "c@x.example")
ALL = [{"address": to, "clearance": "GREEN"} for to in TO]


def checks(context: Context, ring: Ring) -> Iterator[tuple[bool, str]]:
    with running(next(context.ports)) as server:
        yield from reruns(new(context, ring, server, "reruns"), server)
        for name, way in (("RCPT", REFUSED_TO), ("DATA", REFUSED_DATA), ("the message", REFUSED_MESSAGE)):
            yield from refusals(new(context, ring, server, f"refusal-{way}"), server, name, way)
        for name, way, count in (("after DATA", CUT, 0), ("behind the server's back", KEPT_AND_CUT, 1)):
            yield from cuts(new(context, ring, server, f"cut-{way}"), server, name, way, count)
        yield from killed(new(context, ring, server, "killed"), server)
        yield from states(new(context, ring, server, "states"), server)
        yield from full(new(context, ring, server, "full"), server)
    mailer = new(context, ring, server, "unreachable")
    mailer.give(EXAMPLE, *ALL)
    ran = mailer.run("--send")
    yield same("no mail server", (ran.status, [": not sent: NotTaken: " in each for each in ran.said]), (3, [True] * 3))
    with running(server.port) as later:
        yield same("and later all are sent", (mailer.run("--send").status, to_of(later)), (0, [*TO]))


def to_of(server: Server) -> list[str]:
    return [each.to for each in server.taken()]


def reruns(mailer: Mailer, server: Server) -> Iterator[tuple[bool, str]]:
    mailer.give(EXAMPLE, *ALL[:2])
    yield same("a first run sends", (mailer.run("--send").status, to_of(server)), (0, [*TO[:2]]))
    mode = (mailer.folder / "sent.jsonl").stat().st_mode & 0o777
    yield same("what was sent is kept for the owner alone", mode, 0o600)
    for words in (("--send",), ("--send", "--again"), ()):
        ran = mailer.run(*words)
        found = ran.status, ran.states(), ran.said, to_of(server)
        yield same(f"a later run sends none twice {words}", found, (0, dict.fromkeys(TO[:2], "sent before"), [], []))
    spelled = {"address": "A@X.Example", "clearance": "TLP:GREEN", "name": "A"}
    mailer.give(EXAMPLE, spelled, *ALL[1:])
    yield same("nor to another spelling, and sends to who is new", (mailer.run("--send").status, to_of(server)), (0, [TO[2]]))
    mailer.give(EXAMPLE, {"address": TO[0], "clearance": "RED", "plain": True}, *ALL[1:])
    yield same("who has another clearance is sent to", (mailer.run("--send").status, to_of(server)), (0, [TO[0]]))
    mailer.give(EXAMPLE + b"\n", *ALL)
    yield same("and another report to all", (mailer.run("--send").status, to_of(server)), (0, [*TO]))


def refusals(mailer: Mailer, server: Server, name: str, way: int) -> Iterator[tuple[bool, str]]:
    """The server surely has no message: the others get theirs, and a later run sends."""
    server.ways = {TO[1]: way}
    mailer.give(EXAMPLE, *ALL)
    ran = mailer.run("--send")
    code = {REFUSED_TO: "550", REFUSED_DATA: "451", REFUSED_MESSAGE: "554"}[way]
    line = f"iodef-redact-mail: {TO[1]}: not sent: NotTaken: the mail server answers {code} to {name}"
    # What the server says is told in printed characters.
    wanted = line + (r": nobody\u001b[2J" if way == REFUSED_TO else "")
    yield same(f"{name} refused: the others are sent to", (ran.status, ran.said[1], to_of(server)), (3, wanted, [TO[0], TO[2]]))
    yield same("and the table says so", ran.states(), {TO[0]: "sent", TO[1]: "NotTaken", TO[2]: "sent"})
    server.ways = {}
    ran = mailer.run("--send")
    yield same("and a later run sends it", (ran.status, ran.states()[TO[1]], to_of(server)), (0, "sent", [TO[1]]))
    yield same("once", (mailer.run("--send").status, to_of(server)), (0, []))


def number_of(mailer: Mailer, to: str) -> str:
    """The Message-ID that was kept last for a recipient."""
    entries = [json.loads(line) for line in (mailer.folder / "sent.jsonl").read_text().splitlines()]
    return next(str(each["message"]) for each in reversed(entries) if each["to"] == to)


def cuts(mailer: Mailer, server: Server, name: str, way: int, count: int) -> Iterator[tuple[bool, str]]:
    """Whether the server has the message isn't known."""
    server.ways = {TO[0]: way}
    mailer.give(EXAMPLE, *ALL)
    ran = mailer.run("--send")
    found = ran.status, f"{TO[0]}: cut: " in ran.said[0], to_of(server)
    yield same(f"cut {name}: named, and the others are sent to", found, (3, True, [TO[0]] * count + [*TO[1:]]))
    yield same("and the table says so", ran.states(), {TO[0]: "cut", TO[1]: "sent", TO[2]: "sent"})
    server.ways = {}
    for words in ((), ("--send",)):
        ran = mailer.run(*words)
        found = ran.status, ran.states()[TO[0]], [f"{TO[0]}: cut: " in each for each in ran.said], to_of(server)
        yield same(f"and a later run names it and doesn't send it {words}", found, (3, "cut", [True], []))
    number = number_of(mailer, TO[0])
    server.ways = {TO[0]: REFUSED_MESSAGE}
    ran = mailer.run("--send", "--again")
    yield same("--again is refused", (ran.status, "NotTaken" in ran.said[0], ran.states()[TO[0]], to_of(server)), (3, True, "cut", []))
    server.ways = {}
    ran = mailer.run("--send")
    yield same("and the first message is still in doubt", (ran.status, ran.states()[TO[0]], to_of(server)), (3, "cut", []))
    yield same("which a dry run says of it", mailer.run("--again").states()[TO[0]], "again")
    ran = mailer.run("--send", "--again")
    kept = server.taken()
    found = ran.status, ran.states()[TO[0]], [(each.to, parsed(each.text)["Message-ID"]) for each in kept]
    yield same("--again sends it, with the same Message-ID", found, (0, "sent", [(TO[0], number)]))
    yield same("and once", (mailer.run("--send", "--again").status, to_of(server)), (0, []))


def killed(mailer: Mailer, server: Server) -> Iterator[tuple[bool, str]]:
    """The command is killed while the server has the message and has given no answer."""
    server.ways = {TO[1]: NO_ANSWER}
    mailer.give(EXAMPLE, *ALL)
    quiet = subprocess.DEVNULL
    with subprocess.Popen(mailer.words("--send"), stdout=quiet, stderr=quiet, env=mailer.environment()) as begun:
        has_begun = server.began.wait(60)
        begun.kill()
    yield same("a run is killed before an answer", (has_begun, to_of(server)), (True, [TO[0]]))
    server.ways = {}
    ran = mailer.run("--send")
    wanted = 3, {TO[0]: "sent before", TO[1]: "cut", TO[2]: "sent"}, [TO[2]]
    yield same("and a later one sends only what wasn't begun", (ran.status, ran.states(), to_of(server)), wanted)


def states(mailer: Mailer, server: Server) -> Iterator[tuple[bool, str]]:
    """Files of what was sent that are cut, damaged, or another run's."""
    mailer.give(EXAMPLE, *ALL)
    file = mailer.folder / "sent.jsonl"
    mailer.run("--send")
    server.taken()
    whole = file.read_bytes()
    lines = whole.splitlines(True)
    for length in (1, len(lines[-1]) - 1):
        file.write_bytes(b"".join(lines[:-1]) + lines[-1][:length])
        ran = mailer.run("--send")
        found = ran.status, ran.states()[TO[2]], to_of(server), file.read_bytes() == b"".join(lines[:-1]), "its last line" in ran.said[0]
        yield same(f"a last line cut behind {length} bytes doesn't count", found, (3, "cut", [], True, True))
    lost, mistyped = whole.replace(b'"what":"sent"', b'"what":"lost"', 1), whole.replace(b'"incident":0', b'"incident":"0"', 1)
    for bad in (b"\n", b"{}\n", b"\xff\n", lost, mistyped):
        file.write_bytes(bad)
        ran = mailer.run("--send")
        found = ran.status, "BadState" in ran.said[0], ran.table, to_of(server), file.read_bytes() == bad
        yield same(f"{bad[:20]!r} in it refuses the run", found, (1, True, [], [], True))
    file.write_bytes(b"")
    with file.open("rb") as held:
        fcntl.flock(held, fcntl.LOCK_EX)
        ran = mailer.run("--send")
        yield same("another run has it", (ran.status, ran.table, to_of(server)), (2, [], []))
    yield same("and behind it all are sent", (mailer.run("--send").status, to_of(server)), (0, [*TO]))


def small_files() -> None:
    """No file grows beyond these bytes, which is less than one entry."""
    resource.setrlimit(resource.RLIMIT_FSIZE, (300, 300))


def full(mailer: Mailer, server: Server) -> Iterator[tuple[bool, str]]:
    """What can't be kept isn't sent."""
    mailer.give(EXAMPLE, *ALL)
    ran = mailer.run("--send", limit=small_files)
    found = ran.status, len(ran.said), "can't be written, and no further message is sent" in ran.said[0], to_of(server)
    yield same("nothing is sent that can't be kept", found, (3, 1, True, []))
    yield same("and the table says so of all", ran.states(), dict.fromkeys(TO, "not sent"))
    with open("/dev/full", "wb") as device:
        ended = subprocess.run(mailer.words("--send"), stdout=device, stderr=subprocess.DEVNULL, env=mailer.environment(), timeout=200)
    yield same("nothing is sent without its table", (ended.returncode, to_of(server)), (2, []))
    yield from unread(mailer, server)
    ran = mailer.run("--send")
    wanted = 0, {TO[0]: "sent before", TO[1]: "sent", TO[2]: "sent"}, [*TO[1:]]
    yield same("and a later run sends all others", (ran.status, ran.states(), to_of(server)), wanted)


def unread(mailer: Mailer, server: Server) -> Iterator[tuple[bool, str]]:
    """Whoever reads the table reads its first line alone: what was sent is kept, and nothing else is sent."""
    quiet = subprocess.DEVNULL
    server.ways = {TO[0]: SLOW}
    with subprocess.Popen(mailer.words("--send"), stdout=subprocess.PIPE, stderr=quiet, env=mailer.environment()) as begun:
        assert begun.stdout is not None
        head = begun.stdout.readline().split()[:1]
        begun.stdout.close()
        status = begun.wait(200)
    server.ways = {}
    yield same("a table that isn't read to its end ends the run", (head, status, to_of(server)), ([b"recipient"], 3, [TO[0]]))
