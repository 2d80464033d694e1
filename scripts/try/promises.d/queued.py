"""The queue that HAProxy keeps before a hub: who may have how much in hand or post in a day, also by other keys of its own, what no report
may have, who goes first, and what a caller is told of it. The requests come as nginx passes them on, and the hub answers when it is let."""

from __future__ import annotations

import contextlib
import hashlib
import http.client
import json
import pathlib
import re
import socket
import subprocess
import tempfile
import threading
import time
import typing
from collections.abc import Iterator

from asking import DEPLOY, Checks, program, same


NONE = "192.0.2.1"
# An answer, as far as it is compared: status, the cause for nginx's log, the time after which to ask again, and the body's reason.
Told = tuple[int, str | None, str | None, str | None]
TURNS: Told = (429, "turns", "2", "too many requests at once")
ROOM: Told = (429, "room", "60", "no room for reports")
LONG_NAME: Told = (422, None, None, "bad argument")
BAD_BODY: Told = (400, None, None, "request refused")
DONE: Told = (200, None, None, None)


class Hub(threading.Thread):
    """Takes one request after another, and answers each when the gate is open: 200, but what has one of these words with its code."""

    CODES = {"/fails": "F2", "/none": "N1", "/nobody": "K1", "/taken": "S1"}

    def __init__(self) -> None:
        super().__init__(daemon=True)
        self.listener = socket.create_server(("127.0.0.1", 0))
        self.port, self.heads, self.gate = self.listener.getsockname()[1], list[str](), threading.Event()
        self.gate.set()
        self.start()

    def run(self) -> None:
        with contextlib.suppress(OSError):
            while True:
                with self.listener.accept()[0] as caller:
                    self.answer(caller)

    def answer(self, caller: socket.socket) -> None:
        with contextlib.suppress(OSError), caller.makefile("rb") as given:
            head = given.readline().decode()
            fields = http.client.parse_headers(given)
            given.read(int(fields["Content-Length"] or 0))
            self.heads.append(" ".join([*head.split()[:2], *(f"{name}={value}" for name, value in fields.items() if name.lower() == "x-forwarded-for")]))
            self.gate.wait(30)
            code = next((code for word, code in self.CODES.items() if word in head), "")
            status = {"F2": "503 Service Unavailable", "N1": "404 Not Found", "K1": "401 Unauthorized", "S1": "409 Conflict", "": "200 OK"}[code]
            body = json.dumps({"code": code}) if code else "{}"
            caller.sendall(f"HTTP/1.1 {status}\r\nContent-Type: application/json\r\nContent-Length: {len(body)}\r\nConnection: close\r\n\r\n{body}".encode())


class Queue:
    """HAProxy with the shipped file, before a hub of its own."""

    def __init__(self, folder: pathlib.Path) -> None:
        self.hub, self.port, self.admin, self.people = Hub(), free(), folder / "admin", 0
        text = re.sub(r"^ *(?:log|user|group) .*\n", "", (DEPLOY / "haproxy" / "haproxy.cfg").read_text(), flags=re.M)
        text = text.replace("/run/haproxy/admin.sock mode 660 level user", f"{self.admin} level admin")
        for shipped, at in (("21011", self.port), ("21010", self.hub.port), ("21021", free()), ("21020", free())):
            text = text.replace(f"127.0.0.1:{shipped}", f"127.0.0.1:{at}")
        (folder / "haproxy.cfg").write_text(text)
        self.process = subprocess.Popen([program("haproxy", "haproxy"), "-db", "-f", folder / "haproxy.cfg"], stdout=subprocess.DEVNULL, stderr=subprocess.DEVNULL)
        for _ in range(300):
            with contextlib.suppress(OSError), socket.create_connection(("127.0.0.1", self.port)):
                return
            time.sleep(0.1)
        raise ValueError("HAProxy doesn't start")

    def person(self) -> str:
        """A key that nobody had."""
        self.people += 1
        return f"key-{self.people}"

    def begin(self, key: str, method: str, target: str, body: bytes = b"", address: str = "") -> http.client.HTTPConnection:
        """A request whose answer isn't awaited; of an address that nobody else has."""
        self.people += not address
        it = http.client.HTTPConnection("127.0.0.1", self.port, timeout=60)
        it.request(method, target, body, {"Authorization": f"Bearer {key}", "X-Forwarded-For": address or f"198.51.100.{self.people % 250}"})
        return it

    def ask(self, key: str, method: str, target: str, body: bytes = b"", address: str = "") -> Told:
        with contextlib.closing(self.begin(key, method, target, body, address)) as it:
            return told(it)

    def ask_by(self, words: list[str], method: str, target: str) -> Told:
        """A request with several fields of that name."""
        with contextlib.closing(http.client.HTTPConnection("127.0.0.1", self.port, timeout=60)) as it:
            it.putrequest(method, target)
            for name, value in (("X-Forwarded-For", NONE), *(("Authorization", word) for word in words)):
                it.putheader(name, value)
            it.endheaders()
            return told(it)

    @contextlib.contextmanager
    def held(self) -> Iterator[contextlib.ExitStack]:
        """The hub answers nobody; those that are in the stack are given up at its end."""
        self.hub.gate.clear()
        try:
            with contextlib.ExitStack() as stack:
                yield stack
        finally:
            self.hub.gate.set()
            time.sleep(0.3)

    def hold(self, stack: contextlib.ExitStack, *words: typing.Any, **more: typing.Any) -> http.client.HTTPConnection:
        it = stack.enter_context(contextlib.closing(self.begin(*words, **more)))
        time.sleep(0.15)
        return it

    def say(self, words: str) -> None:
        with socket.socket(socket.AF_UNIX) as it:
            it.connect(str(self.admin))
            it.sendall(f"{words}\n".encode())
            it.recv(1000)

    def close(self) -> None:
        self.process.terminate()
        self.process.wait()
        self.hub.listener.close()


def free() -> int:
    with socket.create_server(("127.0.0.1", 0)) as it:
        return int(it.getsockname()[1])


def told(it: http.client.HTTPConnection) -> Told:
    found = it.getresponse()
    body = json.loads(found.read() or b"{}")
    return found.status, found.headers["X-Hub-Code"], found.headers["Retry-After"], body.get("reason")


def in_hand(queue: Queue) -> Checks:
    """Two lists and two reports of a person, two lists of an address; beside them each other request waits for its turn."""
    for what, method, target in (("lists", "GET", "/search?needle=x"), ("lists of what is addressed", "GET", "/me/addressed"), ("reports", "POST", "/incidents")):
        who, other = queue.person(), queue.person()
        with queue.held() as stack:
            queue.hold(stack, who, method, target)
            second = queue.hold(stack, who, method, target)
            yield same(f"a person with two {what} in hand gets no third", TURNS, queue.ask(who, method, target))
            third = queue.hold(stack, other, method, target)
            view = queue.hold(stack, who, "GET", "/incidents/1")
            queue.hub.gate.set()
            yield same(f"the second of the {what}, another person's and a View are answered", [DONE] * 3, [told(it) for it in (second, third, view)])
    with queue.held() as stack:
        for _ in range(2):
            queue.hold(stack, queue.person(), "GET", "/incidents", address=NONE)
        yield same("an address with two lists in hand gets no third", TURNS, queue.ask(queue.person(), "GET", "/incidents", address=NONE))


def large(queue: Queue) -> Checks:
    """A report with 1,024 commas or brackets, of which a circle has four in hand."""
    for what, body in (("commas", b"," * 1024), ("brackets", b"[" * 1024)):
        with queue.held() as stack:
            for _ in range(4):
                queue.hold(stack, queue.person(), "POST", "/incidents", body)
            yield same(f"a circle has four reports of 1,024 {what} in hand", TURNS, queue.ask(queue.person(), "POST", "/incidents", body))
            small = queue.hold(stack, queue.person(), "POST", "/incidents", body[1:])
            queue.hub.gate.set()
            yield same("one that has one less isn't counted", DONE, told(small))


def in_a_day(queue: Queue) -> Checks:
    """Only what was done counts, by person."""
    for what, target, most, reason in (("groups", "/groups", 20, "too many groups in a day"), ("reports", "/incidents", 500, "too many reports in a day")):
        who = queue.person()
        ends = [queue.ask(who, "POST", target) for _ in range(most)]
        yield same(f"{most} {what} of a person are taken in a day", [DONE] * most, ends)
        yield same("one more isn't", (429, "posts", "3600", reason), queue.ask(who, "POST", target))
        yield same("another person's is", DONE, queue.ask(queue.person(), "POST", target))
    yield same("a new revision is a report, too", (429, "posts", "3600", "too many reports in a day"), queue.ask(who, "PUT", "/incidents/1"))
    who = queue.person()
    refused = [queue.ask(who, "POST", "/groups?/none")[0] for _ in range(20)]
    yield same("what the hub refused doesn't count", ([404] * 20, DONE), (refused, queue.ask(who, "POST", "/groups")))


def exchange(key: str) -> bytes:
    """The body that makes this key the caller's."""
    return f"key={hashlib.sha256(key.encode()).hexdigest()}".encode()


def keys(queue: Queue) -> Checks:
    """Who exchanges its key keeps its counts, from one exchange to the next; who gets a key that another had, keeps its own."""
    first, second, third, other = (queue.person() for _ in range(4))
    ends = [queue.ask(first, "POST", "/groups") for _ in range(12)] + [queue.ask(first, "POST", "/me/key", exchange(second))]
    ends += [queue.ask(second, "POST", "/groups") for _ in range(8)] + [queue.ask(second, "POST", "/me/key", exchange(third).upper().replace(b"KEY", b"key"))]
    yield same("20 groups of three keys of a person are taken in a day, and two exchanges", [DONE] * 22, ends)
    full = (429, "posts", "3600", "too many groups in a day")
    yield same("the next key has none left", full, queue.ask(third, "POST", "/groups"))
    queue.ask_by(["Bearer none", f"Bearer {third}"], "GET", "/me?/nobody")
    yield same("also after a request with two keys, which the hub reads as none", full, queue.ask(third, "POST", "/groups"))
    yield same("an exchange for a key that another had", DONE, queue.ask(other, "POST", "/me/key", exchange(first)))
    yield same("leaves each its own counts", (DONE, full), (queue.ask(first, "POST", "/groups"), queue.ask(third, "POST", "/groups")))
    yield same("a key that is nobody's since counts by itself", DONE, queue.ask(second, "POST", "/groups"))
    fresh = queue.person()
    yield same("an exchange that the hub refused", 404, queue.ask(third, "POST", "/me/key?/none", exchange(fresh))[0])
    yield same("leaves the new key's counts alone", DONE, queue.ask(fresh, "POST", "/groups"))
    for what, body in (
        ("an escaped name", exchange(fresh).replace(b"k", b"%6b", 1)),
        ("an escaped digest", exchange(fresh).replace(b"=", b"=%61", 1)[:-1]),
        ("an ampersand in front", b"&" + exchange(fresh)),
        ("an ampersand behind", exchange(fresh) + b"&"),
        ("a digest of 63 digits", exchange(fresh)[:-1]),
        ("a digest of 65 digits", exchange(fresh) + b"0"),
    ):
        yield same(f"an exchange with {what} isn't passed on", BAD_BODY, queue.ask(third, "POST", "/me/key", body))


def two_lists(queue: Queue, what: str, dead: str, present: str) -> Checks:
    """What a key that was exchanged has in hand isn't its person's."""
    with queue.held() as stack:
        for _ in range(2):
            queue.hold(stack, dead, "GET", "/incidents?/nobody")
        own = queue.hold(stack, present, "GET", "/incidents")
        queue.hub.gate.set()
        yield same(f"two lists in hand by {what} leave its person's be", DONE, told(own))


def dead_keys(queue: Queue) -> Checks:
    """A key that was exchanged counts by itself, whoever had it since."""
    first, second, other, left, added = (queue.person() for _ in range(5))
    yield same("a first key is exchanged", DONE, queue.ask(first, "POST", "/me/key", exchange(second)))
    yield from two_lists(queue, "it", first, second)
    with queue.held() as stack:
        queue.hold(stack, first, "GET", "/incidents/1?/nobody")
        yield same("no exchange back while it has a View in hand", TURNS, queue.ask(second, "POST", "/me/key", exchange(first)))
    ends = [queue.ask(other, "POST", "/me/key", exchange(first)), queue.ask(first, "POST", "/me/key", exchange(left))]
    yield same("another person takes it and leaves it", [DONE] * 2, ends)
    for present in (second, left):
        yield from two_lists(queue, "it then", first, present)
    yield same("a person that was added with it exchanges it", DONE, queue.ask(first, "POST", "/me/key", exchange(added)))
    yield from two_lists(queue, "it after that", first, added)
    ends = [queue.ask(second, "POST", "/me/key", exchange(first)), *(queue.ask(first, "POST", "/groups") for _ in range(20))]
    yield same("the first person takes it back", [DONE] * 21, ends)
    yield from two_lists(queue, "the second key", second, first)
    yield same("and has the day of one person", 429, queue.ask(first, "POST", "/groups")[0])
    yield same("also by a third", (DONE[0], 429), (queue.ask(first, "POST", "/me/key", exchange(second))[0], queue.ask(second, "POST", "/groups")[0]))


def keys_in_hand(queue: Queue) -> Checks:
    """By a new key nothing is in hand while its exchange is, so that all counts for its person."""
    who, made, last = (queue.person() for _ in range(3))
    yield same("a View", DONE, queue.ask(who, "GET", "/incidents/1"))
    with queue.held() as stack:
        own = queue.hold(stack, who, "POST", "/me/key", exchange(made))
        for what, words in (("View", ("GET", "/incidents/1")), ("report", ("POST", "/incidents")), ("exchange", ("POST", "/me/key", exchange(last)))):
            yield same(f"no {what} by a new key while its exchange is in hand", TURNS, queue.ask(made, *words))
        view = queue.hold(stack, who, "GET", "/incidents/1")
        queue.hub.gate.set()
        yield same("the exchange, and a View by the old key, are answered", [DONE] * 2, [told(it) for it in (own, view)])
    yield same("a View by the new key is", DONE, queue.ask(made, "GET", "/incidents/1"))
    for what, words in (("a View", ("GET", "/incidents/1")), ("a list", ("GET", "/incidents")), ("a report", ("POST", "/incidents")), ("an exchange", ("POST", "/me/key", exchange(last)))):
        taken = queue.person()
        with queue.held() as stack:
            queue.hold(stack, taken, *words)
            yield same(f"no exchange for a key with {what} in hand", TURNS, queue.ask(queue.person(), "POST", "/me/key", exchange(taken)))


def keys_of_others(queue: Queue) -> Checks:
    """Who sends another's digest holds nobody off: a stranger never, a member only until the hub says once that it is taken."""
    stranger, member, gone, posting = (queue.person() for _ in range(4))
    asked = [(member, "GET", "/incidents/1"), (gone, "GET", "/incidents/1"), (gone, "GET", "/me?/nobody"), (posting, "POST", "/incidents")]
    yield same("who was served, who isn't any person since, and who posted", [200, 200, 401, 200], [queue.ask(*words)[0] for words in asked])
    for what, by, word, is_served, is_told in (
        ("a stranger", stranger, "/nobody", False, False),
        ("a key that was served and is nobody's", gone, "/nobody", False, False),
        ("a member, and its person was served", member, "/taken", True, False),
        ("a poster, and the hub has told that it is taken", posting, "/taken", False, True),
    ):
        victim = queue.person()
        if is_served:
            yield same("a person is served", DONE, queue.ask(victim, "GET", "/incidents/1"))
        if is_told:
            yield same("an exchange for a key that is taken", 409, queue.ask(by, "POST", f"/me/key?{word}", exchange(victim))[0])
        with queue.held() as stack:
            queue.hold(stack, by, "POST", f"/me/key?{word}", exchange(victim))
            view = queue.hold(stack, victim, "GET", "/incidents/1")
            queue.hub.gate.set()
            yield same(f"while a key's digest is sent by {what}, a View by it is answered", DONE, told(view))
    yield same("the last of these keys is exchanged", DONE, queue.ask(victim, "POST", "/me/key", exchange(queue.person())))
    with queue.held() as stack:
        queue.hold(stack, member, "POST", "/me/key", exchange(victim))
        yield same("it is a new key again", TURNS, queue.ask(victim, "GET", "/incidents/1"))


def keys_behind(queue: Queue) -> Checks:
    """Who is behind stays so with another key."""
    who, made = queue.person(), queue.person()
    with queue.held() as stack:
        view = queue.hold(stack, who, "GET", "/incidents/1")
        time.sleep(4)
        queue.hub.gate.set()
        yield same("a View that takes the hub four seconds, and an exchange", [DONE] * 2, [told(view), queue.ask(who, "POST", "/me/key", exchange(made))])
    with queue.held() as stack:
        for key, target in ((queue.person(), "/first"), (made, "/mine"), (queue.person(), "/other")):
            queue.hold(stack, key, "GET", target)
        queue.hub.gate.set()
        time.sleep(1)
    yield same("another person's request goes before one by the new key", ["/other", "/mine"], [it.split()[1] for it in queue.hub.heads[-2:]])


def names(queue: Queue) -> Checks:
    """A member's name has at most 256 bytes; a text has any number."""
    who = queue.person()
    for what, body, wanted in (
        ("a name of 256 bytes passes", b'{"%s":1}' % (b"n" * 256), DONE),
        ("a name of 257 is refused", b'{"%s":1}' % (b"n" * 257), LONG_NAME),
        ("so is one of 257 escapes, with a blank behind it", b'{"a":"b","%s" :1}' % (b"\\n" * 257), LONG_NAME),
        ("a text of 257 passes, also with a quote in it", b'{"a":"%s\\"","b":1}' % (b"n" * 257), DONE),
    ):
        yield same(what, wanted, queue.ask(who, "PUT", "/incidents/1", body))
        who = queue.person()
    yield same("in what is no report a name may be longer", DONE, queue.ask(who, "POST", "/groups", b'{"%s":1}' % (b"n" * 257)))


def turns(queue: Queue) -> Checks:
    """While one is in hand the others come in another order: any request before a list, and who has least in hand first."""
    busy = queue.person()
    with queue.held() as stack:
        queue.hold(stack, queue.person(), "GET", "/first")
        for key, target in ((queue.person(), "/incidents?list"), (busy, "/busy-1"), (busy, "/busy-2"), (queue.person(), "/other")):
            queue.hold(stack, key, "GET", target)
        del queue.hub.heads[:]
        queue.hub.gate.set()
        time.sleep(1)
    yield same("a person's second request and a list wait for others", ["/busy-1", "/other", "/busy-2", "/incidents?list"], [it.split()[1] for it in queue.hub.heads[-4:]])


def room(queue: Queue) -> Checks:
    """A circle that iodef-hub-room has put on the list takes nothing that makes its store larger."""
    who = queue.person()
    queue.say("add acl #21 payments")
    for what, method, target, body, wanted in (
        ("no report", "POST", "/incidents", b"{}", ROOM),
        ("no share", "POST", "/incidents/1/grant", b"{}", ROOM),
        ("no revision above 512 bytes", "PUT", "/incidents/1", b" " * 513, ROOM),
        ("a smaller one", "PUT", "/incidents/1", b" " * 512, DONE),
        ("a View", "GET", "/incidents/1", b"", DONE),
    ):
        yield same(f"a circle without room takes {what}", wanted, queue.ask(who, method, target, body))
    queue.say("del acl #21 payments")


def passed_on(queue: Queue) -> Checks:
    yield same("the hub isn't told the address", [], [it for it in queue.hub.heads if "x-forwarded-for" in it.lower()])
    yield same("nginx is told the code of a hub that fails", (503, "F2"), queue.ask(queue.person(), "GET", "/fails")[:2])


def queued() -> Checks:
    with tempfile.TemporaryDirectory() as name:
        queue = Queue(pathlib.Path(name))
        try:
            for part in (in_hand, large, in_a_day, keys, dead_keys, keys_in_hand, keys_of_others, keys_behind, names, turns, room, passed_on):
                yield from part(queue)
        finally:
            queue.close()
