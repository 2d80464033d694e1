"""What each kind of answer of the proxies has, who may ask for what, and which handshakes are taken. The tables are written by hand."""

from __future__ import annotations

import contextlib
import re
import time
from collections.abc import Iterator

from asking import Check, Checks, compared, same
from edge import Answer, Edge, all_of, answer_of, close_all

YEAR = "max-age=31536000"
# nginx's name without its version, and the fields of what only the hub's callers may keep.
ANSWER = {"server": "nginx", "content-type": "application/json", "cache-control": "no-store", "x-content-type-options": "nosniff",
          "strict-transport-security": YEAR}
PAGE = {
    "server": "nginx",
    "cache-control": "no-cache",
    "x-content-type-options": "nosniff",
    "strict-transport-security": YEAR,
    "referrer-policy": "no-referrer",
    "cross-origin-opener-policy": "same-origin",
    "cross-origin-resource-policy": "same-origin",
    "permissions-policy": "camera=(), microphone=(), geolocation=(), clipboard-read=()",
}
POLICY = ("default-src 'none'; script-src HASHES; style-src HASHES; connect-src 'self'; img-src data:; base-uri 'none'; form-action 'none';"
          " frame-ancestors 'none'; require-trusted-types-for 'script'; trusted-types 'none'")
# These change from one answer to the next.
OWN = {"date", "content-length", "connection", "keep-alive", "last-modified", "etag", "accept-ranges", "vary", "content-encoding"}
LATER = {"retry-after": "2"}
LOCAL = "127.0.0.7"
GOOD = ("-H", "Authorization: Bearer good")
BODY = ("--data-binary", "@-")


def refused(code: str, reason: str = "request refused") -> str:
    return f'{{"code":"{code}","detail":"","reason":"{reason}"}}'


AWAY = refused("Away", "hub restarts or is busy")


def answer(promise: str, told: Answer, status: int, fields: dict[str, str], body: str | None = None) -> Check:
    """Status, body, and all fields but those that change from one answer to the next."""
    found = {name: re.sub(r"'sha256-[^']+'( 'sha256-[^']+')*", "HASHES", value) for name, value in told.fields.items() if name not in OWN}
    wrong = compared(promise, {"status": str(status), **fields}, {"status": str(told.status), **found}).wrong
    if body is not None and told.body != body:
        wrong += f"; the body is {told.body[:200]!r}, not {body!r}"
    return Check(promise, wrong)


def pages(edge: Edge) -> Checks:
    page = PAGE | {"content-type": "text/html; charset=utf-8", "content-security-policy": POLICY}
    yield answer("the page has its policy and all its fields", edge.ask("/ui/"), 200, page)
    names = PAGE | {"content-type": "application/json"}
    yield answer("so have the names beside it, but the policy", edge.ask("/ui/names.json"), 200, names, '{"orgs":{}}')
    yield answer("a path below the page that isn't there", edge.ask("/ui/none"), 404, ANSWER, refused("NoRoute"))
    yield answer("a page that is posted to", edge.ask("/ui/", "-d", "x=1"), 404, ANSWER, refused("NoRoute"))
    yield answer("names that are posted to", edge.ask("/ui/names.json", "-d", "x=1"), 404, ANSWER, refused("NoRoute"))
    for path in ("/", "/ui"):
        to_page = ANSWER | {"content-type": "text/html", "location": "https://payments.hub.example:PORT/ui/"}
        told = edge.ask(path)
        told.fields["location"] = told.fields.get("location", "").replace(str(edge.port), "PORT")
        yield answer(f"{path} leads to the page", told, 302, to_page)


def of_hub(edge: Edge) -> Checks:
    yield answer("an answer of the hub", edge.ask("/me", *GOOD), 200, ANSWER, '{"number":1}')
    yield answer("a refusal of the hub", edge.ask("/me"), 401, ANSWER, '{"code":"NoPerson"}')
    yield answer("a failure of the hub, whose code only the log has", edge.ask("/fails"), 503, ANSWER, '{"code":"F1"}')
    edge.ask("/groups", *GOOD, "-H", "Cookie: a=b", "-H", "X-Forwarded-For: 192.0.2.99", "-H", "Accept-Language: en")
    heads = [sorted(head.lower().split("\r\n")) for head in edge.hub.heads if head.startswith("GET /groups ")]
    yield same("no field of a caller reaches the hub but its key", [["authorization: bearer good", "connection: close", "get /groups http/1.1", "host: hub"]], heads)


def of_nginx(edge: Edge) -> Checks:
    kinds = (
        ("a body above 262,144 bytes", 413, "TooLarge", edge.ask("/incidents", *BODY)),
        ("a body in pieces", 501, "Chunked", edge.ask("/incidents", "--http1.1", "-X", "POST", "-T", "-")),
        ("a body without a length, by HTTP/2", 411, "NoLength", edge.ask("/incidents", "--http2", "-X", "POST", "-T", "-")),
        ("a byte in the path that is none of a path", 400, "BadHead", edge.raw(b"GET /a\x80b HTTP/1.1\r\nHost: payments.hub.example\r\n\r\n")),
        ("a head that is too long", 431, "HeadTooLong", edge.ask("/me", "--http1.1", "-H", f"X: {'x' * 9000}")),
    )
    for kind, status, code, told in kinds:
        yield answer(f"{kind} is refused by nginx", told, status, ANSWER, refused(code))


def second(edge: Edge) -> Checks:
    """Two hubs of a circle, each with its page and its names."""
    def ask(path: str) -> Answer:
        return edge.ask(path, circle="health")

    leads = {path: ask(path).fields.get("location", "").partition(f":{edge.port}")[2] for path in ("/", "/ui", "/2", "/2/ui")}
    yield same("paths without a page lead to the second hub's, or the first's", {"/": "/2/ui/", "/ui": "/ui/", "/2": "/2/ui/", "/2/ui": "/2/ui/"}, leads)
    page = PAGE | {"content-type": "text/html; charset=utf-8", "content-security-policy": POLICY}
    for path, names in (("/ui/", "health"), ("/2/ui/", "health2")):
        yield answer(f"{path} is a page", ask(path), 200, page)
        yield answer(f"with the names of {names}", ask(f"{path}names.json"), 200, PAGE | {"content-type": "application/json"}, f'{{"of":"{names}"}}')
    ask("/2/me"), ask("/2/ui/none")
    whose = re.findall(r" (\S+) \S+ GET (/2/\S*) ", (edge.folder / "iodef-hub.log").read_text())
    yield same("the log has the second hub's requests as its own, but not those for its page", {("health2", "/2/me"), ("health", "/2/ui/none")},
               {it for it in whose if it[1] in ("/2/me", "/2/ui/none")})


def taxii(edge: Edge) -> Checks:
    """What reaches iodef-hub-taxii, for which the hub stands here, and what nginx refuses before."""
    fields = {name: value for name, value in ANSWER.items() if name != "cache-control"}
    more = ("-H", "Accept: application/taxii+json", "-H", "Cookie: a=b", "-H", "X-Forwarded-For: 192.0.2.99")
    yield answer("an answer of TAXII", edge.ask("/taxii2/?x=1", *GOOD, *more), 200, fields, '{"number":1}')
    heads = [sorted(head.lower().split("\r\n")) for head in edge.hub.heads if head.startswith("GET /taxii2/")]
    yield same("no field of a caller reaches it but its key and what it accepts",
               [["accept: application/taxii+json", "authorization: bearer good", "connection: close", "get /taxii2/?x=1 http/1.1", "host: hub"]], heads)
    yield same("a body above 1 KB is refused", 413, edge.ask("/taxii2/", "--data-binary", "@-").status)
    edge.ask("/taxii2/small", "-X", "POST", "-d", "x" * 900)
    yield same("a smaller one isn't passed on", [], [head for head in edge.hub.heads if head.startswith("POST /taxii2/") and "ontent-" in head])
    yield same("a byte in its path that is none of a path", 400, edge.raw(b"GET /taxii2/\x80 HTTP/1.1\r\nHost: payments.hub.example\r\n\r\n").status)


def health(edge: Edge) -> Checks:
    alive = '{"alive":true}'
    yield answer("/healthz tells a caller of this machine that the hub lives", edge.ask("/healthz", address=LOCAL), 200, ANSWER, alive)
    yield answer("also with words against caches", edge.ask("/healthz?x=1", address=LOCAL), 200, ANSWER, alive)
    asked = [it.split("\r\n")[0] for it in edge.hub.heads if "Bearer healthz" in it]
    yield same("for which the hub is asked without them", ["GET /me HTTP/1.0"] * 2, asked)
    yield answer("/healthz is for no other address", edge.ask("/healthz"), 404, ANSWER, refused("NoRoute"))
    yield answer("nor for an address of IPv6", edge.ask("/healthz", address="2001:db8::1"), 404, ANSWER, refused("NoRoute"))
    yield answer("/healthz isn't posted to", edge.ask("/healthz", "-d", "x=1", address=LOCAL), 404, ANSWER, refused("NoRoute"))
    yield answer("/healthz tells that a hub is away", edge.ask("/healthz", circle="health", address=LOCAL), 503, ANSWER | LATER, AWAY)


def handshakes(edge: Edge) -> Checks:
    named = ("-servername", "payments.hub.example")
    for word, version in (("-tls1", "TLSv1"), ("-tls1_1", "TLSv1.1"), ("-tls1_2", "TLSv1.2"), ("-tls1_3", "TLSv1.3")):
        told = edge.shake(word, *named)
        taken = re.search(r"^ *Protocol *: (\S+)$|^New, (TLSv1\.3)", told, re.M) if "Cipher is (NONE)" not in told else None
        is_wanted = word in ("-tls1_2", "-tls1_3")
        wanted, found = version if is_wanted else None, (taken[1] or taken[2]) if taken else None
        yield same(f"a handshake of {version} is {'taken' if is_wanted else 'refused'}", wanted, found)
    yield same("no session is kept by its caller", [], re.findall(r"TLS session ticket:", edge.shake("-tls1_2", *named)))
    for words in (("-servername", "other.hub.example"), ("-noservername",)):
        told = edge.shake(*words)
        yield Check(f"{words[-1]}: without a circle's name there is no certificate", "" if "no peer certificate available" in told else "one is shown")


def requests_in_hand(edge: Edge) -> Checks:
    """One address has twenty that aren't whole; after 15 seconds each is refused."""
    address, held = edge.address(), []
    for _ in range(19):
        held.append(edge.begin(address))
    time.sleep(0.5)
    yield same("with 19 requests in hand an address is served", 401, edge.ask("/me", address=address).status)
    held.append(edge.begin(address))
    told = edge.ask("/me", address=address)
    for _ in range(20):
        if told.status == 503:
            break
        time.sleep(0.2)
        told = edge.ask("/me", address=address)
    yield answer("with 20 it isn't", told, 503, ANSWER | LATER, AWAY)
    yield same("another address is", 401, edge.ask("/me").status)
    told, seconds = all_of(held[-1])
    is_well = told.startswith("HTTP/1.1 408 ") and told.endswith(refused("TooSlow")) and 13 < seconds < 19
    yield Check("a request that isn't whole is refused after 15 seconds", "" if is_well else f"after {seconds:.1f} s {told[-200:]!r}")
    close_all(held)


def silent(edge: Edge) -> Checks:
    """A head that never ends, and a connection that is kept."""
    half, kept = edge.connect(), edge.connect()
    half.sendall(b"GET /me HTTP/1.1\r\nHost: payments.hub.example\r\n")
    kept.sendall(b"GET /me HTTP/1.1\r\nHost: payments.hub.example\r\nX-Trial-Address: 198.51.100.2\r\n\r\n")
    _, seconds = all_of(half)
    yield Check("a head that never ends is given up after 15 seconds", "" if 13 < seconds < 19 else f"after {seconds:.1f} s")
    lines = (edge.folder / "iodef-hub.log").read_text()
    is_told = re.search(r" @payments\.hub\.example \S+ GET \S+ 408 ", lines) is not None
    yield Check("in the log it has its server's name, as its circle isn't known yet", "" if is_told else lines[-300:])
    _, more = all_of(kept)
    yield Check("a connection without requests is closed after 30 seconds", "" if 27 < seconds + more < 33 else f"after {seconds + more:.1f} s")


def at_once(edge: Edge, count: int, method: str) -> list[Answer]:
    """The answers to so many requests for the page, of one address and each on a connection of its own."""
    address = edge.address()
    with contextlib.ExitStack() as all_at_once:
        sent = [all_at_once.enter_context(edge.connect()) for _ in range(count)]
        for each in sent:
            lines = (f"{method} /ui/ HTTP/1.1", "Host: payments.hub.example", f"X-Trial-Address: {address}", "Content-Length: 0", "Connection: close")
            each.sendall("\r\n".join((*lines, "", "")).encode())
        return [answer_of(all_of(each)[0].replace("\r", "")) for each in sent]


def burst(edge: Edge, count: int, method: str, most: int) -> Checks:
    """Of requests at once so many are taken, and one or two more if they came slowly: then it is tried again."""
    counts: list[int] = []
    while len(counts) < 5 and not (counts and most <= counts[-1] <= most + 2):
        told = at_once(edge, count, method)
        counts.append(sum(each.status != 429 for each in told))
    yield Check(f"of {count} {method} at once of one address {most} are taken", "" if most <= counts[-1] <= most + 2 else f"{counts} are")
    late = next((each for each in told if each.status == 429), told[0])
    yield answer("the others are refused", late, 429, ANSWER | LATER, refused("TooMany", "too many requests"))


def fast(edge: Edge) -> Checks:
    """One request and a burst of 40, of which 20 wait, of all; one and a burst of 20, of which 10 wait, of changes."""
    yield from burst(edge, 60, "GET", 41)
    yield from burst(edge, 30, "POST", 21)


def log(edge: Edge) -> Checks:
    edge.ask("/search?needle=a-secret", *GOOD)
    told = (edge.folder / "iodef-hub.log").read_text() + (edge.folder / "iodef-hub-error.log").read_text()
    found = [word for word in ("a-secret", "needle", "Bearer", "good") if word in told]
    has_line = re.search(r" GET /search (200|401) ", told)
    yield Check("the log has no query and no key", f"it has {found}" if found else "" if has_line else "it has no line of a search")


def away(edge: Edge) -> Checks:
    begun = time.monotonic()
    told = edge.ask("/me", circle="health")
    seconds = time.monotonic() - begun
    yield answer("a hub that is away is told so", told, 503, ANSWER | LATER, AWAY)
    yield Check("after 45 seconds in the queue", "" if 42 < seconds < 65 else f"after {seconds:.1f} s")


def quick(edge: Edge) -> Iterator[Check]:
    for part in (pages, of_hub, of_nginx, second, taxii, health, handshakes, log):
        yield from part(edge)


# These wait for a limit of time, each beside the others.
SLOW = (requests_in_hand, silent, away, fast)
