"""What each recipient is sent of examples and of generated reports, encrypted and plain, and what is refused to be sent."""
from __future__ import annotations

import hashlib
import json
import ssl
import subprocess
from collections.abc import Iterator
from typing import Any

from common import TOP

from .context import Context, same
from .mail_command import IDENTIFIER, NOW, SENDER, Mailer, all_of, armor, attached, is_sound, opened, parsed
from .mail_keys import Ring
from .mail_reports import CLEARANCES, TLP, Report, generated
from .mail_server import Kept, Server, running

EXAMPLE = (TOP / "docs/examples/phishing.json").read_bytes()
REPORTS = 20
NAMES = ('Doe, "J" <b@x.example>', "Bücher; für, alle", "a@x.example", "b@x.example,", "(c)\\", "名前" * 40, "x " * 50)
HEADERS = ["From", "To", "Subject", "Date", "Message-ID", "MIME-Version", "Content-Type"]


def new(context: Context, ring: Ring, server: Server, name: str) -> Mailer:
    folder = context.folder / name
    folder.mkdir()
    return Mailer(folder, server.port, context.redact or "", ring)


def checks(context: Context, ring: Ring) -> Iterator[tuple[bool, str]]:
    with running(next(context.ports)) as server:
        yield from example(new(context, ring, server, "example"), server, ring)
        yield from wanted_keys(new(context, ring, server, "keys"), server, ring)
        yield from names(new(context, ring, server, "names"), server)
        yield from odd_reports(new(context, ring, server, "odd"), server)
        for number in range(min(REPORTS, context.count)):
            mailer = new(context, ring, server, f"report-{number}")
            yield from of_report(mailer, server, ring, generated(context.seed, number), number)
    yield from by_tls(context, ring)


def example(mailer: Mailer, server: Server, ring: Ring) -> Iterator[tuple[bool, str]]:
    """An example, whose classes and labels were counted by hand."""
    key = ring.keys["good"]
    spaced = " ".join(key[at : at + 4] for at in range(0, len(key), 4)).lower()
    mailer.give(
        EXAMPLE,
        {"address": "c@x.example", "clearance": "TLP:WHITE"},
        {"address": "g@x.example", "clearance": "GREEN"},
        {"address": "s@x.example", "clearance": "TLP:AMBER+STRICT", "key": spaced},
        {"address": "p@x.example", "clearance": "RED", "plain": True},
        {"address": "r@x.example", "clearance": "TLP:RED"},
    )
    rows = [
        ["recipient", "clearance", "label", "shown", "withheld", "mail", "state"],
        ["c@x.example", "TLP:CLEAR", "TLP:CLEAR", "4", "19", "plain", "to", "send"],
        ["g@x.example", "TLP:GREEN", "TLP:GREEN", "15", "8", "plain", "to", "send"],
        ["s@x.example", "TLP:AMBER+STRICT", "TLP:AMBER+STRICT", "20", "3", "encrypted", "to", "send"],
        ["p@x.example", "TLP:RED", "TLP:RED", "23", "0", "plain", "to", "send"],
        ["r@x.example", "TLP:RED", "TLP:RED", "23", "0", "-", "KeyWanted"],
    ]
    ran = mailer.run(*IDENTIFIER)
    why = 'not sent: KeyWanted: TLP:RED is sent encrypted: the recipient has neither "key" nor "plain"'
    wanted = 3, rows, [f"iodef-redact-mail: r@x.example: {why}"]
    yield same("a dry run prints the table", (ran.status, ran.table, ran.said), wanted)
    yield same("and sends and keeps nothing", (server.taken(), (mailer.folder / "sent.jsonl").exists()), ([], False))
    ran = mailer.run("--send", *IDENTIFIER)
    found = ran.status, ran.table, ran.said[-1:]
    sent = 3, [rows[0], *([*row[:6], "sent"] for row in rows[1:5]), rows[5]], wanted[2]
    yield same("a run that sends prints a table of what happened, and RED isn't sent plain", found, sent)
    yield from example_sent(mailer, server.taken(), ran.said, ring)


def example_sent(mailer: Mailer, kept: list[Kept], said: list[str], ring: Ring) -> Iterator[tuple[bool, str]]:
    """The messages of the example."""
    sent = [("c@x.example", "CLEAR"), ("g@x.example", "GREEN"), ("s@x.example", "STRICT"), ("p@x.example", "RED")]
    yield same("each other recipient has one message", [(each.sender, each.to) for each in kept], [(SENDER, to) for to, _ in sent])
    for each, (to, clearance) in zip(kept, sent):
        label = TLP[CLEARANCES.index(clearance)]
        message, excerpt = parsed(each.text), mailer.excerpt(clearance)
        found = [message["From"], message["To"], message["Subject"], sorted(message.keys()), is_sound(each.text)]
        yield same(f"{to}: the headers", found, [f"Our CERT <{SENDER}>", to, f"{label} incident report", sorted(HEADERS), True])
        yield same(f"{to}: the excerpt is that of iodef-redact excerpt --whole", attached(opened(each, ring)), [excerpt])
        view = f'{{"clearance":"{label}","incident":0,"now":"{NOW}"}}'.encode()
        yield from logged(to, said, (EXAMPLE, view, excerpt), message["Message-ID"])
    outer = parsed(kept[2].text)
    parts = [each.get_content_type() for each in outer.iter_parts()]
    form = outer.get_content_type(), outer.get_param("protocol"), parts, ring.recipients_of(armor(outer))
    yield same(
        "the encrypted message is PGP/MIME for its key alone",
        form,
        ("multipart/encrypted", "application/pgp-encrypted", ["application/pgp-encrypted", "application/octet-stream"], [ring.part[-16:]]),
    )


def logged(to: str, said: list[str], texts: tuple[bytes, ...], number: str) -> Iterator[tuple[bool, str]]:
    """The log's line of a recipient: the digests of report, view description and excerpt."""
    (line,) = [each for each in said if f" to={to} " in each]
    words = dict(each.split("=", 1) for each in line.split(" ") if "=" in each)
    found = words["report"], words["view"], words["excerpt"], words["message"]
    wanted = *(hashlib.sha256(each).hexdigest() for each in texts), number
    yield same(f"{to}: the log has the digests of report, view description and excerpt", found, wanted)


def wanted_keys(mailer: Mailer, server: Server, ring: Ring) -> Iterator[tuple[bool, str]]:
    """Only a key that is whole, in the keyring and not ended is encrypted for; others don't stop it."""
    unknown = "0123456789ABCDEF0123456789ABCDEF01234567"
    keys = {"a": unknown, "b": ring.keys["expired"], "c": ring.keys["revoked"], "d": ring.keys["signing"], "e": ring.part}
    keys |= {"f": ring.keys["old subkey"], "g": ring.keys["good"]}
    mailer.give(EXAMPLE, *({"address": f"{to}@x.example", "clearance": "RED", "key": key} for to, key in keys.items()))
    wanted = ("KeyMissing", "KeyExpired", "KeyRevoked", "KeyUnusable", "KeyMissing", "KeyUnusable")
    for words, last in (((), "to send"), (("--send",), "sent")):
        ran = mailer.run(*words)
        states = {f"{to}@x.example": state for to, state in zip(keys, (*wanted, last))}
        yield same(f"keys {words}", (ran.status, ran.states()), (3, states))
    yield same("only the last is sent", [each.to for each in server.taken()], ["g@x.example"])
    mailer.variables = {"PATH": "/nowhere"}
    mailer.give(EXAMPLE, {"address": "h@x.example", "clearance": "RED", "key": keys["g"]}, {"address": "i@x.example", "clearance": "GREEN"})
    ran = mailer.run("--send")
    yield same("without gpg", (ran.status, ran.states()["h@x.example"]), (3, "NoGpg"))
    yield same("a message that wants none is sent", [each.to for each in server.taken()], ["i@x.example"])


def names(mailer: Mailer, server: Server) -> Iterator[tuple[bool, str]]:
    """Names with what ends or begins something in a header stay names."""
    mailer.give(EXAMPLE, *({"address": f"n{at}@x.example", "clearance": "GREEN", "name": name.strip()} for at, name in enumerate(NAMES)))
    ran = mailer.run("--send")
    yield same("odd names are sent to", (ran.status, len(ran.table)), (0, len(NAMES) + 1))
    for at, (each, name) in enumerate(zip(server.taken(), NAMES, strict=True)):
        message = parsed(each.text)
        # Python up to 3.13 reads the folds between the encoded parts of a name as spaces.
        found = [("".join(one.display_name.split()), one.addr_spec) for one in message["To"].addresses]
        wanted = ([("".join(name.split()), f"n{at}@x.example")], sorted(HEADERS), f"n{at}@x.example", True)
        yield same(f"the name {name[:30]!r}", (found, sorted(message.keys()), each.to, is_sound(each.text)), wanted)


def odd_reports(mailer: Mailer, server: Server) -> Iterator[tuple[bool, str]]:
    """Reports that nobody or only some get, and those of which no message is made."""
    both = {"address": "g@x.example", "clearance": "GREEN"}, {"address": "r@x.example", "clearance": "RED", "plain": True}
    document = json.loads(EXAMPLE)
    incident = document["Incident"][0]
    red = {name: incident[name] for name in ("purpose", "IncidentID", "GenerationTime")} | {"restriction": "red"}
    red |= {"Contact": [{"role": "creator", "type": "person"}]}
    mailer.give(json.dumps({"version": "2.0", "Incident": [red]}).encode(), *both)
    ran = mailer.run("--send")
    wanted = 0, {"g@x.example": "nothing visible", "r@x.example": "sent"}
    yield same("who sees nothing gets nothing", (ran.status, ran.states()), wanted)
    yield same("and the other its message", [each.to for each in server.taken()], ["r@x.example"])
    hidden = {**incident, "IncidentID": {**incident["IncidentID"], "restriction": "red"}}
    mailer.give(json.dumps({"version": "2.0", "Incident": [hidden]}).encode(), *both)
    ran = mailer.run("--send")
    wanted = 3, {"g@x.example": "IdMissing", "r@x.example": "sent"}
    yield same("an IncidentID that is withheld wants --id", (ran.status, ran.states()), wanted)
    yield same(f"and the fault says so: {ran.said[0]}", "--id and --id-name" in ran.said[0], True)
    server.taken()
    mailer.give(json.dumps({"version": "2.0", "Incident": [red, incident]}).encode(), *both)
    ran = mailer.run("--send")
    yield same("of several Incidents one is named", (ran.status, ran.table, "SeveralIncidents" in ran.said[0]), (1, [], True))
    ran = mailer.run("--send", "--incident", "1")
    found = [attached(parsed(each.text)) for each in server.taken()]
    wanted_of = [[mailer.excerpt(clearance, "--incident", "1")] for clearance in ("GREEN", "RED")]
    yield same("and sent", (ran.status, found), (0, wanted_of))
    for name, text, words in (
        ("NotJson", b"{", ()),
        ("NotDocument", b"{}", ()),
        ("IsExcerpt", b'{"classes": 23, "document": %s, "number": 1, "withheld": []}' % EXAMPLE, ()),
        ("IsExcerpt", b'{"classes": 1, "document": {}, "label": "TLP:RED"}', ("--incident", "0")),
        ("HubRefused", b'{"code":"N1","detail":"","reason":"no such incident for you"}', ()),
        ("BadMarking", EXAMPLE.replace(b'"green"', b'"grn"'), ()),
        ("NoIncident", EXAMPLE, ("--incident", "1")),
        ("BadMoment", EXAMPLE, ("--now", "soon")),
    ):
        mailer.give(text, *both)
        ran = mailer.run("--send", *words)
        yield same(f"{name} refuses the report", (ran.status, ran.table, f": {name}: " in ran.said[0], server.taken()), (1, [], True, []))


def of_report(mailer: Mailer, server: Server, ring: Ring, report: Report, number: int) -> Iterator[tuple[bool, str]]:
    """A generated report to a recipient of each clearance, of which every other has a key."""
    ways: list[dict[str, Any]] = [{"key": ring.keys["good"]}, {"plain": True}]
    recipients = [{"address": f"{each}@x.example", "clearance": each, **ways[(at + number) % 2]} for at, each in enumerate(CLEARANCES)]
    mailer.give(report.text(), *recipients)
    reached = [each for each in range(len(CLEARANCES)) if report.classes(each)[0]]
    ran = mailer.run("--send", *IDENTIFIER)
    kept = server.taken()
    found = ran.status, [each.to for each in kept]
    yield same(f"report {number}: who sees something gets a message", found, (0, [f"{CLEARANCES[each]}@x.example" for each in reached]))
    said = "\n".join(ran.said) + str(ran.table)
    for each, clearance in zip(kept, reached):
        name, text = CLEARANCES[clearance], all_of(each, ring)
        outside = (each.text.split(b"\r\n\r\n")[0] + (mailer.folder / "sent.jsonl").read_bytes()).decode() + said
        seen = [needle for needle in report.needles if needle.encode() in text]
        leaks = [needle for needle, handling in report.needles.items() if needle in outside or handling > clearance and needle in seen]
        shown = [needle for needle, handling in report.needles.items() if handling <= clearance]
        row = next(row for row in ran.table if row[0] == each.to)[2:5]
        subject = parsed(each.text)["Subject"]
        is_same = attached(opened(each, ring)) == [mailer.excerpt(name)]
        found_of = leaks, seen, row, subject, is_same
        label = report.label(clearance)
        wanted = [], shown, [label, *map(str, report.classes(clearance))], f"{label} incident report", True
        what = f"the {len(shown)} texts that its clearance reaches, and none of the others"
        yield same(f"report {number} for {name}: {what}", found_of, wanted)


def by_tls(context: Context, ring: Ring) -> Iterator[tuple[bool, str]]:
    """STARTTLS with a certificate that the machine trusts, and with one that it doesn't; and without STARTTLS."""
    key, certificate = context.folder / "key.pem", context.folder / "certificate.pem"
    kind = ("-newkey", "ec", "-pkeyopt", "ec_paramgen_curve:prime256v1", "-nodes", "-days", "2")
    named = ("-subj", "/CN=localhost", "-addext", "subjectAltName=IP:127.0.0.1")
    words = ("openssl", "req", "-x509", *kind, *named, "-keyout", str(key), "-out", str(certificate))
    subprocess.run(words, check=True, capture_output=True)
    tls = ssl.SSLContext(ssl.PROTOCOL_TLS_SERVER)
    tls.load_cert_chain(certificate, key)
    for name, own, trusted, status, count in (("trusted", tls, True, 0, 1), ("strange", tls, False, 3, 0), ("without", None, True, 3, 0)):
        with running(next(context.ports), own) as server:
            mailer = new(context, ring, server, f"tls-{name}")
            mailer.variables = {"SSL_CERT_FILE": str(certificate)} if trusted else {}
            mailer.give(EXAMPLE, {"address": "g@x.example", "clearance": "GREEN"})
            ran = mailer.run("--send", "--tls", "starttls")
            found = ran.status, len(server.taken()), any(line.upper().startswith("MAIL") for line in server.lines)
            yield same(f"STARTTLS {name}: {ran.said}", found, (status, count, bool(count)))
