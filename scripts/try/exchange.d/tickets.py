"""Checks of clients/python/examples/rt-drafts at a live RT: mails with files of each kind, the comments on them, and that a person posts."""
from __future__ import annotations

import base64
import contextlib
import email.message
import http.client
import json
import os
import pathlib
import quopri
import shutil
import signal
import sqlite3
import subprocess
import sys
import time
import urllib.parse
from collections.abc import Iterator
from typing import Any

from common import TOP
from small_hub import Hub

from . import page
from .context import Context, same

SECTION = "tickets"
COMMAND = TOP / "clients" / "python" / "examples" / "rt-drafts"
SERVER = pathlib.Path("/usr/share/request-tracker5/libexec/rt-server")
NEEDED = ("rt-setup-database-5", "rt-mailgate-5", "perl", str(SERVER))
REPORT = page.REPORT.read_bytes()
LATIN = REPORT.replace(b'encoding="UTF-8"', b'encoding="ISO-8859-1"', 1).replace(b"invoice.js", "Z\u00fcrich.js".encode("latin-1"), 1)
BOMB = b'<!DOCTYPE x [<!ENTITY a "ha"><!ENTITY b "&a;&a;&a;&a;&a;&a;&a;&a;">]><IODEF-Document>&b;</IODEF-Document>'
SITE = """
Set($rtname, 'rt.example.org');
Set($Organization, 'rt.example.org');
Set($CorrespondAddress, 'reports@rt.example.org');
Set($CommentAddress, 'comments@rt.example.org');
Set($WebPath, '');
Set($WebDomain, '127.0.0.1');
Set($WebPort, PORT);
Set($DatabaseType, 'SQLite');
Set($DatabaseName, 'FOLDER/rt.db');
Set($MailCommand, 'testfile');
Set($LogToSyslog, undef);
Set($LogToSTDERR, 'error');
$RT::MasonDataDir = 'FOLDER/mason';
$RT::MasonSessionDir = 'FOLDER/sessions';
1;
"""
DECODED = {"base64": base64.b64decode, "quoted-printable": quopri.decodestring}
Check = Iterator[tuple[bool, str]]


def of_latin() -> bytes:
    """What the draft of LATIN has, and that of REPORT hasn't."""
    assert b"ISO-8859-1" in LATIN and LATIN != REPORT
    return "Z\u00fcrich.js".encode()


class Tracker:
    """An RT with a store and a server of its own."""

    def __init__(self, folder: pathlib.Path, port: int) -> None:
        self.folder, self.port = folder, port
        for name in ("none", "mason", "sessions"):
            (folder / name).mkdir(parents=True)
        (folder / "site.pm").write_text(SITE.replace("PORT", str(port)).replace("FOLDER", str(folder)))
        self.environment = {"PATH": f"/usr/bin:/bin:/usr/sbin:{os.environ['PATH']}", "HOME": str(folder), "TMPDIR": str(folder),
                            "RT_SITE_CONFIG": str(folder / "site.pm"), "RT_SITE_CONFIG_DIR": str(folder / "none")}
        self._done("rt-setup-database-5", "--action", "init", "--skip-create")
        told = self._done("perl", str(pathlib.Path(__file__).with_name("tickets_setup.pl")))
        self.tokens = dict(line.split() for line in told.splitlines())
        for name, token in self.tokens.items():
            (folder / f"{name}.token").write_text(token + "\n")
        with (folder / "log").open("w") as log:
            self.process = subprocess.Popen([str(SERVER), "--port", str(port), "--host", "127.0.0.1", "--max-workers", "2"], env=self.environment, stdout=log,
                                            stderr=log, start_new_session=True)
        self._wait()

    def _done(self, *words: str) -> str:
        ran = subprocess.run(words, env=self.environment, capture_output=True, text=True, timeout=300)
        assert ran.returncode == 0, (words, ran.stdout[-500:], ran.stderr[-500:])
        return ran.stdout

    def _wait(self) -> None:
        end = time.monotonic() + 120
        while time.monotonic() < end:
            try:
                self.ask("ada", "rt")
                return
            except OSError:
                time.sleep(0.5)
        raise AssertionError((self.folder / "log").read_text()[-500:])

    def stop(self) -> None:
        os.killpg(self.process.pid, signal.SIGKILL)
        self.process.wait()

    def ask(self, user: str, target: str, **words: object) -> Any:
        connection = http.client.HTTPConnection("127.0.0.1", self.port, timeout=100)
        try:
            fields = {"Authorization": f"token {self.tokens[user]}"}
            connection.request("GET", f"/REST/2.0/{target}?{urllib.parse.urlencode(words)}", headers=fields)
            return json.loads(connection.getresponse().read())
        finally:
            connection.close()

    def mail(self, sender: str, *files: tuple[bytes, str, str]) -> None:
        """Hands a mail to RT as a mail server does."""
        mail = email.message.EmailMessage()
        mail["From"], mail["To"], mail["Subject"] = sender, "reports@rt.example.org", "A report"
        mail.set_content("Please see.\n")
        for data, kind, name in files:
            main, _, sub = kind.partition("/")
            mail.add_attachment(data, maintype=main, subtype=sub, filename=name)
        words = ["rt-mailgate-5", "--url", f"http://127.0.0.1:{self.port}/", "--queue", "reports", "--action", "correspond"]
        subprocess.run(words, input=mail.as_bytes(), env=self.environment, check=True, capture_output=True, timeout=300)

    def count(self) -> int:
        """How many files there are."""
        return int(self._rows("SELECT count(*) FROM Attachments")[0][0])

    def added(self, ticket: int, user: str = "iodef-drafts") -> dict[str, bytes]:
        """The files that the user added to a ticket; the text of a comment has an empty name."""
        found = self._rows("SELECT COALESCE(Filename, ''), ContentEncoding, Content FROM Attachments WHERE Content IS NOT NULL "
                           "AND Creator = (SELECT id FROM Users WHERE Name = ?) "
                           "AND TransactionId IN (SELECT id FROM Transactions WHERE ObjectType = 'RT::Ticket' AND ObjectId = ?)", user, ticket)
        told = [(name, form, it.encode() if isinstance(it, str) else it) for name, form, it in found]
        return {name: DECODED.get(form, bytes)(it) for name, form, it in told}

    def _rows(self, asked: str, *values: object) -> list[Any]:
        """Of RT's store, as each question by REST takes long beside other work."""
        with contextlib.closing(sqlite3.connect(f"file:{self.folder}/rt.db?mode=ro", uri=True)) as store:
            return store.execute(asked, values).fetchall()


class Trial:
    def __init__(self, context: Context, rt: Tracker, hub: Hub) -> None:
        self.rt, self.hub, self.desk = rt, hub, page.Desk(context.folder, hub.port, context.redact)
        # Each command leaves its words and the names of its environment.
        self.asked = context.folder / "asked"
        self.between = context.folder / "between"
        self.between.mkdir()
        for name in ("iodef-hub-xml", "iodef-hub-ask"):
            (self.between / name).write_text(f'#!/bin/sh\necho "$@" $(env | cut -d= -f1) >>{self.asked}\nexec {self.desk.folder}/bin/{name} "$@"\n')
            (self.between / name).chmod(0o755)

    def drafts(self, user: str = "iodef-drafts", *words: str, token: str = "") -> tuple[int, str]:
        """Status and words of the command, which cron gives a key of the hub that it mustn't use."""
        environment = {"PATH": f"{self.between}:{self.desk.folder / 'bin'}:/usr/bin:/bin", "IODEF_HUB_KEY_FILE": str(self.desk.folder / "ada.key"),
                       "IODEF_HUB_URL": f"http://127.0.0.1:{self.hub.port}", "RT_TOKEN_FILE": str(self.rt.folder / f"{token or user}.token")}
        given = words or (f"http://127.0.0.1:{self.rt.port}", user, "reports", "3")
        ran = subprocess.run([sys.executable, "-B", str(COMMAND), *given], env=environment, capture_output=True, text=True, timeout=600)
        return ran.returncode, ran.stderr

    def posted(self) -> int:
        return len(self.hub.done("key-of-Ada", "GET", "/incidents?after=0")["incidents"])


# Of each mail: what it is; its files; and of the comments on them the names, with a text that one has. The files are counted from where RT
# has the first.
KINDS: list[tuple[str, tuple[tuple[bytes, str, str], ...], list[str], bytes]] = [
    ("a report", ((REPORT, "application/xml", "report.xml"),), ["draft", "readers"], b'"Incident"'),
    ("no XML", (), [], b""),
    ("a picture and a text beside", ((b"\x89PNG", "image/png", "a.png"), (REPORT, "text/plain", "report.txt")), [], b""),
    ("a bomb", ((BOMB, "application/xml", "bomb.xml"),), ["refused"], b"HasDtd"),
    ("a picture that is called XML", ((b"\x89PNG\r\n\x1a\n", "image/png", "report.xml"),), ["refused"], b"NotXml"),
    ("JSON of XML's type", ((b'{"version":"2.0"}', "text/xml", "a.json"),), ["refused"], b"NotXml"),
    ("XML that is no IODEF", ((b"<a/>", "application/xml", "a.xml"),), ["refused"], b"refused"),
    ("nothing", ((b"", "application/xml", "a.xml"),), ["refused"], b"NotXml"),
    ("more than hubs take", ((REPORT.replace(b"invoice.js", b"i" * 300_000), "application/xml", "large.xml"),), ["draft", "readers"], b"hubs refuse this report: it has"),
    ("another encoding", ((LATIN, "text/xml", "latin.xml"),), ["draft", "readers"], of_latin()),
    ("a type that says nothing", ((REPORT, "application/octet-stream", "REPORT.XML"),), ["draft", "readers"], b'"Incident"'),
    ("two", ((REPORT, "application/xml", "1.xml"), (BOMB, "application/xml", "2.xml")), ["draft", "readers", "refused"], b"HasDtd"),
    ("a draft of the sender", ((b"{}", "application/json", "draft-1.json"), (REPORT, "application/xml", "1.xml")), ["draft", "readers"],
     b'"Incident"'),
]


def of_mails(trial: Trial) -> Check:
    for _, files, _, _ in KINDS:
        trial.rt.mail("csirt@partner.example", *files)
    trial.rt.mail("iodef-drafts", (b"{}", "application/json", "draft-1.json"))
    yield same("cron's run", trial.drafts(), (0, ""))
    for ticket, (what, _, wanted, text) in enumerate(KINDS, 1):
        made = trial.rt.added(ticket)
        yield same(f"{what}: the comments", sorted(each.partition("-")[0] for each in made if each), wanted)
        yield same(f"{what}: what they say", any(text in each for each in made.values()) if wanted else not text)
    yield same("a mail in the user's name is no ticket", trial.rt.added(len(KINDS) + 1), {})
    before = trial.rt.count()
    yield same("a second run", trial.drafts(), (0, ""))
    yield same("adds nothing", trial.rt.count(), before)
    asked = trial.asked.read_text().splitlines()
    yield same("only reading commands were run", {each.split()[0] for each in asked}, {"to-json", "preview"})
    yield same("without the hub's key and address", "IODEF" in "".join(asked), False)
    yield same("and nothing is posted", trial.posted(), 0)


def of_person(trial: Trial) -> Check:
    """Ada takes the draft from the ticket, and posts it."""
    made = trial.rt.added(1)
    (name,) = [each for each in made if each.startswith("draft-")]
    (file,) = [each["id"] for each in trial.rt.ask("ada", "ticket/1/attachments", fields="Filename")["items"] if each["Filename"] == name]
    draft = base64.b64decode(trial.rt.ask("ada", f"attachment/{file}")["Content"])
    (trial.desk.folder / "draft.json").write_bytes(draft)
    (trial.desk.folder / "report.xml").write_bytes(REPORT)
    converted = trial.desk.run("iodef-hub-xml to-json report.xml", "ada")[1]
    yield same("the draft is what iodef-hub-xml makes", draft.decode(), converted)
    table = trial.desk.run("iodef-hub-ask preview draft.json 3 --for everyone", "ada")[1]
    yield same("the table is that of preview", made[name.replace("draft", "readers").replace("json", "txt")].decode(), table)
    status, said, errors = trial.desk.run("iodef-hub-ask post draft.json 3 --any-community", "ada")
    yield same("a person posts it", (status, said, errors if status else ""), (0, "1\n", ""))
    yield page.told("View", trial.desk.run("iodef-hub-ask --json show 1", "ben"), page.HASH)  # which is in base64 there


def of_faults(trial: Trial) -> Check:
    url = f"http://127.0.0.1:{trial.rt.port}"
    for what, words, wanted in (("no words", ("x",), 2), ("a level that is none", (url, "iodef-drafts", "reports", "4"), 2),
                                ("a queue that isn't a name", (url, "iodef-drafts", "a' OR 'a", "3"), 2),
                                ("plain HTTP", ("http://rt.example.org", "iodef-drafts", "reports", "3"), 1),
                                ("no RT", ("http://127.0.0.1:1", "iodef-drafts", "reports", "3"), 1)):
        status, said = trial.drafts("iodef-drafts", *words)
        yield same(f"{what} is refused", (status, "Traceback" in said, bool(said)), (wanted, False, True))
    (trial.rt.folder / "none.token").write_text("1-14-00000000000000000000000000000000\n")
    status, said = trial.drafts(token="none")
    yield same("an unknown token", (status, "401" in said), (1, True))
    status, said = trial.drafts("iodef-blind")
    yield same("a user who doesn't see its comments", (status, "ShowTicketComments" in said), (1, True))
    told = [len(trial.rt.added(ticket, "iodef-blind")) for ticket in range(1, len(KINDS) + 1)]
    yield same("adds a comment once", told, [3] + [0] * (len(KINDS) - 1))


def checks(context: Context) -> Check:
    missing = [each for each in NEEDED if shutil.which(each, path=f"/usr/bin:/bin:/usr/sbin:{os.environ['PATH']}") is None]
    if missing or context.program is None or context.redact is None:
        print(f"{SECTION}: skipped: {'no request-tracker5' if missing else 'no iodef-hub or iodef-redact'}", flush=True)
        return
    hub = Hub(context.program, context.folder / "hub" / "hub.db", next(context.ports))
    hub.make("admin")
    hub.start()
    page.circle(hub, context.folder)
    rt = Tracker(context.folder / "rt", next(context.ports))
    try:
        trial = Trial(context, rt, hub)
        yield from of_mails(trial)
        yield from of_person(trial)
        yield from of_faults(trial)
    finally:
        rt.stop()
        hub.stop()
