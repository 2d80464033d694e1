"""Mails an incident report to partners, to each what its clearance reaches.

The engine of iodef-redact decides what a recipient sees. Each message has the excerpt as a file, a report again as by
`iodef-redact excerpt --whole`, and its highest label in the subject. Without --send a table says what would be sent, and with it
what was."""
from __future__ import annotations

import argparse
import datetime
import json
import os
import pathlib
import sys
from collections.abc import Sequence
from typing import Any, NamedTuple, NoReturn

from iodef_hub_ask.characters import shown_exactly
from iodef_redact import CLEARANCES

from . import messages
from .engine import Identifier, engine_for
from .faults import Failed, Unfit, Unusable
from .journal import REFUSED, SENDING, SENT, Entry, Journal, folder_of_states
from .partners import TLS, Partners, Party, Reader, Route, partners_of
from .plan import HEAD, Asked, Due, Table, digest, plan
from .sending import InDoubt, send

DONE, NOT_USED, NOT_USABLE, NOT_ALL = 0, 1, 2, 3
NOT_SENT = "not sent"
LONGEST_REASON = 200  # characters of a hub's refusal that are told
EPILOG = """PARTNERS is JSON: {"from": {"address": "cert@example.org", "name": "Our CERT"},
 "smtp": {"host": "mail.example.org", "port": 25, "tls": "starttls"},
 "recipients": [{"address": "soc@example.net", "name": "SOC", "clearance": "AMBER", "key": "0123456789ABCDEF0123456789ABCDEF01234567"},
                {"address": "isac@example.com", "clearance": "GREEN"}]}
A clearance is CLEARANCES.
An excerpt above GREEN is sent by PGP/MIME to "key", a fingerprint in GnuPG's keyring, or plain if the recipient has "plain": true.
Each message's moment, digests and recipient are kept in the state file; a second run sends none twice. The statuses are
0 done; 1 a file or a word is refused, and nothing is sent; 2 a word, file or program can't be used; 3 a recipient that something
is for got no message.""".replace("CLEARANCES", ", ".join(CLEARANCES[:5]) + ",\n" + ", ".join(CLEARANCES[5:]))


class Words(argparse.ArgumentParser):
    """The parser of this command."""

    def error(self, message: str) -> NoReturn:
        super().error(shown_exactly(message))


def words() -> argparse.ArgumentParser:
    kind = argparse.RawDescriptionHelpFormatter
    parser = Words(prog="iodef-redact-mail", description=__doc__, epilog=EPILOG, formatter_class=kind, allow_abbrev=False)
    parser.add_argument("--to", required=True, metavar="FILE", help="the partners: who sends, by which server, and to whom")
    parser.add_argument("--send", action="store_true", help="send the messages; without it only the table is printed")
    parser.add_argument("--again", action="store_true", help="send again what was cut before the mail server's answer")
    parser.add_argument("--state", metavar="FILE", help="what was sent (default: sent.jsonl in ~/.local/state/iodef-redact-mail)")
    parser.add_argument("--incident", type=int, metavar="K", help="which Incident, from 0; required if the report has several")
    parser.add_argument("--id", metavar="ID", help="the id of the IncidentID where it is withheld, with --id-name")
    parser.add_argument("--id-name", metavar="NAME", help="the name of that IncidentID")
    parser.add_argument("--now", metavar="MOMENT", help="the moment of the views, as RFC 3339 (default: this one)")
    parser.add_argument("--from", dest="sender", metavar="ADDRESS", help="in place of the file's from")
    parser.add_argument("--host", metavar="HOST", help="in place of the file's host of the mail server (default: localhost)")
    parser.add_argument("--port", type=int, metavar="N", help="in place of its port (default: 25, or 465 for implicit)")
    parser.add_argument("--tls", choices=TLS, help="in place of its tls (default: starttls, and none to this host)")
    parser.add_argument("--engine", metavar="PROGRAM", help="the program that redacts, in place of the library (also IODEF_REDACT)")
    parser.add_argument("report", metavar="REPORT", help="a file with the report, or - for standard input")
    return parser


def say(text: str) -> None:
    print(f"iodef-redact-mail: {shown_exactly(text)}", file=sys.stderr, flush=True)


def moment() -> str:
    return datetime.datetime.now(datetime.timezone.utc).strftime("%Y-%m-%dT%H:%M:%SZ")


def replaced(given: argparse.Namespace, partners: Partners) -> tuple[Party, Route]:
    """Who sends and by which server: the file's, with what the words replace. Raises Unfit."""
    reader = Reader("the words")
    sender = Party(reader.address(given.sender, "--from")) if given.sender is not None else partners.sender
    if sender is None:
        raise Unfit(given.to, "MissingMember", "the member from is required, or --from")
    own = partners.route
    host = own.host if given.host is None else reader.host(given.host, "--host")
    port = own.port if given.port is None else reader.number(given.port, "--port")
    return sender, Route(host, port, given.tls or own.tls)


def value_of(report: bytes) -> Any:
    """The report's JSON. Of text that isn't JSON it is None, and the engine says what is wrong with it."""
    try:
        return json.loads(report)
    except (ValueError, RecursionError):
        return None


def refuse_answers(file: str, value: Any) -> None:
    """Raises Unfit if this is a hub's answer: an excerpt that somebody was served, or a refusal."""
    if not isinstance(value, dict) or "Incident" in value:
        return
    if isinstance(value.get("document"), dict):
        why = "it is what a reader was served, and an excerpt already: to mail that excerpt on, give what jq .document prints of it"
        raise Unfit(file, "IsExcerpt", why)
    if isinstance(value.get("code"), str) and isinstance(value.get("reason"), str):
        raise Unfit(file, "HubRefused", f"the hub refused: {value['code']} {value['reason']}"[:LONGEST_REASON])


def incident_of(given: argparse.Namespace, value: Any) -> int:
    """Which Incident is meant. Of several none is left out without a word."""
    if given.incident is not None:
        if not 0 <= given.incident < 2**32:
            raise Unusable("--incident is a number from 0")
        return int(given.incident)
    found = value.get("Incident") if isinstance(value, dict) else None
    if isinstance(found, list) and len(found) > 1:
        raise Unfit(given.report, "SeveralIncidents", f"it has {len(found)} Incidents: name one by --incident")
    return 0


def is_utf8(word: str) -> bool:
    """Whether a word of the command line was UTF-8."""
    return not any(0xD800 <= ord(each) < 0xE000 for each in word)


def asked_of(given: argparse.Namespace) -> Asked:
    if (given.id is None) != (given.id_name is None):
        raise Unusable("--id and --id-name go together")
    for name in ("id", "id_name", "now"):
        if not is_utf8(getattr(given, name) or ""):
            raise Unusable(f"--{name.replace('_', '-')} isn't UTF-8")
    report = sys.stdin.buffer.read() if given.report == "-" else pathlib.Path(given.report).read_bytes()
    identifier = Identifier(given.id_name, given.id) if given.id is not None else None
    value = value_of(report)
    refuse_answers(given.report, value)
    return Asked(given.report, report, incident_of(given, value), given.now or moment(), identifier)


class Mailing:
    """A run: who sends, by which server, what of which report, and what was sent before."""

    def __init__(self, given: argparse.Namespace, asked: Asked, partners: Partners) -> None:
        self.asked = asked
        self.sender, self.route = replaced(given, partners)
        self.journal = Journal(pathlib.Path(given.state) if given.state else folder_of_states() / "sent.jsonl", given.send)

    def entry(self, due: Due, what: str, number: str) -> Entry:
        excerpt, partner = due.excerpt, due.partner
        assert excerpt.seen is not None
        report, view, document = (digest(each) for each in (self.asked.report, excerpt.view, excerpt.document))
        to, label = partner.party.address, excerpt.seen.label
        return Entry(moment(), what, to, partner.clearance, self.asked.incident, label, report, view, document, number, partner.key)

    def keep(self, due: Due, what: str, number: str) -> None:
        """Keeps durably what became of a message. If it can't be kept, no further message is sent."""
        try:
            self.journal.add(self.entry(due, what, number))
        except OSError as fault:
            raise Unwritten(f"{self.journal.file} can't be written, and no further message is sent: {fault}", what) from None

    def mail(self, due: Due) -> None:
        """Sends one message. Raises Failed or InDoubt."""
        assert due.excerpt.seen is not None
        # A message that may have arrived has the same number when it is sent again, and stays in doubt if that is refused.
        in_doubt = due.before if due.before is not None and due.before.what == SENDING else None
        number = in_doubt.message if in_doubt else messages.new_id(self.sender)
        party = due.partner.party
        text = messages.message(self.sender, party, due.excerpt.seen.label, due.excerpt.document, due.partner.key, number)
        has_begun = False

        def begin() -> None:
            nonlocal has_begun
            self.keep(due, SENDING, number)
            has_begun = True

        try:
            send(self.route, self.sender.address, party.address, text, begin)
        except Failed:
            if has_begun and in_doubt is None:
                self.keep(due, REFUSED, number)
            raise
        self.keep(due, SENT, number)

    def told(self, due: Due) -> str:
        """The line of the log for a message that was sent."""
        entry = self.journal.last[self.entry(due, SENT, "").same()]
        digests = f"report={entry.report} view={entry.view} excerpt={entry.excerpt}"
        how = f"key={entry.key}" if entry.key else "plain"
        return f"{entry.at} sent to={entry.to} label={entry.label} {how} {digests} message={entry.message}"


class Unwritten(Exception):
    """What was sent can't be kept or printed. `what` is what couldn't be kept of the message: it is begun, sent or refused."""

    def __init__(self, reason: str, what: str = SENDING) -> None:
        super().__init__(reason)
        self.what = what


class Outcome(NamedTuple):
    """Whether a recipient is without a message that is for it, the state in the table, what is said, and whether the run sends no
    further message."""

    is_failed: bool
    state: str
    said: str | None = None
    is_last: bool = False


def outcome(mailing: Mailing, due: Due) -> Outcome:
    """Sends a recipient's message, if one is due."""
    to = due.partner.party.address
    if not due.is_due():
        return before_sending(due)
    try:
        mailing.mail(due)
    except Failed as fault:
        # A message that may have arrived before stays in doubt, though this time the server surely didn't take it.
        return Outcome(True, "cut" if due.state() == "again" else fault.name, f"{to}: not sent: {fault}")
    except InDoubt as fault:
        return Outcome(True, "cut", f"{to}: cut: it may have been sent, and isn't sent again without --again: {fault}")
    except Unwritten as fault:
        state = {SENDING: NOT_SENT, SENT: SENT, REFUSED: "NotTaken"}[fault.what]
        return Outcome(True, state, str(fault), is_last=True)
    return Outcome(False, SENT, mailing.told(due))


def before_sending(due: Due) -> Outcome:
    """What is said of a recipient to whom nothing is sent."""
    to = due.partner.party.address
    if due.state() == "cut" and due.before is not None:
        return Outcome(True, due.state(), f"{to}: cut: at {due.before.at} it may have been sent, and isn't sent again without --again")
    return Outcome(due.is_failed(), due.state(), f"{to}: not sent: {due.fault}" if due.is_failed() else None)


def finish(outcomes: Sequence[Outcome]) -> int:
    return NOT_ALL if any(each.is_failed for each in outcomes) else DONE


def dry_run(table: Table, found: Sequence[Due]) -> int:
    """Prints what would be sent, and then why something wouldn't."""
    outcomes = [before_sending(due) for due in found]
    for line in (HEAD, *(due.cells(due.state()) for due in found)):
        print(table.line(line), flush=True)
    for said in (each.said for each in outcomes if each.said):
        say(said)
    return finish(outcomes)


def send_all(mailing: Mailing, table: Table, found: Sequence[Due]) -> int:
    """Sends what is due, and prints the line of each recipient once it has happened."""
    print(table.line(HEAD), flush=True)
    outcomes: list[Outcome] = []
    is_over = False
    for due in found:
        done = Outcome(True, NOT_SENT) if is_over and due.is_due() else outcome(mailing, due)
        is_over = is_over or done.is_last
        outcomes.append(done)
        if done.said:
            say(done.said)
        print_sent(table.line(due.cells(done.state)))
    return finish(outcomes)


def print_sent(line: str) -> None:
    """Prints a line after its message. If it can't, no further message is sent."""
    try:
        print(line, flush=True)
    except OSError as fault:
        raise Unwritten(f"the table can't be written, and no further message is sent: {fault}") from None


def run(given: argparse.Namespace) -> int:
    partners = partners_of(given.to, pathlib.Path(given.to).read_bytes())
    asked = asked_of(given)
    mailing = Mailing(given, asked, partners)
    if mailing.journal.torn:
        say(f"{mailing.journal.file}: its last line was cut while it was written, and doesn't count")
    found = plan(engine_for(asked.report, given.engine), asked, partners.recipients, mailing.journal, given.again)
    return send_all(mailing, Table(found), found) if given.send else dry_run(Table(found), found)


def drop_output() -> None:
    """Drops what standard output didn't take, as Python would end with a status of its own if it can't write that at the end."""
    try:
        sys.stdout.flush()
    except OSError:
        os.dup2(os.open(os.devnull, os.O_WRONLY), sys.stdout.fileno())


def main() -> int:
    status = status_of(words().parse_args())
    drop_output()
    return status


def status_of(given: argparse.Namespace) -> int:
    try:
        return run(given)
    except Unfit as fault:
        say(f"refused: {fault}")
        return NOT_USED
    except Unwritten as fault:
        say(str(fault))
        return NOT_ALL
    except KeyboardInterrupt:
        say("interrupted: a later run names what was cut, and sends what wasn't begun")
        return NOT_ALL
    except (Unusable, OSError) as fault:
        say(str(fault))
        return NOT_USABLE
