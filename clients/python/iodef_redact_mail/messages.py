"""The mail of a recipient. Header and subject say nothing of the report but its highest label."""
from __future__ import annotations

import datetime
import email.policy
import email.utils
import secrets
from email.headerregistry import Address
from email.message import EmailMessage

from . import keys
from .partners import Party

POLICY = email.policy.SMTP
ATTACHED = "incident-report.json"
BODY = """The attached file is an incident report, an IODEF document in JSON.
Its highest label is {label}.
What isn't for you is left out, or replaced by the word "withheld".
"""


def new_id(sender: Party) -> str:
    """A Message-ID that depends on nothing of the report."""
    return f"<{secrets.token_hex(16)}@{sender.address.rpartition('@')[2]}>"


def header_of(party: Party) -> Address:
    return Address(party.name, addr_spec=party.address)


def head(sender: Party, to: Party, label: str, number: str) -> EmailMessage:
    """A message with its headers alone."""
    made = EmailMessage(policy=POLICY)
    made["From"], made["To"] = header_of(sender), header_of(to)
    made["Subject"] = f"{label} incident report"
    made["Date"] = email.utils.format_datetime(datetime.datetime.now(datetime.timezone.utc))
    made["Message-ID"] = number
    return made


def fill(made: EmailMessage, label: str, excerpt: bytes) -> EmailMessage:
    """Puts the text and the excerpt into a message."""
    made.set_content(BODY.format(label=label))
    made.add_attachment(excerpt, maintype="application", subtype="json", filename=ATTACHED)
    return made


def plain(made: EmailMessage, label: str, excerpt: bytes) -> bytes:
    return fill(made, label, excerpt).as_bytes()


def encrypted(made: EmailMessage, label: str, excerpt: bytes, key: str) -> bytes:
    """As PGP/MIME (RFC 3156)."""
    inside = fill(EmailMessage(policy=POLICY), label, excerpt).as_bytes()
    control, text = EmailMessage(policy=POLICY), EmailMessage(policy=POLICY)
    control["Content-Type"] = "application/pgp-encrypted"
    control.set_payload("Version: 1\r\n")
    text["Content-Type"] = 'application/octet-stream; name="encrypted.asc"'
    text["Content-Disposition"] = 'inline; filename="encrypted.asc"'
    text.set_payload(keys.encrypted(key, inside).decode("ascii"))
    made["MIME-Version"] = "1.0"
    made["Content-Type"] = 'multipart/encrypted; protocol="application/pgp-encrypted"'
    made.set_payload([control, text])
    return made.as_bytes()


def message(sender: Party, to: Party, label: str, excerpt: bytes, key: str | None, number: str) -> bytes:
    """The mail of a recipient as it is sent. Raises Failed if it can't be encrypted."""
    made = head(sender, to, label, number)
    return plain(made, label, excerpt) if key is None else encrypted(made, label, excerpt, key)
