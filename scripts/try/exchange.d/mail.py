"""Checks of iodef-redact-mail: what each recipient is sent, by a mail server and a keyring of its own, and what is never sent."""
from __future__ import annotations

import shutil
from collections.abc import Iterator

from common import TOP

from . import mail_bad, mail_keys, mail_many, mail_sent, mail_state
from .context import Context, same

SECTION = "mail"


def installing() -> Iterator[tuple[bool, str]]:
    """Each command has its line in the README's block that copies them, and pip is in another block."""
    text = (TOP / "clients/README.md").read_text()
    (block,) = [each for each in text.split("\n\n") if each.startswith("    cp -r clients/python ")]
    linked = sorted(line.rpartition("/")[2] for line in block.splitlines() if line.startswith("    ln -s "))
    commands = sorted(each.name for each in (TOP / "clients/python").glob("iodef-*") if not each.suffix)
    yield same("clients/README.md copies and links each command, without pip", (linked, "pip" in block), (commands, False))


def checks(context: Context) -> Iterator[tuple[bool, str]]:
    yield from installing()
    missing = [name for name in ("gpg", "gpgconf", "openssl") if shutil.which(name) is None]
    yield same("this machine has gpg, gpgconf and openssl", missing, [])
    if missing:
        return
    yield from mail_bad.checks(context)
    if context.redact is not None:
        yield from mail_many.checks(context)
        with mail_keys.ring() as ring:
            yield from mail_sent.checks(context, ring)
            yield from mail_state.checks(context, ring)
