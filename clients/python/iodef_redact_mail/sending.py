"""One message to one recipient, by SMTP."""
from __future__ import annotations

import contextlib
import smtplib
import ssl
from collections.abc import Callable, Iterator

from .faults import Failed
from .partners import Route

SECONDS = 300  # a server may look long at a message before it answers
LONGEST_SAID = 200  # characters of a server's words that are told


class InDoubt(Exception):
    """The server may have taken the message, or not."""


def words_of(said: bytes) -> str:
    return said.decode(errors="replace")[:LONGEST_SAID]


def taken(code: int, said: bytes, what: str) -> None:
    if not 200 <= code < 300:
        raise Failed("NotTaken", f"the mail server answers {code} to {what}: {words_of(said)}")


@contextlib.contextmanager
def connection(route: Route) -> Iterator[smtplib.SMTP]:
    """A connection to the mail server. How it ends doesn't matter, as the answer to a message says whether it was taken."""
    context = ssl.create_default_context()
    if route.way() == "implicit":
        server: smtplib.SMTP = smtplib.SMTP_SSL(route.host, route.number(), timeout=SECONDS, context=context)
    else:
        server = smtplib.SMTP(route.host, route.number(), timeout=SECONDS)
    try:
        if route.way() == "starttls":
            server.starttls(context=context)
        server.ehlo_or_helo_if_needed()
        yield server
        with contextlib.suppress(smtplib.SMTPException, OSError):
            server.quit()
    finally:
        server.close()


def send(route: Route, sender: str, to: str, text: bytes, begin: Callable[[], None]) -> None:
    """Sends a message. `begin` is called once, before the server gets any of it. Raises Failed if the server surely has no message,
    and InDoubt if it may have it. After `begin` the server's words aren't told, as they may repeat the message."""
    has_begun = False
    try:
        with connection(route) as server:
            taken(*server.mail(sender), "MAIL")
            taken(*server.rcpt(to), "RCPT")
            begin()
            has_begun = True
            code, _ = server.data(text)
            if 400 <= code < 600:
                raise Failed("NotTaken", f"the mail server answers {code} to the message")
            if not 200 <= code < 300:
                raise InDoubt("the mail server's answer to the message is no answer")
    except smtplib.SMTPDataError as fault:
        raise Failed("NotTaken", f"the mail server answers {fault.smtp_code} to DATA") from None
    except (smtplib.SMTPException, OSError) as fault:
        if has_begun:
            raise InDoubt(f"the connection ended before the answer: {type(fault).__name__}") from None
        raise Failed("NotTaken", f"mail server {route.host}, port {route.number()}: {type(fault).__name__}") from None
