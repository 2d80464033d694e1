"""A message of each of many generated reports, made but not sent: it has the texts that its clearance reaches, and none of the others."""
from __future__ import annotations

from collections.abc import Iterator

from iodef_redact_mail.engine import Identifier, Program, Refused
from iodef_redact_mail.messages import message, new_id
from iodef_redact_mail.partners import Party
from iodef_redact_mail.plan import Asked

from .context import Context, same
from .mail_command import NOW, SENDER, parsed
from .mail_reports import CLEARANCES, TLP, Report, generated

REPORTS = 1_000
IDENTIFIER = Identifier("sender.example", "77")
FROM, TO = Party(SENDER), Party("a@x.example")


def texts_for(engine: Program, report: Report, clearance: int) -> bytes:
    """All of a recipient's message, decoded; nothing if there is none."""
    view = Asked("report", report.text(), 0, NOW, IDENTIFIER).view(TLP[clearance])
    try:
        excerpt = engine.whole(view, IDENTIFIER)
    except Refused as refusal:
        if refusal.name == "NothingVisible":
            return b""
        raise
    sent = message(FROM, TO, report.label(clearance), excerpt, None, new_id(FROM))
    return sent + b"\n".join(part.get_payload(decode=True) or b"" for part in parsed(sent).walk())


def checks(context: Context) -> Iterator[tuple[bool, str]]:
    faults: list[str] = []
    shown = withheld = 0
    for number in range(min(REPORTS, context.count)):
        report = generated(context.seed, number)
        engine = Program(context.redact or "", report.text())
        clearance = number % (len(CLEARANCES) - 1)  # RED reaches all
        text = texts_for(engine, report, clearance)
        found = {needle for needle in report.needles if needle.encode() in text}
        wanted = {needle for needle, handling in report.needles.items() if handling <= clearance}
        faults += [f"report {number} for {CLEARANCES[clearance]}: {each}" for each in found ^ wanted]
        shown, withheld = shown + len(wanted), withheld + len(report.needles) - len(wanted)
    yield same(
        f"of {min(REPORTS, context.count)} reports the messages have the {shown} texts that their clearances reach, and none of "
        f"the {withheld} others",
        (faults[:5], shown > 0, withheld > 0),
        ([], True, True),
    )
