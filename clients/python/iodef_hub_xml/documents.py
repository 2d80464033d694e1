"""Reading JSON under limits."""
from __future__ import annotations

import json
from collections import Counter
from typing import Any

from .faults import Unfit
from .table import CLASSES, ROOT

LONGEST_INPUT = 8 * 1024 * 1024
DEEPEST = 127  # elements of XML, or classes of JSON, inside each other


class NoWhole:
    """A number with a fraction or an exponent, as it is written."""

    def __init__(self, text: str) -> None:
        self.text = text


def _members(pairs: list[tuple[str, Any]]) -> dict[str, Any]:
    members = dict(pairs)
    if len(members) != len(pairs):
        name = Counter(name for name, _ in pairs).most_common(1)[0][0]
        raise Unfit("DoubledMember", f"an object has the member {json.dumps(name)} twice")
    return members


def _constant(text: str) -> Any:
    raise Unfit("NotJson", f"{text} is not JSON")


def too_long(text: bytes) -> None:
    if len(text) > LONGEST_INPUT:
        raise Unfit("TooLarge", f"the input has more than {LONGEST_INPUT} bytes")


def refuse_refusal(value: Any) -> None:
    """Raises Unfit if this is a hub's refusal."""
    if isinstance(value, dict) and isinstance(value.get("code"), str) and isinstance(value.get("reason"), str):
        raise Unfit("HubRefused", f"the hub refused: {value['code']} {value['reason']}")


def document_of(text: bytes) -> tuple[dict[str, Any], int]:
    """The document in a text: the text itself, or the member `document` of a hub's answer, which withholds something at so many places."""
    too_long(text)
    if text.startswith(b"\xef\xbb\xbf"):
        raise Unfit("NotJson", "it begins with a byte order mark")
    try:
        value = json.loads(text.decode(), object_pairs_hook=_members, parse_float=NoWhole, parse_constant=_constant)
    except RecursionError:
        raise Unfit("TooDeep", "too many arrays and objects are inside each other") from None
    except ValueError as fault:
        raise Unfit("NotJson", f"the input is not JSON in UTF-8: {fault}") from None
    withheld: Any = []
    if isinstance(value, dict) and "Incident" not in value and isinstance(value.get("document"), dict):
        withheld, value = value.get("withheld"), value["document"]
    refuse_refusal(value)
    if not isinstance(value, dict) or not set(value) & set(CLASSES[ROOT].rows):
        raise Unfit("NotDocument", f"the input is not a report, which is a JSON object with {', '.join(CLASSES[ROOT].rows)}")
    return value, len(withheld) if isinstance(withheld, list) else 0
