"""The content security policies of the two pages."""
from __future__ import annotations

import base64
import hashlib
import re


def _digest(page: str, name: str) -> str:
    """The page's one element of this name, as a policy names it by its hash."""
    (found,) = re.findall(rf"<{name}>(.*?)</{name}>", page, re.S)
    return "'sha256-" + base64.b64encode(hashlib.sha256(found.encode()).digest()).decode() + "'"


def policy_of(page: str, framed_by: str = "'none'", frames: str | None = None) -> str:
    """The policy of a page: who may frame it, and what it may frame."""
    return "; ".join([
        "default-src 'none'", f"script-src {_digest(page, 'script')}", f"style-src {_digest(page, 'style')}", "connect-src 'self'",
        "img-src data:", *([f"frame-src {frames}"] if frames else []), "base-uri 'none'", "form-action 'none'",
        f"frame-ancestors {framed_by}", "require-trusted-types-for 'script'", "trusted-types 'none'",
    ])
