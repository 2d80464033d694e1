"""Which kind of IODEF's values and classes becomes what in STIX 2.1: one row each.

`iodef_read` and `stix_read` say where the names of a row were read: a file of this repository, or MEMORY. No text of RFC 7970, RFC 8727
or of STIX is at hand, so a row from memory may be wrong.
"""
from __future__ import annotations

import ipaddress
import re
from collections.abc import Callable
from dataclasses import dataclass

from .marking import MARKING_IDS, OLD_MARKING_IDS

MEMORY = "from memory"
MISP_MODULE = "clients/python/iodef_hub_misp.py"
CLIENT_MODULE = "clients/python/iodef_hub.py"


def _address(version: int, is_net: bool) -> Callable[[str], bool]:
    def fits(value: str) -> bool:
        try:
            return ipaddress.ip_interface(value).version == version and ("/" in value) == is_net
        except ValueError:
            return False
    return fits


def _form(pattern: str) -> Callable[[str], bool]:
    return lambda value: re.fullmatch(pattern, value) is not None


@dataclass(frozen=True)
class Row:
    """A kind of value: a category of an Address, a type of a BulkObservable, or a name of this table for a member of a class.

    `type` and `member` are those of the cyber-observable object; a dot leads into a member of a member. `fits` says whether a text
    is such a value: one that isn't is left out. An object of a type that can't be without others is only in patterns."""

    kind: str
    type: str
    member: str
    fits: Callable[[str], bool]
    iodef_read: str
    stix_read: str = MEMORY
    only_in_patterns: bool = False

    @property
    def path(self) -> str:
        """The member as a path of a pattern."""
        steps = self.member.split("\0")
        return f"{self.type}:" + ".".join(each if re.fullmatch("[A-Za-z_][A-Za-z0-9_]*", each) else quoted(each) for each in steps)


def quoted(text: str) -> str:
    """A text as a literal of a pattern."""
    return "'" + text.replace("\\", "\\\\").replace("'", "\\'") + "'"


ANY = _form(r"(?s).+")
USER_AGENT = "\0".join(("extensions", "http-request-ext", "request_header", "User-Agent"))
VALUES = (
    Row("ipv4-addr", "ipv4-addr", "value", _address(4, False), MISP_MODULE),
    Row("ipv4-net", "ipv4-addr", "value", _address(4, True), MISP_MODULE),
    Row("ipv6-addr", "ipv6-addr", "value", _address(6, False), MISP_MODULE),
    Row("ipv6-net", "ipv6-addr", "value", _address(6, True), MISP_MODULE),
    Row("domain-name", "domain-name", "value", _form(r"[^\s|/]{1,253}"), MISP_MODULE),
    Row("site-uri", "url", "value", _form(r"[^\s\x00-\x1f]+"), MISP_MODULE),
    Row("e-mail", "email-addr", "value", _form(r"[^\s@]+@[^\s@]+"), MISP_MODULE),
    Row("asn", "autonomous-system", "number", _form(r"(?i)(AS)?[0-9]{1,10}"), MISP_MODULE),
    Row("mac", "mac-addr", "value", _form(r"(?i)[0-9a-f]{2}([:-][0-9a-f]{2}){5}"), MISP_MODULE),
    Row("md5", "file", "hashes\0MD5", _form(r"(?i)[0-9a-f]{32}"), MISP_MODULE),
    Row("sha1", "file", "hashes\0SHA-1", _form(r"(?i)[0-9a-f]{40}"), MISP_MODULE),
    Row("sha256", "file", "hashes\0SHA-256", _form(r"(?i)[0-9a-f]{64}"), MISP_MODULE),
    Row("sha512", "file", "hashes\0SHA-512", _form(r"(?i)[0-9a-f]{128}"), MISP_MODULE),
    Row("file-path", "file", "name", ANY, MISP_MODULE),
    Row("windows-reg-key", "windows-registry-key", "key", ANY, MISP_MODULE),
    Row("mutex", "mutex", "name", ANY, MISP_MODULE),
    Row("user-name", "user-account", "user_id", ANY, MEMORY),
    Row("email-subject", "email-message", "subject", ANY, MISP_MODULE),
    Row("email-x-mailer", "email-message", "additional_header_fields\0X-Mailer", ANY, MISP_MODULE, only_in_patterns=True),
    Row("http-user-agent", "network-traffic", USER_AGENT, ANY, MISP_MODULE, only_in_patterns=True),
)
BY_KIND = {each.kind: each for each in VALUES}


@dataclass(frozen=True)
class Member:
    """A member of a class that holds a value of a kind; None if another member of the class says which."""

    of: str
    name: str
    kind: str | None
    iodef_read: str


MEMBERS = (
    Member("Address", "value", None, CLIENT_MODULE),  # by `category`
    Member("BulkObservable", "BulkObservableList", None, CLIENT_MODULE),  # by `type`
    Member("Hash", "DigestValue", None, CLIENT_MODULE),  # by `DigestMethod`, else by its length; in base64 too
    Member("DomainData", "Name", "domain-name", CLIENT_MODULE),
    Member("File", "FileName", "file-path", CLIENT_MODULE),
    Member("Key", "KeyName", "windows-reg-key", CLIENT_MODULE),
    Member("RecordData", "URL", "site-uri", MISP_MODULE),
    Member("EmailData", "EmailSubject", "email-subject", MISP_MODULE),
    Member("EmailData", "EmailX-Mailer", "email-x-mailer", MISP_MODULE),
    Member("EmailData", "EmailFrom", "e-mail", MISP_MODULE),
    Member("EmailData", "EmailTo", "e-mail", MISP_MODULE),
)


@dataclass(frozen=True)
class Made:
    """A class, or a member of one, that becomes an object or a property of STIX."""

    iodef: str
    stix: str
    iodef_read: str
    stix_read: str = MEMORY


CLASSES = (
    Made("Incident", "report", "docs/examples/phishing.json"),
    Made("Incident/Description", "report name, description", "docs/examples/phishing.json"),
    Made("Incident/IncidentID, AlternativeID", "report external_references", "docs/examples/botnet.json"),
    Made("Incident/GenerationTime", "report published; created of all", "docs/examples/phishing.json"),
    Made("Reference/URL", "report external_references", "docs/examples/botnet.json"),
    Made("Reference/Description, if it is a CVE's number", "vulnerability", MISP_MODULE),
    Made("ReferenceName/ID, if it is a CVE's number", "vulnerability", MEMORY),
    Made("the source", "identity, created_by_ref", "docs/HTTP.md"),
    Made("Contact", "identity", "docs/examples/phishing.json"),
    Made("Description of EventData, RecordData, HistoryItem, Method, Discovery", "note", "docs/examples/phishing.json"),
    Made("a value outside an Indicator", "cyber-observable object, observed-data", "docs/examples/phishing.json"),
    Made("StartTime, EndTime, DetectTime of EventData and Incident", "observed-data first_observed, last_observed", MEMORY),
    Made("System/category, spoofed", "observed-data labels", "docs/examples/denial-of-service.json"),
    Made("Indicator", "indicator for each alternative", "docs/examples/phishing.json"),
    Made("Indicator/StartTime, EndTime", "indicator valid_from, valid_until", MEMORY),
    Made("IndicatorExpression/operator and, or", "AND; one indicator each", MISP_MODULE),
    Made("Service/Port beside a Node", "network-traffic in a pattern", MISP_MODULE),
    Made("Key/Value", "windows-registry-key:values[*].data in a pattern", MISP_MODULE),
    Made("a value of an Indicator that is outside one too", "relationship based-on", MEMORY),
    Made("restriction", "object_marking_refs", "docs/POLICY.md"),
)
MARKINGS = tuple(Made(label, f"TLP:{label.upper()}, {MARKING_IDS[label]}", "clients/README.md") for label in MARKING_IDS) + tuple(
    Made(label, f"{name}, only read", "clients/README.md") for name, label in OLD_MARKING_IDS.items())


def count_from_memory() -> tuple[int, int, int]:
    """How many rows there are, in how many STIX's names are from memory, and in how many IODEF's are."""
    iodef = [each.iodef_read for each in VALUES]
    iodef += [*(each.iodef_read for each in MEMBERS), *(each.iodef_read for each in (*CLASSES, *MARKINGS))]
    stix = [each.stix_read for each in VALUES] + [each.stix_read for each in (*CLASSES, *MARKINGS)]
    return len(iodef), stix.count(MEMORY), iodef.count(MEMORY)
