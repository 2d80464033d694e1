"""OpenPGP: a text for one key, by GnuPG."""
from __future__ import annotations

import subprocess

from .faults import Failed

GPG = "gpg"
SECONDS = 60
# No file of options is read, as it may add recipients or give a fingerprint another meaning. No key is looked for anywhere else.
ALONE = ("--no-options", "--no-auto-key-locate", "--no-auto-key-retrieve", "--disable-dirmngr")
WORDS = ("--batch", "--no-tty", *ALONE, "--trust-model", "always")
# By the letter of a key's validity in a listing; `always` above trusts a key, but changes none of these.
INVALID = {
    "e": ("KeyExpired", "the key has expired"),
    "r": ("KeyRevoked", "the key is revoked"),
    "d": ("KeyUnusable", "the key is disabled"),
    "i": ("KeyUnusable", "the key is invalid"),
    "n": ("KeyUnusable", "the key isn't valid"),
}
VALIDITY, CAPABILITIES, VALUE = 1, 11, 9  # the fields of a record


def asked(*words: str, given: bytes = b"") -> subprocess.CompletedProcess[bytes]:
    try:
        return subprocess.run([GPG, *WORDS, *words], input=given, capture_output=True, timeout=SECONDS)
    except (OSError, subprocess.TimeoutExpired) as fault:
        raise Failed("NoGpg", f"{GPG} can't be used: {type(fault).__name__}") from None


def primary_of(listing: str) -> tuple[list[str], str] | None:
    """The fields of the primary key in a listing, if there is exactly one, and its fingerprint."""
    records = [line.split(":") for line in listing.splitlines()]
    at = [number for number, fields in enumerate(records) if fields[0] == "pub"]
    if len(at) != 1:
        return None
    found = next((fields for fields in records[at[0] :] if fields[0] == "fpr"), None)
    return (records[at[0]], found[VALUE]) if found else None


def check(fingerprint: str) -> None:
    """Raises Failed unless the keyring has exactly this primary key, and it can encrypt."""
    ran = asked("--with-colons", "--list-keys", fingerprint)
    found = primary_of(ran.stdout.decode(errors="replace")) if ran.returncode == 0 else None
    if found is None or found[1] != fingerprint:
        raise Failed("KeyMissing", "the keyring has no primary key of this fingerprint")
    fields, _ = found
    if (fault := INVALID.get(fields[VALIDITY])) is not None:
        raise Failed(*fault)
    if "E" not in fields[CAPABILITIES] or "D" in fields[CAPABILITIES]:
        raise Failed("KeyUnusable", "the key has no part that can encrypt")


def encrypted(fingerprint: str, text: bytes) -> bytes:
    """The text for this key, in ASCII armor."""
    check(fingerprint)
    ran = asked("--no-encrypt-to", "--armor", "--encrypt", "--recipient", fingerprint, given=text)
    if ran.returncode or not ran.stdout.startswith(b"-----BEGIN PGP MESSAGE-----"):
        raise Failed("NotEncrypted", f"{GPG} ended with status {ran.returncode}")
    return ran.stdout
