"""Keys of OpenPGP in a keyring of their own, which is removed at the end."""
from __future__ import annotations

import contextlib
import os
import pathlib
import re
import subprocess
import tempfile
from collections.abc import Iterator
from dataclasses import dataclass

KINDS = ("good", "other", "expired", "revoked", "signing", "old subkey")
# The second is later, as a part that is older than its key isn't made.
LONG_AGO, THEN = "20200101T000000", "20200101T010000"


@dataclass(frozen=True)
class Ring:
    """A keyring: the fingerprint of each kind of key, and that of a part of the good one."""

    folder: pathlib.Path
    keys: dict[str, str]
    part: str

    def gpg(self, *words: str, given: bytes = b"") -> bytes:
        return gpg(self.folder, *words, given=given)

    def recipients_of(self, text: bytes) -> list[str]:
        """The keys that a text is encrypted for, by the ends of their fingerprints."""
        return re.findall(r"^:pubkey enc packet:.* keyid ([0-9A-F]+)", self.gpg("--list-packets", given=text).decode(), re.M)


def gpg(folder: pathlib.Path, *words: str, given: bytes = b"") -> bytes:
    room = {**os.environ, "GNUPGHOME": str(folder)}
    command = ["gpg", "--batch", "--quiet", "--no-options", *words]
    return subprocess.run(command, input=given, capture_output=True, env=room, check=True).stdout


def fingerprints(folder: pathlib.Path, name: str) -> list[str]:
    """Those of a key and of its parts, in their order."""
    listing = gpg(folder, "--with-colons", "--list-keys", f"={name}").decode()
    return [line.split(":")[9] for line in listing.splitlines() if line.startswith("fpr:")]


def make(folder: pathlib.Path, kind: str) -> None:
    """Makes a key whose user is named by its kind."""
    quick = ("--passphrase", "", "--quick-gen-key", kind)
    if kind == "expired":
        gpg(folder, "--faked-system-time", LONG_AGO, *quick, "future-default", "default", "seconds=86400")
    elif kind == "signing":
        gpg(folder, *quick, "ed25519", "sign", "never")
    elif kind == "old subkey":
        gpg(folder, "--faked-system-time", LONG_AGO, *quick, "ed25519", "sign", "never")
        key = fingerprints(folder, kind)[0]
        gpg(folder, "--faked-system-time", THEN, "--passphrase", "", "--quick-add-key", key, "cv25519", "encr", "seconds=86400")
    else:
        gpg(folder, *quick, "future-default", "default", "never")
    if kind == "revoked":
        text = (folder / "openpgp-revocs.d" / f"{fingerprints(folder, kind)[0]}.rev").read_text()
        gpg(folder, "--import", given=text.replace("\n:-----BEGIN", "\n-----BEGIN").encode())


@contextlib.contextmanager
def ring() -> Iterator[Ring]:
    # Sockets of the agent are in it, whose paths have to be short.
    with tempfile.TemporaryDirectory() as name:
        folder = pathlib.Path(name)
        folder.chmod(0o700)
        try:
            for kind in KINDS:
                make(folder, kind)
            keys = {kind: fingerprints(folder, kind)[0] for kind in KINDS}
            # Options that would encrypt for another key, if they were read.
            (folder / "gpg.conf").write_text(f"encrypt-to {keys['other']}\ngroup {keys['good']}={keys['other']}\n")
            yield Ring(folder, keys, fingerprints(folder, "good")[1])
        finally:
            room = {**os.environ, "GNUPGHOME": name}
            subprocess.run(["gpgconf", "--kill", "gpg-agent"], env=room, capture_output=True)
