"""The commands that add a person and exchange a key: a key is never lost, and never shown twice."""
from __future__ import annotations

import argparse
import os
import sys

from iodef_hub import Hub, HubError, MayBeTaken, Refused, digest_of, new_key

from .characters import shown
from .reading import key_of
from .sharing import check_circle
from .telling import Teller, Usage, warn


TAKEN = b'{"done":true}'  # the answer to a change


def write_key(name: str, key: str) -> None:
    """Writes a key before it is sent, durable in its folder, so that one which was taken is never lost. A file that is there stays as it is."""
    with os.fdopen(os.open(name, os.O_WRONLY | os.O_CREAT | os.O_EXCL, 0o600), "w") as file:
        file.write(key + "\n")
        file.flush()
        os.fsync(file.fileno())
    if os.name != "posix":  # there a folder can't be opened
        return
    folder = os.open(os.path.dirname(name) or ".", os.O_RDONLY)
    try:
        os.fsync(folder)
    finally:
        os.close(folder)


def is_taken(hub: Hub, key: str) -> bool:
    """Whether the hub knows the caller by this key."""
    try:
        hub.with_key(key).me()
    except Refused as fault:
        if fault.code != "K1":
            raise
        return False
    return True


def key_to_take(given: argparse.Namespace) -> str:
    """A new key, written into its file; with --made the one that is there, which isn't the caller's."""
    if given.made:
        key = key_of({"IODEF_HUB_KEY_FILE": given.key_file})
        if key == key_of(os.environ):
            raise Usage(f"{given.key_file} has the key that you use, and --made wants the new one: nothing was sent")
        return key
    key = new_key()
    write_key(given.key_file, key)
    return key


def may_hold(hub: Hub, fault: HubError) -> bool:
    """Whether a key that was sent may hold all the same: the answer is lost, or the hub gave a try up, and its machine may have stopped."""
    return hub.failed or isinstance(fault, MayBeTaken)


def exchange(hub: Hub, key: str) -> bytes:
    """Sends the digest of a new key, and returns the hub's answer. If it may hold all the same, the key itself says whether it does."""
    try:
        hub.new_key(digest_of(key))
        return hub.heard
    except HubError as fault:
        try:
            taken = may_hold(hub, fault) and is_taken(hub, key)
        except HubError:
            raise fault from None
        if not taken:
            raise
        return TAKEN


def do_new_key(hub: Hub, given: argparse.Namespace, teller: Teller) -> None:
    """Says that the old key is nobody's only when the hub has answered a request with the new one. Each hub of a circle gets the same key,
    whose file goes only if no hub may have taken it."""
    is_first = given.fresh is None
    if is_first:
        given.fresh = key_to_take(given)
    try:
        answer = TAKEN if given.made and is_taken(hub, given.fresh) else exchange(hub, given.fresh)
    except HubError as fault:
        if may_hold(hub, fault):
            warn(f"keep both keys: the new one, in {given.key_file}, may come to hold; run this again with --made")
        elif is_first and not given.made:
            os.unlink(given.key_file)
            given.fresh = None
        raise
    if not is_taken(hub, given.fresh):
        raise HubError("K1", f"the hub took the new key and doesn't know it: keep both, the new one is in {given.key_file}")
    teller.tell_change(answer, f"your key is the one in {given.key_file}; the old one is nobody's")


def do_add_person(hub: Hub, given: argparse.Namespace, teller: Teller) -> None:
    check_circle(hub, given, lambda it: f"{shown(it.name)} is a person of {it.names('org', it.org)}, as {it.role}")
    if given.digest is not None:
        made = hub.add_person(given.org, given.name, given.role, given.digest)
        teller.tell(str(made))
        return
    key = new_key()
    if given.key_file is not None:
        write_key(given.key_file, key)
    try:
        made = hub.add_person(given.org, given.name, given.role, digest_of(key))
    except HubError as fault:
        if not may_hold(hub, fault):
            if given.key_file is not None:
                os.unlink(given.key_file)
        elif given.key_file is None:
            print(f"iodef-hub-ask: the key, in case the person was added: {key}", file=sys.stderr)
        else:
            print(f"iodef-hub-ask: the key is in {given.key_file}, in case the person was added", file=sys.stderr)
        raise
    given.digest = digest_of(key)  # a further hub of the circle gets the same key
    teller.tell(str(made), *([f"key, shown this once: {key}"] if given.key_file is None else []))
    if given.json and given.key_file is None:
        print(f"key, shown this once: {key}", file=sys.stderr)
