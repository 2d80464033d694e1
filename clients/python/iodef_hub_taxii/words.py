"""The command iodef-hub-taxii."""
from __future__ import annotations

import argparse
import os
import pathlib
import re
import signal
import sys
import types

from iodef_hub import Hub
from iodef_hub_ask.characters import shown
from iodef_hub_misp import Unfit
from iodef_hub_stix.words import names_in

from .collection import FIXED, MOST_OBJECTS
from .http import Server
from .looking import Settings, Turns
from .serving import Service
from .store import Store, WrongFile

HEAD = """Serves a hub's excerpts as a collection of TAXII 2.1, for reading, on loopback.

    iodef-hub-taxii --hub http://127.0.0.1:21011 --name hub.example.org --state /var/lib/iodef-hub-taxii/state.db --port 21012

The discovery is /taxii2/, the API root /taxii2/hub/; each key has one collection. The key is the hub's own: Bearer, or the password of
Basic with any user's name. It is sent to the hub alone, is in memory for its request, and in no log and no file.

Objects are those of iodef-hub-stix, made of what the hub serves the key as it answers. A version is of an excerpt: `modified` is when
this key first saw this content. So a grant, a gate, a new address, or an end that passes makes a new version, though the revision stays.
What is seen no more is served once more: `revoked`, marked TLP:RED, with fixed words. Where it must name another object it names a
`mutex` "withdrawn", which each collection has. Consumers keep what they have, and what they do with it then is theirs. If it is seen again
it gets a new id, as no version follows a revocation.

`created` is when this key first saw the report; that of iodef-hub-stix is the report's GenerationTime, with the same ids. Don't feed both
into one consumer.

A poll lists what the hub shows, and reads all excerpts again: what is new or has another revision first, then what was read the longest
ago. A request reads for --look seconds at most; then it answers with `more`, and the next page goes on. An excerpt
that was read within --again seconds before the poll isn't read again, unless its revision is another. So a grant, a gate or an end is
seen by the first poll that begins more than --again seconds behind the last read and whose pages are all taken. Requests to the hub
follow one another, each with a pause as long as it took, so half of the hub's time is left to others.

The file of state has ids, times, and HMACs by the keys; no content. But an id is made of a value, so whoever reads the file can try out
values: it is for the service's user alone. It grows with the objects that keys ever saw. Back it up: without it
all is new, with the first ids, also those that were revoked, and another `created`.

/metrics has counts for this host; nginx doesn't pass it on.
"""


def _port(text: str) -> int:
    if not text.isdecimal() or not 1 <= int(text) <= 65535:
        raise argparse.ArgumentTypeError("it must be a number from 1 to 65535")
    return int(text)


def _seconds(text: str) -> float:
    if not re.fullmatch(r"[0-9]{1,5}(\.[0-9]{1,3})?", text):
        raise argparse.ArgumentTypeError("it must be a number of seconds")
    return float(text)


def _hub(text: str) -> str:
    try:
        Hub(text, "-")
    except ValueError as fault:
        raise argparse.ArgumentTypeError(str(fault)) from None
    return text


def words() -> argparse.ArgumentParser:
    parser = argparse.ArgumentParser(prog="iodef-hub-taxii", description=HEAD, formatter_class=argparse.RawDescriptionHelpFormatter)
    parser.add_argument("--hub", required=True, type=_hub, metavar="URL", help="the hub's address: that of HAProxy's queue")
    parser.add_argument("--name", required=True, metavar="NAME",
                        help="the hub's name, of which ids are made, as of iodef-hub-stix: never another one")
    parser.add_argument("--state", required=True, type=pathlib.Path, metavar="FILE",
                        help="the file of ids and times; it is made if it is missing")
    parser.add_argument("--port", required=True, type=_port, metavar="N", help="the port of loopback")
    parser.add_argument("--title", metavar="TEXT", help="the title that callers see (default: the name)")
    parser.add_argument("--names", default=os.environ.get("IODEF_HUB_NAMES", ""), metavar="FILE",
                        help="a file of iodef-hub-directory --names, for the sources' names (default: IODEF_HUB_NAMES)")
    parser.add_argument("--look", type=_seconds, default=20.0, metavar="SECONDS",
                        help="how long a request may read before it answers (default: 20)")
    parser.add_argument("--again", type=_seconds, default=60.0, metavar="SECONDS",
                        help="an excerpt that was read within this time before a poll isn't read again (default: 60)")
    parser.add_argument("--pause", type=_seconds, default=0.0, metavar="SECONDS",
                        help="the least pause between requests to the hub (default: 0)")
    parser.epilog = (f"A page has at most {MOST_OBJECTS} objects. Exit status: 0 ended by a signal; "
                     "1 the file of state or of names is refused; 2 usage, or the port.")
    return parser


def say(text: str) -> None:
    print(f"iodef-hub-taxii: {shown(text)}", file=sys.stderr, flush=True)


def _end(number: int, frame: types.FrameType | None) -> None:
    raise KeyboardInterrupt


def main() -> int:
    """Returns 0 ended by a signal, 1 refused, 2 usage or a port that can't be had."""
    given = words().parse_args()
    os.umask(0o077)
    try:
        settings = Settings(given.hub, given.name, names_in(given.names), given.look, given.again)
        store = Store(given.state, given.name, list(FIXED))
    except (Unfit, WrongFile) as fault:
        say(f"refused: {fault}")
        return 1
    except OSError as fault:
        say(str(fault))
        return 2
    signal.signal(signal.SIGTERM, _end)
    try:
        with Server(given.port, Service(settings, store, Turns(given.pause, 60), given.title or given.name)) as server:
            print(f"listening {given.port}", flush=True)
            server.serve_forever()
    except KeyboardInterrupt:
        return 0
    except OSError as fault:
        say(f"the port {given.port} can't be had: {fault}")
        return 2
    finally:
        store.close()
    return 0
