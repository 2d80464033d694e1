"""Stores for passing.py: N reports, half of which hold a text of their own, and callers who see each report or none of them.

Each report is of 4 KB and 210 lines, if it has 20 `EventData`. The text of each second one is 2,500 bytes of this repository's documents. The root's gate is for
a sharing group, and the gate at the Incident for a smaller one; one organisation is permitted to see a class. So the reader sees a part
of each report, and of the others nobody sees anything, each for a reason of its own. The peer's store has the same content.
"""

import functools
import pathlib
import random
import sqlite3
import string
import subprocess
from collections.abc import Callable

import many
from opening import document

ADMIN, POSTER, COORDINATOR, READER = "admin", "poster", "coordinator", "reader"
# Who sees nothing: by the root's gate; by the labels; by the gate at the Incident; by that gate, in spite of a permission.
SHUT, UNCLEARED, GATED, PERMITTED = "shut", "uncleared", "gated", "permitted"
# Number, organisation and role of each person but the administrator.
PERSONS = {
    POSTER: (2, 2, "poster"),
    COORDINATOR: (3, 2, "coordinator"),
    READER: (4, 3, "reader"),
    SHUT: (5, 4, "reader"),
    UNCLEARED: (6, 5, "reader"),
    GATED: (7, 6, "reader"),
    PERMITTED: (8, 7, "reader"),
}
ORGS = ("Source", "Readers", "Shut out", "Uncleared", "Gated", "Permitted")
COMMUNITY = (2, 3, 6)
OUTER, INNER = (3, 5, 6, 7), (3, 5)
EVENTS, LABELS = 20, (None, "green", "amber", "red", "need-to-know")
# A text of each report's fourth EventData, which is red.
ABOVE = "step%203%20of"
PERMITTED_CLASS, GATED_CLASS = "/Incident/0/EventData/1", "/Incident/0"
TEXT, PIECE = 2_500, 500
# The reports 10, 20, .. 100 are addressed to the reader's organisation.
ADDRESSED = range(10, 101, 10)

COPY = """
    INSERT INTO gate SELECT i.number, g.path, g.level, g.grp FROM incident AS i JOIN gate AS g ON g.incident = 1 AND g.path <> '' WHERE i.number >= ?1;
    INSERT INTO permission SELECT i.number, p.path, p.kind, p.target, p.until FROM incident AS i JOIN permission AS p ON p.incident = 1 WHERE i.number >= ?1;
"""
PEER = """
    DELETE FROM org;
    DELETE FROM person;
    INSERT INTO org SELECT number, name FROM hub.org;
    INSERT INTO person SELECT number, org, name, role, key, active, nominated FROM hub.person;
    INSERT INTO member SELECT a, b FROM hub.pair WHERE kind = 'member';
    INSERT INTO grp SELECT number, owner, name, active FROM hub.grp;
    INSERT INTO grp_member SELECT a, b FROM hub.pair WHERE kind = 'grp_member';
    INSERT INTO gate SELECT incident, path, level, grp FROM hub.gate WHERE path <> '';
    INSERT INTO recipient SELECT incident, 'org', target FROM hub.recipient;
    INSERT INTO permission SELECT incident, path, 'org', target FROM hub.permission;
"""


@functools.cache
def pages() -> str:
    """The documents of this repository, in ASCII, with one space between two words."""
    files = [many.TOP / "README.md", *sorted((many.TOP / "docs").glob("*.md"))]
    text = " ".join(" ".join(it.read_text().split()) for it in files)
    return text.encode("ascii", "ignore").decode()


def text_of(number: int) -> str:
    """The text of a report: pieces of the documents that are drawn by its number, and none for an even number."""
    if number % 2 == 0:
        return ""
    drawn = random.Random(number)
    starts = [drawn.randrange(len(pages()) - PIECE) for _ in range(TEXT // PIECE)]
    return " ".join(pages()[it : it + PIECE] for it in starts)[:TEXT]


def body_of(ident: str, text: str, events: int = EVENTS) -> bytes:
    whole = document({"id": ident, "name": many.ISSUER}, events, LABELS)
    incidents = whole["Incident"]
    assert isinstance(incidents, list)
    if text:
        incidents[0]["Description"] = [text]
    return many.compact(whole)


def report(number: int) -> many.Report:
    """Of a store that is filled: the reports 1 and 2 are the templates of the others."""
    return many.Report(2 - number % 2, 2, 4, 1, text_of(number))


def begin(program: str, store: pathlib.Path, port: int, events: int = EVENTS) -> None:
    """A store with the circle and the first two reports, of so many `EventData`."""
    subprocess.run([program, "init", str(store), "Hub", many.digest(ADMIN)], check=True, stdout=subprocess.DEVNULL)
    hub = many.Hub(program, store, port)
    add_circle(hub)
    for number in (1, 2):
        body = body_of(many.identity(number), text_of(number), events)
        hub.done(POSTER, "POST", f"/incidents?level=4&group=1&gate=4:2:{GATED_CLASS}", body)
        hub.done(COORDINATOR, "POST", f"/incidents/{number}/grant", f"revision=1&path={PERMITTED_CLASS}&org=7".encode())
    hub.close()


def add_circle(hub: many.Hub) -> None:
    asked = [(ADMIN, "/orgs", f"name={it}") for it in ORGS]
    asked += [(ADMIN, "/persons", f"org={org}&name={key}&role={role}&key={many.digest(key)}") for key, (_, org, role) in PERSONS.items()]
    asked += [(ADMIN, "/communities", "name=East")]
    asked += [(ADMIN, "/communities/1/join", f"org={it}") for it in COMMUNITY]
    asked += [(COORDINATOR, "/groups", f"name={it}&releasability=") for it in ("outer", "inner")]
    asked += [(COORDINATOR, f"/groups/{group}/add", f"org={it}&extend=0") for group, orgs in ((1, OUTER), (2, INNER)) for it in orgs]
    for key, target, form in asked:
        hub.done(key, "POST", target, form.replace(" ", "+").encode())


def grow(store: pathlib.Path, last: int) -> None:
    """More reports, up to this number, in a store that nobody serves."""
    rows = sqlite3.connect(store)
    (begin,) = rows.execute("SELECT max(number) + 1 FROM incident").fetchone()
    rows.close()
    many.fill(store, last, report)
    rows = sqlite3.connect(store, isolation_level=None)
    rows.execute("PRAGMA synchronous = OFF")
    rows.execute("BEGIN")
    for statement in COPY.strip().split("\n"):
        rows.execute(statement, (begin,))
    rows.executemany("INSERT INTO recipient VALUES (?, 1, 3)", ((it,) for it in ADDRESSED if begin <= it <= last))
    rows.execute("COMMIT")
    rows.execute("PRAGMA wal_checkpoint(TRUNCATE)")
    rows.close()


def make_peer_store(program: str, store: pathlib.Path, hub_store: pathlib.Path, reports: int, events: int = EVENTS) -> None:
    """The content of a hub's store of so many reports for the peer."""
    subprocess.run([program, "init", str(store), "Hub", many.digest(ADMIN)], check=True, stdout=subprocess.DEVNULL)
    rows = sqlite3.connect(store, isolation_level=None)
    rows.execute("PRAGMA synchronous = OFF")
    rows.execute("ATTACH ? AS hub", (str(hub_store),))
    rows.executescript(f"BEGIN; {PEER} COMMIT;")
    rows.execute("DETACH hub")
    rows.execute("BEGIN")
    many.fill_peer(rows, range(1, reports + 1), report, lambda number: body_of(many.identity(number), text_of(number), events))
    rows.execute("COMMIT")
    rows.execute("PRAGMA wal_checkpoint(TRUNCATE)")
    rows.close()


# ---- what is searched for


def there(drawn: random.Random, size: int, reports: int) -> str:
    """A needle of so many bytes that some report holds, from a word on."""
    text = text_of(drawn.randrange(1, reports + 1, 2))
    start = drawn.choice([at for at in range(TEXT - size) if text[at].isalnum()])
    return text[start : start + size]


def nowhere(drawn: random.Random, size: int) -> str:
    """Letters that no report holds."""
    return absent(lambda: "".join(drawn.choices(string.ascii_lowercase, k=size)))


def woven(drawn: random.Random, size: int) -> str:
    """Two pieces of the documents that no report holds in one."""
    return absent(lambda: piece(drawn, size // 2) + piece(drawn, size - size // 2))


def piece(drawn: random.Random, size: int) -> str:
    start = drawn.randrange(len(pages()) - size)
    return pages()[start : start + size]


def absent(draws: Callable[[], str]) -> str:
    """The first that is drawn and that no report holds. It has no space, as pieces of the documents meet at spaces."""
    fixed = body_of(many.identity(0), "").decode()
    while True:
        needle = draws()
        if not any(needle in it for it in (pages(), fixed)) and " " not in needle:
            return needle
