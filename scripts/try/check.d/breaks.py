"""Breaks of each rule of iodef-hub-check, planted by SQL in a copy of the trial's store, with the lines that are wanted."""
from __future__ import annotations

import typing

CLASS = "/Incident/0/EventData/1"
INDICATOR = "/Incident/0/Indicator/0"

# The stores in which a break is planted: the trial's, the same in the tables of version 1, one whose tables but that of incidents are
# full, and one that has as many incidents as it may have.
STORE, VERSION_1, FULL, CROWDED = "store", "version 1", "full", "crowded"


class Planted(typing.NamedTuple):
    """A break: its name, the statements that plant it, the rules and lines that are wanted, whether only --documents finds it, and where."""

    name: str
    change: str
    wanted: list[tuple[str, str]]
    documents: bool = False
    base: str = STORE


def row(rule: str, line: str, change: str, name: str, *more: tuple[str, str]) -> Planted:
    """A break that is told without --documents."""
    return Planted(name, change, [(rule, line), *more])


def first(where: str) -> str:
    """The condition of the first line of incident 1 of which this holds."""
    return f"incident = 1 AND place = (SELECT min(place) FROM item WHERE incident = 1 AND {where})"


def item(rule: str, line: str, change: str, where: str, name: str) -> Planted:
    """A break of one line of incident 1."""
    return Planted(name, f"{change} WHERE {first(where)}", [(rule, rf"item incident 1, place \d+: {line}")], True)


def numbers(to: str, insert: str) -> str:
    """An INSERT of one row for each i from 1 to this number, or from A to B of `A AND B`."""
    begin, _, end = to.rpartition(" AND ")
    return f"WITH RECURSIVE n(i) AS (SELECT {begin or 1} UNION ALL SELECT i + 1 FROM n WHERE i < {end}) INSERT INTO {insert} FROM n"


def names() -> list[Planted]:
    """What a name may not be, of each table that has names."""
    bad = (
        ("129 bytes", "printf('%.129c', 'x')"),
        ("none", "''"),
        ("a newline", "'a' || char(10)"),
        ("a DEL", "'a' || char(127)"),
        ("no UTF-8", "CAST(x'ff' AS TEXT)"),
    )
    return [
        row(
            f"{table}-name",
            f"{table} number 1: a name has 1 to 128 bytes and no control character",
            f"UPDATE {table} SET name = {text} WHERE number = 1",
            f"the name of {table}: {what}",
        )
        for table in ("org", "person", "community", "grp")
        for what, text in bad
    ]


def directory() -> list[Planted]:
    owner = "grp number 1: its owner {} is no member that may extend it"
    return [
        row(
            "org-numbers",
            "org number 3: numbers count from 1 .*",
            "DELETE FROM org WHERE number = 1",
            "a lost organisation",
            ("person-org", "person number 1: there is no organisation 1"),
        ),
        row("org-numbers", "org number 0: numbers count .*", "INSERT INTO org VALUES (0, 'zero')", "organisation 0"),
        row(
            "person-numbers",
            "person number 4: numbers count .*",
            "UPDATE person SET number = 4 WHERE number = 1",
            "a person's number left out",
        ),
        row("community-numbers", "community number 9: numbers count .*", "INSERT INTO community VALUES (9, 'far')", "a far community"),
        row(
            "grp-numbers",
            "grp number 2: numbers count .*",
            "UPDATE grp SET number = 2; UPDATE pair SET a = 2 WHERE kind = 'grp_member'; UPDATE gate SET grp = 2 WHERE grp = 1",
            "a group's number left out",
        ),
        row(
            "person-org",
            "person number 3: there is no organisation 9",
            "UPDATE person SET org = 9 WHERE number = 3",
            "a person of no organisation",
        ),
        row("person-role", "person number 3: there is no role 4", "UPDATE person SET role = 4 WHERE number = 3", "role 4"),
        row("person-role", "person number 3: there is no role -1", "UPDATE person SET role = -1 WHERE number = 3", "role -1"),
        row(
            "person-key",
            "person number 2: a key is a SHA-256 of 32 bytes",
            "UPDATE person SET key = zeroblob(31) WHERE number = 2",
            "a short key",
        ),
        row(
            "person-key",
            "person number 2: a key is a SHA-256 of 32 bytes",
            "UPDATE person SET key = zeroblob(33) WHERE number = 2",
            "a long key",
        ),
        row("person-active", "person number 2: active is 0 or 1, not 2", "UPDATE person SET active = 2 WHERE number = 2", "active 2"),
        row(
            "person-nominated",
            "person number 2: nominated is 0 or 1, not -1",
            "UPDATE person SET nominated = -1 WHERE number = 2",
            "nominated -1",
        ),
        row("grp-active", "grp number 1: active is 0 or 1, not 2", "UPDATE grp SET active = 2", "a group of active 2"),
        row(
            "grp-releasability",
            "grp number 1: a releasability has at most 512 bytes",
            "UPDATE grp SET releasability = printf('%.513c', 'x')",
            "a long releasability",
        ),
        row(
            "grp-owner",
            "grp number 1: there is no organisation 9, the owner",
            "UPDATE grp SET owner = 9",
            "a group of no owner",
            ("grp-owner-member", owner.format(9)),
        ),
        row("grp-owner-member", owner.format(2), "DELETE FROM pair WHERE kind = 'grp_member' AND b = 2", "an owner that is no member"),
        row(
            "grp-owner-member",
            owner.format(2),
            "UPDATE pair SET value = 0 WHERE kind = 'grp_member' AND b = 2",
            "an owner that may not extend",
        ),
    ]


def pairs() -> list[Planted]:
    """Of each kind a side that isn't there, and a value that is none; what only some kinds keep."""
    at = {"client": (2, 3), "member": (1, 2), "link": (1, 2), "grp_member": (1, 3), "arrangement": (2, 3)}
    sides = {
        "client": ("org", "org"),
        "member": ("community", "org"),
        "link": ("community", "community"),
        "grp_member": ("grp", "org"),
        "arrangement": ("org", "org"),
    }
    values = {
        "client": ("NULL", ("0",)),
        "member": ("NULL", ("1",)),
        "link": ("NULL", ("1",)),
        "grp_member": ("0 or 1", ("2", "NULL")),
        "arrangement": ("0 to 4", ("5", "-1", "NULL")),
    }
    found = []
    for kind, (a, b) in at.items():
        where = f"WHERE kind = '{kind}' AND a = {a} AND b = {b}"
        found += [
            row(
                f"pair-{kind}-b",
                f"pair kind {kind}, a {a}, b 9: table {sides[kind][1]} has no number 9",
                f"UPDATE pair SET b = 9 {where}",
                f"{kind}: b isn't there",
            ),
            *(
                row(
                    f"pair-{kind}-value",
                    f"pair kind {kind}, a {a}, b {b}: its value is {values[kind][0]}, not {value}",
                    f"UPDATE pair SET value = {value} {where}",
                    f"{kind}: value {value}",
                )
                for value in values[kind][1]
            ),
        ]
        if kind != "link":
            found.append(
                row(
                    f"pair-{kind}-a",
                    f"pair kind {kind}, a 9, b {b}: table {sides[kind][0]} has no number 9",
                    f"UPDATE pair SET a = 9 {where}",
                    f"{kind}: a isn't there",
                )
            )
    order = "a link has the smaller number first"
    return found + [
        row(
            "pair-link-a",
            "pair kind link, a 0, b 2: table community has no number 0",
            "UPDATE pair SET a = 0 WHERE kind = 'link'",
            "link: a isn't there",
        ),
        row(
            "pair-kind",
            "pair kind friend, a 2, b 3: there is no such kind",
            "UPDATE pair SET kind = 'friend' WHERE kind = 'client'",
            "a pair of no kind",
        ),
        row(
            "pair-link-order",
            f"pair kind link, a 2, b 1: {order}",
            "UPDATE pair SET a = 2, b = 1 WHERE kind = 'link'",
            "a link turned round",
        ),
        row("pair-link-order", f"pair kind link, a 1, b 1: {order}", "UPDATE pair SET b = 1 WHERE kind = 'link'", "a link with itself"),
        row(
            "pair-itself",
            "pair kind client, a 3, b 3: an organisation has none with itself",
            "UPDATE pair SET a = 3 WHERE kind = 'client'",
            "its own client",
        ),
        row(
            "pair-itself",
            "pair kind arrangement, a 2, b 2: an organisation has none with itself",
            "UPDATE pair SET b = 2 WHERE kind = 'arrangement'",
            "an arrangement with itself",
        ),
    ]


def incidents() -> list[Planted]:
    no_org = ("permission-org", r"permission .*: table org has no number \d+")
    return [
        row(
            "incident-source",
            "incident number 2: there is no organisation 7, its source",
            "UPDATE incident SET source = 7 WHERE number = 2",
            "a source that is none",
        ),
        row(
            "incident-revision",
            "incident number 2: a revision is 1 to 1000000, not 0",
            "UPDATE incident SET revision = 0 WHERE number = 2",
            "revision 0",
        ),
        row(
            "incident-revision",
            "incident number 2: a revision is .*, not 1000001",
            "UPDATE incident SET revision = 1000001 WHERE number = 2",
            "revision 1,000,001",
        ),
        row(
            "incident-root-gate",
            "incident number 2: it has no gate at its root",
            "DELETE FROM gate WHERE incident = 2",
            "a lost gate at a root",
        ),
        row(
            "incident-gates",
            "incident number 1: it has more than 16 gates at classes",
            numbers("15", "gate SELECT 1, '/x/' || i, 0, NULL"),
            "17 gates at classes",
        ),
        row(
            "incident-recipients",
            "incident number 1: it has more than 64 recipients",
            numbers("63", "recipient SELECT 1, 1, 100 + i"),
            "65 recipients",
            *[("recipient-org", r"recipient .*: table org has no number \d+")] * 63,
        ),
        row(
            "incident-permissions",
            "incident number 1: it has more than 64 permissions",
            numbers("64", f"permission SELECT 1, '{INDICATOR}', 1, 100 + i, NULL"),
            "65 permissions",
            *[no_org] * 64,
        ),
        row(
            "incident-community",
            "incident number 1: there is no community 3, which it names",
            "UPDATE incident SET community = 3 WHERE number = 1",
            "a community that is none",
        ),
        row(
            "incident-numbers",
            "incident number 3: numbers count .*",
            "DELETE FROM incident WHERE number = 2",
            "a lost incident",
            ("gate-incident", r"gate incident 2, path \(root\): there is no such incident"),
        ),
    ]


def sharing() -> list[Planted]:
    gate, root = f"gate incident 1, path {CLASS}", r"gate incident 2, path \(root\)"
    at_class = f"WHERE path = '{CLASS}' AND incident = 1"
    pointers = (("no slash", "Incident"), ("an open ~", "/a~"), ("~2", "/a~2"))
    none = "its path is no JSON pointer"
    found = [
        row(
            "gate-incident",
            f"gate incident 8, path {CLASS}: there is no such incident",
            f"UPDATE gate SET incident = 8 {at_class}",
            "a gate of no incident",
        ),
        row(
            "recipient-incident",
            "recipient incident 9, kind 1, target 3: there is no such incident",
            "UPDATE recipient SET incident = 9 WHERE kind = 1",
            "a recipient of no incident",
        ),
        row(
            "permission-incident",
            f"permission incident 9, path {CLASS}, kind 0, target 3: there is no such incident",
            "UPDATE permission SET incident = 9 WHERE incident = 1",
            "a permission of no incident",
        ),
        row("gate-level", f"{root}: there is no level 9 there", "UPDATE gate SET level = 9 WHERE incident = 2", "level 9"),
        row("gate-level", f"{root}: there is no level -1 there", "UPDATE gate SET level = -1 WHERE incident = 2", "level -1"),
        row("gate-level", f"{root}: there is no level 5 there", "UPDATE gate SET level = 5 WHERE incident = 2", "level 5 at a root"),
        row(
            "gate-level",
            f"gate incident 1, path {INDICATOR}: there is no level 6 there",
            f"UPDATE gate SET level = 6 WHERE path = '{INDICATOR}'",
            "level 6 at a class",
        ),
        row(
            "gate-group-missing",
            f"{root}: level 4 has a group, and none is named",
            "UPDATE gate SET level = 4 WHERE incident = 2",
            "level 4 without a group",
        ),
        row(
            "gate-group-beside",
            r"gate incident 3, path \(root\): level 3 has no group, and 1 is named",
            "UPDATE gate SET level = 3 WHERE incident = 3",
            "a group beside level 3",
        ),
        row("gate-group", f"{gate}: there is no group 6", f"UPDATE gate SET grp = 6 {at_class}", "a gate of no group"),
        row(
            "recipient-kind",
            "recipient incident 1, kind 2, target 1: there is no such kind",
            "UPDATE recipient SET kind = 2, target = 1 WHERE kind = 1",
            "a community as recipient",
        ),
        row(
            "recipient-kind",
            "recipient incident 1, kind -1, target 3: there is no such kind",
            "UPDATE recipient SET kind = -1 WHERE kind = 1",
            "a recipient of kind -1",
        ),
        row(
            "recipient-person",
            "recipient incident 1, kind 0, target 44: table person has no number 44",
            "UPDATE recipient SET target = 44 WHERE kind = 0",
            "a recipient that is nobody",
        ),
        row(
            "recipient-org",
            "recipient incident 1, kind 1, target 44: table org has no number 44",
            "UPDATE recipient SET target = 44 WHERE kind = 1",
            "a recipient that is no organisation",
        ),
        row(
            "permission-kind",
            f"permission incident 1, path {CLASS}, kind 4, target 3: there is no such kind",
            "UPDATE permission SET kind = 4 WHERE incident = 1",
            "a permission of kind 4",
        ),
        row(
            "permission-kind",
            f"permission incident 1, path {CLASS}, kind -1, target 3: there is no such kind",
            "UPDATE permission SET kind = -1 WHERE incident = 1",
            "a permission of kind -1",
        ),
        row(
            "permission-root",
            r"permission incident 1, path \(root\), .*: no permission is at the root",
            "UPDATE permission SET path = '' WHERE incident = 1",
            "a permission at the root",
        ),
        row(
            "gate-path",
            f"gate incident 1, path {CLASS}\\\\xff: {none}",
            f"UPDATE gate SET path = CAST(CAST(path AS BLOB) || x'ff' AS TEXT) {at_class}",
            "a gate at no UTF-8",
        ),
    ]
    for kind, table in enumerate(("person", "org", "community", "grp")):
        found.append(
            row(
                f"permission-{table}",
                f"permission incident 1, .*, kind {kind}, target 0: table {table} has no number 0",
                f"UPDATE permission SET kind = {kind}, target = 0 WHERE incident = 1",
                f"a permission for no {table}",
            )
        )
    for what, path in pointers:
        found += [
            row("gate-path", f"gate incident 1, path {path}: {none}", f"UPDATE gate SET path = '{path}' {at_class}", f"a gate at {what}"),
            row(
                "permission-path",
                f"permission incident 1, path {path}, .*: {none}",
                f"UPDATE permission SET path = '{path}' WHERE incident = 1",
                f"a permission at {what}",
            ),
        ]
    return found


def limits() -> list[Planted]:
    """One row more, where the table is full."""
    rows = {
        "org": "(1001, 'one more')",
        "person": "(10001, 1, 'one more', 3, randomblob(32), 1, 0)",
        "community": "(1001, 'one more')",
        "grp": "(1001, 2, 'one more', '', 1); INSERT INTO pair VALUES ('grp_member', 1001, 2, 1)",
        "incident": "(1000001, 2, 'one more', 1, NULL); INSERT INTO gate VALUES (1000001, '', 0, NULL)",
    }
    most = {"org": 1_000, "person": 10_000, "community": 1_000, "grp": 1_000, "incident": 1_000_000}
    return [
        Planted(
            f"one {table} more",
            f"INSERT INTO {table} VALUES {values}",
            [(f"{table}-limit", f"{table} number {most[table] + 1}: at most {most[table]} rows are allowed")],
            False,
            CROWDED if table == "incident" else FULL,
        )
        for table, values in rows.items()
    ]


# A store in which each table but that of incidents has as many rows as it may have, and an incident as much as one may have.
FILLED = [
    numbers("4 AND 1000", "org SELECT i, 'org ' || i"),
    numbers("4 AND 10000", "person SELECT i, 1, 'person ' || i, i % 4, randomblob(32), i % 2, i % 2"),
    numbers("3 AND 1000", "community SELECT i, 'community ' || i"),
    numbers("2 AND 1000", "grp SELECT i, 2, 'group ' || i, printf('%.512c', 'x'), i % 2"),
    numbers("2 AND 1000", "pair SELECT 'grp_member', i, 2, 1"),
    "UPDATE org SET name = printf('%.128c', 'x') WHERE number = 1",
    "UPDATE org SET name = 'é' WHERE number = 2",
    "INSERT INTO pair VALUES ('arrangement', 3, 2, 0), ('arrangement', 4, 2, 4)",
    "UPDATE incident SET revision = 1000000 WHERE number = 1",
    numbers("14", "gate SELECT 1, '/x/~0~1' || i, i % 4, NULL"),
    numbers("62", "recipient SELECT 1, 1, 3 + i"),
    numbers("63", f"permission SELECT 1, '{INDICATOR}', 1, 3 + i, NULL"),
]
CROWD = [
    numbers("4 AND 1000000", "incident SELECT i, 1, 'incident ' || i, 1, NULL"),
    numbers("4 AND 1000000", "gate SELECT i, '', 0, NULL"),
]
LAST = "(SELECT max(place) FROM item WHERE incident = {0})"
ODD_VALUE = "incident = 3 AND kind = 2 AND text = '[1,[]]'"
# Documents as long and as deep as they may be: in incident 1 32 classes in one another with a text in the last, in 2 all lines, in 3 a value.
LONGEST = [
    f"{numbers('32', f'item SELECT 1, i + {LAST.format(1)}, i, {chr(39)}zz{chr(39)}, 0, 0, {chr(39)}{chr(39)}')}",
    f"INSERT INTO item SELECT 1, max(place) + 1, 33, 'zz', 0, 1, 'text' FROM item WHERE incident = 1",
    numbers(f"4096 - {LAST.format(2)}", f"item SELECT 2, i + {LAST.format(2)}, 1, 'zz', 1, 1, ''"),
    f"UPDATE item SET text = '{'[' * 32}{']' * 32}' WHERE {ODD_VALUE}",
]


def lines() -> list[Planted]:
    label, inner, text = "name = 'restriction' AND depth > 2", "kind = 0 AND depth = 2", "kind = 1 AND depth > 3 AND name <> 'restriction'"
    none, odd = "its text is no value that a document holds", r"item incident 3, place \d+: "
    found = [
        item("line-missing", r"place \d+ is due here, so a line is missing", "DELETE FROM item", label, "a lost line"),
        item("line-first", "places count from 1", "UPDATE item SET place = 0", "place = 1", "place 0"),
        item("line-kind", "there is no kind 3 with in_array 0", "UPDATE item SET kind = 3", text, "kind 3"),
        item("line-kind", "there is no kind 1 with in_array 2", "UPDATE item SET in_array = 2", text, "in_array 2"),
        item("line-depth", "depth 4 can't be here, where 2 is the deepest", "UPDATE item SET depth = depth + 2", inner, "a line too deep"),
        item("line-depth", "depth 0 can't be here.*", "UPDATE item SET depth = 0", text, "depth 0"),
        item("line-utf8", "it is no UTF-8", "UPDATE item SET text = CAST(x'ff' AS TEXT)", text, "a text that is no UTF-8"),
        item("line-utf8", "it is no UTF-8", "UPDATE item SET name = CAST(x'ff' AS TEXT)", text, "a name that is no UTF-8"),
        item("line-class-text", "a class has no text", "UPDATE item SET text = 'x'", inner, "a class with a text"),
        item("member-order", ".* is behind zz", "UPDATE item SET name = 'zz'", inner, "a name out of order"),
        item("member-twice", "Contact is twice in one class", "UPDATE item SET in_array = 0", "name = 'Contact'", "two of one name"),
        item("label-unknown", r"class \w+: there is no label rad", "UPDATE item SET text = 'rad'", label, "a misspelt label"),
        item("label-text", r"class \w+: its label is no text", "UPDATE item SET kind = 2, text = '1'", label, "a label that is a number"),
        item("label-text", r"class \w+: its label is no text", "UPDATE item SET in_array = 1", label, "a label in an array"),
        Planted(
            "an ext-restriction alone",
            "UPDATE item SET name = 'restrictions' WHERE incident = 3 AND name = 'restriction'",
            [("label-missing", odd + "class a/b~: it has only an ext-restriction")],
            True,
        ),
        Planted(
            "an ext-value alone",
            "UPDATE item SET name = 'ext-restrictions' WHERE incident = 3 AND name = 'ext-restriction'",
            [("label-extension", odd + "class a/b~: its label is ext-value, and there is no ext-restriction")],
            True,
        ),
        Planted(
            "a value with a blank",
            f"UPDATE item SET text = '[1, []]' WHERE {ODD_VALUE}",
            [("value-compact", odd + "its text isn't compact JSON")],
            True,
        ),
        Planted(
            "arrays too deep",
            f"UPDATE item SET text = '{'[' * 33}{']' * 33}' WHERE {ODD_VALUE}",
            [("value-depth", odd + "its arrays are too deep")],
            True,
        ),
        Planted(
            "33 classes in one another",
            numbers("33", f"item SELECT 1, i + {LAST.format(1)}, i, 'zz', 0, 0, ''"),
            [("line-class-depth", r"item incident 1, place \d+: classes are at most 32 deep")],
            True,
        ),
        Planted(
            "4,097 lines",
            numbers(f"4097 - {LAST.format(2)}", f"item SELECT 2, i + {LAST.format(2)}, 1, 'zz', 1, 1, ''"),
            [("line-limit", "item incident 2, place 4097: a document has at most 4096 lines")],
            True,
        ),
    ]
    values = ("1.5", "1e3", '"x"', "{}", '[{"a":1}]', "nope", "NaN", "18446744073709551616", "-9223372036854775809", "")
    found += [
        Planted(f"the value {value}", f"UPDATE item SET text = '{value}' WHERE {ODD_VALUE}", [("value-none", odd + none)], True)
        for value in values
    ]
    return [*found, item("value-none", none, "UPDATE item SET kind = 2, text = '[1]'", text, "an array beside an array")]


def documents() -> list[Planted]:
    found = [
        Planted(
            "all lines lost",
            "DELETE FROM item WHERE incident = 2",
            [("document-empty", "incident number 2: its document has no line")],
            True,
        ),
        Planted(
            "lines of no incident",
            "INSERT INTO item SELECT 9, place, depth, name, in_array, kind, text FROM item WHERE incident = 2",
            [("document-number", "item incident 9: there is no such incident")],
            True,
        ),
        Planted(
            "two Incidents",
            "UPDATE item SET depth = 1, name = 'Incident', in_array = 1, kind = 0, text = '' WHERE incident = 3 AND place = (SELECT max(place) FROM item WHERE incident = 3)",
            [("document-incident", "item incident 3, place 1: its document has no array Incident of one class")],
            True,
        ),
        Planted(
            "an Incident in no array",
            "UPDATE item SET in_array = 0 WHERE incident = 2 AND name = 'Incident'",
            [("document-incident", "item incident 2, place 1: .*")],
            True,
        ),
        Planted(
            "another identity",
            "UPDATE incident SET ident = '{}' WHERE number = 2",
            [("document-ident", "incident number 2: its ident isn't the compact JSON of .*")],
            True,
        ),
        Planted(
            "a gate at no class",
            f"UPDATE gate SET path = '{CLASS}9' WHERE path = '{CLASS}'",
            [("gate-class", f"gate incident 1, path {CLASS}9: no class of the report is there")],
            True,
        ),
        Planted(
            "a permission at a text",
            "UPDATE permission SET path = '/Incident/0/purpose' WHERE incident = 3",
            [("permission-class", "permission incident 3, path /Incident/0/purpose: no class of the report is there")],
            True,
        ),
        # The texts are those of the tables of version 1.
        *(
            Planted(
                f"the text {text}",
                f"UPDATE incident SET text = '{text}' WHERE number = 2",
                [(rule, f"incident number 2: line 1 of its text: {wrong}")],
                True,
                VERSION_1,
            )
            for text, rule, wrong in (
                ("nope", "text-json", "its text is no JSON"),
                ("[]", "text-compact", ".*"),
                ('{"a": 1}', "text-compact", ".*"),
                ("{}", "document-empty", ".*"),
            )
        ),
    ]
    members = {"Contact": "contact", "GenerationTime": "GenerationTimes", "IncidentID": "IncidentIDs", "purpose": "purposes"}
    return found + [
        Planted(
            f"a lost {name}",
            f"UPDATE item SET name = '{other}' WHERE incident = 2 AND depth = 2 AND name = '{name}'",
            [("document-member", f"item incident 2, place \\d+: class Incident: it has no {name}")],
            True,
        )
        for name, other in members.items()
        if name != "Contact"
    ]


def all_breaks() -> list[Planted]:
    return [*names(), *directory(), *pairs(), *incidents(), *sharing(), *lines(), *documents(), *limits()]
