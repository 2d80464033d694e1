"""The cases of the engine: for each a report, a view description and what is asked, without the answers."""
from __future__ import annotations

import itertools
import json
from collections.abc import Iterator
from typing import Any

import drawing
import report as reports
from drawing import (
    CLEARED,
    ENDS,
    FIVE,
    NOW,
    PLAIN,
    SPELLINGS,
    TLP,
    Draws,
    Json,
    case,
    gate,
    incident,
    long,
    reader,
    report,
    short,
    spelled,
)

HANDLINGS = tuple(FIVE)
LATER = "2027-01-01T00:00:00Z"
CONTACT, EMAIL = "/Incident/0/Contact/0", "/Incident/0/Contact/0/Email/0"


def paths_of(made: Json, number: int = 0) -> list[str]:
    document = {**made, "Incident": [made["Incident"][number]]}
    return [reports.pointer(path) for path, _ in reports.classes(document)]


def the(made: object, view: object, *asks: Json) -> Json:
    """A case: a report and a view as values or as texts."""
    return {
        "report": made if isinstance(made, (str, list)) else reports.compact(made),
        **({"view_text": view} if isinstance(view, str) else {"view": view} if view is not None else {}),
        "asks": list(asks) or [{"call": "excerpt"}],
    }


def excerpt_and(*places: str) -> list[Json]:
    return [{"call": "excerpt"}, *({"call": "explain", "pointer": each} for each in places)]


# POLICY, "Labels"


def labels(draws: Draws) -> Iterator[Json]:
    """Each spelling of a label for each clearance; then labels nested in labels."""
    for spelling, cleared in itertools.product(SPELLINGS, HANDLINGS):
        made = report(incident([spelling], restriction="white"))
        yield the(made, short(draws.one([cleared] + [each for each in TLP if each[4:] == cleared])), *excerpt_and(CONTACT))
    for _ in range(150):
        levels = [dict(draws.one(SPELLINGS)) if draws.chance(1, 2) else drawing.label(draws) for _ in range(4)]
        made = report(incident([{**levels[1], "Email": [{**levels[2], "a": {**levels[3], "b": "needle"}}]}], **levels[0]))
        where = draws.one(("", "/a"))
        yield the(made, short(draws.one(HANDLINGS)), *excerpt_and(EMAIL + where), {"call": "finds", "text": "needle"})
    for spelling in SPELLINGS:
        made = report(incident([{**spelling, "Email": [{}]}, {}]), restriction="white", Extra=drawing.label(draws))
        yield the(made, None, {"call": "marks", "incident": 0})


# POLICY, "Clearance"


def five_contacts(**members: Any) -> Json:
    return report(incident(list(FIVE.values()), restriction="white", **members))


def clearance(draws: Draws) -> Iterator[Json]:
    """Each set of truths of a reader, with and without a named community."""
    for flags in itertools.product((False, True), repeat=6):
        for named in ({}, {"community": 2}):
            names = ("person", "nominated", "addressed", "client", "community", "peer")
            said = dict(zip(names, flags, strict=True))
            if not named and said["peer"] != said["community"]:
                continue
            view = long(case(**named), reader(**{name: value for name, value in said.items() if value or draws.chance(1, 4)}))
            yield the(five_contacts(), view, *excerpt_and(f"/Incident/0/Contact/{draws.below(5)}"))
    for _ in range(24):
        is_named = draws.chance(1, 2)
        view = long(case(**({"community": 7} if is_named else {})), drawing.some_reader(draws, is_named) | {"source": True, "org": 1})
        yield the(five_contacts(), view, *excerpt_and(f"/Incident/0/Contact/{draws.below(5)}"))


# POLICY, "Gates"

MEMBERSHIPS: tuple[Json, ...] = (
    {},
    {"groups": [4]},
    {"groups": [4], "active_groups": [4]},
    {"groups": [4, 5], "active_groups": [5]},
    {"groups": [5], "active_groups": [5]},
)


def gates(draws: Draws) -> Iterator[Json]:
    """Each level at the root and at a class for each relation of a reader to the source; then gates nested in gates."""
    shared: tuple[Json, ...] = (
        {},
        {"connected": True},
        {"community": True, "peer": True},
        {"community": True, "peer": True, "connected": True},
    )
    others: tuple[Json, ...] = ({}, {"person": True}, {"source": True, "org": 1}, {"nominated": True, "addressed": True, "client": True})
    for level, truths, other, membership in itertools.product(range(5), shared, others, MEMBERSHIPS):
        if level != 4 and membership != draws.one(MEMBERSHIPS[:3]):
            continue
        view = long(case(gate(level, "", 4 if level == 4 else None)), reader(**truths, **other, **membership))
        yield the(report(incident([{"restriction": "green"}], restriction="white")), view, *excerpt_and(CONTACT))
    for outer, inner, truths in itertools.product(range(5), range(6), shared):
        at = gate(inner, CONTACT, 4 if inner == 4 else None)
        view = long(case(gate(outer, "", 5 if outer == 4 else None), at), reader(**truths, **draws.one(MEMBERSHIPS)))
        yield the(report(incident([{"Email": [{}]}, {}], restriction="white")), view, *excerpt_and(EMAIL))
    for _ in range(110):
        yield nested_gates(draws)


def nested_gates(draws: Draws) -> Json:
    def some_gate(path: str) -> Json:
        level = draws.one((0, 1, 2, 3, 3, 4, 4, 5)) if path else draws.one((1, 2, 3, 3, 3, 4))
        return gate(level, path, 4 + draws.below(2) if level == 4 else None)

    made = report(
        incident([{"Email": [{"a": {"b": {}}}, {}]}, {}], restriction="white"), **({"Contact": {}} if draws.chance(1, 4) else {})
    )
    paths = ["/Incident/0", CONTACT, EMAIL, EMAIL + "/a", "/Incident/0/Contact/1", "/Incident/0/Contact/0/Email/1"]
    view = long(case(*map(some_gate, ["", *draws.some(paths, 4)])), drawing.some_reader(draws, False) | draws.one(MEMBERSHIPS))
    return the(made, view, *excerpt_and(EMAIL + draws.one(("", "/a", "/a/b")), CONTACT))


# POLICY, "Permissions"


def permissions(draws: Draws) -> Iterator[Json]:
    """Each kind of grantee, the reader among it or not, with each end; then several, above and below labels and gates."""
    grantees = (
        {"person": 9},
        {"person": 5},
        {"org": 5},
        {"org": 9},
        {"community": 3},
        {"community": 4},
        {"group": 4},
        {"group": 5},
        {"group": 6},
    )
    belongs = {"groups": [4, 5], "active_groups": [4], "communities": [3]}
    for grantee, end in itertools.product(grantees, (None, *ENDS[:3], LATER)):
        given = {"path": CONTACT, **grantee, **({"until": end} if end else {})}
        made = report(incident([{"restriction": "red", "Email": [{}]}, {}], restriction="white"))
        yield the(made, long(case(permissions=[given]), reader(**belongs), now=NOW), *excerpt_and(EMAIL))
    for end, now in itertools.product(ENDS, (NOW, draws.one(ENDS))):
        given = {"path": CONTACT, "org": 5, "until": end}
        yield the(report(incident([{}])), long(case(permissions=[given]), reader(), now=now), {"call": "explain", "pointer": CONTACT})
    for end, now in (
        ("0000-02-29T23:59:59Z", "0000-01-01T00:00:00Z"),
        ("1969-12-31T23:59:59Z", "1960-01-01T00:00:00Z"),
        ("0001-01-01T00:00:00Z", "0000-12-31T23:59:59Z"),
        ("2026-12-31T23:59:60Z", NOW),
    ):
        given = {"path": CONTACT, "org": 5, "until": end}
        yield the(report(incident([{}])), long(case(permissions=[given]), reader(), now=now), {"call": "explain", "pointer": CONTACT})
    every: list[Json] = [
        {kind: number}
        for kind, numbers in (("group", (11, 4)), ("community", (10, 3)), ("org", (5,)), ("person", (9,)))
        for number in numbers
    ]
    for _ in range(6):
        given_all = [{"path": place, **each} for each in every for place in (EMAIL, "/Incident/0", CONTACT) if draws.chance(2, 3)]
        of_all = {"groups": [11, 4], "active_groups": [11, 4], "communities": [10, 3]}
        made = report(incident([{"Email": [{}]}]))
        yield the(
            made, long(case(permissions=given_all), reader(**of_all)), {"call": "explain", "pointer": draws.one((EMAIL, EMAIL, CONTACT))}
        )
    for grantee, place in itertools.product(grantees[::2], ("/Incident/0", CONTACT, EMAIL, EMAIL + "/a")):
        made = report(incident([{"Email": [{"a": {"restriction": "private", "b": {}}}]}, {}]))
        yield the(made, long(case(permissions=[{"path": place, **grantee}]), reader(**belongs)), *excerpt_and(EMAIL, EMAIL + "/a/b"))
    for _ in range(150):
        labels = [drawing.label(draws) for _ in range(4)]
        made = report(incident([{**labels[1], "Email": [{**labels[2], "a": {**labels[3], "b": {}}}]}, {}], **labels[0]))
        places = ["/Incident/0", CONTACT, EMAIL, EMAIL + "/a", EMAIL + "/a/b", "/Incident/0/Contact/1"]
        made_case = drawing.some_case(draws, places)
        made_case["permissions"] = given = []
        for place in sorted({draws.one(places) for _ in range(3)}):
            given.append({"path": place, **draws.one(grantees), **({"until": draws.one(ENDS)} if draws.chance(1, 2) else {})})
        view = long(made_case, drawing.some_reader(draws, "community" in made_case) | belongs, now=NOW)
        yield the(made, view, *excerpt_and(EMAIL + draws.one(("", "/a", "/a/b"))))


# POLICY, "Labels": `default`


def defaults(draws: Draws) -> Iterator[Json]:
    for arrangement, (_, truths) in itertools.product((None, *HANDLINGS, *TLP), CLEARED.items()):
        made = report(incident([{"restriction": "default", "Email": [{}]}, {}], restriction=draws.one(("white", "default"))))
        said = {**truths, **({"arrangement": arrangement} if arrangement else {})}
        named = {"community": 1} if truths.get("peer") and draws.chance(1, 2) else {}
        yield the(made, long(case(**named), reader(**said)), *excerpt_and(EMAIL))
    for cleared in HANDLINGS:
        yield the(report(incident(restriction="default", Extra=[{"restriction": "white"}])), short(cleared), *excerpt_and("/Incident/0"))


# POLICY, "What the reader gets"


def excerpts(draws: Draws, count: int) -> Iterator[Json]:
    """The order of what is withheld; then reports of all forms, with gates, permissions and readers of all kinds."""
    made_ones = 0
    for made in ordered_places():
        yield the(made, short("CLEAR"), *excerpt_and("/Incident/0"))
        made_ones += 1
    while made_ones < count:
        made = drawing.some_report(draws)
        paths = paths_of(made)
        if len(reports.compact(made)) > 900:
            continue
        made_case = drawing.some_case(draws, paths)
        view: Json = long(made_case, drawing.some_reader(draws, "community" in made_case))
        if draws.chance(1, 4):
            view = short(draws.one(HANDLINGS[:4]))
        elif any("until" in each for each in made_case.get("permissions", [])):
            view["now"] = NOW
        asks = excerpt_and(*(draws.one(paths) for _ in range(draws.below(3))))
        if draws.chance(1, 3):
            asks.append(find(draws, draws.one(drawing.TEXTS[:8])))
        if draws.chance(1, 12):
            asks[0] = {"call": "document"}
        if draws.chance(1, 10):
            asks.append({"call": "marks", "incident": 0})
        yield the(spelled(draws, made), view, *asks)
        made_ones += 1


def ordered_places() -> Iterator[Json]:
    """Reports of which something is withheld at places whose order differs by text and by the report."""
    white, red, green = ({"restriction": each} for each in ("white", "red", "green"))
    yield report(incident([{**white, "a": red} for _ in range(12)], **white))
    yield report(incident([{**(green if each % 2 else red), "a": white} for each in range(12)], **white))
    names = ("p/q", "p0", "p~", "pa", "p", "p-", "P", "\u00e9", "\uffee", "\U0001d11e", "p!", "p\"")
    yield report(incident(**white, **{each: {**white, "a": red} for each in names}))
    yield report(incident(**white, **{each: {**red, "a": [white, red, green]} for each in names}))
    yield report(
        incident([], **{each: [{**red, "a": [white, green]}, {**white, "b": red}] for each in names[:5]}),
        **{each: {**red, "a": white} for each in names[5:]},
    )


def find(draws: Draws, text: str) -> Json:
    name = (
        {"class": draws.one(("Contact", "Email", "a", "", "Incident", "\u00e9", "x~y", "0", "EventData"))} if draws.chance(1, 2) else {}
    )
    return {"call": "finds", "text": text, **name}


def finding(draws: Draws) -> Iterator[Json]:
    """Search looks only at texts that visible classes directly hold."""
    texts = ("needle", "a needle here", "Needle", "nee dle", "needl", "", "\u00e9needle\u00e9")
    for _ in range(110):
        node: Json = {draws.one(("a", "b", "Z")): draws.one((draws.one(texts), [draws.one(texts), 1], 5, None, ["x", draws.one(texts)]))}
        holder: Json = (
            {**drawing.label(draws), **node}
            if draws.chance(2, 3)
            else {draws.one(("Email", "", "\u00e9")): {**drawing.label(draws), **node}}
        )
        made = report(incident([holder, {"Email": [{**drawing.label(draws), "EmailTo": draws.one(texts)}]}], **drawing.label(draws)))
        if draws.chance(1, 4):
            made["note"] = "needle"
        asks = [find(draws, draws.one(("needle", "eed", "Nee", "need", "\u00e9n", "green", "restriction", "")))]
        asks.append({"call": "finds", "text": "needle", "class": draws.one(("Contact", "Email", "", "\u00e9"))})
        yield the(made, short(draws.one(HANDLINGS)), *asks)


# Several Incidents: the document of each has the root's other members


def several(draws: Draws) -> Iterator[Json]:
    for _ in range(60):
        count = 1 + draws.below(4)
        made = report(
            *(incident([drawing.label(draws)], **drawing.label(draws), at=each) for each in range(count)),
            Extra={**drawing.label(draws)},
            v=1,
        )
        number = draws.below(count + 1)
        asks = (
            [{"call": "marks", "incident": number}] if draws.chance(1, 3) else excerpt_and(draws.one((CONTACT, "/Extra", "/Incident/1")))
        )
        yield the(made, None if asks[0]["call"] == "marks" else short(draws.one(HANDLINGS), incident=number), *asks)
    for count in (16, 17):
        made = report(*({"Contact": 0, "GenerationTime": 0, "IncidentID": {}, "purpose": 0} for _ in range(count)))
        yield the(made, short("RED", incident=15))


# POLICY, "Labels": the marking rule


def marking(draws: Draws) -> Iterator[Json]:
    """Classes that break the rule, and their neighbours that keep it."""
    kept: tuple[Json, ...] = (
        {"restriction": "ext-value", "ext-restriction": ""},
        {"restriction": "red", "ext-restriction": "x"},
        {"Restriction": 5},
        {"ext-purpose": []},
    )
    broken: tuple[Json, ...] = (
        *(
            {"restriction": each}
            for each in ("TLP:AMBER", "Green", "GREEN", " green", "green ", "", "ext", "need to know", "clear", "strict", "secret")
        ),
        *({"restriction": each} for each in (0, True, None, [], ["green"], {}, [{"a": 1}], {"restriction": "green"})),
        {"restriction": "ext-value"},
        {"ext-restriction": "TLP:GREEN"},
        {"ext-restriction": ""},
        *(
            {"restriction": draws.one(("ext-value", "green")), "ext-restriction": each}
            for each in (0, False, None, [], ["x"], {}, {"a": "b"}, [{}])
        ),
    )
    for node in (*broken, *kept):
        yield the(report(incident([{}, node], restriction="white")), short("RED"), *excerpt_and("/Incident/0/Contact/1"))
        place = draws.below(3)
        others = [incident([{}], restriction="white") for _ in range(3)]
        others[place][draws.one(("a", "EventData"))] = draws.one((node, [node], {"b": node}, [1, {"c": [node]}]))
        yield the(report(*others, **({"Extra": draws.one(kept)} if draws.chance(1, 2) else {})), short("CLEAR", incident=draws.below(3)))
    for _ in range(40):
        made = report(incident([dict(draws.one((*kept, *broken, {}, {}))) for _ in range(3)]), incident([draws.one((*kept, *broken))]))
        made["Incident"][0] |= draws.one((*kept, {}, {}, {"restriction": "green"}, {"restriction": "tlp:green"}))
        if draws.chance(1, 3):
            made[draws.one(("Extra", "Z", "a"))] = draws.one((draws.one(broken), [draws.one(kept)]))
        asks = [{"call": "marks", "incident": 0}] if draws.chance(1, 2) else excerpt_and()
        yield the(spelled(draws, made), None if asks[0]["call"] == "marks" else short("GREEN"), *asks)


# REDACT, "A view description" and "Faults"

LONG_VIEW: Json = {
    "now": NOW,
    "incident": 0,
    "case": {
        "source": 1,
        "community": 2,
        "gates": [gate(3), gate(4, CONTACT, 4), gate(1, EMAIL)],
        "permissions": [{"path": CONTACT, "org": 5, "until": LATER}, {"path": EMAIL, "group": 4}, {"path": CONTACT, "person": 9}],
    },
    "reader": {
        "who": 9,
        "org": 5,
        "nominated": True,
        "client": True,
        "community": True,
        "peer": False,
        "arrangement": "AMBER",
        "groups": [4, 5],
        "active_groups": [4],
        "communities": [2],
    },
}
VIEWED = report(incident([{"restriction": "default", "Email": [{}]}], restriction="white"))


def faults_of_the_view(draws: Draws) -> Iterator[Json]:
    """A view with one member exchanged, removed or added; then with several, and a report that has a fault too."""
    for _, change in every_change(draws):
        yield the(VIEWED, changed([change]), {"call": "excerpt"})
    for change in every_short():
        yield the(VIEWED, change, {"call": "excerpt"})
    for text in texts_of_views():
        yield the(VIEWED, text, {"call": "excerpt"})
    for view in views_of_two_faults():
        yield the(VIEWED, view, {"call": "excerpt"})
    for view in neighbours_of_wrong_kinds():
        yield the(VIEWED, view)
    for _ in range(20):
        view = json.loads(json.dumps(LONG_VIEW))
        inner = draws.one(
            (view, view["case"], view["case"]["gates"][1], view["case"]["permissions"][draws.below(2)], view["reader"], view["reader"])
        )
        names = draws.one((list(inner), list(inner), view_members(inner)))
        for _ in range(2):
            name = draws.one(names)
            inner[name] = draws.one((None, None, "~", "x")) if name in inner else draws.one((None, 7))
        yield the(VIEWED, view if draws.chance(2, 3) else json.dumps(dict(reversed(view.items()))))
    changes = [change for _, change in every_change(draws)]
    broken = (
        "{",
        "[]",
        '{"Incident":[{}]}',
        reports.compact(report(incident([{"restriction": "x"}]))),
        reports.compact(report(incident(a=[[{}]]))),
    )
    for _ in range(90):
        view = changed([draws.one(changes) for _ in range(2 + draws.below(2))])
        asks = [
            {"call": "explain", "pointer": draws.one((CONTACT, "Contact", "/~2"))}
            if draws.chance(1, 3)
            else {"call": draws.one(("excerpt", "whole"))}
        ]
        yield the(draws.one(broken) if draws.chance(1, 3) else VIEWED, view, *asks)


def view_members(inner: Json) -> list[str]:
    """The members that an object of a view may have."""
    for one, names in (("who", drawing.TRUTHS), ("until", drawing.GRANTEES), ("gates", ("community", "permissions"))):
        if one in inner:
            return list(names)
    return list(inner)


Change = tuple[tuple[Any, ...], Any]
GONE = object()


def every_change(draws: Draws) -> Iterator[tuple[str, Change]]:
    """Each member gone; each of a wrong kind; numbers, levels, lists and words at and beyond their ends; paths and moments."""
    for number, path in enumerate(members_of(LONG_VIEW)):
        yield "gone", (path, GONE)
        yield "kind", (path, None if number % 2 else 7 if isinstance(at(LONG_VIEW, path), str) else "x")
    for path in ((), ("case",), ("case", "gates", 0), ("case", "permissions", 1), ("reader",)):
        for name in ("Z", "clearance", "level", ""):
            if not (path[-2:] == ("gates", 0) and name == "level"):
                yield "unknown", ((*path, name), 1)
    for path in (
        ("incident",),
        ("case", "source"),
        ("case", "community"),
        ("case", "gates", 1, "group"),
        ("case", "permissions", 1, "group"),
        ("reader", "who"),
        ("reader", "org"),
        ("reader", "groups", 0),
        ("reader", "communities", 0),
    ):
        for number in (2**32 - 1, 2**32, -1, 0):
            yield "number", (path, number)
    for level in range(-1, 8):
        yield "level", (("case", "gates", 0, "level"), level)
        yield "level", (("case", "gates", 2, "level"), level)
        yield "level", (("case", "gates", 1, "level"), level)
    yield "group", (("case", "gates", 0, "group"), 4)
    yield "grantees", (("case", "permissions", 0, "person"), 9)
    yield "truth", (("reader", "source"), True)
    yield "truth", (("reader", "source"), False)
    yield "truth", (("reader", "peer"), 1)
    yield "active", (("reader", "active_groups"), [4, 6])
    yield "groups", (("reader", "groups"), [5])
    for word in ("CLEAR", "GREEN", "STRICT", "RED", *TLP, "clear", "TLP:STRICT", "tlp:green", "", "WHITE"):
        yield "word", (("reader", "arrangement"), word)
    for path in (
        "",
        "/",
        "Incident",
        "/Incident/0/",
        "/Incident/00",
        "/Incident",
        "/Incident/0/Contact",
        "/Incident/0/purpose",
        "/~",
        "/~2",
        "/a~0b~1",
        "/Incident/1",
        "/Incident/0/Contact/-",
        "/Incident/0/Contact/1",
        "#/Incident/0",
        "/Incident~10",
        EMAIL,
        CONTACT,
        "/~0~",
        "/~01",
    ):
        yield "path", (("case", "gates", 2, "path"), path)
        yield "path", (("case", "permissions", 1, "path"), path)
    for text in (
        *ENDS,
        "2026-06-01",
        "2026-06-01T00:00:00",
        "2026-13-01T00:00:00Z",
        "2026-02-29T00:00:00Z",
        "2026-06-01T24:00:00Z",
        "2026-06-01T00:60:00Z",
        "2026-06-01T00:00:61Z",
        "2026-06-01T00:00:00.5Z",
        "2026-06-01T00:00:00+00:60",
        "2026-06-01T00:00:00+24:00",
        "2026-06-01T00:00:00+23:59",
        "2026-06-01T00:00:00.000000000Z",
        "2026-06-01T00:00:00.0000000000Z",
        "2026-06-01T00:00:00.Z",
        "2026-06-01T00:00:00,0Z",
        "9999-12-30T22:00:01Z",
        "9999-12-31T00:00:00+02:01",
        "0000-01-01T00:00:00Z",
        "0000-02-29T23:59:59-01:00",
        "2100-02-29T00:00:00Z",
        "2026-06-01 00:00:00Z",
        "2026-06-01T00:00:00Z[UTC]",
        "20260601T000000Z",
        "2026-06-01T00:00:00+0200",
        "2026-06-01T00:00:00+02",
        "+002026-06-01T00:00:00Z",
        " 2026-06-01T00:00:00Z",
        "2026-06-01T00:00:00Z ",
        "2026-06-01T00:00:0\u0660Z",
        "now",
        "",
        "1780000000",
        "2026-6-1T00:00:00Z",
    ):
        yield "moment", (draws.one((("now",), ("case", "permissions", 0, "until"))), text)
    yield "many", (("case", "gates"), [gate(3), *(gate(5, f"/Incident/0/a{each}") for each in range(16))])
    yield "many", (("case", "gates"), [gate(3), *(gate(5, f"/Incident/0/a{each}") for each in range(17))])
    yield "many", (("case", "permissions"), [{"path": CONTACT, "org": each} for each in range(64)])
    yield "many", (("case", "permissions"), [{"path": CONTACT, "org": each} for each in range(65)])
    for name in ("groups", "communities"):
        yield "many", (("reader", name), [*range(1000)])
        yield "many", (("reader", name), [*range(1001)])
    yield "twice", (("case", "gates", 1, "path"), EMAIL)
    yield "twice", (("case", "permissions", 2), {"path": CONTACT, "org": 5})
    yield "twice", (("case", "gates"), [gate(3), gate(3)])
    yield "none", (("case", "gates"), [])
    yield "none", (("case", "gates"), [gate(3, CONTACT)])


def views_of_two_faults() -> Iterator[Json]:
    """What gates and permissions, or the reader's truths, break together, beside a path or a moment that is at fault."""
    root, other, late = gate(3), gate(3, "x"), "2026-02-29T00:00:00Z"
    twice, ended = [{"path": CONTACT, "org": 5}] * 2, {"path": CONTACT, "org": 6, "until": late}
    pairs: tuple[tuple[list[Json], list[Json]], ...] = (
        ([root], [*twice, ended]),
        ([root], [{"path": CONTACT, "org": 5, "until": late}, twice[0]]),
        ([root], [{"path": "x", "org": 5}] * 2),
        ([root, other], twice),
        ([root, other, other], []),
        ([root, gate(3, CONTACT), gate(3, CONTACT), other], []),
        ([root, root], [ended]),
        ([root, root], [{"path": "x", "org": 5}]),
        ([other], []),
        ([other, other], []),
        ([root], [{"path": CONTACT, "org": 5, "person": 1}, ended]),
        ([gate(9)], [ended]),
        ([root, other], [*twice, ended]),
        ([root], [{"path": CONTACT, "org": each, "until": late} for each in range(65)]),
        ([root, *(gate(3, f"x{each}") for each in range(17))], []),
    )
    for listed, given in pairs:
        yield long(case(*listed, permissions=given), reader(), now=NOW)
    for members, now in itertools.product(
        ({"peer": True}, {"active_groups": [3]}, {"arrangement": "x"}, {"org": 1, "peer": True}, {"org": 1}), (NOW, late)
    ):
        yield long(case(), reader(**members), now=now)
    for listed, given in (pairs[0], pairs[3], ([root], twice), ([root, root], []), ([root, other], []), ([root], [ended])):
        yield long(case(*listed, permissions=given), reader(**{"org": 1} if len(given) > 2 else {"peer": True}), now=NOW)


def neighbours_of_wrong_kinds() -> Iterator[Json]:
    """Each two neighbours of the tables of a view, both of a wrong kind, the later one first in the text."""
    tables: tuple[tuple[tuple[Any, ...], tuple[str, ...]], ...] = (
        ((), ("now", "incident", "case", "reader")),
        (("case",), ("source", "community", "gates", "permissions")),
        (("case", "gates", 1), ("path", "level", "group")),
        (("case", "permissions", 0), ("path", *drawing.GRANTEES, "until")),
        (("reader",), (*drawing.TRUTHS, "who", "org", "arrangement", "groups", "active_groups", "communities")),
    )
    for path, names in tables:
        for one, other in itertools.pairwise(names):
            view: Json = json.loads(json.dumps(LONG_VIEW))
            inner = at(view, path)
            kept = {name: value for name, value in inner.items() if name not in (one, other)}
            inner.clear()
            inner.update({other: None, one: None, **kept})
            yield view
    yield {"now": None, "incident": None, "clearance": "RED"}
    yield {"incident": None, "clearance": None}


def members_of(value: Any, path: tuple[Any, ...] = ()) -> Iterator[tuple[Any, ...]]:
    items = value.items() if isinstance(value, dict) else enumerate(value) if isinstance(value, list) else ()
    for name, inner in items:
        yield (*path, name)
        yield from members_of(inner, (*path, name))


def at(value: Any, path: tuple[Any, ...]) -> Any:
    for step in path:
        value = value[step]
    return value


def changed(changes: list[Change]) -> Json:
    """The long view with these changes; one whose place another took away is left out."""
    view: Json = json.loads(json.dumps(LONG_VIEW))
    for path, value in changes:
        try:
            inner = at(view, path[:-1])
            if value is not GONE:
                inner[path[-1]] = value
            else:
                del inner[path[-1]]
        except (KeyError, IndexError, TypeError):
            continue
    return view


def every_short() -> Iterator[Json]:
    for word in (*HANDLINGS, *TLP, "", "green", "tlp:green", "TLP:STRICT", "WHITE", "PRIVATE"):
        yield short(word)
    for value in (None, 1, True, [], {}, ["GREEN"]):
        yield {"clearance": value}
    for number in (0, 1, 2**32 - 1, 2**32, -1, "0", None, True):
        yield short("GREEN", incident=number)
    for text in (NOW, "", "soon", None, 5):
        yield short("GREEN", now=text)
    for name in ("case", "reader", "level", "Clearance"):
        yield short("GREEN", **{name: {}})


def texts_of_views() -> Iterator[str]:
    yield from (
        "",
        " ",
        "{",
        "null",
        "[]",
        "7",
        '"GREEN"',
        "true",
        "{}",
        "[{}]",
        '{"clearance":"GREEN"} x',
        '\ufeff{"clearance":"GREEN"}',
        "{'a':1}",
    )
    yield from (
        '{"clearance":"GREEN",}',
        '{"clearance":"GREEN","clearance":"GREEN"}',
        '{"clearance":"\\u0047REEN"}',
        '{"clearance":NaN}',
        ' {"clearance" : "GREEN"}\n',
    )
    yield from ('{"clearance":"GREEN","x":{"a":1,"a":2}}', '[{"a":1,"a":2}]', '{"case":1,"case":2}', '{"a":[[{"b":1,"\\u0062":2}]]}')
    for depth in (126, 127, 128, 129):
        yield '{"x":' + "[" * (depth - 1) + "]" * (depth - 1) + "}"
        yield "[" * depth + "]" * depth


# HTTP, "Details of `B1`"; REDACT, "Faults" 13 to 19


def faults_of_the_report(draws: Draws) -> Iterator[Json]:
    white = {"restriction": "white"}
    for text in (
        "",
        " ",
        "{",
        "[]",
        "null",
        "7",
        "{}",
        '{"Incident":[]}',
        '{"Incident":{}}',
        '{"Incident":[1]}',
        '{"Incident":[{}]}',
        '{"Incident":[[{}]]}',
        '{"Incident":null}',
        '{"incident":[]}',
        '{"Incident":[{},1]}',
        "\ufeff{}",
        "{'a':1}",
        '{"a":01}',
        '{"a":1,}',
        '{"a":"\t"}',
        '{"a":"\\x"}',
        '{"a":NaN}',
        '{"a":1e999}',
        '{"a":-1e999}',
        '{"Incident":[{}]} ',
        '{"Incident":[{}]}]',
        '{"a":"\\ud834"}',
        '{"\\udd1e":1}',
        '{"a":["\\ud834"]}',
        '{"a":{"b":[["\\udfff"]]}}',
        '{"a":"\\udd1e\\ud834"}',
        '{"a":.5}',
        '{"a":1.}',
        '{"a":+1}',
        "nul",
        '{"a":' + "9" * 400 + "}",
    ):
        yield the(text, short("RED"))
    numbers = (
        "1.5",
        "1.0",
        "-0",
        "0.0",
        "-0.0",
        "1e3",
        "1E3",
        "0e999",
        "9223372036854775808",
        "18446744073709551615",
        "18446744073709551616",
        "-9223372036854775808",
        "-9223372036854775809",
        "1e999",
        "0",
        "-1",
        "1e-999",
    )
    for number in numbers:
        text = reports.compact(report(incident([{}], **white, a=["@"])))
        yield the(text.replace('"@"', number), short("RED"), *draws.one((excerpt_and(), [{"call": "marks", "incident": 0}])))
    for names in itertools.product((False, True), repeat=4):
        made = incident()
        for name, is_there in zip(("Contact", "GenerationTime", "IncidentID", "purpose"), names, strict=True):
            if not is_there:
                del made[name]
        yield the(report(incident(**white), made), short("RED", incident=1))
    for _ in range(60):
        made = report(incident([{}], **white), incident([{}, {}]))
        for _ in range(1 + draws.below(3)):
            spoil(draws, made)
        yield the(spelled(draws, made).replace('"@"', "0.5"), short("RED", incident=draws.below(2)))
    yield from limits(draws)


def spoil(draws: Draws, made: Json) -> None:
    """One fault more."""
    place = draws.one((made, made["Incident"][0], made["Incident"][1], {}))
    kind = draws.below(6)
    if kind == 0:
        place[draws.one(("a", "Z"))] = draws.one(("@", ["@"], {"b": "@"}, [["@"]]))
    elif kind == 1:
        place[draws.one(("b", "Y"))] = draws.one(([[{}]], [[1, {}]], [[[{}]]], [1, [{}]], [[]], {"c": [[{}]]}))
    elif kind == 2:
        made["Incident"][draws.below(2)].pop(draws.one(("Contact", "GenerationTime", "IncidentID", "purpose")), None)
    elif kind == 3:
        made["Incident"].append(draws.one((1, None, [])))
    elif kind == 4:
        place["c"] = {"restriction": draws.one(("x", "green"))}
    else:
        made["d"] = nest_arrays(draws.one((31, 32, 33, 34)))


def nest_arrays(depth: int) -> Any:
    made: Any = []
    for _ in range(depth - 1):
        made = [made]
    return made


def nest_objects(depth: int, inmost: Any) -> Any:
    for _ in range(depth):
        inmost = {"a": inmost}
    return inmost


def limits(draws: Draws) -> Iterator[Json]:
    """At each limit and just beyond it. A long report is a list of texts, each with how often it is written."""
    white = {"restriction": "white"}
    for text in ("[" * 200, "[\"" * 150, "[\\" * 150, "{]" * 150, "\\\"[" * 130):
        yield the(report(incident(**white, note=text)), short("CLEAR"), {"call": "finds", "text": "[", "class": "Incident"})
    for depth in (31, 32, 33, 34):
        yield the(report(incident(**white, a=nest_arrays(depth))), short("RED"))
        yield the(report(incident(**white), a=[nest_arrays(depth), 1]), short("RED"))
    for depth in (28, 29, 30, 31):
        yield the(report(incident(**white, a=nest_objects(depth, 1))), short("CLEAR"), {"call": "explain", "pointer": "/Incident/0"})
        yield the(report(incident(**white, a=nest_objects(depth, {}))), short("CLEAR"), {"call": "explain", "pointer": "/Incident/0"})
        yield the(report(incident(**white, a=nest_objects(depth, []))), short("CLEAR"), {"call": "explain", "pointer": "/Incident/0"})
    for depth in (121, 122, 123, 124, 125, 126, 127, 128):
        yield the("[" * depth + "]" * depth, short("RED"))
        yield the('{"Incident":[' + '{"a":' * (depth - 2) + "1" + "}" * (depth - 2) + "]}", short("RED"))
    text = reports.compact(report(incident([{"restriction": "white"}], b=["@"]), v=1))
    here = reports.lines(json.loads(text)) - 1
    before, _, after = text.partition('"@"')
    for filler, tail in (("0,", "0"), ("[],", "[]"), ("{},", "{}"), ('[1,"x"],', "1")):
        for count in (4096, 4097):
            times = count - here - 1
            yield the([[before, 1], [filler, times], [tail + after, 1]], short("CLEAR"), {"call": "explain", "pointer": CONTACT})
    # an array without an element beside as many lines as there may be
    for empty in ("[]", "[[]]", "0"):
        inner, _, rest = after.partition('"purpose"')
        yield the(
            [[before, 1], ["0,", 4096 - here - 1], ["0" + inner + '"c":' + empty + ',"purpose"' + rest, 1]],
            short("CLEAR"),
            {"call": "explain", "pointer": CONTACT},
        )
    # lines of the root count for each Incident, and those of another Incident don't
    for count, side in ((4000, 300), (2000, 2500)):
        two = reports.compact(report(incident(b=["@"], **white), incident(b=["#"])))
        first, _, rest = two.partition('"@"')
        second, _, third = rest.partition('"#"')
        yield the(
            [[first, 1], ["0,", count], ["0" + second, 1], ["0,", side], ["0" + third, 1]],
            short("CLEAR", incident=1),
            {"call": "marks", "incident": 0},
        )
        one = reports.compact(report(incident(b=["@"], **white), c=["#"]))
        first, _, rest = one.partition('"@"')
        second, _, third = rest.partition('"#"')
        yield the(
            [[first, 1], ["0,", count], ["0" + second, 1], ["0,", side], ["0" + third, 1]],
            short("CLEAR"),
            {"call": "marks", "incident": 0},
        )


# REDACT, `--whole`


def whole(draws: Draws) -> Iterator[Json]:
    """Reports of which what a report must have is withheld or not, with an IncidentID for it or without."""
    for _ in range(60):
        made = incident(
            [
                {**drawing.label(draws), **draws.one(({}, {"role": "creator"}, {"type": "person", "Email": [{"restriction": "white"}]}))}
                for _ in range(1 + draws.below(2))
            ]
        )
        made |= drawing.label(draws) | ({"EventData": [{"restriction": "white"}]} if draws.chance(1, 2) else {})
        made["IncidentID"] |= draws.one(
            ({}, {"restriction": "red"}, {"restriction": "white"}, {"restriction": "red", "a": {"restriction": "white"}})
        )
        view = short(draws.one(HANDLINGS), **({} if draws.chance(1, 12) else {"now": draws.one((NOW, "2026-06-01T02:00:00+02:00"))}))
        given = {} if draws.chance(1, 4) else {"id": draws.one(("7", "a\"b", "\u00e9")), "id_name": draws.one(("x.example", ""))}
        yield the(report(made, **draws.one(({}, {"Extra": {"restriction": "white"}}))), view, {"call": "whole", **given})
    yield from labels_added()


def labels_added() -> Iterator[Json]:
    """An excerpt that a label makes too deep or too long for a report."""
    asks: list[Json] = [{"call": "excerpt"}, {"call": "whole", "id": "7", "id_name": "x.example"}]
    for depth in (29, 30):
        place = "/Incident/0/a" + "/a" * depth
        view = long(case(permissions=[{"path": place, "org": 5}]), reader(), now=NOW)
        yield the(report(incident(restriction="red", a=nest_objects(depth, {}))), view, *asks, {"call": "explain", "pointer": place})
    text = reports.compact(report(incident(b=["@"])))
    times = 4096 - reports.lines(json.loads(text))
    before, _, after = text.partition('"@"')
    for count in (times - 1, times):
        yield the([[before, 1], ["0,", count], ["0" + after, 1]], short("RED", now=NOW), *asks)


def all_cases(seed: str, count: int) -> dict[str, list[Json]]:
    """The cases of each file, each file by a seed of its own. There are as many reports of all forms as the others leave."""
    kinds = {
        "labels": labels,
        "clearance": clearance,
        "gates": gates,
        "permissions": permissions,
        "defaults": defaults,
        "finds": finding,
        "several": several,
        "marking": marking,
        "view-faults": faults_of_the_view,
        "report-faults": faults_of_the_report,
        "whole": whole,
    }
    made = {name: list(cases(Draws(f"{seed} {name}"))) for name, cases in kinds.items()}
    made["excerpts"] = list(excerpts(Draws(f"{seed} excerpts"), count - sum(map(len, made.values()))))
    return made
