"""The cases of the hub: a circle, and requests with their replies."""
from __future__ import annotations

import copy
import hashlib
import urllib.parse
from collections.abc import Iterator
from typing import Any

import drawing
import report as reports
from drawing import FIVE, Draws, Json, incident, report
from hub import Hub, Person
from view import moment

# The moment of all requests. No end is near it.
NOW = 1_790_000_000
ENDS = ("2001-01-01T00:00:00Z", "9999-12-30T22:00:00Z", "2001-01-01T02:00:00+02:00", "2099-12-31T23:59:60Z")

# An organisation, a person, a community and a group have their places in the lists as numbers, from 1.
CIRCLE: Json = {
    "orgs": ["Hub", "Bank", "Telco", "University", "Energy", "Shop", "Depot", "Ministry"],
    "persons": [  # organisation, name, role
        [1, "admin", "administrator"],
        [2, "Ada", "coordinator"],
        [3, "Ben", "coordinator"],
        [4, "Cleo", "coordinator"],
        [5, "Dora", "coordinator"],
        [6, "Emil", "coordinator"],
        [7, "Fay", "coordinator"],
        [8, "Gus", "reader"],
        [2, "Hal", "reader"],
        [2, "Ida", "poster"],
        [3, "Jo", "reader"],
        [6, "Kim", "reader"],
        [7, "Lea", "poster"],
        [4, "Max", "reader"],
        [3, "Nil", "reader"],
        [8, "Ora", "administrator"],
    ],
    "communities": [["payments", [2, 3]], ["power", [5, 3]], ["campus", [4]], ["shops", [6, 2]]],
    "links": [[1, 3], [4, 2]],
    "clients": [[2, 6], [3, 7], [6, 7]],
    "groups": [  # owner, name, releasability, each further member with its extend flag, active
        [2, "phishing", "members only", [[3, 0], [5, 1]], 1],
        [3, "grid", "", [[2, 1]], 0],
        [2, "quiet", "\u00e9\n", [[4, 0]], 0],
        [5, "phishing", "x", [], 1],
    ],
    "nominated": [3, 11, 12, 13, 14],
    "arrangements": [[2, 3, "GREEN"], [2, 6, "AMBER"], [3, 2, "STRICT"]],
    "suspended": [15],
}

# Each request: its method, its path, and whether its arguments are in the query or in a form
ROUTES: dict[str, tuple[str, str, str]] = {
    "View": ("GET", "/incidents/{number}", "query"),
    "List": ("GET", "/incidents", "query"),
    "Search": ("GET", "/search", "query"),
    "Addressed": ("GET", "/me/addressed", "query"),
    "MyGroups": ("GET", "/me/groups", "query"),
    "MyCommunities": ("GET", "/me/communities", "query"),
    "Sharing": ("GET", "/incidents/{number}/sharing", "query"),
    "NewKey": ("POST", "/me/key", "form"),
    "WhoAmI": ("GET", "/me", "query"),
    "Explain": ("GET", "/explain", "query"),
    "Post": ("POST", "/incidents", "query"),
    "Replace": ("PUT", "/incidents/{number}", "query"),
    "Redistribute": ("POST", "/incidents/{number}/gate", "form"),
    "Address": ("POST", "/incidents/{number}/address", "form"),
    "Unaddress": ("POST", "/incidents/{number}/unaddress", "form"),
    "Grant": ("POST", "/incidents/{number}/grant", "form"),
    "Withdraw": ("POST", "/incidents/{number}/withdraw", "form"),
    "AddOrg": ("POST", "/orgs", "form"),
    "AddPerson": ("POST", "/persons", "form"),
    "SuspendPerson": ("POST", "/persons/{number}/suspend", "form"),
    "AddClient": ("POST", "/orgs/{number}/clients", "form"),
    "RemoveClient": ("POST", "/orgs/{number}/clients/remove", "form"),
    "AddCommunity": ("POST", "/communities", "form"),
    "Join": ("POST", "/communities/{number}/join", "form"),
    "Leave": ("POST", "/communities/{number}/leave", "form"),
    "Link": ("POST", "/communities/{number}/link", "form"),
    "Unlink": ("POST", "/communities/{number}/unlink", "form"),
    "NewGroup": ("POST", "/groups", "form"),
    "GroupAdd": ("POST", "/groups/{number}/add", "form"),
    "GroupRemove": ("POST", "/groups/{number}/remove", "form"),
    "GroupActive": ("POST", "/groups/{number}/active", "form"),
    "Arrange": ("POST", "/arrangements", "form"),
    "CancelArrange": ("POST", "/arrangements/cancel", "form"),
    "Nominate": ("POST", "/persons/{number}/nominate", "form"),
    "Unnominate": ("POST", "/persons/{number}/unnominate", "form"),
}


def key_of(person: int) -> str:
    return f"key-{person}"


def digest(key: str) -> str:
    return hashlib.sha256(key.encode()).hexdigest()


def made_hub(circle: Json) -> Hub:
    """A hub with a circle, as its requests make it."""
    hub = Hub(circle["orgs"][0], digest(key_of(1)))
    hub.orgs = dict(enumerate(circle["orgs"], 1))
    hub.persons = {
        number: Person(org, name, role, digest(key_of(number))) for number, (org, name, role) in enumerate(circle["persons"], 1)
    }
    hub.communities = {number: name for number, (name, _) in enumerate(circle["communities"], 1)}
    hub.members = {(number, org) for number, (_, orgs) in enumerate(circle["communities"], 1) for org in orgs}
    hub.links = {(min(pair), max(pair)) for pair in circle["links"]}
    hub.clients = {(org, client) for org, client in circle["clients"]}
    for owner, name, releasability, members, active in circle["groups"]:
        # as coordinators ask for it
        founder = next(number for number, each in hub.persons.items() if each.org == owner and each.role == "coordinator")
        number = len(hub.groups) + 1
        asks: list[tuple[str, Json]] = [("NewGroup", {"name": name, "releasability": releasability})]
        asks += [("GroupAdd", {"number": number, "org": org, "extend": flag}) for org, flag in members]
        asks += [] if active else [("GroupActive", {"number": number, "active": 0})]
        for request, given in asks:
            assert hub.answer(digest(key_of(founder)), request, given, NOW)[0] == 200
    for number in circle["nominated"]:
        hub.persons[number].is_nominated = True
    hub.arrangements = {(source, org): handling for source, org, handling in circle["arrangements"]}
    for number in circle["suspended"]:
        hub.persons[number].is_active = False
    return hub


def sent(by: int, request: str, given: Json) -> Json:
    """A request as it is sent: who asks, with which method and target, and with which body."""
    method, path, where = ROUTES[request]
    pairs: list[tuple[str, Any]] = []
    for name, value in given.items():
        if name == "gates":
            pairs += [("gate", f"{level}:{group or 0}:{at}") for level, group, at in value]
        elif name not in ("number", "report") and value is not None:
            pairs.append((name, value))
    words = urllib.parse.urlencode(pairs, quote_via=urllib.parse.quote, safe="/:")
    path = path.format(**given)
    target = path + ("?" + words if where == "query" and words else "")
    body = given["report"].decode() if "report" in given else words if where == "form" else None
    return {"by": by, "ask": f"{method} {target}", **({} if body is None else {"body": body})}


class Talk:
    """Requests of one case, answered one after the other; each by the key of a number, which is that of a person who hasn't exchanged it."""

    def __init__(self, hub: Hub) -> None:
        self.hub, self.requests = copy.deepcopy(hub), list[Json]()

    def ask(self, by: int, request: str, **given: Any) -> int:
        known = {name: value for name, value in given.items() if value is not None}
        judged = {**known, **({"until": moment(known["until"])} if "until" in known else {})}
        status, reply = self.hub.answer(digest(key_of(by)), request, judged, NOW)
        self.requests.append({**sent(by, request, known), "status": status, "reply": reply})
        return status


def some_incident(draws: Draws, ident: int, parts: int = 3) -> Json:
    nodes = [
        {
            **drawing.label(draws),
            **({"Email": [{**drawing.label(draws), "EmailTo": draws.one(("needle", "x"))}]} if draws.chance(1, 3) else {}),
        }
        for _ in range(1 + draws.below(parts))
    ]
    made = incident(nodes, **drawing.label(draws))
    made["IncidentID"] |= {"id": str(ident)}
    made["GenerationTime"] = "t"
    if draws.chance(2, 3):
        made |= draws.one((FIVE["CLEAR"], FIVE["GREEN"], FIVE["GREEN"], FIVE["AMBER"], FIVE["STRICT"], {"restriction": "default"}))
    return made


PATHS = (
    "/Incident/0",
    "/Incident/0/Contact/0",
    "/Incident/0/Contact/0",
    "/Incident/0/Contact/1",
    "/Incident/0/Contact/0/Email/0",
    "/Incident/0/IncidentID",
)
ODD_PATHS = ("", "/Incident/0/Contact", "/Incident/0/Contact/9", "/Incident/0/purpose", "Incident", "/~2", "/Incident/1", "/Incident/00")
LEVELS = (0, 1, 2, 3, 3, 3, 4, 5)


def shared(draws: Draws, hub: Hub) -> Json:
    """A report that is posted and shared, and what persons of all kinds are served of it."""
    talk = Talk(hub)
    by = draws.one((2, 2, 2, 10, 3, 5))
    level = draws.one((0, 1, 2, 3, 3, 3, 3, 4))
    group = draws.one((1, 1, 2, 3)) if level == 4 else None
    at = draws.one(LEVELS)
    gates = [(at, draws.one((1, 2)) if at == 4 else None, draws.one(PATHS[:3]))] if draws.chance(1, 2) else None
    body = reports.compact(report(some_incident(draws, 1))).encode()
    talk.ask(
        by,
        "Post",
        report=body,
        level=level,
        group=group,
        community=draws.one((None, None, 2 if by == 5 else 1, 4 if by == 2 else 2)),
        gates=gates,
    )
    for _ in range(draws.below(4)):
        change(draws, talk, by)
    for person in draws.some((2, 3, 4, 5, 6, 8, 9, 11, 12, 13, 14), 4):
        talk.ask(person, "View", number=1)
    talk.ask(1, "Explain", person=2 + draws.below(13), incident=1, path=draws.one(PATHS[:4]))
    person = draws.one((3, 4, 5, 6, 11, 12, 13, 14))
    talk.ask(
        person,
        "Search",
        needle=draws.one(("needle", "creator", "x")),
        **({"class": draws.one(("Contact", "Email"))} if draws.chance(1, 2) else {}),
    )
    talk.ask(person, draws.one(("List", "Addressed", "MyGroups", "MyCommunities")))
    for person in (by, draws.one((1, 2, 9, 10)), draws.one((3, 8, 11, 16))):
        talk.ask(person, "Sharing", number=1)
    return {"requests": talk.requests}


def grantee(draws: Draws) -> Json:
    kind = draws.one(("person", "org", "org", "community", "group"))
    return {
        kind: draws.one(
            {"person": (3, 4, 11, 12, 13, 14), "org": (3, 4, 5, 6, 7), "community": (1, 2, 3, 4), "group": (1, 2, 3, 4)}[kind]
        )
    }


def change(draws: Draws, talk: Talk, by: int) -> None:
    """A change of the source's, or of the directory."""
    kind = draws.below(9)
    path = draws.one(PATHS)
    level = draws.one(LEVELS)
    until = draws.one((None, None, *ENDS))
    if kind < 3:
        talk.ask(by, "Grant", number=1, revision=1, path=path, until=until, **grantee(draws))
    elif kind < 5:
        talk.ask(
            by,
            "Address",
            number=1,
            **draws.one(({"org": 3}, {"org": 4}, {"org": 6}, {"person": 4}, {"person": 14}, {"person": 8}, {"org": 7})),
        )
    elif kind == 5:
        talk.ask(
            by,
            "Redistribute",
            number=1,
            revision=1,
            path=draws.one(("", path)),
            level=level,
            group=draws.one((1, 2)) if level == 4 else None,
        )
    elif kind == 6:
        talk.ask(2, "GroupActive", number=draws.one((1, 3)), active=draws.below(2))
    elif kind == 7:
        talk.ask(1, draws.one(("Leave", "Join")), number=1 + draws.below(4), org=2 + draws.below(5))
    else:
        talk.ask(1, draws.one(("Link", "Unlink")), number=1 + draws.below(4), other=1 + draws.below(4))


# Refusals, in their order


def any_number(draws: Draws, most: int) -> int:
    return 1 + draws.below(most) if draws.chance(8, 9) else draws.one((0, 99))


def any_gate(draws: Draws, levels: tuple[int, ...] = (*LEVELS, 6)) -> Json:
    level = draws.one(levels)
    return {"level": level, "group": draws.one((1, 1, 2, 3, 4, 9)) if draws.chance(14, 15) == (level == 4) else None}


ROOT_LEVELS = (0, 1, 1, 2, 3, 3, 3, 3, 3, 4, 4, 5)


def any_name(draws: Draws) -> str:
    return draws.one(
        (
            "New",
            "Bank",
            "payments",
            "phishing",
            "grid",
            "",
            "a\nb",
            "\u007f",
            "\u0080",
            "x" * 128,
            "x" * 129,
            "\u00e9" * 64,
            "\u00e9" * 65,
            "NEW",
            " ",
        )
    )


def any_report(draws: Draws, ident: int) -> bytes:
    if draws.chance(1, 4):
        return draws.one(
            (
                b"{",
                b"[]",
                b'{"Incident":[]}',
                b'{"Incident":[{"IncidentID":{}}]}',
                b'{"Incident":[{"Contact":0,"GenerationTime":0.5,"IncidentID":{},"purpose":0}]}',
                b'{"Incident":[{"Contact":[[{}]],"GenerationTime":0,"IncidentID":{},"purpose":0}]}',
                b'{"Incident":[{"Contact":[{"restriction":"x"}],"GenerationTime":0,"IncidentID":{},"purpose":0}]}',
                b'{"Incident":[{"Contact":0,"GenerationTime":0,"IncidentID":{},"purpose":0},{"Contact":{"ext-restriction":1},"GenerationTime":0,"IncidentID":{"id":"9"},"purpose":0}]}',
            )
        )
    made = incident([{"restriction": "red", "Email": [{}]}, {}], **drawing.label(draws))
    made["IncidentID"]["id"] = str(ident)
    others = [some_incident(draws, draws.one((ident, 8, 9)))] if draws.chance(1, 8) else []
    if draws.chance(1, 10):
        made["IncidentID"] = draws.one(("1", 1, {"id": "1", "name": "a", "restriction": "green"}, {"name": "a", "id": "1"}, None))
    return reports.compact(report(made, *others)).encode()


# Who asks for what, mostly: those that may, and one that may not
CALLERS: dict[str, tuple[int, ...]] = {
    "Explain": (1, 1, 16, 1, 2),
    "NewGroup": (2, 2, 3, 5, 2, 10),
    "GroupAdd": (2, 2, 3, 5, 4, 8),
    "GroupRemove": (2, 2, 2, 3, 5, 9),
    "GroupActive": (2, 2, 3, 5, 10),
    "Arrange": (2, 2, 2, 3, 1),
    "CancelArrange": (2, 2, 2, 3, 10),
    "Nominate": (2, 2, 3, 6, 10),
    "Unnominate": (3, 3, 2, 6, 1),
    "AddPerson": (1, 1, 1, 16, 2),
    "SuspendPerson": (1, 1, 16, 1, 2),
    **{each: (2, 2, 2, 2, 10, 2, 3, 1) for each in ("Post", "Replace", "Redistribute", "Address", "Unaddress", "Grant", "Withdraw")},
    **{each: (2, 3, 4, 8, 11, 13, 1) for each in ("View", "List", "Search", "Addressed", "MyGroups", "MyCommunities", "WhoAmI")},
    "Sharing": (2, 2, 9, 10, 3, 11, 1, 16),
    "NewKey": (8, 9, 12, 13, 14),
}
DRAWN = (
    *ROUTES,
    *("Post", "Replace", "Grant", "Redistribute", "Withdraw", "Address") * 2,
    "Post",
    "Replace",
    "NewGroup",
    "GroupAdd",
    "SuspendPerson",
    "Nominate",
    "Explain",
)


def any_request(draws: Draws, talk: Talk) -> None:
    """Any request by mostly one who may make it, with arguments that are mostly right."""
    request = draws.one(DRAWN)
    by = draws.one(CALLERS.get(request, (1, 1, 1, 16, 2)))
    if draws.chance(1, 20):
        by = draws.one((0, 1, 8, 15, 9, 6))
    path = draws.one(PATHS) if draws.chance(3, 4) else draws.one(ODD_PATHS)
    number = any_number(draws, 4)
    if ROUTES[request][1].startswith("/incidents/"):
        number = draws.one((1, 1, 1, 1, 1, 1, 1, 2, 9, any_number(draws, 2)))
    org = any_number(draws, 8)
    some_gates = [
        (each["level"], each["group"], draws.one(PATHS) if draws.chance(5, 6) else draws.one(ODD_PATHS))
        for each in (any_gate(draws) for _ in range(draws.one((0, 0, 0, 1, 2))))
    ]
    given: Json = {
        "View": {"number": number},
        "List": {"after": draws.one((None, 0, 1, 7))},
        "Addressed": {"after": draws.one((None, 1))},
        "MyGroups": {},
        "MyCommunities": {},
        "Sharing": {"number": number},
        "NewKey": {"key": digest(key_of(draws.one((3, 15, 8, 20, 21, 22, 23))))},
        "WhoAmI": {},
        "Search": {
            "needle": draws.one(("needle", "creator", "", "x" * 256, "x" * 257, "a")),
            "class": draws.one((None, "Contact", "", "y" * 257)),
        },
        "Explain": {"person": any_number(draws, 16), "incident": any_number(draws, 2), "path": path},
        "Post": {
            "report": any_report(draws, draws.one((1, 1, 2, 3))),
            "community": draws.one((None, None, 1, 2, 4, 9)),
            "gates": some_gates,
            **any_gate(draws, ROOT_LEVELS),
        },
        "Replace": {
            "number": number,
            "report": any_report(draws, draws.one((1, 1, 1, 2))),
            "revision": draws.one((1, 1, 1, 2, 0)),
            "community": draws.one((None, None, 1, 3, 9)),
            "gates": some_gates,
            **any_gate(draws, ROOT_LEVELS),
        },
        "Redistribute": {"number": number, "revision": draws.one((1, 1, 1, 2)), "path": draws.one(("", path, path)), **any_gate(draws)},
        "Address": {"number": number, **draws.one(({"org": org}, {"person": any_number(draws, 16)}))},
        "Unaddress": {"number": number, **draws.one(({"org": org}, {"org": 3}, {"person": 4}, {"person": 99}))},
        "Grant": {
            "number": number,
            "revision": draws.one((1, 1, 1, 2)),
            "path": path,
            "until": draws.one((None, ENDS[0], *ENDS)),
            **draws.one((grantee(draws), {"org": org}, {"org": 3}, {"group": 4})),
        },
        "Withdraw": {
            "number": number,
            "path": draws.one((path, PATHS[1])),
            **draws.one((grantee(draws), {"org": 3}, {"group": 1}, {"person": 4})),
        },
        "AddOrg": {"name": any_name(draws)},
        "AddCommunity": {"name": any_name(draws)},
        "AddPerson": {
            "org": org,
            "name": any_name(draws),
            "role": draws.one(("reader", "poster", "coordinator", "administrator")),
            "key": digest(key_of(draws.one((15, 3, 17, 18, 19)))),
        },
        "SuspendPerson": {"number": draws.one((1, 15, 99, 8, any_number(draws, 16)))},
        "AddClient": {"number": org, "client": any_number(draws, 8)},
        "RemoveClient": {"number": draws.one((2, 3, org)), "client": draws.one((6, 7, org))},
        "Join": {"number": number, "org": org},
        "Leave": {"number": number, "org": draws.one((2, 3, org))},
        "Link": {"number": number, "other": any_number(draws, 4)},
        "Unlink": {"number": draws.one((3, 2, number)), "other": draws.one((1, 4, number))},
        "NewGroup": {"name": any_name(draws), "releasability": draws.one(("", "\n", "r" * 512, "r" * 513))},
        "GroupAdd": {"number": draws.one((1, 1, 2, number)), "org": draws.one((3, 4, org)), "extend": draws.below(2)},
        "GroupRemove": {"number": draws.one((1, 1, 2, number)), "org": draws.one((2, 3, 5, org))},
        "GroupActive": {"number": number, "active": draws.below(2)},
        "Arrange": {"org": org, "handling": draws.one(tuple(FIVE))},
        "CancelArrange": {"org": draws.one((3, 6, org))},
        "Nominate": {"number": draws.one((9, 3, 11, 15, 99, any_number(draws, 16)))},
        "Unnominate": {"number": draws.one((3, 11, any_number(draws, 16)))},
    }[request]
    talk.ask(by, request, **given)


def refusals(draws: Draws, hub: Hub) -> Json:
    """Two posted reports, then requests of all kinds, of which many are refused."""
    talk = Talk(hub)
    body = reports.compact(report(incident([{"restriction": "red", "Email": [{}]}, {}], restriction="green"))).encode()
    gates = [(draws.one((1, 3)), None, PATHS[1])] if draws.chance(1, 3) else None
    talk.ask(2, "Post", report=body, level=draws.one((1, 3)), gates=gates)
    if draws.chance(1, 2):
        talk.ask(3, "Post", report=body, level=3)
    if draws.chance(1, 2):
        talk.ask(2, "Address", number=1, **draws.one(({"org": 3}, {"person": 4})))
    if draws.chance(1, 2):
        talk.ask(
            2,
            "Grant",
            number=1,
            revision=1,
            path=PATHS[1],
            until=draws.one((None, ENDS[0])),
            **draws.one(({"org": 3}, {"group": 1}, {"person": 4})),
        )
    for _ in range(14):
        any_request(draws, talk)
    return {"requests": talk.requests}


def directed(hub: Hub) -> Iterator[Json]:
    """What a draw seldom reaches: the limits of one incident, lists that go on, and what a Replace takes away."""
    many = reports.compact(report(incident([{} for _ in range(18)], restriction="green"))).encode()
    paths = [f"/Incident/0/Contact/{each}" for each in range(18)]
    talk = Talk(hub)
    talk.ask(2, "Post", report=many, level=3, gates=[(5, None, each) for each in paths[:17]])
    talk.ask(2, "Post", report=many, level=3, gates=[(5, None, each) for each in paths[:16]])
    talk.ask(2, "Redistribute", number=1, revision=1, path=paths[16], level=5)
    talk.ask(2, "Redistribute", number=1, revision=1, path=paths[15], level=0)
    talk.ask(2, "Redistribute", number=1, revision=1, path="", level=1)
    talk.ask(3, "View", number=1)
    talk.ask(2, "Replace", number=1, revision=1, report=many, level=3, gates=[(0, None, each) for each in paths[:17]])
    talk.ask(2, "Replace", number=1, revision=1, report=many, level=3, community=1, gates=[(0, None, each) for each in paths[1:17]])
    talk.ask(3, "View", number=1)
    yield {"requests": talk.requests}
    talk = Talk(hub)
    talk.ask(2, "Post", report=reports.compact(report(incident())).encode(), level=3)
    for number in range(41):
        talk.ask(1, "AddOrg", name=f"o{number}")
    for given in [
        *({"person": 1 + number} for number in range(16)),
        *({"org": 1 + number} for number in range(48)),
        {"org": 49},
        {"org": 48},
    ]:
        talk.ask(2, "Address", number=1, **given)
    yield {"requests": talk.requests}
    talk = Talk(hub)
    talk.ask(2, "Post", report=reports.compact(report(incident([{} for _ in range(9)]))).encode(), level=3)
    for number in range(64):
        talk.ask(2, "Grant", number=1, revision=1, path=paths[number // 8], org=1 + number % 8, until=ENDS[0] if number % 3 else None)
    talk.ask(2, "Grant", number=1, revision=1, path=paths[8], org=1)
    talk.ask(2, "Grant", number=1, revision=1, path=paths[0], org=2, until=ENDS[1])
    talk.ask(3, "View", number=1)
    talk.ask(2, "Withdraw", number=1, path=paths[0], org=1)
    talk.ask(2, "Grant", number=1, revision=1, path=paths[8], org=1)
    yield {"requests": talk.requests}
    talk = Talk(hub)
    for batch in range(7):
        made = [incident([{}], restriction="white") for _ in range(16)]
        for number, each in enumerate(made):
            each["IncidentID"] = {"id": f"{batch}-{number}"}
        talk.ask(2, "Post", report=reports.compact(report(*made)).encode(), level=3 if batch else 0)
    for person, after in ((8, None), (8, 16), (8, 112), (2, None), (2, 11), (2, 12), (2, 100), (2, 111)):
        talk.ask(person, "List", after=after)
    talk.ask(8, "Search", needle="creator")
    talk.ask(8, "Search", needle="other", after=16)
    yield {"requests": talk.requests}
    talk = Talk(hub)
    shown = reports.compact(report(incident([{"restriction": "red"}], restriction="green"))).encode()
    talk.ask(2, "Post", report=shown, level=3, community=4)
    talk.ask(3, "View", number=1)
    talk.ask(6, "View", number=1)
    talk.ask(2, "Grant", number=1, revision=1, path=PATHS[1], org=3)
    talk.ask(2, "Address", number=1, org=3)
    talk.ask(11, "View", number=1)
    talk.ask(2, "Replace", number=1, revision=1, report=shown, level=3)
    for person in (3, 11, 6, 15, 14):
        talk.ask(person, "View", number=1)
    talk.ask(11, "Addressed")
    talk.ask(1, "Leave", number=4, org=2)
    talk.ask(2, "Replace", number=1, revision=2, report=shown, level=3, community=4)
    talk.ask(1, "Explain", person=3, incident=1, path=PATHS[0])
    yield {"requests": talk.requests}
    talk = Talk(hub)
    talk.ask(2, "Post", report=shown, level=3)
    for given in (
        {"person": 99},
        {"org": 99},
        {"community": 99},
        {"group": 99},
        {"group": 4},
        {"person": 15},
        {"org": 2},
        {"community": 2},
        {"group": 3},
    ):
        talk.ask(2, "Grant", number=1, revision=1, path=PATHS[1], **given)
        talk.ask(2, "Withdraw", number=1, path=PATHS[1], **given)
    talk.ask(1, "AddPerson", org=3, name="Pia", role="coordinator", key=digest(key_of(17)))
    talk.ask(17, "WhoAmI")
    talk.ask(17, "Nominate", number=17)
    talk.ask(17, "WhoAmI")
    talk.ask(1, "SuspendPerson", number=17)
    talk.ask(17, "WhoAmI")
    talk.ask(3, "Unnominate", number=17)
    for by, group, org in ((2, 1, 2), (3, 1, 2), (5, 1, 3), (2, 2, 2), (3, 2, 3), (3, 2, 2), (2, 2, 3), (2, 1, 4), (2, 1, 3), (3, 1, 5)):
        talk.ask(by, "GroupRemove", number=group, org=org)
    for name in ("a\u001f", "\u0020", "~\u007e", "\u0080"):
        talk.ask(1, "AddCommunity", name=name)
        talk.ask(2, "NewGroup", name=name, releasability=name)
    yield {"requests": talk.requests}
    yield told_to_the_source(hub)
    yield communities_told(hub)
    yield keys_exchanged(hub)


def told_to_the_source(hub: Hub) -> Json:
    """How a report is shared, by each change of it, asked by each role of its source and by all others."""
    talk = Talk(hub)
    body = reports.compact(report(incident([{"Email": [{}]}, {}], restriction="green"))).encode()
    talk.ask(2, "Post", report=body, level=4, group=1, community=1, gates=[(5, None, PATHS[3]), (0, None, PATHS[4])])
    talk.ask(3, "Post", report=body, level=3)
    talk.ask(2, "Sharing", number=1)
    for until, given in enumerate(({"group": 3}, {"org": 4}, {"community": 2}, {"person": 11}, {"person": 4}, {"org": 3}, {"group": 1})):
        for path in (PATHS[3], PATHS[1], PATHS[4]):
            talk.ask(2, "Grant", number=1, revision=1, path=path, until=(None, *ENDS)[until % 5], **given)
    for given in ({"org": 8}, {"person": 14}, {"org": 3}, {"person": 4}, {"person": 1}):
        talk.ask(10, "Address", number=1, **given)
    for person in range(17):
        talk.ask(person, "Sharing", number=1)
    talk.ask(1, "Leave", number=1, org=2)
    talk.ask(2, "GroupActive", number=1, active=0)
    talk.ask(2, "Withdraw", number=1, path=PATHS[1], org=4)
    talk.ask(2, "Grant", number=1, revision=1, path=PATHS[1], org=3, until=ENDS[0])
    talk.ask(2, "Unaddress", number=1, org=3)
    talk.ask(2, "Redistribute", number=1, revision=1, path="", level=0)
    talk.ask(2, "Redistribute", number=1, revision=1, path=PATHS[0], level=4, group=3)
    talk.ask(9, "Sharing", number=1)
    talk.ask(2, "Replace", number=1, revision=1, report=body, level=2)
    talk.ask(2, "Sharing", number=1)
    for number in (0, 2, 3):
        talk.ask(2, "Sharing", number=number)
    return {"requests": talk.requests}


def communities_told(hub: Hub) -> Json:
    """The own communities, by each change of them."""
    talk = Talk(hub)
    for person in (2, 3, 4, 8, 1, 15, 0):
        talk.ask(person, "MyCommunities")
    for request, given in (
        ("Join", {"number": 3, "org": 3}),
        ("Join", {"number": 1, "org": 8}),
        ("Link", {"number": 2, "other": 1}),
        ("Link", {"number": 4, "other": 3}),
        ("AddCommunity", {"name": "\u00e9 \"5\""}),
        ("Join", {"number": 5, "org": 2}),
        ("Link", {"number": 5, "other": 2}),
    ):
        talk.ask(1, request, **given)
        for person in (2, 3, 8):
            talk.ask(person, "MyCommunities")
    for request, given in (("Unlink", {"number": 3, "other": 1}), ("Leave", {"number": 2, "org": 3}), ("Leave", {"number": 1, "org": 2})):
        talk.ask(1, request, **given)
        for person in (9, 11, 5):
            talk.ask(person, "MyCommunities")
    return {"requests": talk.requests}


def keys_exchanged(hub: Hub) -> Json:
    """The own key, exchanged by each role, for one that is free, taken or one's own; who asks by an old one, and who may have it."""
    talk = Talk(hub)
    for by, new in ((1, 21), (2, 22), (8, 23), (10, 24), (23, 25), (25, 8)):
        talk.ask(by, "NewKey", key=digest(key_of(new)))
        for each in (by, new):
            talk.ask(each, "WhoAmI")
    for by, new in ((22, 22), (22, 3), (22, 15), (15, 26), (0, 26), (22, 2), (3, 22), (3, 1)):
        talk.ask(by, "NewKey", key=digest(key_of(new)))
        talk.ask(by, "WhoAmI")
    talk.ask(11, "NewKey", key=digest(key_of(27)).upper())
    for by in (27, 11, 1, 3):
        talk.ask(by, "WhoAmI")
    talk.ask(21, "AddPerson", org=3, name="Pia", role="reader", key=digest(key_of(27)))
    talk.ask(21, "AddPerson", org=3, name="Pia", role="reader", key=digest(key_of(11)))
    talk.ask(11, "WhoAmI")
    talk.ask(21, "SuspendPerson", number=3)
    for by, new in ((1, 28), (28, 29), (4, 1)):
        talk.ask(by, "NewKey", key=digest(key_of(new)))
        talk.ask(new, "WhoAmI")
    return {"requests": talk.requests}


def all_cases(draws: Draws, count: int) -> Iterator[Json]:
    """The cases, in which a draw never depends on an answer."""
    hub = made_hub(CIRCLE)
    made = 0
    for each in directed(hub):
        yield each
        made += 1
    for number in range(made, count):
        yield shared(draws, hub) if number % 5 < 3 else refusals(draws, hub)
