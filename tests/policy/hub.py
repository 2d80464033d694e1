"""A hub: what each request changes, what it is refused for, and what it answers: docs/POLICY.md, "Who is who" and "Requests and
refusals", and docs/HTTP.md. Written from the documents alone.
"""
from __future__ import annotations

import dataclasses
from collections.abc import Callable
from typing import Any

import policy
import report as reports
from policy import Case, Gate, Permission, Reader, View
from report import Fault, compact

CODES = {
    "K1": (401, "unknown or suspended key"),
    "W1": (403, "role does not allow it"),
    "B1": (422, "bad argument"),
    "N1": (404, "no such incident for you"),
    "N2": (404, "no such organisation, person, community or group"),
    "W2": (403, "group not yours to extend or change"),
    "W3": (403, "person not yours to nominate"),
    "N3": (404, "no such class"),
    "S1": (409, "already so"),
    "S2": (409, "not so"),
    "S3": (409, "other revision"),
    "L1": (409, "limit"),
}
NAME, RELEASABILITY, NEEDLE = 128, 512, 256
CLASS_GATES, RECIPIENTS, PERMISSIONS, LISTED = 16, 64, 64, 100
ORGS, COMMUNITIES, GROUPS = 1000, 1000, 1000
# In the order of HTTP, "GET /incidents/{number}/sharing"
KINDS = ("person", "org", "community", "group")


class Refusal(Exception):
    def __init__(self, code: str, detail: object = "") -> None:
        super().__init__(code)
        self.code, self.detail = code, str(detail)


@dataclasses.dataclass
class Person:
    org: int
    name: str
    role: str
    key: str
    is_active: bool = True
    is_nominated: bool = False


@dataclasses.dataclass
class Group:
    owner: int
    name: str
    releasability: str
    is_active: bool = True
    members: dict[int, bool] = dataclasses.field(default_factory=dict)  # each with its extend flag


@dataclasses.dataclass
class Incident:
    source: int
    document: dict[str, Any]
    community: int | None
    gates: dict[str, Gate]
    revision: int = 1
    recipients: set[tuple[str, int]] = dataclasses.field(default_factory=set)
    permissions: dict[tuple[str, str, int], int | None] = dataclasses.field(default_factory=dict)

    @property
    def identifier(self) -> str:
        """Two IncidentIDs are the same if all members are, also labels."""
        return compact(self.document["Incident"][0]["IncidentID"])


Rows = dict[int, Any]


def add(rows: Rows, row: object) -> int:
    rows[len(rows) + 1] = row
    return len(rows)


class Hub:
    """The directory and the incidents. Each number counts from 1."""

    def __init__(self, name: str, key: str) -> None:
        self.orgs: Rows = {1: name}
        self.persons: dict[int, Person] = {1: Person(1, "admin", "administrator", key)}
        self.communities: Rows = {}
        self.members: set[tuple[int, int]] = set()  # community and organisation
        self.links: set[tuple[int, int]] = set()
        self.clients: set[tuple[int, int]] = set()  # organisation and its client
        self.groups: dict[int, Group] = {}
        self.arrangements: dict[tuple[int, int], str] = {}  # source and organisation
        self.incidents: dict[int, Incident] = {}

    # POLICY, "Who is who"

    def communities_of(self, org: int) -> list[int]:
        return [each for each in self.communities if (each, org) in self.members]

    def is_client(self, incident: Incident, org: int) -> bool:
        """Of the source, or of an addressed organisation."""
        served = [incident.source, *(number for kind, number in incident.recipients if kind == "org")]
        return any((each, org) in self.clients for each in served)

    def reader(self, number: int, incident: Incident) -> Reader:
        person = self.persons[number]
        own, others = self.communities_of(person.org), self.communities_of(incident.source)
        shares = any(each in others for each in own)
        groups = [each for each, group in self.groups.items() if person.org in group.members]
        return Reader(
            who=number,
            org=person.org,
            source=person.org == incident.source,
            person=("person", number) in incident.recipients,
            nominated=person.is_nominated,
            addressed=("org", person.org) in incident.recipients,
            client=self.is_client(incident, person.org),
            community=shares,
            peer=shares if incident.community is None else incident.community in own,
            connected=any((a, b) in self.links or (b, a) in self.links for a in own for b in others),
            arrangement=self.arrangements.get((incident.source, person.org)),
            groups=tuple(groups),
            active_groups=tuple(each for each in groups if self.groups[each].is_active),
            communities=tuple(own),
        )

    def view(self, number: int, incident: Incident, now: int) -> View:
        given = tuple(Permission(*key, until) for key, until in incident.permissions.items())
        case = Case(incident.source, incident.gates, given, incident.community)
        return View(incident.document, case, self.reader(number, incident), now)

    # Requests: each takes the caller's number, the arguments and the moment, and returns the reply

    def answer(self, key: str, request: str, given: dict[str, Any], now: int) -> tuple[int, str]:
        """The status and the body of the reply. No path has the number 0 (HTTP, at its beginning)."""
        if given.get("number") == 0:
            return 404, compact({"code": "NoRoute", "detail": "", "reason": "request refused"})
        try:
            caller = next((number for number, each in self.persons.items() if each.key == key and each.is_active), None)
            if caller is None:
                raise Refusal("K1")
            role = self.persons[caller].role
            if role not in ALLOWED[request]:
                raise Refusal("W1")
            return 200, compact(REQUESTS[request](self, Asked(caller, self.persons[caller].org, given, now)))
        except Refusal as refusal:
            status, reason = CODES[refusal.code]
            return status, compact({"code": refusal.code, "detail": refusal.detail, "reason": reason})


@dataclasses.dataclass(frozen=True)
class Asked:
    caller: int
    org: int  # of the caller
    given: dict[str, Any]
    now: int

    def __getitem__(self, name: str) -> Any:
        return self.given.get(name)

    def grantee(self) -> tuple[str, int]:
        return next((each, self.given[each]) for each in KINDS if each in self.given)


DONE = {"done": True}


def refuse_if(is_so: bool, code: str, detail: object = "") -> None:
    if is_so:
        raise Refusal(code, detail)


def is_name(text: str) -> bool:
    """1 to 128 bytes, no control character of ASCII."""
    return 1 <= len(text.encode()) <= NAME and not any(ord(each) < 32 or ord(each) == 127 for each in text)


# Reading


def visible(hub: Hub, asked: Asked, number: int) -> policy.Excerpt | None:
    return policy.excerpt(hub.view(asked.caller, hub.incidents[number], asked.now))


def view(hub: Hub, asked: Asked) -> dict[str, Any]:
    number = asked["number"]
    served = visible(hub, asked, number) if number in hub.incidents else None
    if served is None:
        raise Refusal("N1")
    incident = hub.incidents[number]
    return {
        "classes": served.classes,
        "document": served.document,
        "number": number,
        "revision": incident.revision,
        "source": incident.source,
        "withheld": served.withheld,
    }


def listed(hub: Hub, asked: Asked, is_wanted: Callable[[int, Incident], bool]) -> dict[str, Any]:
    """The first 100 incidents above a number in which the reader sees a class."""
    numbers = [each for each in hub.incidents if each > (asked["after"] or 0) and visible(hub, asked, each) is not None]
    found = [each for each in numbers if is_wanted(each, hub.incidents[each])][:LISTED]
    return {
        "incidents": [{"number": each, "revision": hub.incidents[each].revision, "source": hub.incidents[each].source} for each in found]
    }


def list_(hub: Hub, asked: Asked) -> dict[str, Any]:
    return listed(hub, asked, lambda number, incident: True)


def addressed(hub: Hub, asked: Asked) -> dict[str, Any]:
    own = {("person", asked.caller), ("org", asked.org)}
    return listed(hub, asked, lambda number, incident: bool(own & incident.recipients))


def search(hub: Hub, asked: Asked) -> dict[str, Any]:
    for name in ("needle", "class"):
        refuse_if(name in asked.given and not 1 <= len(asked[name].encode()) <= NEEDLE, "B1", name)
    return listed(
        hub, asked, lambda _, incident: policy.finds(hub.view(asked.caller, incident, asked.now), asked["needle"], asked["class"])
    )


def my_groups(hub: Hub, asked: Asked) -> dict[str, Any]:
    own = [(number, each) for number, each in hub.groups.items() if asked.org in each.members]
    return {
        "groups": [
            {
                "active": each.is_active,
                "extend": each.members[asked.org],
                "name": each.name,
                "number": number,
                "owner": each.owner,
                "releasability": each.releasability,
            }
            for number, each in own
        ]
    }


def my_communities(hub: Hub, asked: Asked) -> dict[str, Any]:
    return {
        "communities": [
            {
                "connected": [each for each in hub.communities if (number, each) in hub.links or (each, number) in hub.links],
                "members": [each for each in hub.orgs if (number, each) in hub.members],
                "name": hub.communities[number],
                "number": number,
            }
            for number in hub.communities_of(asked.org)
        ]
    }


def sharing(hub: Hub, asked: Asked) -> dict[str, Any]:
    """Paths are compared byte by byte. A permission covers before its end."""
    incident = own_incident(hub, asked)
    gates = sorted(incident.gates.items(), key=lambda each: each[0].encode())
    permissions = sorted(incident.permissions.items(), key=lambda each: (each[0][0].encode(), KINDS.index(each[0][1]), each[0][2]))
    recipients = sorted(incident.recipients, key=lambda each: (KINDS.index(each[0]), each[1]))
    return {
        "community": incident.community or 0,
        "gates": [[path, gate.level, gate.group] for path, gate in gates],
        "ident": incident.identifier,
        "number": asked["number"],
        "permissions": [[*key, until, until is not None and asked.now >= until] for key, until in permissions],
        "recipients": [list(each) for each in recipients],
        "revision": incident.revision,
    }


def who_am_i(hub: Hub, asked: Asked) -> dict[str, Any]:
    own = hub.persons[asked.caller]
    return {"name": own.name, "nominated": own.is_nominated, "number": asked.caller, "org": own.org, "role": own.role}


def explain(hub: Hub, asked: Asked) -> dict[str, Any]:
    refuse_if(not reports.is_pointer(asked["path"]), "B1", "path")
    refuse_if(asked["incident"] not in hub.incidents, "N1")
    refuse_if(asked["person"] not in hub.persons or not hub.persons[asked["person"]].is_active, "N2")
    incident = hub.incidents[asked["incident"]]
    path = policy.class_at(incident.document, asked["path"])
    if path is None:
        raise Refusal("N3")
    return {"trace": policy.explain(hub.view(asked["person"], incident, asked.now), path)}


# Incidents


def check_gate(level: int, group: int | None, most: int, details: tuple[str, str]) -> None:
    """Level 4 names a group, and no other level does."""
    refuse_if(level > most, "B1", details[0])
    refuse_if((level == 4) != (group is not None), "B1", details[1])


def given_report(asked: Asked, is_replace: bool) -> list[Incident]:
    """The Incidents of a report, if no argument is bad."""
    check_gate(asked["level"], asked["group"], 4, ("level", "group"))
    gates = asked["gates"] or []
    paths = [path for _, _, path in gates]
    for level, group, path in gates:
        refuse_if(path == "" or paths.count(path) > 1 or not reports.is_pointer(path), "B1", "gates")
        check_gate(level, group, 5, ("gates", "gates"))
    try:
        report = reports.read(asked["report"])
    except Fault as fault:
        raise Refusal("B1", detail_of(fault)) from None
    refuse_if(bool(gates) and len(report["Incident"]) > 1 and not is_replace, "B1", "gates")
    all_gates = {"": Gate(asked["level"], asked["group"] or 0), **{path: Gate(level, group or 0) for level, group, path in gates}}
    found = [Incident(asked.org, each, asked["community"], dict(all_gates)) for each in reports.documents(report)]
    refuse_if(is_replace and len(found) > 1, "B1", "document")
    refuse_if(len({each.identifier for each in found}) < len(found), "B1", "IncidentID")
    marked = reports.bad_marking(report)
    if marked is not None:
        raise Refusal("B1", f"BadMarking {marked[0]} {reports.pointer(marked[1])}")
    return found


def detail_of(fault: Fault) -> str:
    about = fault.about or fault.place or ""
    return f"{fault.name} {about}" if about else fault.name


def refuse_strangers(hub: Hub, asked: Asked, incident: Incident) -> None:
    """No own community or group is `N2`; no class at a gate's path is `N3`."""
    refuse_if(incident.community is not None and (incident.community, asked.org) not in hub.members, "N2")
    for gate in incident.gates.values():
        refuse_if(gate.level == 4 and not is_own_group(hub, asked, gate.group), "N2")
    for path in incident.gates:
        refuse_if(path != "" and policy.class_at(incident.document, path) is None, "N3")


def is_own_group(hub: Hub, asked: Asked, number: int) -> bool:
    return number in hub.groups and asked.org in hub.groups[number].members


def post(hub: Hub, asked: Asked) -> dict[str, Any]:
    found = given_report(asked, False)
    for each in found:
        refuse_strangers(hub, asked, each)
    for each in found:
        for number, other in hub.incidents.items():
            refuse_if(other.source == asked.org and other.identifier == each.identifier, "S1", number)
    refuse_if(any(len(each.gates) - 1 > CLASS_GATES for each in found), "L1")
    return {"numbers": [add(hub.incidents, each) for each in found]}


def own_incident(hub: Hub, asked: Asked) -> Incident:
    incident = hub.incidents.get(asked["number"])
    if incident is None or incident.source != asked.org:
        raise Refusal("N1")
    return incident


def replace(hub: Hub, asked: Asked) -> dict[str, Any]:
    (new,) = given_report(asked, True)
    incident = own_incident(hub, asked)
    refuse_strangers(hub, asked, new)
    refuse_if(new.identifier != incident.identifier, "S2")
    refuse_if(asked["revision"] != incident.revision, "S3", incident.revision)
    refuse_if(len(new.gates) - 1 > CLASS_GATES, "L1")
    new.revision, new.recipients = incident.revision + 1, incident.recipients
    hub.incidents[asked["number"]] = new
    return {"revision": new.revision}


def redistribute(hub: Hub, asked: Asked) -> dict[str, Any]:
    path = asked["path"]
    refuse_if(not reports.is_pointer(path), "B1", "path")
    check_gate(asked["level"], asked["group"], 5 if path else 4, ("level", "group"))
    incident = own_incident(hub, asked)
    gate = Gate(asked["level"], asked["group"] or 0)
    refuse_if(gate.level == 4 and not is_own_group(hub, asked, gate.group), "N2")
    refuse_if(path != "" and policy.class_at(incident.document, path) is None, "N3")
    refuse_if(incident.gates.get(path) == gate, "S1")
    refuse_if(asked["revision"] != incident.revision, "S3", incident.revision)
    refuse_if(len({*incident.gates, path} - {""}) > CLASS_GATES, "L1")
    incident.gates[path] = gate
    return DONE


def is_there(hub: Hub, kind: str, number: int) -> bool:
    return number in {"person": hub.persons, "org": hub.orgs, "community": hub.communities, "group": hub.groups}[kind]


def address(hub: Hub, asked: Asked) -> dict[str, Any]:
    incident = own_incident(hub, asked)
    refuse_if(not is_there(hub, *asked.grantee()), "N2")
    refuse_if(asked.grantee() in incident.recipients, "S1")
    refuse_if(len(incident.recipients) >= RECIPIENTS, "L1")
    incident.recipients.add(asked.grantee())
    return DONE


def unaddress(hub: Hub, asked: Asked) -> dict[str, Any]:
    incident = own_incident(hub, asked)
    refuse_if(asked.grantee() not in incident.recipients, "S2")
    incident.recipients.remove(asked.grantee())
    return DONE


def grant(hub: Hub, asked: Asked) -> dict[str, Any]:
    refuse_if(not reports.is_pointer(asked["path"]), "B1", "path")
    incident = own_incident(hub, asked)
    kind, number = asked.grantee()
    refuse_if(not is_there(hub, kind, number) or kind == "group" and not is_own_group(hub, asked, number), "N2")
    refuse_if(policy.class_at(incident.document, asked["path"]) is None, "N3")
    key = (asked["path"], kind, number)
    refuse_if(key in incident.permissions and incident.permissions[key] == asked["until"], "S1")
    refuse_if(asked["revision"] != incident.revision, "S3", incident.revision)
    refuse_if(key not in incident.permissions and len(incident.permissions) >= PERMISSIONS, "L1")
    incident.permissions[key] = asked["until"]
    return DONE


def withdraw(hub: Hub, asked: Asked) -> dict[str, Any]:
    refuse_if(not reports.is_pointer(asked["path"]), "B1", "path")
    incident = own_incident(hub, asked)
    key = (asked["path"], *asked.grantee())
    refuse_if(key not in incident.permissions, "S2")
    del incident.permissions[key]
    return DONE


# The own key


def new_key(hub: Hub, asked: Asked) -> dict[str, Any]:
    """A key that any person has is taken, also the caller's and one of somebody who is suspended."""
    refuse_if(any(each.key == asked["key"].lower() for each in hub.persons.values()), "S1")
    hub.persons[asked.caller].key = asked["key"].lower()
    return DONE


# The directory


def add_org(hub: Hub, asked: Asked) -> dict[str, Any]:
    refuse_if(not is_name(asked["name"]), "B1", "name")
    refuse_if(asked["name"] in hub.orgs.values(), "S1")
    refuse_if(len(hub.orgs) >= ORGS, "L1")
    return {"numbers": [add(hub.orgs, asked["name"])]}


def add_person(hub: Hub, asked: Asked) -> dict[str, Any]:
    refuse_if(not is_name(asked["name"]), "B1", "name")
    refuse_if(asked["org"] not in hub.orgs, "N2")
    refuse_if(any(each.key == asked["key"] for each in hub.persons.values()), "S1")
    return {"numbers": [add(hub.persons, Person(asked["org"], asked["name"], asked["role"], asked["key"]))]}


def suspend(hub: Hub, asked: Asked) -> dict[str, Any]:
    refuse_if(asked["number"] == asked.caller, "B1", "person")
    refuse_if(asked["number"] not in hub.persons, "N2")
    refuse_if(not hub.persons[asked["number"]].is_active, "S1")
    hub.persons[asked["number"]].is_active = False
    return DONE


def put(rows: set[tuple[int, int]], row: tuple[int, int], is_added: bool) -> dict[str, Any]:
    """Adds a row that isn't there, or removes one that is."""
    refuse_if((row in rows) == is_added, "S1" if is_added else "S2")
    (rows.add if is_added else rows.remove)(row)
    return DONE


def client(is_added: bool) -> Callable[[Hub, Asked], dict[str, Any]]:
    def change(hub: Hub, asked: Asked) -> dict[str, Any]:
        row = (asked["number"], asked["client"])
        refuse_if(row[0] == row[1], "B1", "client")
        refuse_if(any(each not in hub.orgs for each in row), "N2")
        return put(hub.clients, row, is_added)

    return change


def add_community(hub: Hub, asked: Asked) -> dict[str, Any]:
    refuse_if(not is_name(asked["name"]), "B1", "name")
    refuse_if(asked["name"] in hub.communities.values(), "S1")
    refuse_if(len(hub.communities) >= COMMUNITIES, "L1")
    return {"numbers": [add(hub.communities, asked["name"])]}


def membership(is_added: bool) -> Callable[[Hub, Asked], dict[str, Any]]:
    def change(hub: Hub, asked: Asked) -> dict[str, Any]:
        refuse_if(asked["number"] not in hub.communities or asked["org"] not in hub.orgs, "N2")
        return put(hub.members, (asked["number"], asked["org"]), is_added)

    return change


def link(is_added: bool) -> Callable[[Hub, Asked], dict[str, Any]]:
    """Two communities are connected in either order."""

    def change(hub: Hub, asked: Asked) -> dict[str, Any]:
        row = (min(asked["number"], asked["other"]), max(asked["number"], asked["other"]))
        refuse_if(row[0] == row[1], "B1", "other")
        refuse_if(any(each not in hub.communities for each in row), "N2")
        return put(hub.links, row, is_added)

    return change


# Groups, arrangements, nominations


def new_group(hub: Hub, asked: Asked) -> dict[str, Any]:
    refuse_if(not is_name(asked["name"]), "B1", "name")
    refuse_if(len(asked["releasability"].encode()) > RELEASABILITY, "B1", "releasability")
    refuse_if(any(each.owner == asked.org and each.name == asked["name"] for each in hub.groups.values()), "S1")
    refuse_if(len(hub.groups) >= GROUPS, "L1")
    return {"numbers": [add(hub.groups, Group(asked.org, asked["name"], asked["releasability"], members={asked.org: True}))]}


def own_group(hub: Hub, asked: Asked) -> Group:
    """A group is `N2` for all but its members."""
    refuse_if(not is_own_group(hub, asked, asked["number"]), "N2")
    return hub.groups[asked["number"]]


def group_add(hub: Hub, asked: Asked) -> dict[str, Any]:
    group = own_group(hub, asked)
    refuse_if(asked["org"] not in hub.orgs, "N2")
    refuse_if(not group.members[asked.org], "W2")
    refuse_if(asked["org"] in group.members, "S1")
    group.members[asked["org"]] = asked["extend"] == 1
    return DONE


def group_remove(hub: Hub, asked: Asked) -> dict[str, Any]:
    group = own_group(hub, asked)
    refuse_if(asked["org"] not in hub.orgs, "N2")
    refuse_if(group.owner != asked.org or asked["org"] == group.owner, "W2")
    refuse_if(asked["org"] not in group.members, "S2")
    del group.members[asked["org"]]
    return DONE


def group_active(hub: Hub, asked: Asked) -> dict[str, Any]:
    group = own_group(hub, asked)
    refuse_if(group.owner != asked.org, "W2")
    refuse_if(group.is_active == (asked["active"] == 1), "S1")
    group.is_active = asked["active"] == 1
    return DONE


def arrange(hub: Hub, asked: Asked) -> dict[str, Any]:
    refuse_if(asked["org"] == asked.org, "B1", "org")
    refuse_if(asked["org"] not in hub.orgs, "N2")
    refuse_if((asked.org, asked["org"]) in hub.arrangements, "S1")
    hub.arrangements[asked.org, asked["org"]] = asked["handling"]
    return DONE


def cancel(hub: Hub, asked: Asked) -> dict[str, Any]:
    refuse_if(asked["org"] not in hub.orgs, "N2")
    refuse_if((asked.org, asked["org"]) not in hub.arrangements, "S2")
    del hub.arrangements[asked.org, asked["org"]]
    return DONE


def nominate(is_added: bool) -> Callable[[Hub, Asked], dict[str, Any]]:
    def change(hub: Hub, asked: Asked) -> dict[str, Any]:
        refuse_if(asked["number"] not in hub.persons, "N2")
        person = hub.persons[asked["number"]]
        refuse_if(person.org != asked.org, "W3")
        refuse_if(person.is_nominated == is_added, "S1" if is_added else "S2")
        person.is_nominated = is_added
        return DONE

    return change


REQUESTS: dict[str, Callable[[Hub, Asked], dict[str, Any]]] = {
    "View": view,
    "List": list_,
    "Search": search,
    "Addressed": addressed,
    "MyGroups": my_groups,
    "MyCommunities": my_communities,
    "Sharing": sharing,
    "NewKey": new_key,
    "WhoAmI": who_am_i,
    "Explain": explain,
    "Post": post,
    "Replace": replace,
    "Redistribute": redistribute,
    "Address": address,
    "Unaddress": unaddress,
    "Grant": grant,
    "Withdraw": withdraw,
    "AddOrg": add_org,
    "AddPerson": add_person,
    "SuspendPerson": suspend,
    "AddClient": client(True),
    "RemoveClient": client(False),
    "AddCommunity": add_community,
    "Join": membership(True),
    "Leave": membership(False),
    "Link": link(True),
    "Unlink": link(False),
    "NewGroup": new_group,
    "GroupAdd": group_add,
    "GroupRemove": group_remove,
    "GroupActive": group_active,
    "Arrange": arrange,
    "CancelArrange": cancel,
    "Nominate": nominate(True),
    "Unnominate": nominate(False),
}

# Who may do what (POLICY, "Who is who" and "Requests and refusals")
EVERYBODY = ("reader", "poster", "coordinator", "administrator")
ROLES = {
    EVERYBODY: {"View", "List", "Search", "Addressed", "MyGroups", "MyCommunities", "Sharing", "NewKey", "WhoAmI"},
    ("poster", "coordinator"): {"Post", "Replace", "Redistribute", "Address", "Unaddress", "Grant", "Withdraw"},
    ("administrator",): {
        "Explain",
        "AddOrg",
        "AddPerson",
        "SuspendPerson",
        "AddClient",
        "RemoveClient",
        "AddCommunity",
        "Join",
        "Leave",
        "Link",
        "Unlink",
    },
    ("coordinator",): {"NewGroup", "GroupAdd", "GroupRemove", "GroupActive", "Arrange", "CancelArrange", "Nominate", "Unnominate"},
}
ALLOWED = {request: roles for roles, requests in ROLES.items() for request in requests}
