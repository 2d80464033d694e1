"""A circle of a hub that changes at random, and what a view description says of a reader of an incident there.

What a description says is worked out here from the requests that the hub was sent, by the rules of docs/POLICY.md ("Who is
who"). Nothing is taken from a hub's answer but the numbers of what is new.
"""
from __future__ import annotations

import random
from collections.abc import Callable, Iterator
from dataclasses import dataclass, field
from typing import Any

import iodef_hub
from generated import HANDLINGS, Document, Maker, classes_of

ADMIN = "admin-key"
NOW = "2026-06-01T00:00:00Z"
ENDS = (None, None, "2020-01-01T00:00:00Z", "2020-06-01T01:00:00+01:00", "9999-01-01T00:00:00Z")
ORGS = range(2, 9)
SOURCES = (2, 3)
COMMUNITIES = range(1, 5)
FIRST_MEMBERS = ((1, 2), (1, 3), (1, 4), (2, 2), (2, 5), (3, 6), (3, 3), (4, 7))


@dataclass
class Person:
    number: int
    org: int
    hub: iodef_hub.Hub
    role: str
    is_nominated: bool = False
    is_suspended: bool = False


@dataclass
class Group:
    number: int
    owner: int
    members: set[int]
    is_active: bool = True


@dataclass(frozen=True)
class Posted:
    """An incident: where it is in the report that was posted, and what was asked for it."""

    number: int
    report: bytes
    place: int
    source: int
    community: int | None
    gates: list[Document]
    permissions: list[Document]
    recipients: set[tuple[str, int]]


@dataclass
class Circle:
    """What was asked of the hub, by an administrator and by the coordinator of each organisation."""

    port: int
    random: random.Random
    persons: list[Person] = field(default_factory=list)
    members: dict[int, set[int]] = field(default_factory=lambda: {each: set() for each in COMMUNITIES})
    links: set[frozenset[int]] = field(default_factory=set)
    clients: set[tuple[int, int]] = field(default_factory=set)
    groups: list[Group] = field(default_factory=list)
    arrangements: dict[tuple[int, int], str] = field(default_factory=dict)
    met: dict[str, int] = field(default_factory=dict)

    def hub(self, key: str) -> iodef_hub.Hub:
        return iodef_hub.Hub(f"http://127.0.0.1:{self.port}", key)

    @property
    def admin(self) -> iodef_hub.Hub:
        return self.persons[0].hub

    def coordinator(self, org: int) -> iodef_hub.Hub:
        return next(each.hub for each in self.persons if each.org == org and each.role == "coordinator")

    # How it is made

    def add_person(self, org: int, role: str) -> Person:
        key = f"key-{len(self.persons)}"
        number = self.admin.add_person(org, f"{role} {len(self.persons)}", role, iodef_hub.digest_of(key))
        self.persons.append(Person(number, org, self.hub(key), role))
        return self.persons[-1]

    def begin(self) -> None:
        """Eight organisations with two persons each and some more, four communities and a group for each source and two."""
        self.persons.append(Person(1, 1, self.hub(ADMIN), "administrator"))
        for org in ORGS:
            assert self.admin.add_org(f"Organisation {org}") == org
            self.add_person(org, "coordinator")
            self.add_person(org, "reader")
        self.add_person(SOURCES[0], "poster")
        self.add_person(SOURCES[1], "administrator")
        for org in (SOURCES[0], 4):
            gone = self.add_person(org, "reader")
            self.admin.suspend(gone.number)
            gone.is_suspended = True
        for number in COMMUNITIES:
            assert self.admin.add_community(f"Community {number}") == number
        for owner in (*SOURCES, *SOURCES, 5):
            number = self.coordinator(owner).new_group(f"Group {len(self.groups)}")
            self.groups.append(Group(number, owner, {owner}))
        for community, org in FIRST_MEMBERS:
            self.join_one(community, org)
        for _ in range(60):
            self.change()

    # How it changes

    def change(self) -> None:
        """One change at random: what is so is taken back, and what isn't is done."""
        changes = (self.nominate, self.join, self.join, self.link, self.add_client, self.switch_group, self.add_to_group, self.add_to_group, self.arrange)
        self.random.choice(changes)()

    def nominate(self) -> None:
        person = self.random.choice([each for each in self.persons[1:] if not each.is_suspended])
        coordinator = self.coordinator(person.org)
        (coordinator.unnominate if person.is_nominated else coordinator.nominate)(person.number)
        person.is_nominated = not person.is_nominated

    def join(self) -> None:
        self.join_one(self.random.choice(COMMUNITIES), self.random.choice(ORGS))

    def join_one(self, community: int, org: int) -> None:
        (self.admin.leave if org in self.members[community] else self.admin.join)(community, org)
        self.members[community] ^= {org}

    def link(self) -> None:
        pair = frozenset(self.random.sample(COMMUNITIES, 2))
        one, other = sorted(pair)
        (self.admin.unlink if pair in self.links else self.admin.link)(one, other)
        self.links ^= {pair}

    def add_client(self) -> None:
        org, client = self.random.sample(ORGS, 2)
        (self.admin.remove_client if (org, client) in self.clients else self.admin.add_client)(org, client)
        self.clients ^= {(org, client)}

    def switch_group(self) -> None:
        group = self.random.choice(self.groups)
        group.is_active = not group.is_active
        self.coordinator(group.owner).group_active(group.number, group.is_active)

    def add_to_group(self) -> None:
        group = self.random.choice(self.groups)
        org = self.random.choice([each for each in ORGS if each != group.owner])
        coordinator = self.coordinator(group.owner)
        if org in group.members:
            coordinator.group_remove(group.number, org)
        else:
            coordinator.group_add(group.number, org)
        group.members ^= {org}

    def arrange(self) -> None:
        source = self.random.choice(SOURCES)
        org = self.random.choice([each for each in ORGS if each != source])
        if self.arrangements.pop((source, org), None):
            self.coordinator(source).cancel_arrange(org)
        else:
            handling = self.arrangements[source, org] = self.random.choice(HANDLINGS)
            self.coordinator(source).arrange(org, handling)

    # Incidents

    def own_groups(self, org: int) -> list[int]:
        return [each.number for each in self.groups if org in each.members]

    def gate(self, path: str, source: int) -> Document:
        level = self.random.choice((3, 3, 3, 1, 2, 4, 4, 5 if path else 3, 0))
        return {"path": path, "level": level, **({"group": self.random.choice(self.own_groups(source))} if level == 4 else {})}

    def permission(self, path: str, source: int) -> Document:
        kind = self.random.choice(("person", "org", "community", "group"))
        whom = {
            "person": [each.number for each in self.persons if not each.is_suspended], "org": list(ORGS), "community": list(COMMUNITIES),
            "group": self.own_groups(source),
        }
        end = self.random.choice(ENDS)
        return {"path": path, kind: self.random.choice(whom[kind]), **({"until": end} if end else {})}

    def permissions(self, paths: list[str], source: int) -> list[Document]:
        """At most one for a class and a grantee: another end would take its place."""
        made: dict[str, Document] = {}
        for path in self.random.choices(paths, k=self.random.choice((0, 1, 2, 4))):
            given = self.permission(path, source)
            made[str({name: value for name, value in given.items() if name != "until"})] = given
        return list(made.values())

    def recipients(self) -> set[tuple[str, int]]:
        whom = [("person", each.number) for each in self.persons] + [("org", each) for each in ORGS] * 2
        return set(self.random.choices(whom, k=self.random.choice((0, 1, 2, 4))))

    def post(self, maker: Maker, ident: str) -> list[Posted]:
        """Posts a report for somebody at random, and returns its incidents."""
        source = self.random.choice((*SOURCES, SOURCES[0]))
        report = maker.report(ident)
        text = maker.text(report)
        own = [each for each in COMMUNITIES if source in self.members[each]]
        community = self.random.choice((None, *own))
        root = self.gate("", source)
        hub = self.random.choice([each.hub for each in self.persons if each.org == source and each.role in ("coordinator", "poster") and not each.is_suspended])
        paths = [[path for path, _ in classes_of({**report, "Incident": [one]})] for one in report["Incident"]]
        gates = [[self.gate(path, source) for path in self.random.sample(each, min(len(each), self.random.choice((0, 0, 1, 2, 3))))] for each in paths]
        sent = [iodef_hub.Gate(each["level"], each.get("group", 0), each["path"]) for each in gates[0]] if len(paths) == 1 else []
        numbers = hub.post(text, root["level"], root.get("group"), sent, community=community)
        made = []
        for place, number in enumerate(numbers):
            one = Posted(number, text, place, source, community, [root, *gates[place]], self.permissions(paths[place], source), self.recipients())
            self.share(hub, one, [] if sent else gates[place])
            made.append(one)
        return made

    def share(self, hub: iodef_hub.Hub, one: Posted, gates: list[Document]) -> None:
        """Asks for what an incident has beside its report."""
        for gate in gates:
            hub.redistribute(one.number, 1, gate["path"], gate["level"], gate.get("group"))
        for given in one.permissions:
            kind = next(each for each in ("person", "org", "community", "group") if each in given)
            hub.grant(one.number, 1, given["path"], kind, given[kind], given.get("until"))
        for kind, number in sorted(one.recipients):
            hub.address(one.number, kind, number)

    # What a description says

    def standing(self, who: Person, one: Posted) -> Document:
        """How a person stands to an incident."""
        mine = {each for each in COMMUNITIES if who.org in self.members[each]}
        theirs = {each for each in COMMUNITIES if one.source in self.members[each]}
        addressed = {number for kind, number in one.recipients if kind == "org"}
        groups = [each for each in self.groups if who.org in each.members]
        truths = {
            "source": who.org == one.source,
            "person": ("person", who.number) in one.recipients,
            "nominated": who.is_nominated,
            "addressed": who.org in addressed,
            "client": any((org, who.org) in self.clients for org in {one.source, *addressed}),
            "community": bool(mine & theirs),
            "peer": bool(mine & theirs) if one.community is None else who.org in self.members[one.community],
            "connected": any(frozenset((one_of, other)) in self.links for one_of in mine for other in theirs),
        }
        arrangement = self.arrangements.get((one.source, who.org))
        for name, is_so in {**truths, "peer apart from community": truths["peer"] != truths["community"]}.items():
            self.met[name] = self.met.get(name, 0) + is_so
        return {
            "who": who.number, "org": who.org, **truths, **({"arrangement": arrangement} if arrangement else {}),
            "groups": [each.number for each in groups], "active_groups": [each.number for each in groups if each.is_active],
            "communities": sorted(mine),
        }

    def described(self, who: Person, one: Posted) -> Document:
        """The view description for a person and an incident."""
        case: dict[str, Any] = {"source": one.source, "gates": one.gates, "permissions": one.permissions}
        named = {"community": one.community} if one.community is not None else {}
        return {"now": NOW, "incident": one.place, "case": {**case, **named}, "reader": self.standing(who, one)}


def asked_of(circle: Circle, maker: Maker, reports: int) -> Iterator[Posted]:
    """Posts so many reports, and changes the circle before and behind each."""
    for at in range(reports):
        circle.change()
        made = circle.post(maker, str(at))
        for _ in range(circle.random.randrange(3)):
            circle.change()
        yield from made


def refusal_of(call: Callable[[], object]) -> str:
    """The code by which the hub refuses, or nothing."""
    try:
        call()
    except iodef_hub.Refused as fault:
        return fault.code
    return ""
