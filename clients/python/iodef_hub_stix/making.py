"""STIX 2.1 objects of an excerpt.

An id is a UUIDv5 of hub, incident, kind and value: the same in each revision, at each place and for each reader. An object's marking is
the strictest label of the classes that it holds something of, and of the objects that it names. A detail that is stricter than what it
describes, such as an Indicator's description, isn't written beside it.
"""
from __future__ import annotations

import json
import re
import uuid
from collections import Counter
from collections.abc import Iterable, Sequence
from dataclasses import dataclass, field
from typing import Any

from iodef_hub_misp import CVE, ORDER, Taken, Wording, main_language, texts_of, wordings_of

from .excerpt import Excerpt, Place, inner_places, moment, places
from .marking import MARKING_IDS, strictest
from .patterns import Alternative, alternatives_of
from .values import Value, unfit_in, values_of

Object = dict[str, Any]
LANGUAGE = re.compile(r"[A-Za-z]{2,8}(-[A-Za-z0-9]{1,8})*")
LONGEST_NAME = 200
NOTED = ("EventData", "RecordData", "HistoryItem", "Method", "Discovery")  # whose descriptions become notes
TIMES = ("StartTime", "DetectTime", "EndTime")
UNTOLD = "1970-01-01T00:00:00.000Z"  # the moment of what tells none
ROLES = {"person": "individual", "organization": "organization"}


@dataclass
class Draft:
    """An object without its markings, and the labels of what it holds."""

    object: Object
    labels: list[str] = field(default_factory=list)


class Ids:
    """The ids of an incident's objects."""

    def __init__(self, hub: str, incident: str) -> None:
        self.base = uuid.uuid5(uuid.NAMESPACE_URL, "iodef-hub-stix:" + _canonical([hub, incident]))

    def of(self, type_: str, kind: str, value: str) -> str:
        return f"{type_}--{uuid.uuid5(self.base, _canonical([kind, value]))}"


def _canonical(value: list[str]) -> str:
    return json.dumps(value, separators=(",", ":"))


class Maker:
    """The objects of one excerpt. `created` is the moment of all, if it isn't empty, and `modified` that of the version."""

    def __init__(self, excerpt: Excerpt, modified: str, created: str) -> None:
        self.excerpt, self.created, self.modified = excerpt, created, modified
        self.incident = next((each for each in places(excerpt.document) if each.name == "Incident" and each.above is None), None)
        self.generated = moment(self.incident.members.get("GenerationTime")) if self.incident else None
        self.ids = Ids(excerpt.hub, excerpt.incident)
        self.drafts: dict[str, Draft] = {}
        self.observed: dict[tuple[str, str], Draft] = {}
        self.based: list[tuple[Draft, Value]] = []
        self.references: list[tuple[Object, str]] = []
        self.taken = Taken()
        self.left_out: Counter[str] = Counter()
        self.language = main_language(excerpt.document.get("lang"))
        self.author = self.ids.of("identity", "source", excerpt.source)
        self.report = self.ids.of("report", "report", "")

    def put(self, type_: str, kind: str, value: str, labels: Iterable[str], members: Object) -> Draft:
        """The object of this kind and value, made if it isn't there; with the labels of what is written into it."""
        name = self.ids.of(type_, kind, value)
        if name not in self.drafts:
            self.drafts[name] = Draft({"type": type_, "spec_version": "2.1", "id": name, **members})
        self.drafts[name].labels += labels
        return self.drafts[name]

    def put_versioned(self, type_: str, kind: str, value: str, labels: Iterable[str], members: Object) -> Draft:
        times = {"created": UNTOLD, "modified": self.modified}  # `mark` sets `created`
        author = {} if kind == "source" else {"created_by_ref": self.author}
        return self.put(type_, kind, value, labels, {**times, **author, **members})

    def made_at(self, label: str) -> str:
        """The moment at which an object of this label was made: that of the report, if the Incident isn't stricter. It is no clock's, so
        that an object's `created` stays over runs."""
        if self.created:
            return self.created
        is_told = self.incident is not None and _at_most(self.incident.label, label)
        return self.generated if is_told and self.generated else UNTOLD

    def mark(self) -> None:
        """Writes the markings, and the moments that depend on them."""
        for draft in self.drafts.values():
            label = strictest(draft.labels)
            if "created" in draft.object:
                draft.object["created"] = self.made_at(label)
                draft.object["modified"] = max(self.modified, draft.object["created"])
            draft.object["object_marking_refs"] = [MARKING_IDS[label]]

    def wordings(self, place: Place) -> list[tuple[Wording, str]]:
        """The texts of a class's Description, each with its label."""
        found = wordings_of(place.members, "Description", self.language)
        return [(each, each.label or place.label) for each in found if each.text.strip()]

    def take(self, wording: Wording) -> str:
        self.taken.one_of(wording.holder, wording.member)
        if wording.member == "value":
            self.taken.all_of(wording.holder, "lang", "translation-id")
        return wording.text

    # What is observed

    def observe(self, place: Place, value: Value) -> None:
        """A value outside an Indicator: its object, and the observation of it."""
        self.taken.all_of(place.members, value.member, "category", "type", "DigestMethod")
        if value.row.only_in_patterns:
            self.left_out[f"values of {value.kind} outside an Indicator"] += 1
            return
        labels = [place.label]
        held = self.put(value.row.type, value.kind, value.text, labels, value.properties())
        first, last = self._times(place)
        made = self.put_versioned("observed-data", "observed-data", _canonical([value.kind, value.text]), labels, {
            "first_observed": first, "last_observed": last, "number_observed": 1, "object_refs": [held.object["id"]]})
        self.observed[value.kind, value.text] = made
        self._note_part(place, made)

    def _times(self, place: Place) -> tuple[str, str]:
        """When something was observed: by the EventData or else the Incident around it, if that isn't stricter; else when the report was
        made."""
        for each in (place.nearest("EventData"), place.nearest("Incident")):
            if each is not None and _at_most(each.label, place.label):
                told = {name: moment(each.members.get(name)) for name in TIMES}
                first = told["StartTime"] or told["DetectTime"]
                if first is not None:
                    self.taken.all_of(each.members, *(name for name in TIMES if told[name]))
                    return first, max(first, told["EndTime"] or first)
        made = self.made_at(place.label)
        return made, made

    def _note_part(self, place: Place, made: Draft) -> None:
        """The role of the System that a value is of, as labels of its observation."""
        system = place.nearest("System")
        if system is None or not _at_most(system.label, place.label):
            return
        told = [system.members[name] for name in ("category",) if isinstance(system.members.get(name), str)]
        told += ["spoofed"] if system.members.get("spoofed") == "yes" else []
        self.taken.all_of(system.members, "category", "spoofed")
        if found := [each for each in told if each.strip()]:
            made.object["labels"] = sorted({*made.object.get("labels", ()), *found})

    # Indicators

    def indicate(self, indicator: Place) -> None:
        """An Indicator: an object for each alternative."""
        alternatives, unclear = alternatives_of(indicator, self.excerpt.withheld)
        self.left_out.update(unclear)
        told = {name: moment(indicator.members.get(name)) for name in ("StartTime", "EndTime")}
        for each in alternatives:
            self._take_parts(each)
            labels = [each.label]
            members: Object = {"pattern": each.pattern, "pattern_type": "stix", "valid_from": self.made_at(each.label)}
            if _at_most(indicator.label, each.label):
                members |= self._valid(indicator, told, members["valid_from"])
            if texts := [wording for wording, label in self.wordings(indicator) if _at_most(label, each.label)]:
                members["description"] = "\n".join(self.take(wording) for wording in texts)
            members["name"] = _short(", ".join(value.text for value in each.values))
            made = self.put_versioned("indicator", "indicator", each.pattern, labels, members)
            self.based += [(made, value) for value in each.values]

    def _take_parts(self, alternative: Alternative) -> None:
        for place, member in alternative.made_of:
            self.taken.all_of(place.members, member, "category", "type", "DigestMethod", "operator")

    def _valid(self, indicator: Place, told: dict[str, str | None], made: str) -> Object:
        self.taken.all_of(indicator.members, *(name for name in told if told[name]))
        first, last = told["StartTime"] or made, told["EndTime"]
        return {"valid_from": first, **({"valid_until": last} if last and last > first else {})}

    def relate(self) -> None:
        """The observations that indicators are based on."""
        for made, value in self.based:
            target = self.observed.get((value.kind, value.text))
            if target is not None:
                ends = [made.object["id"], target.object["id"]]
                self.put_versioned("relationship", "based-on", _canonical(ends), [*made.labels, *target.labels], {
                    "relationship_type": "based-on", "source_ref": ends[0], "target_ref": ends[1]})

    # Texts, persons, references

    def describe(self, place: Place) -> None:
        """The descriptions of a class as notes on the report."""
        for wording, label in self.wordings(place):
            text = self.take(wording)
            self.put_versioned("note", "note", text, [label], {"content": text, "object_refs": [self.report]})

    def introduce(self, place: Place) -> None:
        """A Contact."""
        names = [each for each in wordings_of(place.members, "ContactName", self.language) if each.text.strip()][:1]
        ways = self._ways(place)
        if place.is_frame() and not names and not ways:
            return
        for each in names:
            self.take(each)
        self.taken.all_of(place.members, "role", "type")
        role, kind = place.members.get("role"), place.members.get("type")
        told: Object = {"roles": [role]} if isinstance(role, str) and role else {}
        name = names[0].text if names else "name unknown"
        labels = [*(each.label or place.label for each in names), *(label for _, label in ways)]
        labels += [] if place.is_frame() else [place.label]
        of_class = ROLES.get(kind, "unknown") if isinstance(kind, str) else "unknown"
        made = self.put_versioned("identity", "contact", _canonical([name, *told.get("roles", [])]), labels, {
            "name": _short(name), "identity_class": of_class, **told})
        if ways:
            lines = [*made.object.get("contact_information", "").splitlines(), *(text for text, _ in ways)]
            made.object["contact_information"] = "\n".join(dict.fromkeys(lines))

    def _ways(self, place: Place) -> list[tuple[str, str]]:
        """The addresses and numbers of a Contact, each with its label."""
        found = []
        for each in inner_places(place.path, place.members, place):
            member = {"Email": "EmailTo", "Telephone": "TelephoneNumber"}.get(each.name)
            texts = texts_of(each.members, member) if member else []
            if texts and member:
                self.taken.all_of(each.members, member)
            found += [(text, each.label) for text in texts]
        return found

    def identify(self, place: Place) -> None:
        """An IncidentID of the report, or another one by AlternativeID."""
        names, ids = texts_of(place.members, "name"), texts_of(place.members, "id")
        above = place.above
        if above is not None and above.name in ("Incident", "AlternativeID") and names and ids and names[0].strip():
            self.taken.all_of(place.members, "name", "id")
            self.references.append(({"source_name": names[0], "external_id": ids[0]}, place.label))

    def refer(self, place: Place) -> None:
        """A Reference: a vulnerability of CVE, and its addresses as references of the report."""
        urls = [each for each in texts_of(place.members, "URL") if each.strip()]
        self.taken.all_of(place.members, *(["URL"] if urls else []))
        self.references += [({"source_name": "reference", "url": each}, place.label) for each in urls]
        for wording, label in self.wordings(place):
            if CVE.fullmatch(wording.text):
                self.expose(self.take(wording), label)

    def refer_by_name(self, place: Place) -> None:
        """A ReferenceName: a vulnerability, if its ID is a CVE's number."""
        for text in texts_of(place.members, "ID"):
            if CVE.fullmatch(text):
                self.taken.all_of(place.members, "ID")
                self.expose(text, place.label)

    def expose(self, number: str, label: str) -> None:
        """The vulnerability of a CVE's number."""
        name = number.upper()
        self.put_versioned("vulnerability", "vulnerability", name, [label], {
            "name": name, "external_references": [{"source_name": "cve", "external_id": name}]})

    # The whole

    def count_unfit(self, place: Place) -> None:
        if count := unfit_in(place):
            self.left_out[f"values that haven't the form of their kind at {place.path}"] += count

    def read(self) -> None:
        """Makes all objects but the report and the source."""
        for place in places(self.excerpt.document):
            if place.name == "Indicator":
                self.indicate(place)
            elif place.nearest("Indicator") is None:
                self._read_outside(place)
            elif place.name == "BulkObservable":  # whose other values have patterns
                self.count_unfit(place)
            if place.name == "Reference":
                self.refer(place)
            elif place.name == "ReferenceName":
                self.refer_by_name(place)
        self.relate()

    def _read_outside(self, place: Place) -> None:
        for value in values_of(place):
            self.observe(place, value)
        self.count_unfit(place)
        if place.name == "Contact":
            self.introduce(place)
        elif place.name == "IncidentID":
            self.identify(place)
        elif place.name in NOTED:
            self.describe(place)

    def conclude(self) -> None:
        """The report, which names all others, and the source."""
        incident, published = self.incident, self.generated
        texts = self.wordings(incident) if incident else []
        told = [self.take(wording) for wording, _ in texts]
        if incident and published:
            self.taken.all_of(incident.members, "GenerationTime")
        labels = [*(label for _, label in texts), *(label for _, label in self.references)]
        labels += [incident.label] if incident and published else []
        source = self.excerpt.name or f"source of incident {self.excerpt.incident} at {self.excerpt.hub}"
        author = self.put_versioned("identity", "source", self.excerpt.source, [], {"identity_class": "organization", "name": source})
        others = list(self.drafts.values())
        held = [strictest(each.labels) for each in others if each is not author]
        # The hub tells the source beside whatever it serves, so to each who may have the widest of it.
        author.labels = [min([*held, *labels], key=ORDER.index, default="red")]
        members: Object = {"name": _short(told[0]) if told else f"Incident {self.excerpt.incident} at {self.excerpt.hub}",
                           "published": published or self.created or UNTOLD, "object_refs": [each.object["id"] for each in others]}
        members |= {"description": "\n".join(told)} if told else {}
        members |= {"external_references": [each for each, _ in self.references]} if self.references else {}
        language = self.excerpt.document.get("lang")
        members |= {"lang": language} if isinstance(language, str) and LANGUAGE.fullmatch(language) else {}
        self.put_versioned("report", "report", "", [*labels, *held], members)

    def count(self) -> None:
        """How much of the excerpt isn't in the objects."""
        document = dict(self.excerpt.document)
        for each in (document, *([self.incident.members] if self.incident else [])):
            self.taken.open(each)
            self.taken.all_of(each, "version", "lang", "purpose")
        self.left_out += self.taken.left_out(document, "document")[1]


def _made(excerpt: Excerpt, modified: str, created: str) -> Maker:
    maker = Maker(excerpt, modified, created)
    maker.read()
    maker.conclude()
    maker.mark()
    return maker


def made_of(excerpt: Excerpt, modified: str, created: str = "") -> list[Object]:
    """The objects of an excerpt, without the marking definitions.

    `modified` is the moment of this version of them, and `created` that at which they were made, each in the form of STIX. By default
    that is the GenerationTime of the report; UNTOLD, if there is none or its Incident is stricter than the object."""
    return [draft.object for draft in _made(excerpt, modified, created).drafts.values()]


def objects_of(excerpt: Excerpt, modified: str, created: str = "") -> tuple[list[Object], Counter[str]]:
    """The same, and how much of the excerpt isn't in them, by name."""
    maker = _made(excerpt, modified, created)
    maker.count()
    return [draft.object for draft in maker.drafts.values()], maker.left_out


def _at_most(label: str, other: str) -> bool:
    return ORDER.index(label) <= ORDER.index(other)


def _short(text: str) -> str:
    line = " ".join(text.split())
    return line if len(line) <= LONGEST_NAME else line[: LONGEST_NAME - 1] + "…"
