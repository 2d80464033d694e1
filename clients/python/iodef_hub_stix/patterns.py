"""The patterns of an Indicator: one for each alternative.

The operators of an expression are kept. So there is none for an expression of which a part is withheld or can't be written: an `and`
without it would fit more, and a frame doesn't tell its operator. Members that the table lacks, such as a file's size, are left out.
"""
from __future__ import annotations

from collections.abc import Iterable, Sequence
from dataclasses import dataclass

from iodef_hub_misp import elements_of, extras_in

from .excerpt import Place, inner_places
from .marking import strictest
from .table import quoted
from .values import Value, is_whole, values_of

PROTOCOLS = {6: "tcp", 17: "udp"}
MOST_ALTERNATIVES = 4096


class Unclear(Exception):
    """Why an expression has no pattern."""


@dataclass(frozen=True)
class Alternative:
    """A pattern, the values in it, and the strictest label of the classes that it was made of."""

    pattern: str
    label: str
    values: tuple[Value, ...]
    made_of: tuple[tuple[Place, str], ...]  # classes, each with a member that is carried


def alternatives_of(indicator: Place, withheld: Sequence[str]) -> tuple[list[Alternative], list[str]]:
    """The alternatives of an Indicator, and why others aren't there."""
    found: list[Alternative] = []
    unclear: list[str] = []
    for each in inner_places(indicator.path, indicator.members, indicator):
        if each.name in ("IndicatorExpression", "Observable"):
            try:
                if any(place == each.path or place.startswith(each.path + "/") for place in withheld):
                    raise Unclear("expressions of which a part is withheld")
                found += _expression(each, unclear) if each.name == "IndicatorExpression" else _observable(each)
            except Unclear as why:
                unclear.append(f"{why} at {each.path}")
    return found[:MOST_ALTERNATIVES], unclear


def _operands(place: Place, is_or: bool, unclear: list[str]) -> list[list[Alternative]]:
    """The alternatives of each operand. One that is unclear is left out of an `or`; an `and` has none without it."""
    found = []
    for each in inner_places(place.path, place.members, place):
        if each.name in ("Confidence", "AdditionalData") or "0" in extras_in(each.members).get("misp-to-ids", ()):
            continue
        try:
            if each.name not in ("IndicatorExpression", "Observable"):
                raise Unclear(f"expressions of {each.name}")
            found.append(_expression(each, unclear) if each.name == "IndicatorExpression" else _observable(each))
        except Unclear as why:
            if not is_or:
                raise
            unclear.append(f"{why} at {each.path}")
    if not is_or and not all(found):
        raise Unclear("expressions of `and` with an operand that has no pattern")
    return found


def _expression(place: Place, unclear: list[str]) -> list[Alternative]:
    operator = place.members.get("operator", "and")
    if operator not in ("and", "or"):
        raise Unclear(f"expressions of `{operator}`" if operator in ("not", "xor") else "expressions of an unknown operator")
    operands = _operands(place, operator == "or", unclear)
    if operator == "or" or len(operands) < 2:
        return [each for operand in operands for each in operand]
    joined = " AND ".join(_either(operand) for operand in operands)
    every = [each for operand in operands for each in operand]
    return [Alternative(joined, strictest([place.label, *(each.label for each in every)]),
                        tuple(value for each in every for value in each.values),
                        tuple(made for each in every for made in each.made_of))]


def _either(operand: Sequence[Alternative]) -> str:
    return operand[0].pattern if len(operand) == 1 else "(" + " OR ".join(each.pattern for each in operand) + ")"


def _observable(place: Place) -> list[Alternative]:
    found = []
    for each in inner_places(place.path, place.members, place):
        if each.name in ("System", "FileData", "WindowsRegistryKeysModified", "BulkObservable", "Address", "DomainData", "EmailData"):
            found += _of_class(each)
        elif each.name != "AdditionalData":
            raise Unclear(f"observables of {each.name}")
    if not found:
        raise Unclear("observables without a value that is known")
    return found


def _of_class(place: Place) -> list[Alternative]:
    inner = inner_places(place.path, place.members, place)
    if place.name == "System":
        return _system(place, inner)
    if place.name == "FileData":
        return [_together(_below(each)) for each in inner if each.name == "File"]
    if place.name == "WindowsRegistryKeysModified":
        return [_key(each) for each in inner if each.name == "Key"]
    if not is_whole(place) and place.name != "BulkObservable":
        raise Unclear("observables with a value that hasn't its form")
    if place.name == "EmailData":
        return [_email(place)]
    return [_alternative([each.comparison()], [(place, each)]) for each in values_of(place)]


def _below(place: Place) -> list[Place]:
    """The class and those in it."""
    found = [place]
    for each in found:
        found += inner_places(each.path, each.members, each)
    return found


def _alternative(comparisons: Iterable[str], held: Sequence[tuple[Place, Value]], beside: Sequence[tuple[Place, str]] = ()) -> Alternative:
    made_of = (*((place, value.member) for place, value in held), *beside)
    return Alternative("[" + " AND ".join(comparisons) + "]", strictest(place.label for place, _ in made_of),
                       tuple(value for _, value in held), made_of)


def _together(places: Sequence[Place]) -> Alternative:
    """One pattern for all values of these classes, as of a file's name and hashes."""
    if not all(is_whole(each) for each in places):
        raise Unclear("observables with a value that hasn't its form")
    held = [(place, value) for place in places for value in values_of(place)]
    if not held:
        raise Unclear("observables without a value that is known")
    return _alternative([value.comparison() for _, value in held], held)


EMAIL_PATHS = {"EmailFrom": "email-message:from_ref.value", "EmailTo": "email-message:to_refs[*].value"}


def _email(place: Place) -> Alternative:
    held = [(place, value) for value in values_of(place)]
    known = {"EmailFrom", "EmailTo", "EmailSubject", "EmailX-Mailer", "restriction", "ext-restriction"}
    if not held or any(name not in known and elements_of(place.members[name]) for name in place.members):
        raise Unclear("observables of EmailData with more than sender, subject and program")
    paths = [EMAIL_PATHS.get(value.member) for _, value in held]
    return _alternative([f"{path} = {quoted(value.text)}" if path else value.comparison() for path, (_, value) in zip(paths, held)], held)


def _key(place: Place) -> Alternative:
    held = [(place, value) for value in values_of(place)]
    if not held:
        raise Unclear("observables without a value that is known")
    told, data = [value.comparison() for _, value in held], place.members.get("Value")
    if data is None:
        return _alternative(told, held)
    if not isinstance(data, str):
        raise Unclear("observables with a value that hasn't its form")
    return _alternative([*told, f"windows-registry-key:values[*].data = {quoted(data)}"], held, [(place, "Value")])


def _system(place: Place, inner: Sequence[Place]) -> list[Alternative]:
    nodes = [each for node in inner if node.name == "Node" for each in inner_places(node.path, node.members, node)]
    services = [each for each in inner if each.name == "Service"]
    held = [(each, value) for each in nodes for value in values_of(each)]
    if not held or not all(is_whole(each) for each in nodes):
        raise Unclear("observables without a value that is known")
    if services:
        return [_traffic(place, *each, service) for each in held for service in services]
    names = [each for each in held if each[1].kind == "domain-name"]
    addresses = [each for each in held if each[1].row.type in ("ipv4-addr", "ipv6-addr")]
    if len(held) == 2 and len(names) == len(addresses) == 1:
        resolves = f"domain-name:resolves_to_refs[*].value = {quoted(addresses[0][1].text)}"
        return [_alternative([names[0][1].comparison(), resolves], [*names, *addresses])]
    return [_alternative([value.comparison()], [(at, value)]) for at, value in held]


def _traffic(system: Place, at: Place, value: Value, service: Place) -> Alternative:
    """Traffic with a host at a port: from it if it is the source, else to it."""
    port, protocol = service.members.get("Port"), service.members.get("ip-protocol")
    is_number = type(port) is int and 0 < port < 65536
    if not is_number or "Portlist" in service.members or protocol not in (None, *PROTOCOLS) or type(protocol) not in (int, type(None)):
        raise Unclear("observables with a service other than one port")
    is_source = system.members.get("category") == "source"
    side = "src" if is_source else "dst"
    operator = "ISSUBSET" if value.kind.endswith("-net") else "="
    told = [f"network-traffic:{side}_ref.value {operator} {quoted(value.text)}", f"network-traffic:{side}_port = {port}"]
    told += [f"network-traffic:protocols[*] = '{PROTOCOLS[protocol]}'"] if protocol is not None else []
    beside = [(service, name) for name in ("Port", "ip-protocol") if name in service.members]
    return _alternative(told, [(at, value)], [*beside, *([(system, "category")] if is_source else [])])
