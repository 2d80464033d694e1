"""How a report of one's own is shared, by the commands: posted, granted to three, looked at when one has ended, taken back; and a new key."""
from __future__ import annotations

import json
import os
import pathlib
import stat
import time
import unittest.mock
from collections.abc import Callable
from typing import Any

from iodef_hub_ask import persons

Check = Callable[..., None]
FIRST, SECOND = "/Incident/0/EventData/0", "/Incident/0/EventData/1"
REPORT = json.dumps({"version": "2.0", "Incident": [{
    "purpose": "reporting", "IncidentID": {"id": "shared", "name": "x"}, "GenerationTime": "2026-01-01T00:00:00Z", "Contact": [{"role": "creator"}],
    "restriction": "amber", "EventData": [
        {"Description": ["the page"], "restriction": "green", "Method": [{"Description": ["by\tmail"]}, {"restriction": "red", "Description": ["by phone"]}]},
        {"Description": ["the victims"], "restriction": "red"}],
}]}).encode()
INCIDENT = "Incident /Incident/0 (TLP:AMBER+STRICT): x shared"
PAGE = f"EventData {FIRST} (TLP:GREEN): the page"
PHONE = f"Method {FIRST}/Method/1 (TLP:RED): by phone"
VICTIMS = f"EventData {SECOND} (TLP:RED): the victims"
EVERYBODY = "gate\tlevel 3 (everybody in the hub, including organisations in no community)\tthe whole report"
CLEARED = "its nominated persons are cleared for TLP:AMBER+STRICT, those of its clients for TLP:AMBER"
ANY = "any of your communities, and for those whom TLP:AMBER is for"
AMBER = "addressed persons, and nominated persons of addressed organisations and of clients of these or of the source"
GREEN = f"green\tis for {ANY}: {AMBER}"
NOBODY = "permission\tnobody"
MEMBERS = "community\tcommunity 1 (east): organisation 2, organisation 3"


def text_of(*lines: str) -> str:
    return "".join(f"{line}\n" for line in lines)


def by_sharing(check: Check, asker: Callable[..., Any], folder: pathlib.Path) -> None:
    bank, telco = asker("bank-key"), asker("telco-key")
    bank.environment["TZ"] = "UTC0"
    number = bank("post", "-", "3", "--any-community", "--gate", f"4:1:{SECOND}", given=REPORT)[1].strip()
    for words in ((SECOND, "org", "3"), (SECOND, "person", "4", "--until", "2035-07-01T18:00:00+02:00"), (FIRST, "community", "1", "--until", soon())):
        check("command grant to three", bank("grant", number, *words)[0], 0)
    for words in (("person", "4"), ("org", "3")):
        check("command address for it", bank("address", number, *words)[0], 0)
    told = [GREEN, EVERYBODY, f"gate\tlevel 4 (group 1 (phishing))\t{VICTIMS}",
            f"label\tTLP:AMBER+STRICT, for addressed persons, and nominated persons of addressed organisations\t{INCIDENT}",
            f"label\tTLP:GREEN, for {ANY}\t{PAGE}",
            f"label\tTLP:RED, for addressed persons\t{PHONE}", f"label\tTLP:RED, for addressed persons\t{VICTIMS}",
            "recipient\tperson 4: cleared for TLP:RED", f"recipient\torganisation 3: {CLEARED}",
            f"permission\tperson 4, until 2035-07-01T16:00:00+00:00\t{VICTIMS}", f"permission\torganisation 3, for ever\t{VICTIMS}", MEMBERS]
    end = text_of(f"incident {number}, revision 1; each gate on the way to a class must let a reader pass, then its label opens it, or a permission;"
                  " not known here: arrangements, nominations, clients, and who is in a group or in a community that isn't yours")
    time.sleep(3)
    check("command sharing", (bank("sharing", number), bank.errors), ((0, text_of(*told)), f"permissions that have ended: 1; --ended lists them\n{end}"))
    status, text = bank("sharing", number, "--ended")
    last = text.splitlines()[-1].split("\t")
    check("command sharing --ended", (status, text.startswith(text_of(*told)), last[0], last[1].startswith("community 1 (east), ended 20"), last[2], bank.errors),
          (0, True, "ended", True, PAGE, end))
    of_one_class(check, bank, number, told, last)
    check("command sharing of no class", (bank("sharing", number, "/Incident/0/Method/0"), bank.errors),
          ((2, ""), f"iodef-hub-ask: incident {number} has no class at /Incident/0/Method/0\n"))
    raw = json.loads(asker("bank-key", "--json")("sharing", number)[1])
    check("command sharing, the hub's own JSON", (raw["gates"], raw["recipients"], len(raw["permissions"])), ([["", 3, 0], [SECOND, 4, 1]], [["person", 4], ["org", 3]], 3))
    check("command sharing of another's report", (telco("sharing", number), telco.errors), ((1, ""), text_of(
        f"incident {number} is of organisation 2, and the hub tells only its source how a report is shared", "iodef-hub-ask: N1: no such incident for you")))
    check("command sharing of another's report, the hub's own JSON", asker("telco-key", "--json")("sharing", number)[1].splitlines()[-1:],
          ['{"code":"N1","detail":"","reason":"no such incident for you"}'])
    check("command sharing --help says what a path is", "/Incident/0/EventData/1" in bank("sharing", "--help")[1])
    by_circle(check, asker)
    by_gates(check, asker)
    by_withdrawing(check, asker, number, "\t".join(last).split(", ended ")[1].split("\t")[0])
    by_new_key(check, asker, folder)


def of_one_class(check: Check, bank: Any, number: str, told: list[str], last: list[str]) -> None:
    person, org = "recipient\tperson 4", "recipient\torganisation 3: its nominated persons"
    start = f"incident {number}, revision 1; a reader must pass each gate"
    check("command sharing of one class", (bank("sharing", number, SECOND), bank.errors), ((0, text_of(
        EVERYBODY, f"gate\tlevel 4 (group 1 (phishing))\t{SECOND}", told[6], person, *(each.replace(VICTIMS, SECOND) for each in told[9:11]))),
        f"{start}; not known here: which organisation a person is of, who is in a group\n"))
    check("command sharing of a class inside", (bank("sharing", number, f"{FIRST}/Method/0", "--ended"), bank.errors), ((0, text_of(
        GREEN, EVERYBODY, f"label\tTLP:GREEN, for {ANY}\tMethod {FIRST}/Method/0 (TLP:GREEN): by\\u0009mail",
        person, f"{org}, and those of its clients", NOBODY, MEMBERS, "\t".join([*last[:2], FIRST]))), f"{start}; not known here: nominations, clients\n"))
    check("command sharing of one with a label of its own", (bank("sharing", number, f"{FIRST}/Method/1", "--ended"), bank.errors),
          ((0, text_of(EVERYBODY, told[5], person, NOBODY)), f"{start}\n"))
    check("command sharing of one that is TLP:AMBER+STRICT", (bank("sharing", number, "/Incident/0/Contact/0"), bank.errors), ((0, text_of(
        EVERYBODY, f"label\tTLP:AMBER+STRICT, for addressed persons, and nominated persons of addressed organisations\tContact /Incident/0/Contact/0 (TLP:AMBER+STRICT): creator",
        person, org, NOBODY)), f"{start}; not known here: nominations\n"))


def by_circle(check: Check, asker: Callable[..., Any]) -> None:
    """What a group that is switched off, an arranged label and communities open, of which one isn't one's own."""
    bank, admin = asker("bank-key"), asker("admin-key")
    other = admin("add-community", "elsewhere")[1].strip()
    number = bank("post", "-", "2", "--community", "1", "--gate", f"4:1:{FIRST}", given=REPORT.replace(b'"shared"', b'"circle"').replace(b'"green"', b'"default"'))[1].strip()
    for words in (("group", "1"), ("community", other)):
        bank("grant", number, FIRST, *words)
    bank("group-active", "1", "off")
    lines = [each.split("\t") for each in bank("sharing", number, FIRST)[1].splitlines()]
    off, arranged = ", which is switched off and opens nothing", "as arranged, else TLP:RED"
    check("command sharing of a group that is off, of an arranged label, and of communities", [each[:2] for each in lines], [
        ["green", f"is for community 1 (east), and for those whom TLP:AMBER is for: {AMBER}"],
        ["gate", "level 2 (your communities, and those connected to them)"], ["gate", f"level 4 (group 1 (phishing)){off}"],
        ["label", f"{arranged}, for addressed persons, or as you arranged with the reader's organisation"],
        ["recipient", "nobody"], ["permission", f"community {other}, for ever"], ["permission", f"group 1 (phishing){off}, for ever"],
        MEMBERS.split("\t"), ["community", f"community {other}: not one of yours, so its members are not known here"]])
    bank("group-active", "1", "on")
    check("  and when the group is on", "switched off" in bank("sharing", number, FIRST)[1], False)


def by_gates(check: Check, asker: Callable[..., Any]) -> None:
    """Of a permission or a recipient it is said that a gate stops the organisation, where that is known."""
    bank = asker("bank-key")
    gates = ("--gate", f"1:0:{FIRST}", "--gate", f"0:0:{SECOND}")
    number = bank("post", "-", "3", "--any-community", *gates, given=REPORT.replace(b'"shared"', b'"gates"'))[1].strip()
    for words in ((FIRST, "person", "4"), (FIRST, "org", "1"), (FIRST, "org", "3"), (SECOND, "org", "3"), (SECOND, "org", "2")):
        bank("grant", number, *words)
    bank("address", number, "org", "1")

    def whom(*words: str) -> list[str]:
        lines = [each.split("\t") for each in bank("sharing", number, *words)[1].splitlines()]
        return [each[1] for each in lines if each[0] in ("recipient", "permission")]

    check("command sharing: whom a gate of level 1 stops", whom(FIRST), [
        "organisation 1: its nominated persons, and those of its clients, itself stopped at level 1",
        "person 4, for ever", "organisation 1, for ever, stopped at level 1", "organisation 3, for ever"])
    check("  of level 0, which lets the own one pass", whom(SECOND), ["nobody", "organisation 2, for ever", "organisation 3, for ever, stopped at level 0"])
    check("  and of a whole report that isn't said", [each for each in whom() if "stopped" in each], [])


def soon() -> str:
    """Two seconds from now."""
    return time.strftime("%Y-%m-%dT%H:%M:%SZ", time.gmtime(time.time() + 2))


def by_withdrawing(check: Check, asker: Callable[..., Any], number: str, ended: str) -> None:
    bank = asker("bank-key")
    bank.environment["TZ"] = "UTC0"
    check("command withdraw-ended", (bank("withdraw-ended", number), bank.errors), (
        (0, f"community 1 has no permission at {FIRST} of incident {number}: it ended {ended}\n"), ""))
    check("and again", (bank("withdraw-ended", number), bank.errors), ((0, ""), f"no permission of incident {number} has ended\n"))
    left = json.loads(asker("bank-key", "--json")("sharing", number)[1])["permissions"]
    check("the others are there", sorted(row[1:4] for row in left), [["org", 3, None], ["person", 4, 2066918400]])


def synced(file: pathlib.Path) -> list[bool]:
    """Of all that is synced when a key is written whether it is a folder."""
    found: list[bool] = []
    with unittest.mock.patch("os.fsync", lambda it: found.append(stat.S_ISDIR(os.fstat(it).st_mode))):
        persons.write_key(str(file), "key")
    return found


def by_new_key(check: Check, asker: Callable[..., Any], folder: pathlib.Path) -> None:
    file = folder / "new.key"
    eve = asker((folder / "eve.key").read_text().strip())
    check("command new-key", eve("new-key", "--key-file", str(file)), (0, f"your key is the one in {file}; the old one is nobody's\n"))
    check("a key is durable before it is sent, and so is its place in the folder", synced(folder / "synced.key"), [False, True])
    key = file.read_text().strip()
    check("the key's file is its owner's alone, and its key new", (oct(file.stat().st_mode & 0o777), len(key) >= 43), ("0o600", True))
    check("the hub knows the new key, and the old one is nobody's", (json.loads(asker(key)("me")[1])["number"], eve("me")[0]), (6, 1))
    check("command new-key, into a file that is there", (asker(key)("new-key", "--key-file", str(file))[0], file.read_text().strip()), (2, key))
    other = folder / "other.key"
    check("command new-key by a key that is nobody's", (eve("new-key", "--key-file", str(other))[0], other.exists()), (1, False))
    other.write_text("one's own key\n")
    check("command new-key --made of no key", (asker(key)("new-key", "--key-file", str(other), "--made")[0], asker(key)("me")[0]), (2, 0))
    other.write_text("ones-own-key\n")
    ran = asker(key)("new-key", "--key-file", str(other), "--made")
    check("command new-key --made", (ran[0], asker(key)("me")[0], asker("ones-own-key")("me")[0]), (0, 1, 0))
    check("and again, as it was taken", asker(key)("new-key", "--key-file", str(other), "--made"), ran)
    own = asker("ones-own-key")
    check("command new-key --made of the key that is used", (own("new-key", "--key-file", str(other), "--made"), own.errors), (
        (2, ""), f"iodef-hub-ask: {other} has the key that you use, and --made wants the new one: nothing was sent\n"))
    (folder / "eve.key").write_text("ones-own-key\n")


def by_lost_key(check: Check, asker: Any, between: Any, folder: pathlib.Path, busy: str, away: str) -> None:
    """An exchange whose answer is lost: the new key itself says whether it was taken."""
    key, file = (folder / "eve.key").read_text().strip(), folder / "lost.key"
    ask = asker(between.port, key)
    between.take(away)
    check("command new-key that isn't taken for sure", (ask("new-key", "--key-file", str(file))[0], "K1 means that it was done" not in ask.errors, file.exists()), (4, False, True))
    check("  the old key is served", ask("me")[0], 0)
    between.take("drop")
    check("command new-key whose answer is lost", ask("new-key", "--key-file", str(folder / "taken.key"))[0], 0)
    taken = (folder / "taken.key").read_text().strip()
    check("  the new key is served alone", (asker(between.port, taken)("me")[0], ask("me")[0]), (0, 1))
    between.take(busy)
    ask = asker(between.port, taken)
    check("command new-key that is sent again", (ask("new-key", "--key-file", str(folder / "again.key"))[0], between.asked), (0, ["POST /me/key", "POST /me/key", "GET /me"]))


def by_failed_key(check: Check, asker: Any, between: Any, folder: pathlib.Path, failed: str, busy: str) -> None:
    """An exchange that the hub gives up. If its machine stops then, the new key may hold, so the file with it stays, and each hub gets it."""
    old, url = (folder / "again.key").read_text().strip(), f"http://127.0.0.1:{between.port}"
    ask = asker(between.port, old, "--tries", "1")
    for name, act in (("F1", failed), ("F2", failed.replace("F1", "F2"))):
        file = folder / f"{name}.key"
        between.take(act)
        check(f"command new-key that gets {name}", (ask("new-key", "--key-file", str(file))[0], file.exists()), (1, True))
        check("  it says to keep both", f"keep both keys: the new one, in {file}, may come to hold; run this again with --made" in ask.errors)
    check("  then by --made it is exchanged", (ask("new-key", "--key-file", str(file), "--made")[0], ask("me")[0]), (0, 1))
    again = asker(between.port, file.read_text().strip(), "--tries", "2")
    for name, act in (("another refusal", failed.replace("503 Service Unavailable", "409 Conflict").replace("F1", "S1")), ("a busy proxy's", busy)):
        other = folder / f"{name}.key"
        between.take(failed, act)
        check(f"the file stays at F1 and then {name}", (again("new-key", "--key-file", str(other))[0], other.exists()), (1, True))
    ask, other = asker(between.port, file.read_text().strip(), "--tries", "1"), folder / "busy.key"
    between.take(busy)
    check("and goes at the latter alone", (ask("new-key", "--key-file", str(other))[0], other.exists()), (1, False))
    between.take(failed)
    check("the second hub gets the key of which the first one gave F1", (ask("--url", url, "--url", url, "new-key", "--key-file", str(other))[0], between.asked), (
        1, ["POST /me/key", "GET /me", "POST /me/key", "GET /me"]))
    check("  the same one", (between.bodies[0], asker(between.port, other.read_text().strip())("me")[0]), (between.bodies[2], 0))
    between.take(failed)
    admin, late = asker(between.port, "admin-key", "--tries", "1"), folder / "late.key"
    check("command add-person that gets F1 keeps the key's file", (admin("add-person", "4", "Gus", "reader", "--key-file", str(late))[0], late.exists(), admin.errors.splitlines()[0]), (
        1, True, f"iodef-hub-ask: the key is in {late}, in case the person was added"))


def by_meanwhile(check: Check, asker: Any, between: Any, answer: Callable[..., str]) -> None:
    """A colleague gives one of two ended permissions a later end, between the first look and the second."""
    bank = asker(between.port, "bank-key", TZ="UTC0")
    number = bank("post", "-", "3", "--any-community", given=REPORT.replace(b'"shared"', b'"meanwhile"'))[1].strip()
    for path in (FIRST, SECOND):
        bank("grant", number, path, "org", "3", "--until", "2024-06-01T00:00:00Z")
    before = asker(between.port, "bank-key", "--json")("sharing", number)[1].strip()
    bank("grant", number, FIRST, "org", "3", "--until", "2035-01-01T00:00:00Z")
    between.take(answer("200 OK", before))
    check("command withdraw-ended of what a colleague has changed", (bank("withdraw-ended", number), bank.errors), (
        (0, f"organisation 3 has no permission at {SECOND} of incident {number}: it ended 2024-06-01T00:00:00+00:00\n"),
        f"organisation 3 keeps what it has at {FIRST}: it was changed meanwhile\n"))
    look = f"GET /incidents/{number}/sharing"
    check("  it looks again before each", between.asked, [look, look, look, f"POST /incidents/{number}/withdraw"])
