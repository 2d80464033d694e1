"""What the command prints of texts: characters that hide something, labels that are written twice, whose label holds for an indicator,
and who may read what was posted."""
from __future__ import annotations

import json
import subprocess
import unicodedata
from collections.abc import Callable
from typing import Any

Check = Callable[..., None]
# Each is invisible, though most of them are printable to Python; by name, so that nobody has to see them here.
INVISIBLE = (
    "SOFT HYPHEN", "COMBINING GRAPHEME JOINER", "ARABIC LETTER MARK", "HANGUL CHOSEONG FILLER", "HANGUL JUNGSEONG FILLER", "KHMER VOWEL INHERENT AQ",
    "KHMER VOWEL INHERENT AA", "MONGOLIAN FREE VARIATION SELECTOR ONE", "MONGOLIAN VOWEL SEPARATOR", "ZERO WIDTH SPACE", "RIGHT-TO-LEFT OVERRIDE",
    "WORD JOINER", "INVISIBLE PLUS", "HANGUL FILLER", "VARIATION SELECTOR-1", "VARIATION SELECTOR-15", "ZERO WIDTH NO-BREAK SPACE", "HALFWIDTH HANGUL FILLER",
    "SHORTHAND FORMAT LETTER OVERLAP", "MUSICAL SYMBOL BEGIN BEAM", "TAG LATIN SMALL LETTER A", "VARIATION SELECTOR-17", "VARIATION SELECTOR-256",
    "BRAILLE PATTERN BLANK", "INTERLINEAR ANNOTATION ANCHOR", "INTERLINEAR ANNOTATION SEPARATOR", "INTERLINEAR ANNOTATION TERMINATOR",
)
UNASSIGNED = (0x2065, 0xFFF0, 0xFFF8, 0xE0000, 0xE0080, 0xE0FFF)  # Default_Ignorable_Code_Point too
JOINERS = ("\u200c", "\u200d", "\ufe0f")
PERSIAN, HEART = "\u0645\u06cc\u200c\u062e\u0648\u0627\u0647\u0645", "\u2764\ufe0f\u200d\U0001f525"


def numbered(each: str) -> str:
    """The escape of a character."""
    return f"\\u{ord(each):04x}" if ord(each) < 0x10000 else f"\\U{ord(each):08x}"


def ignorable() -> list[int] | None:
    """Perl's Default_Ignorable_Code_Point, or None where Perl has none."""
    try:
        ran = subprocess.run(["perl", "-e", r'for (0..0x10ffff) { next if $_ >= 0xd800 && $_ < 0xe000; print "$_\n" if chr($_) =~ /\p{Default_Ignorable_Code_Point}/ }'],
                             capture_output=True, text=True)
    except FileNotFoundError:
        return None
    return [int(each) for each in ran.stdout.split()] if ran.returncode == 0 else None


def by_characters(check: Check, characters: Any) -> None:
    """Needs no hub. `characters` is the module for them."""
    for each in [unicodedata.lookup(name) for name in INVISIBLE] + [chr(number) for number in UNASSIGNED]:
        wanted = f"a{numbered(each)}b\u00e9{numbered(each)}\u00e9"
        got = [characters.shown(f"a{each}b\u00e9{each}\u00e9"), characters.shown_exactly(each)]
        check(f"U+{ord(each):04X} is shown by its number", got, [wanted, numbered(each)])
        check("  in JSON too, which stays the same JSON", (each in characters.shown_json({each: each}), json.loads(characters.shown_json({each: each}))), (False, {each: each}))
    for each in JOINERS:
        for text in (f"a{each}b", f"{each}b\u00e9", f"\u00e9a{each}", f"\u00e9{each}{each} "):
            check(f"U+{ord(each):04X} beside ASCII is shown", characters.shown(text), text.replace(each, numbered(each)))
            check("  in JSON too", json.dumps(each)[1:-1] in characters.shown_json([text]) and each not in characters.shown_json([text]))
        check("and in indicators everywhere", characters.shown_exactly(f"\u00e9{each}\u00e9"), f"\u00e9{numbered(each)}\u00e9")
    for text in (PERSIAN, HEART, f"\u2764\ufe0f", "\u00e9 \u4e2d\u6587", "\u00a1Hola!"):
        check(f"{text.encode('unicode_escape').decode()} stays", (characters.shown(text), characters.shown_json([text])), (text, f'[\n  "{text}"\n]'))
    check("a quotation mark of JSON is no neighbour, what it quotes is", characters.shown_json(['"\u200d', "\u00e9\u200d"]), '[\n  "\\"\\u200d",\n  "\u00e9\u200d"\n]')
    found = ignorable()
    if found is not None:
        listed = [number for first, last in characters.IGNORABLE for number in range(first, last + 1)]
        check("the ranges are Perl's Default_Ignorable_Code_Point", listed, found)


DOUBLED = (b'{"version":"2.0","restriction":"red","restriction":"white","Incident":[{"purpose":"reporting","restriction":"red","restriction":"white","Description":["red"],'
           b'"IncidentID":{"id":"%s","name":"x"},"GenerationTime":"2026-01-01T00:00:00Z","Contact":[{"role":"creator"},{"role":"victim",'
           b'"restriction":"ext-value","ext-restriction":"TLP:RED","ext-restriction":"TLP:CLEAR"}]}]}')
WARNINGS = ['iodef-hub-ask: /Incident/0 has restriction twice: JSON takes the last one, "white"',
            'iodef-hub-ask: /Incident/0/Contact/1 has ext-restriction twice: JSON takes the last one, "TLP:CLEAR"']
LEVEL_3 = "level 3 (everybody in the hub, including organisations in no community)"
LABELS = {"public": "CLEAR", "white": "CLEAR", "partner": "GREEN", "green": "GREEN", "need-to-know": "AMBER+STRICT", "amber": "AMBER+STRICT", "private": "RED", "red": "RED"}
TEXTS = {"TLP:CLEAR": "CLEAR", "tlp:white": "CLEAR", "Tlp:Green": "GREEN", "TLP:AMBER": "AMBER", "tlp:amber+strict": "AMBER+STRICT", "TLP:RED": "RED", "other": "RED",
         "TLP:WH\u0131TE": "RED"}


def by_labels(check: Check, library: Any) -> None:
    """Needs no hub: whose label holds for an indicator, and which labels are written twice."""
    def found(**members: Any) -> list[str]:
        inner = {"Address": [{"value": "192.0.2.1"}, {"value": "192.0.2.2", "restriction": "white"}]}
        return [each.label for each in library.indicators({"Incident": [{"Indicator": [{**members, "Observable": inner}]}]})]

    for word, label in LABELS.items():
        check(f"an indicator below {word}, and one with a label of its own", found(restriction=word), [f"TLP:{label}", "TLP:CLEAR"])
    for text, label in TEXTS.items():
        check(f"an indicator below {text!r}", found(**{"restriction": "ext-value", "ext-restriction": text})[0], f"TLP:{label}")
    check("an indicator below `default`", found(restriction="default")[0], "as arranged, else TLP:RED")
    check("an indicator without a label", found()[0], "TLP:RED")
    document = {"restriction": "white", "Incident": [{"restriction": "green", "Indicator": {"URL": "a"}}, {"Indicator": {"URL": "b"}}]}
    check("a label is one's own or above, not beside, nor at the root", [each.label for each in library.indicators(document)], ["TLP:GREEN", "TLP:RED"])
    check("labels that are written twice", [tuple(each) for each in library.doubled_labels(DOUBLED)],
          [("/Incident/0", "restriction", "white"), ("/Incident/0/Contact/1", "ext-restriction", "TLP:CLEAR")])
    for given in (b"{", b"[]", b"7", b'{"a":' * 100000, {"restriction": "red"}, b'{"Incident":[{"restriction":"red","b":1,"b":2}]}'):
        check(f"{str(given)[:30]} has none", library.doubled_labels(given), [])


def by_posting(check: Check, bank: Any, between: Any) -> None:
    """What post says before and after."""
    between.take()
    check("post that doesn't say whom TLP:GREEN is for", (bank("post", "-", "3", given=DOUBLED % b"unsaid"), bank.errors),
          ((2, ""), "iodef-hub-ask: nothing is sent, as a report needs --community N or --any-community: whose members may read what is marked green\n"))
    check("  sends nothing", between.asked, [])
    status, number = bank("post", "-", "3", "--community", "1", "--gate", "4:1:/Incident/0/Contact/1", given=DOUBLED % b"said")
    check("post warns of labels that are written twice, and says who may read it", (status, bank.errors.splitlines()), (0, [
        *WARNINGS, f"posted at {LEVEL_3}; TLP:GREEN is for the members of community 1; Contact /Incident/0/Contact/1 (TLP:CLEAR) is at level 4 (group 1)"]))
    status, _ = bank("post", "-", "1", "--all-communities", given=DOUBLED % b"all")
    check("for all communities", (status, bank.errors.splitlines()[2:]), (
        0, ["posted at level 1 (organisations that share a community with yours); TLP:GREEN is for the members of any of your communities; no class has a gate of its own"]))
    replace = ("replace", number.strip(), "-", "0", "--any-community", "--no-gates", "--drop-permissions")
    check("replace warns too", (bank(*replace, given=DOUBLED % b"said")[0], bank.errors.splitlines()[:2]), (0, WARNINGS))
    line = b'{"document":%s,"level":0,"community":1}' % (DOUBLED % b"line")
    check("and post-all", (bank("post-all", "-", given=line)[0], bank.errors.splitlines()[:2]), (0, [
        warning.replace("ask: ", "ask: line 1: ") for warning in WARNINGS]))
    check("a search that finds nothing says that it minds capitals", (bank("find", "PAYROLL-LOGIN"), bank.errors),
          ((0, ""), "iodef-hub-ask: nothing was found; capitals count, and so do spaces\n"))
    check("one that finds something doesn't", (bank("find", "payroll-login")[0], bank.errors), (0, ""))
    check("find --help says so", "capitals as they are" in " ".join(bank("find", "--help")[1].split()))
