"""The cases with their answers, as texts of files."""
from __future__ import annotations

import json

import engine_cases
import hub_cases
import view as views
from drawing import Draws, Json
from report import Fault, compact

SEED = "policy 1.1"
CASES, HUB_CASES = 3000, 330


def bytes_of(given: object) -> bytes:
    return given.encode() if isinstance(given, str) else "".join(text * count for text, count in given).encode()  # type: ignore[attr-defined]


def view_of(case: Json) -> bytes:
    return case["view_text"].encode() if "view_text" in case else compact(case["view"]).encode() if "view" in case else b""


def answered(report: bytes, view: bytes, ask: Json) -> Json:
    """What a call returns: an answer, or a fault."""
    try:
        return {"answer": answer(report, view, ask)}
    except Fault as fault:
        return {"fault": fault.name, **({} if fault.place is None else {"place": fault.place})}


def answer(report: bytes, view: bytes, ask: Json) -> str:
    call = ask["call"]
    if call == "excerpt":
        return views.excerpt(report, view)
    if call == "document":
        return views.document(report, view)
    if call == "whole":
        return views.whole(report, view, ask.get("id_name"), ask.get("id"))
    if call == "explain":
        return views.explain(report, view, ask["pointer"])
    if call == "finds":
        return views.finds(report, view, ask["text"], ask.get("class"))
    return views.marks(report, ask["incident"])


def with_answers(case: Json) -> Json:
    report, view = bytes_of(case["report"]), view_of(case)
    return {**case, "asks": [{**each, **answered(report, view, each)} for each in case["asks"]]}


def asked() -> dict[str, list[Json]]:
    """The engine's cases, without answers: as many as the hub's leave."""
    return engine_cases.all_cases(SEED, CASES - HUB_CASES)


def files() -> dict[str, str]:
    made = {name: [with_answers(each) for each in cases] for name, cases in asked().items()}
    made["hub"] = list(hub_cases.all_cases(Draws(SEED + " hub"), HUB_CASES))
    return {name: written(name, cases) for name, cases in made.items()}


def written(name: str, cases: list[Json]) -> str:
    """A file: one line for each case."""
    head = f'"circle":{json.dumps(hub_cases.CIRCLE, ensure_ascii=False)},\n' if name == "hub" else ""
    lines = [
        json.dumps({"name": f"{name} {number}", **each}, ensure_ascii=False, separators=(",", ":"))
        for number, each in enumerate(cases, 1)
    ]
    return "{" + head + '"cases":[\n' + ",\n".join(lines) + "\n]}\n"
