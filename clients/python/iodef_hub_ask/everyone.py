"""One table of what each class of a report is to all readers. The verdicts are those of iodef-redact; nothing is decided here."""
from __future__ import annotations

import argparse
import itertools
import json
import os
from collections.abc import Callable, Iterator, Sequence
from concurrent.futures import ThreadPoolExecutor
from dataclasses import dataclass, field
from typing import Any, TypeVar

from iodef_hub import ARRANGED, classes, label_of, labelled_classes

from .characters import shown
from .readers import MEANINGS, STATUSES, Asked, Reader, asked_of, reader_of, relations_of
from .telling import Usage

MOST_GROUPS = 3  # of which a table shows who is in which
Profile = tuple[str, ...]  # a word for each of the dimensions
T = TypeVar("T")
U = TypeVar("U")


@dataclass
class Dimensions:
    """All that can make a difference between two readers of a report: how they are related to the source, what they are to the
    incident, and, as far as the report asks for it, groups and what `default` means to them."""

    has_community: bool
    groups: list[int]
    arrangements: list[str]

    def words(self) -> list[list[str]]:
        groups = [[f"not in group {each}", f"in group {each}, off", f"in group {each}"] for each in self.groups]
        return [relations_of(self.has_community), list(STATUSES), *groups, *([self.arrangements] if self.arrangements else [])]

    def reader(self, profile: Profile) -> Reader:
        relation, status, *others = profile
        found = reader_of(relation, status, self.has_community)
        states = dict(zip(self.groups, others))
        if states:
            found["groups"] = [group for group, words in states.items() if not words.startswith("not")]
            found["active_groups"] = [group for group, words in states.items() if words == f"in group {group}"]
        arranged = others[-1].removeprefix("default is ") if self.arrangements else "RED"
        return found if arranged == "RED" else {**found, "arrangement": arranged}


def dimensions_of(given: argparse.Namespace, document: dict[str, Any]) -> Dimensions:
    gated = {given.group, *(each.group for each in given.gate if each.level == 4)} - {None}
    groups = [] if given.in_group else sorted(gated)
    if len(groups) > MOST_GROUPS:
        raise Usage(f"the report names {len(groups)} groups, and a table has room for {MOST_GROUPS}: give --in-group N for those of the readers")
    has_default = any(label_of(each) == ARRANGED for _, _, each in classes(document))
    arrangements = [f"default is {each}" for each in ("RED", "CLEAR", "GREEN", "AMBER", "STRICT")] if has_default else []
    return Dimensions(given.community is not None, groups, arrangements)


@dataclass
class Column:
    """Readers who get the same, and what that is: the body of their View, or nothing; and a word for each class."""

    view: bytes | None
    profiles: list[Profile] = field(default_factory=list)
    cells: list[str] = field(default_factory=list)


def each_of(call: Callable[[T], U], many: Sequence[T]) -> list[U]:
    """The results of a call for each of many. The first one alone: a launcher may build the program in it."""
    with ThreadPoolExecutor(os.cpu_count() or 1) as pool:
        return [call(each) for each in many[:1]] + list(pool.map(call, many[1:]))


def columns_of(asked: Asked, dimensions: Dimensions) -> list[Column]:
    """Each reader's View, once, with the readers who get it."""
    profiles: list[Profile] = list(itertools.product(*dimensions.words()))
    views = each_of(lambda profile: asked.excerpt(dimensions.reader(profile)), profiles)
    found: dict[bytes | None, Column] = {}
    for profile, view in zip(profiles, views):
        found.setdefault(view, Column(view)).profiles.append(profile)
    return list(found.values())


def fill_cells(asked: Asked, dimensions: Dimensions, columns: list[Column], paths: list[str]) -> None:
    """Asks what each class is to the readers of each column: shown, a frame around one that is shown, or hidden by a rule."""
    wanted = [(column, path) for column in columns for path in paths]
    verdicts = each_of(lambda each: asked.engine.verdict(asked.description(dimensions.reader(each[0].profiles[0])), each[1]), wanted)
    for (column, _), verdict in zip(wanted, verdicts):
        column.cells.append(verdict)
    for column in columns:
        seen = [path for path, cell in zip(paths, column.cells) if cell == "shown"]
        column.cells = ["frame" if cell != "shown" and any(each.startswith(path + "/") for each in seen) else cell
                        for path, cell in zip(paths, column.cells)]
        if len(seen) != (json.loads(column.view)["classes"] if column.view is not None else 0):
            raise Usage(f"{asked.engine.program} doesn't explain what it shows")


def products(profiles: list[Profile], words: list[list[str]]) -> list[list[list[str]]]:
    """The profiles as few products of words: two that differ in one dimension alone become one."""
    made = [[[word] for word in profile] for profile in profiles]
    for at in range(len(words)):
        merged: dict[str, list[list[str]]] = {}
        for each in made:
            others = str(each[:at] + each[at + 1:])
            merged.setdefault(others, [*each[:at], [], *each[at + 1:]])[at].extend(each[at])
        made = list(merged.values())
    return made


def readers_line(product: list[list[str]], words: list[list[str]]) -> str:
    """Who the readers are: words of one dimension with commas between, dimensions with + between. One that doesn't matter is left out."""
    told = [", ".join(here) for here, every in zip(product, words) if len(here) < len(every)]
    return " + ".join(told) or "everybody"


def table_lines(columns: list[Column], words: list[list[str]], rows: list[list[str]]) -> Iterator[str]:
    heads = ["class", "label", *(str(at) for at in range(1, len(columns) + 1))]
    filled = [heads, *([*row, *(column.cells[at] for column in columns)] for at, row in enumerate(rows))]
    widths = [max(len(row[at]) for row in filled) for at in range(len(heads))]
    for row in filled:
        yield "  ".join(cell.ljust(width) for cell, width in zip(row, widths)).rstrip()
    yield ""
    for at, column in enumerate(columns, 1):
        for product in products(column.profiles, words):
            yield f"{at}: {readers_line(product, words)}"
    yield ""
    used = {word for column in columns for product in products(column.profiles, words)
            for here, every in zip(product, words) if len(here) < len(every) for word in here}
    yield from (f"{word}: {means}" for word, means in MEANINGS.items() if word in used)


def table_json(columns: list[Column], words: list[list[str]], rows: list[list[str]]) -> str:
    told = [{"readers": products(column.profiles, words), "view": json.loads(column.view) if column.view is not None else None} for column in columns]
    lines = [{"path": path, "label": label, "cells": [column.cells[at] for column in columns]} for at, (path, label) in enumerate(rows)]
    return json.dumps({"columns": told, "classes": lines}, separators=(",", ":"))


def preview_everyone(given: argparse.Namespace, report: bytes, incidents: Sequence[dict[str, Any]]) -> None:
    asked = asked_of(given, report)
    document = {"Incident": incidents[given.incident:given.incident + 1]}
    dimensions = dimensions_of(given, document)
    columns = columns_of(asked, dimensions)
    # The document of an Incident has the root's other classes too.
    whole = {**json.loads(report), **document}
    rows = [[each.path, each.label] for each in labelled_classes(whole)]
    fill_cells(asked, dimensions, columns, [path for path, _ in rows])
    if given.json:
        print(table_json(columns, dimensions.words(), rows))
        return
    for line in table_lines(columns, dimensions.words(), [[shown(path), label] for path, label in rows]):
        print(line)
