#!/usr/bin/env python3
"""What requests cost over many reports, most of all lists and searches that pass over reports: of a program before a change, of the one
after it, and of the plain peer.

usage: bench/passing.py --after FILE [--before FILE] [--peer FILE] [--reports N,N,..] [--figures FILE] [--longest SECONDS]
                        [--dearest SECONDS] [--instructions N] [--events N] [--only WORDS ..] [--unproved] [--folder FOLDER]
       bench/passing.py --table FILE

bench/mixed.py describes the store. For each number of reports each program serves a copy of the same store, and answers the same
requests: a list's page and a look for news by the reader; lists of four callers who see nothing; searches by the reader for needles of
2 to 12 bytes that some report holds, that none holds, and that are woven of two pieces of the documents; Views, an explanation, and
changes. A needle is drawn from a seed. It also measures the opening and the memory behind it.

A figure is the median of several requests, or of searches the mean, in seconds of a processor and by the clock. A row ends after
--longest seconds of a processor. A row of which one request would take more than --dearest seconds, by the sizes before, is computed
from these, and is marked by `~`. The peer doesn't explain. With --instructions callgrind counts them, over N reports.

A search reads the documents that it can't pass over. The table has their share, by the time or the instructions: a search for two bytes
that no report holds reads each document, and one for twelve reads none.

Each figure is appended to --figures as a line of JSON. --table prints the tables of such a file, and bench/draw.py draws a picture of
it. The script checks that all programs answer the same, and ends with `N passed, M failed`. Needs: Python 3.11, for --instructions
valgrind. 1,000 and 10,000 reports take some minutes; disk: three times the largest store.
"""

import argparse
import collections
import contextlib
import dataclasses
import json
import pathlib
import random
import re
import shutil
import statistics
import sys
import tempfile
import urllib.parse
from collections.abc import Callable, Iterator

import dearest
import many
import mixed
import requests
import sizes

sys.path.insert(0, str(many.TOP / "scripts"))
import progress  # noqa: E402
import record  # noqa: E402

BEFORE, AFTER, PEER = "before", "after", "peer"
TURNS, LISTS, SEARCHES, COUNTED = 20, 5, 10, 4
NEEDLES = (2, 3, 4, 8, 12)
HOLDER, MISSING = "Incident", "Telephone"
NOTHING = b'{"incidents":[]}'
OPENED, DATA, PEAK = "opening", "data behind the opening (VmData)", "most memory until there (VmHWM)"


@dataclasses.dataclass(frozen=True)
class Request:
    key: str
    method: str
    target: str
    body: bytes = b""


@dataclasses.dataclass(frozen=True)
class Row:
    """Requests that are measured over so many reports, and those that are asked before. `shows` says whether an answer has a
    report, if that is known. Requests `differ` if each may cost another time; their figure is the mean."""

    name: str
    asks: Callable[[int], list[Request]]
    before: Callable[[int], list[Request]] = lambda size: []
    shows: bool | None = None
    differ: bool = False
    is_known_to_peer: bool = True


# ---- the rows


def get(key: str, target: str, turns: int = TURNS) -> Callable[[int], list[Request]]:
    """The same request again and again; `{size}` and `{middle}` in the target stand for numbers of reports."""
    return lambda size: [Request(key, "GET", target.format(size=size, middle=size // 2))] * turns


def each(form: Callable[[int], Request]) -> Callable[[int], list[Request]]:
    """A request to each of some reports that are far from each other."""
    return lambda size: [form(size * at // (TURNS + 1) + 1) for at in range(1, TURNS + 1)]


def view(number: int) -> Request:
    return Request(mixed.READER, "GET", f"/incidents/{number}")


def explain(number: int) -> Request:
    person = mixed.PERSONS[mixed.PERMITTED][0]
    return Request(mixed.ADMIN, "GET", f"/explain?person={person}&incident={number}&path={mixed.PERMITTED_CLASS}")


def address(number: int) -> Request:
    return Request(mixed.POSTER, "POST", f"/incidents/{number}/address", b"org=5")


def grant(number: int) -> Request:
    return Request(mixed.COORDINATOR, "POST", f"/incidents/{number}/grant", f"revision=1&path={mixed.PERMITTED_CLASS}&org=5".encode())


def posts(size: int) -> list[Request]:
    bodies = [mixed.body_of(f"posted-{at}", mixed.text_of(2 * (size + at) + 1)) for at in range(TURNS)]
    return [Request(mixed.POSTER, "POST", f"/incidents?level=4&group=1&gate=4:2:{mixed.GATED_CLASS}", body) for body in bodies]


def search(draw: Callable[[random.Random, int, int], str], length: int, holder: str = "") -> Callable[[int], list[Request]]:
    """Searches for needles of so many bytes, in classes of this name."""

    def asks(size: int) -> list[Request]:
        drawn = random.Random(f"{length} {size}")
        words = [{"needle": draw(drawn, length, size)} for _ in range(SEARCHES)]
        queries = [urllib.parse.urlencode({**it, **({"class": holder} if holder else {})}, quote_via=urllib.parse.quote) for it in words]
        return [Request(mixed.READER, "GET", f"/search?{it}") for it in queries]

    return asks


def nowhere(drawn: random.Random, length: int, size: int) -> str:
    return mixed.nowhere(drawn, length)


def woven(drawn: random.Random, length: int, size: int) -> str:
    return mixed.woven(drawn, length)


def listing_rows() -> Iterator[Row]:
    yield Row("a list's page of 100", get(mixed.READER, "/incidents?after={middle}"), shows=True)
    yield Row("news", get(mixed.READER, "/incidents?after={size}"), shows=False)
    yield Row("addressed", get(mixed.READER, "/me/addressed", LISTS), shows=True)
    yield Row("a View, the first time", each(view))
    yield Row("a View again", each(view), before=each(view))
    yield Row("an explanation", each(explain), is_known_to_peer=False)
    yield Row("a list of nothing, by the root's gate", get(mixed.SHUT, "/incidents", LISTS), shows=False)
    yield Row("a list of nothing, by the labels", get(mixed.UNCLEARED, "/incidents", LISTS), shows=False)
    yield Row("a list of nothing, by an inner gate", get(mixed.GATED, "/incidents", LISTS), shows=False)
    yield Row("a list of nothing, where a permission holds", get(mixed.PERMITTED, "/incidents", LISTS), shows=False)


def search_row(name: str, draw: Callable[[random.Random, int, int], str], length: int, holder: str = "") -> Row:
    words = f"{name}, {length} bytes{f' in class {holder}' if holder else ''}"
    return Row(words, search(draw, length, holder), shows=name == "found", differ=True)


def search_rows() -> Iterator[Row]:
    for holder in ("", HOLDER):
        yield from (search_row("nowhere", nowhere, it, holder) for it in NEEDLES)
        yield from (search_row("found", mixed.there, it, holder) for it in NEEDLES)
    yield from (search_row("woven", woven, it) for it in NEEDLES[-2:])
    yield search_row("elsewhere", mixed.there, 8, MISSING)
    yield Row("above the clearance, 9 bytes", get(mixed.READER, f"/search?needle={mixed.ABOVE}", LISTS), shows=False)


def change_rows() -> Iterator[Row]:
    yield Row("a post", posts)
    yield Row("an address", each(address))
    yield Row("a grant", each(grant))


ROWS = (*listing_rows(), *search_rows(), *change_rows())


# ---- figures


@dataclasses.dataclass(frozen=True)
class Figure:
    """One figure: of a program over so many reports, of so many `EventData` each, in seconds, megabytes or instructions."""

    reports: int
    program: str
    work: str
    seconds: float = 0.0
    clock: float = 0.0
    megabytes: float = 0.0
    instructions: int = 0
    times: int = 1
    is_reckoned: bool = False
    events: int = mixed.EVENTS


def read(file: pathlib.Path) -> list[Figure]:
    return [Figure(**it) for it in map(json.loads, file.read_text().splitlines()) if "work" in it]


class Figures:
    """The figures of a run, which are appended to a file."""

    def __init__(self, file: pathlib.Path | None, events: int) -> None:
        self.file, self.events = file, events
        self.found: list[Figure] = read(file) if file and file.exists() else []

    def write(self, line: dict[str, object]) -> None:
        print(json.dumps(line), file=sys.stderr, flush=True)
        if self.file:
            with self.file.open("a") as file:
                file.write(json.dumps(line) + "\n")

    def add(self, found: Figure) -> None:
        figure = dataclasses.replace(found, events=self.events)
        self.found.append(figure)
        self.write(dataclasses.asdict(figure))

    def reckoned(self, program: str, work: str, size: int) -> float | None:
        """The seconds of one request over so many reports, by the sizes before; None if there is no such size."""
        known = [it for it in self.found if (it.program, it.work, it.events) == (program, work, self.events) and it.seconds]
        row = {it.reports: sizes.Figure(it.seconds, it.is_reckoned) for it in known}
        found = sizes.reckoned(work, row, size)
        return found.value if found else None


# ---- a run


@dataclasses.dataclass
class Stand:
    """What the programs are measured with."""

    said: argparse.Namespace
    folder: pathlib.Path
    figures: Figures
    checks: many.Checks
    answers: dict[tuple[int, str, int], bytes] = dataclasses.field(default_factory=dict)
    done: int = 0

    @property
    def base(self) -> pathlib.Path:
        """The store that grows from size to size."""
        return self.folder / "base.db"

    def programs(self) -> dict[str, str]:
        named = {AFTER: self.said.after, BEFORE: self.said.before, PEER: self.said.peer}
        return {name: file for name, file in named.items() if file}

    def is_wanted(self, work: str) -> bool:
        return not self.said.only or any(words in work for words in self.said.only)

    def rows(self) -> list[Row]:
        return [it for it in ROWS if self.is_wanted(it.name)]


def store_for(stand: Stand, name: str, size: int) -> pathlib.Path:
    """A store for a program, with the content of the base."""
    store = stand.folder / f"{name}.db"
    if name == PEER:
        mixed.make_peer_store(stand.said.peer, store, stand.base, size, stand.said.events)
    else:
        shutil.copyfile(stand.base, store)
    return store


def peak_megabytes(pid: int) -> float:
    found = re.search(r"^VmHWM:\s+(\d+) kB$", pathlib.Path(f"/proc/{pid}/status").read_text(), re.M)
    return int(found[1]) / 1024 if found else 0.0


def check_answer(stand: Stand, row: Row, size: int, turn: int, name: str, told: bytes) -> None:
    """The answer shows what it should, and the other programs gave the same."""
    what = f"{size:,} reports, {row.name}, request {turn}, {name}"
    if row.shows is not None:
        stand.checks.same(f"{what}: shows a report", told != NOTHING, row.shows)
    stand.checks.same(what, told, stand.answers.setdefault((size, row.name, turn), told))


def mean(costs: list[many.Cost]) -> many.Cost:
    return many.Cost(statistics.mean(it.processor for it in costs), statistics.mean(it.clock for it in costs))


def measure_row(stand: Stand, row: Row, name: str, size: int, hub: many.Hub) -> None:
    ask_all(hub, row.before(size))
    costs: list[many.Cost] = []
    for turn, request in enumerate(row.asks(size)):
        cost, told = hub.answer(*dataclasses.astuple(request))
        costs.append(cost)
        check_answer(stand, row, size, turn, name, told)
        if sum(it.processor for it in costs) > stand.said.longest:
            break
    usual = mean(costs) if row.differ else many.middle(costs)
    stand.figures.add(Figure(size, name, row.name, usual.processor, usual.clock, times=len(costs)))


def measure_program(stand: Stand, name: str, size: int) -> None:
    store = store_for(stand, name, size)
    with contextlib.closing(many.Hub(stand.programs()[name], store, stand.said.port)) as hub:
        stand.figures.add(Figure(size, name, OPENED, hub.opened.processor, hub.opened.clock))
        stand.figures.add(Figure(size, name, DATA, megabytes=hub.memory()))
        stand.figures.add(Figure(size, name, PEAK, megabytes=peak_megabytes(hub.process.pid)))
        for row in stand.rows():
            stand.done += 1
            if name != PEER or row.is_known_to_peer:
                measure_or_reckon(stand, row, name, size, hub)
    sizes.remove(store)


def measure_or_reckon(stand: Stand, row: Row, name: str, size: int, hub: many.Hub) -> None:
    expected = stand.figures.reckoned(name, row.name, size)
    if expected is not None and expected > stand.said.dearest:
        stand.figures.add(Figure(size, name, row.name, expected, times=0, is_reckoned=True))
    else:
        measure_row(stand, row, name, size, hub)


def ask_all(hub: many.Hub | dearest.Hub, requests: list[Request]) -> None:
    for request in requests:
        hub.done(*dataclasses.astuple(request))


def count_program(stand: Stand, name: str, size: int) -> None:
    """The instructions of the opening, and of a request of each row by several requests."""
    store, program = store_for(stand, name, size), stand.programs()[name]
    if stand.is_wanted(OPENED):
        count = requests.instructions(program, str(store), 1, lambda port: requests.ask(port, mixed.ADMIN, "GET", "/me"))
        stand.figures.add(Figure(size, name, OPENED, instructions=count))
    with contextlib.closing(dearest.Hub(program, str(store), counts=True)) as hub:
        for row in stand.rows():
            stand.done += 1
            if name != PEER or row.is_known_to_peer:
                ask_all(hub, row.before(size))
                asked = row.asks(size)[: COUNTED if row.differ else 1]
                count = hub.counted(lambda: ask_all(hub, asked))
                stand.figures.add(Figure(size, name, row.name, instructions=count // len(asked), times=len(asked)))
    sizes.remove(store)


def run(stand: Stand) -> None:
    said = stand.said
    measures = count_program if said.instructions else measure_program
    reports = [said.instructions] if said.instructions else said.reports
    provenance = {name: many.provenance(file) for name, file in stand.programs().items()}
    stand.figures.write({"provenance": provenance, "unproved": said.unproved, "events": said.events})
    progress.say(sum(reports) / 4_000, lambda: stand.done, len(stand.rows()) * len(stand.programs()) * len(reports), "rows")
    mixed.begin(said.after, stand.base, said.port, said.events)
    for size in reports:
        mixed.grow(stand.base, size)
        for name in stand.programs():
            measures(stand, name, size)


# ---- the tables


def shown(figure: Figure | None) -> str:
    if figure is None:
        return "–"
    if figure.megabytes or figure.work in (DATA, PEAK):
        return f"{figure.megabytes:,.0f} MB"
    if figure.instructions:
        return f"{figure.instructions / 1e6:,.2f}"
    if figure.is_reckoned:
        return f"~ {time_of(figure.seconds)}"
    return f"{time_of(figure.seconds)} ({time_of(figure.clock)})"


def time_of(seconds: float) -> str:
    value, unit = (seconds * 1e3, "ms") if seconds < 1 else (seconds, "s")
    return f"{value:,.0f} {unit}" if value >= 100 else f"{value:.1f} {unit}" if value >= 10 else f"{value:.2f} {unit}"


def share_read(found: dict[str, Figure], work: str) -> str:
    """Which share of the documents a search for what no report holds has read."""
    where = work.partition(" bytes")[2]
    each, none, here = (found.get(it) for it in (f"nowhere, 2 bytes{where}", f"nowhere, 12 bytes{where}", work))
    if each is None or none is None or here is None or not work.startswith(("nowhere", "woven")):
        return ""
    return f"{max(taken(here) - taken(none), 0) / max(taken(each) - taken(none), 1e-9):.1%}"


def taken(figure: Figure) -> float:
    return figure.instructions or figure.seconds


def print_table(title: str, figures: list[Figure]) -> None:
    """The figures of one number of reports, a column for each program."""
    names = [it for it in (BEFORE, AFTER, PEER) if any(figure.program == it for figure in figures)]
    found: dict[str, dict[str, Figure]] = collections.defaultdict(dict)
    for figure in figures:
        found[figure.work][figure.program] = figure
    after = {work: cells[AFTER] for work, cells in found.items() if AFTER in cells}
    print(f"\n| {title} | {' | '.join(names)} | documents read by `after` |\n|---|{'---|' * len(names)}---|")
    for work, cells in found.items():
        print(f"| {work} | {' | '.join(shown(cells.get(it)) for it in names)} | {share_read(after, work)} |")


def print_tables(file: pathlib.Path) -> None:
    """A table of the times for each number and length of reports, and one of the instructions."""
    tables: dict[str, list[Figure]] = collections.defaultdict(list)
    for figure in read(file):
        unit = ", million instructions" if figure.instructions else ""
        tables[f"{figure.reports:,} reports of {figure.events} `EventData`{unit}"].append(figure)
    for title, figures in tables.items():
        print_table(title, figures)


def main() -> None:
    words = argparse.ArgumentParser(description=__doc__, formatter_class=argparse.RawDescriptionHelpFormatter, allow_abbrev=False)
    words.add_argument("--after", metavar="FILE")
    words.add_argument("--before", metavar="FILE")
    words.add_argument("--peer", metavar="FILE")
    words.add_argument("--reports", type=sizes.numbers, default=sizes.numbers("1000,10000,100000"))
    words.add_argument("--figures", type=pathlib.Path, metavar="FILE", help="where the figures are appended")
    words.add_argument("--longest", type=float, default=10, help="seconds of a processor after which a row ends; by default %(default)s")
    words.add_argument("--dearest", type=float, default=300, help="seconds of the dearest request that is measured; by default %(default)s")
    words.add_argument("--instructions", type=int, default=0, metavar="N", help="counts instructions over N reports")
    words.add_argument("--events", type=int, default=mixed.EVENTS, help="`EventData` of each report of the store, 2 or more; by default %(default)s")
    words.add_argument("--only", nargs="*", metavar="WORDS", help="only rows whose names have some of these words")
    words.add_argument("--unproved", action="store_true", help="the programs were compiled without proof")
    words.add_argument("--port", type=int, default=many.free_port())
    words.add_argument("--folder", help="the folder in which the stores are made and removed")
    words.add_argument("--table", type=pathlib.Path, metavar="FILE", help="prints the tables of a file of figures")
    said = words.parse_args()
    if said.table:
        print_tables(said.table)
        return
    if not said.after or any(file and not many.is_program(file) for file in (said.after, said.before, said.peer)):
        words.error("--after is missing, or a file is no program")
    many.end_in_order()
    with tempfile.TemporaryDirectory(dir=said.folder) as folder:
        stand = Stand(said, pathlib.Path(folder), Figures(said.figures, said.events), many.Checks())
        run(stand)
    stand.checks.end()


if __name__ == "__main__":
    record.run(main)
