"""One program with all faults that are drawn, of which a copy has one.

In place of each changed expression comes `(if plant_switch::is_planted(7) { NEW } else { OLD })`, in place of a statement that is left
out `if !plant_switch::is_planted(7) { OLD }`. The program is both programs and the table of program_cases. Which of the three it is, and
which fault it has, are two numbers in its code, which are exchanged in a copy; so it is compiled without optimization, in which they
would vanish. A fault in a line that the compiler refuses isn't drawn, nor one that overlaps another.
"""
from __future__ import annotations

import pathlib
import re
import subprocess
import sys
import tempfile
from collections.abc import Iterable

from fault import Fault

TOP = pathlib.Path(__file__).resolve().parent.parent.parent
sys.path.insert(0, str(TOP / "scripts"))

import unproved  # noqa: E402

CHANGED = ("hub_service", "hub_program", "redact_program")
# Which numbers stand in the code for the fault and for the kind of the program.
FAULT, KIND = 1_592_663_639, 1_592_663_640
KINDS = {"program": 1, "redact": 2, "table": 3}
SWITCH = f"""//! Which fault a program has, and which program it is.
#![tactic(auto)]

pub fn is_planted(number: u32) -> bool {{
    number == {FAULT}
}}

pub fn is_kind(number: u32) -> bool {{
    number == {KIND}
}}
"""
START = """
fn {name}(rt: &HostRuntime) -> ExitCode {{
    let mut reader = rt.reader();
    let mut writer = io::writer(rt);
    let mut errors = rt.stderr();
    let status = {crate}::cli_start(rt, env::args(rt), &mut reader, &mut writer, &mut errors);
    ExitCode::from(status.code())
}}
"""
MAIN = f"""//! Both programs, and the table of program_cases.
#![tactic(auto)]

use std::io::Read;
use std::process::ExitCode;
use std::{{env, io}};
{START.format(name="hub", crate="hub_program")}{START.format(name="redact", crate="redact_program")}
fn main(rt: HostRuntime) -> io::Result<ExitCode> {{
    if plant_switch::is_kind({KINDS["program"]}) {{
        return Ok(hub(&rt));
    }}
    if plant_switch::is_kind({KINDS["redact"]}) {{
        return Ok(redact(&rt));
    }}
    let mut text = String::new(rt.alloc());
    rt.reader().read_to_string(&mut text)?;
    program_cases::run(&rt, text.as_str())?;
    Ok(ExitCode::from(0))
}}
"""


def switched(text: bytes, faults: Iterable[tuple[int, Fault]]) -> bytes:
    """A source with faults that don't overlap, each behind its number."""
    for number, fault in sorted(faults, key=lambda it: -it[1].change.start):
        change = fault.change
        old, asked = text[change.start : change.end].decode(), f"plant_switch::is_planted({number})"
        new = f"(if {asked} {{ {change.new} }} else {{ {old} }})" if change.operator != "effect" else f"if !{asked} {{ {old} }}"
        text = text[: change.start] + new.encode() + text[change.end :]
    return text


def apart(faults: Iterable[Fault]) -> list[Fault]:
    """Those that overlap none before them."""
    kept: list[Fault] = []
    for fault in faults:
        if not any(it.path == fault.path and it.change.start < fault.change.end and fault.change.start < it.change.end for it in kept):
            kept.append(fault)
    return kept


def write(tree: pathlib.Path, faults: list[Fault]) -> None:
    """The sources with all faults, and the two crates."""
    for path in {it.path for it in faults}:
        of_file = [(number, it) for number, it in enumerate(faults, 1) if it.path == path]
        (tree / path).write_bytes(switched((tree / path).read_bytes(), of_file))
    write_crate(tree / "crates" / "plant_switch" / "src", "lib.rt", SWITCH)
    write_crate(tree / "crates" / "planted" / "src", "main.rt", MAIN)
    crates = re.sub(rf"^({'|'.join(CHANGED)}):", r"\1: plant_switch", (tree / "crates.txt").read_text(), flags=re.M)
    above = f"planted: program_cases {CHANGED[1]} {CHANGED[2]} plant_switch"
    (tree / "crates.txt").write_text(f"plant_switch:\n{crates}{above}\n")


def write_crate(folder: pathlib.Path, name: str, text: str) -> None:
    folder.mkdir(parents=True, exist_ok=True)
    (folder / name).write_text(text)


def refused_lines(told: str) -> set[tuple[str, int]]:
    """The places that the compiler names."""
    return {(name, int(line)) for name, line in re.findall(r"(src/[\w/]+\.rt):(\d+)", told)}


def without_refused(faults: list[Fault], told: str) -> list[Fault]:
    places = refused_lines(told)
    return [it for it in faults if not any(it.path.endswith(name) and it.line == line for name, line in places)]


def built(tree: pathlib.Path, faults: list[Fault], program: pathlib.Path) -> list[Fault]:
    """Makes the program. Returns the faults that it has, in the order of their numbers."""
    faults = apart(faults)
    while True:
        subprocess.run(["git", "-C", tree, "checkout", "-q", "--force", "."], check=True)
        write(tree, faults)
        with tempfile.TemporaryDirectory(dir=program.parent) as room:
            try:
                module = unproved.module_of(tree / "crates" / "planted", pathlib.Path(room))
                unproved.link(module, program, "-O0")
                return faults
            except unproved.NotCompiled as refused:
                left = without_refused(faults, str(refused))
                if len(left) == len(faults):
                    raise
                faults = left


def copied(program: pathlib.Path, room: pathlib.Path, number: int) -> dict[str, str]:
    """The three programs with the fault of this number, by the words of checks.toml; with number 0 without one."""
    content, made = program.read_bytes(), {}
    if any(content.count(mark.to_bytes(4, "little")) != 1 for mark in (KIND, FAULT)):
        raise ValueError("the number of a fault isn't in the program once")
    content = content.replace(FAULT.to_bytes(4, "little"), number.to_bytes(4, "little"))
    for name, kind in KINDS.items():
        file = room / f"{name}-{number}"
        file.write_bytes(content.replace(KIND.to_bytes(4, "little"), kind.to_bytes(4, "little")))
        file.chmod(0o755)
        made[name] = str(file)
    return made
