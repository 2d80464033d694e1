"""The words of a command, of its own sources: what a man page lists and the shell completes.

A program's are read in its words.rt, as `clap` gets them; a Python command's are those of its parser, which is run up to where it
reads its words; those of a shell script are in its line of usage.
"""
from __future__ import annotations

import argparse
import pathlib
import re
import runpy
import sys
from collections.abc import Iterator
from dataclasses import dataclass, field
from typing import NoReturn
from unittest import mock


@dataclass(frozen=True)
class Word:
    """An option, or without names a word by its place."""

    takes: str  # what its value is called; empty for an option without one
    names: tuple[str, ...] = ()
    choices: tuple[str, ...] = ()
    help: str = ""
    is_path: bool = False
    is_many: bool = False

    def kind(self) -> str:
        """What a shell can offer for it: `file`, `folder`, `program`, `circle`, `place`, `=` and the choices, or nothing."""
        if self.choices:
            return "=" + " ".join(self.choices)
        if self.takes in ("CIRCLE", "PLACE", "FOLDER"):
            return self.takes.lower()
        if self.takes in ("COMMAND", "PROGRAM"):
            return "program"
        is_file = self.is_path or re.fullmatch(r"(\w+_)?FILE|COPY|STORE|DB", self.takes) or re.match(r"(a|the) (file|copy|store)\b", self.help)
        return "file" if is_file else ""


@dataclass
class Command:
    """What follows a command's name, or that of one of its own commands."""

    about: str = ""
    words: list[Word] = field(default_factory=list)
    commands: dict[str, Command] = field(default_factory=dict)


HELP = Word("", ("-h", "--help"), help="Print help")


class Stopped(BaseException):
    """A command came to where it reads its words."""

    def __init__(self, parser: argparse.ArgumentParser) -> None:
        self.parser = parser


def stop(parser: argparse.ArgumentParser, *_: object, **__: object) -> NoReturn:
    raise Stopped(parser)


def parser_of(file: pathlib.Path) -> argparse.ArgumentParser:
    """The parser of a command in Python."""
    sys.dont_write_bytecode = True
    with mock.patch.object(argparse.ArgumentParser, "parse_args", stop), mock.patch.object(sys, "argv", [str(file)]):
        with mock.patch.object(sys, "path", [str(file.parent), *sys.path]):
            try:
                runpy.run_path(str(file), run_name="__main__")
            except Stopped as stopped:
                return stopped.parser
    raise ValueError(f"{file} reads no words")


def help_of(action: argparse.Action, parser: argparse.ArgumentParser) -> str:
    return "" if action.help in (None, argparse.SUPPRESS) else str(action.help) % {**vars(action), "prog": parser.prog}


def word_of(action: argparse.Action, parser: argparse.ArgumentParser) -> Word:
    name = action.metavar if isinstance(action.metavar, str) else action.dest.upper()
    choices = tuple(str(it) for it in action.choices or ())
    if action.nargs == 0:
        name = ""
    elif choices and not action.metavar:
        name = "|".join(choices)
    is_many = action.nargs in ("*", "+")
    return Word(name, tuple(action.option_strings), choices, help_of(action, parser), action.type is pathlib.Path, is_many)


def of_parser(parser: argparse.ArgumentParser) -> Command:
    found = Command(parser.description or "")
    for action in parser._actions:
        if isinstance(action, argparse._SubParsersAction):
            abouts = {it.dest: it.help or "" for it in action._choices_actions}
            found.commands = {name: of_parser(it) for name, it in action.choices.items()}
            for name, it in found.commands.items():
                it.about = abouts.get(name) or it.about
        else:
            found.words.append(word_of(action, parser))
    return found


class Clap:
    """The commands of a program, in the text of its words.rt."""

    STRING = r'"((?:[^"\\]|\\.)*)"'

    def __init__(self, text: str) -> None:
        self.functions = dict(re.findall(r"^(?:pub )?fn (\w+)(.*?^\})", text, re.M | re.S))

    def whole(self) -> Command:
        found = Command(words=[HELP], commands={"help": Command("Print this message or the help of the given subcommand(s)")})
        for body in self.functions.values():
            named = re.search(rf"Command::new\(\s*alloc,\s*{self.STRING}", body)
            about = re.search(rf"\.about\(\s*{self.STRING}", body)
            if named and about:
                found.commands[named[1]] = Command(about[1], [*self.words(body), HELP])
        found.commands["help"].words = [Word("COMMAND", choices=tuple(it for it in found.commands if it != "help"))]
        return found

    def words(self, body: str) -> Iterator[Word]:
        """Those that a function adds to a command, in their order."""
        bound = dict(re.findall(r"let (\w+) = (.*?);\n", body, re.S))
        for name, adder in re.findall(r"(?:\.arg\(|with_option\(command, )(\w+)|\b(\w+)\(alloc, command\)", body):
            if adder:
                yield from self.words(self.functions[adder])
            elif name in bound or name in self.functions:
                yield self.word(bound.get(name) or self.functions[name])

    def word(self, text: str) -> Word:
        """The one that a text makes."""
        if placed := re.search(rf"\bword\(\s*alloc,\s*{self.STRING},\s*{self.STRING},\s*{self.STRING}", text):
            return Word(placed[2], help=placed[3])
        said = {name: value for name, value in re.findall(rf"\.(long|value_name|help)\(\s*{self.STRING}", text)}
        listed = re.search(r": ((?:[A-Z]+, )+[A-Z]+ or [A-Z]+)\b", said.get("help", ""))
        choices = tuple(re.findall(r"[A-Z]+", listed[1])) if listed else ()
        names = (f"--{said['long']}",) if "long" in said else ()
        return Word(said.get("value_name", ""), names, choices, said.get("help", ""))


def of_usage(text: str) -> Command:
    """Of the line of usage of a shell script: forms with a comma between them, each of which may begin with names of commands."""
    line = re.search(r"'usage: [\w-]+ ?(.*)'", text)
    if not line:
        raise ValueError("there is no line of usage")
    found = Command()
    for form in re.split(r", (?:or )?", line[1]) if line[1] else []:
        first, *others = form.split(" ")
        names = first.split("|") if first.islower() else []
        made = [of_written(it) for it in (others if names else [first, *others])]
        for name in names:
            found.commands[name] = Command(words=list(made))
        if not names:
            found.words = made
    return found


def of_written(word: str) -> Word:
    """A word as a line of usage has it: `[--yes]`, `[KEEP]` or `STORE`."""
    plain = word.strip("[]")
    return Word("", (plain,)) if plain.startswith("-") else Word(plain)


def of(file: pathlib.Path) -> Command:
    """The words of the command of which this is the source."""
    text = file.read_text(encoding="utf-8")
    if file.suffix == ".rt":
        return Clap(text).whole()
    if "python" in text.split("\n")[0]:
        return of_parser(parser_of(file))
    return of_usage(text)
