"""What the definitions in specs/ name: for each its text, and by the imports of its file all that it comes down to.

A clause or a definition reaches what its words name. It isn't seen where a word is bound anew, so some definitions may be reached
that aren't meant. What a definition names of the code, a type or a constant, is a declaration in src/.
"""

from __future__ import annotations

import pathlib
import re
from collections.abc import Iterable, Iterator

# A module, as `Rattle.policy.specs.Verdict`, and a name in it.
Where = tuple[str, str]

USE = re.compile(r"^ *(?:pub )?(?:ghost )?use (Rattle\.[\w.+]+?)(?:\.\{([^}]*)\}| as (\w+)|);?$", re.M)
# as of proofs, by the tree of modules
NESTED = re.compile(r"^use Rattle\..*\n", re.M)
WORD = re.compile(r"[^\s(){}\[\];,.λ]+")
NAMED = re.compile(r" *(?:(?:abbrev|unfoldable|pub|record|data) )*([^\s(){};,.]+)(?: [({].*)? : ")
BINDS = re.compile("[λ∀∃]")
COMMENT = re.compile(r"(?:^|\s)(?:--(?!\S*>)|//).*")
TEXT_OR_COMMENT = re.compile(r'"(?:[^"\\]|\\.)*"|(?<!\S)--.*')
DECLARED = ".specs.declared."


class Module:
    """What a file names by imports (an alias without a name), and what it defines."""

    def __init__(self, text: str) -> None:
        self.imports: dict[str, Where] = {}
        self.owners: dict[str, str] = {}  # of a field or a constructor its type
        self.words: dict[str, set[str]] = {}
        self.texts: dict[str, list[str]] = {}
        for module, names, alias in USE.findall(text):
            self.imports.update({alias: (module, "")} if alias else {})
            for old, _, new in (it.strip().partition(" as ") for it in names.split(",")):
                self.imports[new or old] = (module, old)

    @property
    def lines(self) -> dict[str, int]:
        return {name: len(text) for name, text in self.texts.items()}


def plain(text: str) -> str:
    """Without comments, blank lines and imports."""
    lines = (COMMENT.sub("", it) for it in NESTED.sub("", USE.sub("", text)).split("\n"))
    return "\n".join(it for it in lines if it.strip())


def bare(text: str) -> str:
    """Without comments and blank lines. A text that has the beginning of a comment is kept."""
    lines = (TEXT_OR_COMMENT.sub(lambda it: it[0] if it[0].startswith('"') else "", line) for line in text.split("\n"))
    return "".join(f"{line.rstrip()}\n" for line in lines if line.strip())


def words_in(text: str) -> set[str]:
    """Its words without the names of fields, and `alias.name` whole."""
    return set(WORD.findall(re.sub(r"(?<=[\w')\]])\.[\w'-]+", " ", text))) | set(re.findall(r"\b\w+\.[\w'-]+", text))


def parsed(text: str) -> Module:
    """A file of definitions. Those in a block `module _ .. where` reach what stands in its head."""
    found, name, inside, head = Module(text), "", 0, set[str]()
    for line in bare(USE.sub("", text)).split("\n"):
        indent = len(line) - len(line.lstrip())
        if not line.strip():
            continue
        if line.startswith("module "):
            inside, head, name = 2, words_in(line), ""
            continue
        if indent == 0:
            inside, head = 0, set()
        # A bound variable's type is no type of a definition or a field.
        named = None if BINDS.search(line.partition(" : ")[0]) else NAMED.match(line + " ")
        if named and indent == inside:
            name = named[1]
            found.words[name], found.texts[name] = set(head), []
        if name:
            found.owners.setdefault(named[1] if named else name, name)
            found.words[name] |= words_in(line)
            found.texts[name].append(line)
    return found


def named_by(module: Module, path: str, words: Iterable[str]) -> list[Where]:
    """What these words mean in a file."""
    found = [module.imports[it] for it in words if it in module.imports] + [(path, it) for it in words if it in module.owners]
    parted = [it.split(".", 1) for it in words if "." in it]
    return found + [(module.imports[alias][0], name) for alias, name in parted if alias in module.imports]


class Graph:
    """All files of specs/ of a repository. A type that the code declares has a module of its own, and no name in it."""

    def __init__(self, top: pathlib.Path) -> None:
        self.crates = top / "crates"
        self.modules: dict[str, Module] = {}
        self.alike: dict[str, str] = {}  # a module that is passed on by another name
        for path in sorted(self.crates.glob("*/specs/**/*.antt")):
            name, text = ".".join(["Rattle", *path.relative_to(self.crates).with_suffix("").parts]), path.read_text()
            self.modules[name] = parsed(text)
            again = re.findall(r"^pub use (\S+[^}\s])$", text, re.M)
            self.alike.update({f"{name.removesuffix('Lib')}{it.split('.')[-1]}": it for it in again})

    def find(self, name: str) -> Where:
        """The definition that `crate.Module.name` names."""
        crate, module, last = name.split(".")
        where = f"Rattle.{crate}.specs.{module}", last
        if self.owner(where) != where:
            raise LookupError(f"nothing is named {name}")
        return where

    def owner(self, where: Where) -> Where | None:
        """The definition that has this name, and its module; for a name that is passed on, where it is defined."""
        path, name = self.alike.get(where[0], where[0]), where[1]
        module = self.modules.get(path)
        if module is None:
            return self.declarer(path, name)
        if name in module.owners:
            return path, module.owners[name]
        return self.owner(module.imports[name]) if name in module.imports else None

    def declarer(self, path: str, name: str) -> Where | None:
        """What declares a name in a crate of this repository: of a variant, or of the shape of a type in a cycle, its type."""
        crate, declares, rest = path.removeprefix("Rattle.").partition(DECLARED)
        if not declares or not (self.crates / crate).is_dir():
            return None
        return (path, name) if rest.endswith("TheConstants") else (re.sub(r"\.(TheVariants|TheOpen)$", "", path), "")

    def named(self, where: Where) -> list[Where]:
        """The definitions and declarations that one names, each once, in the order of module and name."""
        module = self.modules.get(where[0])
        if module is None:
            return []
        found = {self.owner(it) for it in named_by(module, where[0], module.words[where[1]])}
        return sorted(it for it in found if it is not None and it != where)

    def under(self, roots: Iterable[Where]) -> list[Where]:
        """These and all that they come down to, each behind what it names."""
        found: dict[Where, None] = {}
        seen, left = set[Where](), [(it, False) for it in reversed(list(roots))]
        while left:
            where, is_left = left.pop()
            if is_left:
                found[where] = None
            elif where not in seen:
                seen.add(where)
                left.append((where, True))
                left += [(it, False) for it in reversed(self.named(where))]
        return list(found)

    def text(self, where: Where) -> str:
        """A definition without comments; of what is declared in the code its words there."""
        if DECLARED in where[0]:
            return self.declaration(where)
        return "".join(f"{line}\n" for line in self.modules[where[0]].texts[where[1]])

    def declaration(self, where: Where) -> str:
        """A type or a constant as the code declares it, without comments and attributes."""
        crate, _, rest = where[0].removeprefix("Rattle.").partition(DECLARED)
        parts = [it for it in rest.split(".") if it != "TheConstants"]
        name = where[1] or parts.pop()
        texts = [it.read_text() for it in self.sources(crate, parts)]
        found = [it for text in texts for it in declared(text, name)]
        if len(found) != 1:
            raise LookupError(f"{crate} declares {name} {len(found)} times")
        return found[0]

    def sources(self, crate: str, parts: list[str]) -> Iterator[pathlib.Path]:
        source = self.crates / crate / "src"
        for path in (source.joinpath(*parts).with_suffix(".rt"), source.joinpath(*parts, "mod.rt")) if parts else (source / "lib.rt",):
            if path.exists():
                yield path


def declared(text: str, name: str) -> Iterator[str]:
    """The items of a file of the code that declare this type or constant, or pass it on from another crate."""
    code = "\n".join(it for it in text.split("\n") if not re.match(r"\s*(//|#\[)", it))
    kinds = rf"const {name}\b[^;]*;|use \w+::[^;]*\b{name}\b[^;]*;|(?:enum|struct) {name}\b[^;{{]*(?:;|\{{[^}}]*\}}|\{{.*?^\}})"
    for item in re.finditer(rf"^pub(?:\(\w+\))? (?:{kinds})", code, re.M | re.S):
        yield f"{item[0]}\n"
