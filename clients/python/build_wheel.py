"""Builds the wheel that `pip install clients/python` installs; pyproject.toml names this module as the build backend (PEP 517).

    python3 build_wheel.py FOLDER [--library FILE] [--version V] [--about FILE]

puts it into a folder. --library is the shared library libiodef_redact, which the module iodef_redact then loads from inside the
wheel; such a wheel is for the library's kind of machine alone. --version is the wheel's version, by default that of iodef_hub.py.
--about is a text that becomes iodef_redact/VERSION. pip passes the same words on as settings, with absolute paths:
`pip install --config-settings library=FILE clients/python`.

It needs neither setuptools nor a network. A library is one file, and only a package can say that it has types (PEP 561). So the
wheel has iodef_hub.py and iodef_redact.py as packages of these names, each with the marker py.typed beside it.
"""
from __future__ import annotations

import argparse
import base64
import hashlib
import pathlib
import re
import tomllib
import zipfile
from collections.abc import Mapping
from dataclasses import dataclass
from typing import Any

HERE = pathlib.Path(__file__).resolve().parent
BEGINNING = (1980, 1, 1, 0, 0, 0)  # of a zip's time: the same files make the same wheel
LIBRARY = "libiodef_redact.so.1"
PACKAGES = ("iodef_hub_ask", "iodef_hub_stix", "iodef_hub_taxii", "iodef_hub_xml", "iodef_redact_mail")
VERSION = r"\d+(\.\d+)*((a|b|rc)\d+)?(\.post\d+)?"  # the forms of PEP 440 that are used
# The machines of a library of 64 bits, by the numbers of ELF.
MACHINES = {62: "x86_64", 183: "aarch64"}


@dataclass(frozen=True)
class Given:
    """What a wheel is made of besides the files of this folder."""

    library: bytes | None = None
    version: str | None = None
    about: bytes | None = None

    @classmethod
    def of(cls, settings: Mapping[str, object]) -> Given:
        if unknown := set(settings) - {"library", "version", "about"}:
            raise SystemExit(f"there is no setting {sorted(unknown)[0]}")
        if settings.get("version") and not re.fullmatch(VERSION, str(settings["version"])):
            raise SystemExit(f"{settings['version']} is no version of a wheel")
        read = {name: pathlib.Path(str(settings[name])).read_bytes() for name in ("library", "about") if settings.get(name)}
        return cls(read.get("library"), str(settings["version"]) if settings.get("version") else None, read.get("about"))


def platform_of(library: bytes) -> str:
    """The tag of the machines that can load a library: PEP 600's, by the newest version of the C library that it names."""
    if library[:6] != b"\x7fELF\x02\x01" or int.from_bytes(library[18:20], "little") not in MACHINES:
        raise SystemExit("the library is no shared library of a machine of 64 bits that is known here")
    others = set(re.findall(rb"\0((?:lib|ld-)[\w.+-]*\.so[.\d]*)(?=\0)", library)) - {LIBRARY.encode(), b"libc.so.6"}
    if others:
        raise SystemExit(f"the library needs {sorted(others)[0].decode()}, which not every machine has")
    named = [(int(major), int(minor)) for major, minor in re.findall(rb"\0GLIBC_(\d+)\.(\d+)(?:\.\d+)?(?=\0)", library)]
    major, minor = max([(2, 17), *named])
    return f"manylinux_{major}_{minor}_{MACHINES[int.from_bytes(library[18:20], 'little')]}"


def project() -> dict[str, Any]:
    """The table [project] of pyproject.toml, with the version."""
    table: dict[str, Any] = tomllib.loads((HERE / "pyproject.toml").read_text("utf-8"))["project"]
    found = re.search(r'^__version__ = "([0-9.]+)"$', (HERE / "iodef_hub.py").read_text("utf-8"), re.M)
    assert found, "iodef_hub.py has no __version__"
    return {**table, "version": found[1]}


def contents(table: dict[str, Any], stem: str, tag: str, given: Given) -> dict[str, bytes]:
    """The files of the wheel by name, except the record of them."""
    about = [
        "Metadata-Version: 2.1", f"Name: {table['name']}", f"Version: {table['version']}", f"Summary: {table['description']}",
        f"License: {table['license']['text']}", f"Requires-Python: {table['requires-python']}",
    ]
    for extra, needed in table["optional-dependencies"].items():
        about += [f"Provides-Extra: {extra}", *(f'Requires-Dist: {name}; extra == "{extra}"' for name in needed)]
    commands = ["[console_scripts]", *(f"{name} = {what}" for name, what in table["scripts"].items())]
    is_pure = "false" if given.library else "true"
    wheel = ["Wheel-Version: 1.0", "Generator: build_wheel", f"Root-Is-Purelib: {is_pure}", f"Tag: {tag}"]
    made = {
        "iodef_hub/__init__.py": (HERE / "iodef_hub.py").read_bytes(),
        "iodef_hub/py.typed": b"",
        "iodef_redact/__init__.py": (HERE / "iodef_redact.py").read_bytes(),
        "iodef_redact/py.typed": b"",
        "iodef_hub_misp.py": (HERE / "iodef_hub_misp.py").read_bytes(),
    }
    made |= {f"iodef_redact/{name}": it for name, it in ((LIBRARY, given.library), ("VERSION", given.about)) if it}
    for module in sorted(each for name in PACKAGES for each in (HERE / name).glob("*.py")):
        made[f"{module.parent.name}/{module.name}"] = module.read_bytes()
    for page in sorted(HERE.glob("*.1")):
        made[f"{stem}.data/data/share/man/man1/{page.name}"] = page.read_bytes()
    for name, lines in (("METADATA", about), ("WHEEL", wheel), ("entry_points.txt", commands)):
        made[f"{stem}.dist-info/{name}"] = ("\n".join(lines) + "\n").encode()
    return made


def record(files: dict[str, bytes], name: str) -> bytes:
    """Each file with its digest and length, and the record itself with neither."""
    digests = {each: base64.urlsafe_b64encode(hashlib.sha256(text).digest()).rstrip(b"=").decode() for each, text in files.items()}
    return "".join([*(f"{each},sha256={digests[each]},{len(text)}\n" for each, text in files.items()), f"{name},,\n"]).encode()


def build_wheel(wheel_directory: str, config_settings: Mapping[str, object] | None = None, metadata_directory: object = None) -> str:
    """Writes the wheel into a folder and returns its name. pip calls this."""
    table, given = project(), Given.of(config_settings or {})
    table["version"] = given.version or table["version"]
    stem = f"{table['name'].replace('-', '_')}-{table['version']}"
    tag = f"py3-none-{platform_of(given.library)}" if given.library else "py3-none-any"
    files = contents(table, stem, tag, given)
    place = f"{stem}.dist-info/RECORD"
    name = f"{stem}-{tag}.whl"
    with zipfile.ZipFile(pathlib.Path(wheel_directory) / name, "w", zipfile.ZIP_DEFLATED) as made:
        for each, text in {**files, place: record(files, place)}.items():
            entry = zipfile.ZipInfo(each, BEGINNING)
            entry.external_attr = 0o644 << 16
            entry.compress_type = zipfile.ZIP_DEFLATED
            made.writestr(entry, text)
    return name


def main() -> None:
    words = argparse.ArgumentParser(description="Builds the wheel of the client.", allow_abbrev=False)
    words.add_argument("folder", metavar="FOLDER")
    for name, what in (("library", "FILE"), ("version", "V"), ("about", "FILE")):
        words.add_argument(f"--{name}", metavar=what)
    asked = vars(words.parse_args())
    print(build_wheel(asked.pop("folder"), {name: it for name, it in asked.items() if it}))


if __name__ == "__main__":
    main()
