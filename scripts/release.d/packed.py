"""The packages of a release: the Debian packages as deploy/deb/build-deb makes them, a tarball with the same files and more, and a
wheel of the clients with the library inside."""
from __future__ import annotations

import gzip
import hashlib
import io
import os
import pathlib
import re
import shutil
import subprocess
import sys
import tarfile
import tempfile
import zipfile
from collections.abc import Iterable
from dataclasses import dataclass

from tree import PROVED as PROVED_BESIDE
from tree import Refused, Tree


@dataclass(frozen=True)
class Link:
    """A symbolic link, to a file beside it."""

    to: str


@dataclass(frozen=True)
class Given:
    """What a release is made of besides the commit: the proved programs, and the folder of the library."""

    program: pathlib.Path
    redact: pathlib.Path | None = None
    library: pathlib.Path | None = None

    def packages(self) -> list[str]:
        return ["iodef-hub", *["iodef-redact"] * bool(self.redact), *["libiodef-redact"] * bool(self.library)]


Files = dict[str, bytes | Link]
# Where a file of the package comes from, by the beginning of its path. What isn't named here is generated.
FROM = [
    (r"usr/bin/(iodef-hub-(?:ask|misp|stix|taxii|xml))", r"clients/python/\1"),
    (r"usr/bin/(iodef-redact-mail)", r"clients/python/\1"),
    (r"usr/bin/(iodef-hub-version)", r"deploy/deb/\1"),
    (r"usr/bin/(iodef-hub-demo)", r"demo/\1"),
    (r"usr/share/iodef-hub/demo/reports/((?:phishing|botnet|denial-of-service)\.json)", r"docs/examples/\1"),
    (r"usr/share/iodef-hub/(demo/.*)", r"\1"),
    (r"usr/share/iodef-(?:hub|redact)/client/(.*)", r"clients/python/\1"),
    (r"usr/sbin/(.*)", r"deploy/bin/\1"),
    (r"usr/lib/iodef-hub/(.*)", r"deploy/lib/\1"),
    (r"(?:usr/)?lib/systemd/system/(.*)", r"deploy/systemd/\1"),
    (r"usr/share/iodef-hub/nginx/(?!iodef-hub-csp\.conf)(.*)", r"deploy/nginx/\1"),
    (r"usr/share/iodef-hub/nftables/(.*)", r"deploy/nftables/\1"),
    (r"usr/share/iodef-hub/page/(.*)", r"web/\1"),
    # Of a commit without make-docs, which makes them otherwise.
    (r"usr/share/doc/iodef-hub/([\w-]+\.md|openapi\.yaml)", r"docs/\1"),
    (r"usr/share/doc/iodef-hub/examples/reports/(.*)", r"docs/examples/\1"),
    (r"usr/share/doc/iodef-hub/examples/(site\.conf)", r"deploy/nginx/\1"),
    (r"usr/share/doc/iodef-hub/examples/(haproxy\.cfg)", r"deploy/haproxy/\1"),
    (r"usr/share/doc/iodef-hub/examples/(iodef-hub\.nft)", r"deploy/nftables/\1"),
    (r"usr/share/doc/iodef-hub/examples/(receipts/.*)", r"deploy/\1"),
    (r"usr/share/doc/iodef-hub/examples/(alerts\.yml)", r"deploy/monitoring/\1"),
    (r"usr/share/doc/iodef-hub/examples/(mail-news)", r"clients/python/examples/\1"),
    (r"usr/share/man/man1/((?:iodef-hub-(?:ask|misp|stix|taxii|xml)|iodef-redact-mail)\.1)\.gz", r"clients/python/\1"),
    (r"usr/include/(iodef_redact\.h)", r"clients/c/\1"),
    (r"usr/lib/[\w-]+/pkgconfig/(iodef_redact\.pc)", r"clients/c/\1"),
    (r"usr/lib/python3/dist-packages/(iodef_redact\.py)", r"clients/python/\1"),
]
# The sources of the commands whose man pages and completions are generated; those of the others are below deploy/bin.
COMMANDS = {
    "iodef-hub": "crates/hub_program/src/words.rt",
    "iodef-redact": "crates/redact_program/src/words.rt",
    "iodef-hub-ask": "clients/python/iodef-hub-ask",
    "iodef-hub-misp": "clients/python/iodef-hub-misp",
    "iodef-hub-stix": "clients/python/iodef-hub-stix",
    "iodef-hub-taxii": "clients/python/iodef-hub-taxii",
    "iodef-hub-xml": "clients/python/iodef-hub-xml",
    "iodef-redact-mail": "clients/python/iodef-redact-mail",
    "iodef-hub-version": "deploy/deb/iodef-hub-version",
    "iodef-hub-demo": "demo/iodef-hub-demo",
}
# The pages from which man pages of programs are made.
PAGES = {"iodef-hub": "docs/COMMAND-LINE.md", "iodef-redact": "docs/REDACT.md"}
# Where the description of a command is, and its completion, by the beginnings of their paths.
MANUALS, COMPLETIONS = "usr/share/man/man", "usr/share/bash-completion/completions/"
# The programs and libraries that are proved: no commit has them.
PROVED = r"usr/bin/iodef-(?:hub|redact)|usr/lib/[\w-]+/libiodef_redact\.(?:a|so[.\d]*)"
# Which of them a package has.
OF_PACKAGES = {"iodef-hub": "usr/bin/iodef-hub$", "iodef-redact": "usr/bin/iodef-redact$", "libiodef-redact": "usr/lib/"}
PROGRAMS = rf"usr/s?bin/.*|usr/lib/iodef-hub/.*|{PROVED}"
# The names by which the shared library is linked and loaded.
LINKS = r"usr/lib/[\w-]+/libiodef_redact\.so(?:\.1)?"
# What debhelper adds to a package; the tarball has the licence and CHANGELOG.md in their place.
ADDED = r"usr/share/(doc/[\w-]+/(copyright|changelog\.gz)|lintian/overrides/[\w-]+)"
# Folders of which the hub's package has all files.
WHOLE = ("deploy/bin", "deploy/lib", "deploy/systemd", "demo")
# What the tarball has besides.
BESIDE = ("clients", "LICENSE", "CHANGELOG.md", "SECURITY.md")


def built(tree: Tree, made_of: Given, version: str, room: pathlib.Path, maintainer: str = "") -> list[pathlib.Path]:
    """The Debian packages, made in the room, which is new; the hub's is the first."""
    room.mkdir()
    given = {name: it for name, it in os.environ.items() if not re.match(r"DEB_|DPKG_|IODEF_|SOURCE_DATE_", name)}
    given |= {"SOURCE_DATE_EPOCH": str(tree.seconds), "IODEF_HUB_COMMIT": tree.commit, "LC_ALL": "C.UTF-8", "TZ": "UTC"}
    given |= {"IODEF_REDACT_PROGRAM": str(made_of.redact or ""), "IODEF_REDACT_LIBRARY": str(made_of.library or "")}
    if found := re.fullmatch(r"(.*) <(.*)>", maintainer):
        given |= {"DEBFULLNAME": found[1], "DEBEMAIL": found[2]}
    words = [str(tree.folder / "deploy/deb/build-deb"), str(made_of.program), str(room), version]
    ran = subprocess.run(words, capture_output=True, text=True, env=given, umask=0o022)
    packages = [it for name in made_of.packages() for it in room.glob(f"{name}_*.deb")]
    if ran.returncode or len(packages) != len(made_of.packages()) or len(packages) != len(list(room.iterdir())):
        raise Refused(f"the packages aren't built: {(ran.stderr or ran.stdout).strip()[-600:]}")
    if "~trial" in packages[0].name:
        raise Refused(f"a program has an address sanitizer, so it is only for trials: {ran.stderr.strip()[-300:]}")
    return packages


def files_of(tar: bytes) -> Files:
    """The files of a tar, and its links to files beside them. It has nothing else but folders, and nothing that others may
    write or that gives rights."""
    with tarfile.open(fileobj=io.BytesIO(tar)) as opened:
        found: Files = {}
        for member in opened:
            name = member.name.removeprefix("./")
            if member.issym() and re.fullmatch(r"[\w-][\w.-]*", member.linkname):
                found[name] = Link(member.linkname)
                continue
            data = opened.extractfile(member) if member.isfile() else None
            if (data is None and not member.isdir()) or member.mode & 0o7022:
                raise Refused(f"{member.name} is no plain file, or has the mode {member.mode:o}")
            if data:
                found[name] = data.read()
        return found


def contents(files: Files) -> dict[str, bytes]:
    """The files without the links."""
    return {name: it for name, it in files.items() if not isinstance(it, Link)}


def files_of_deb(package: pathlib.Path) -> Files:
    return files_of(subprocess.run(["dpkg-deb", "--fsys-tarfile", package], stdout=subprocess.PIPE, check=True).stdout)


def files_of_tarball(file: pathlib.Path) -> Files:
    """Without the folder that all are in."""
    return {name.partition("/")[2]: it for name, it in files_of(gzip.decompress(file.read_bytes())).items()}


def tarball(tree: Tree, packages: Iterable[pathlib.Path], file: pathlib.Path) -> None:
    """Writes a tarball with the files of the packages and what stands beside them, in the order of their names."""
    found = {name: it for one in packages for name, it in files_of_deb(one).items() if not re.fullmatch(ADDED, name)}
    for top in BESIDE:
        path = tree.folder / top
        for one in sorted(path.rglob("*")) if path.is_dir() else [path]:
            if one.is_file():
                found[str(one.relative_to(tree.folder))] = one.read_bytes()
    found |= documents(tree, "tarball")
    raw = io.BytesIO()
    with tarfile.open(fileobj=raw, mode="w", format=tarfile.USTAR_FORMAT) as packed:
        for name, content in sorted(found.items()):
            member = tarfile.TarInfo(f"{file.name.removesuffix('.tar.gz')}/{name}")
            member.mtime = tree.seconds
            if isinstance(content, Link):
                member.type, member.linkname, member.mode = tarfile.SYMTYPE, content.to, 0o777
                packed.addfile(member)
                continue
            member.size = len(content)
            member.mode = 0o755 if content.startswith((b"#!", b"\x7fELF")) else 0o644
            packed.addfile(member, io.BytesIO(content))
    with file.open("wb") as out, gzip.GzipFile(filename="", mode="wb", fileobj=out, mtime=0) as small:
        small.write(raw.getvalue())


def programs(files: Files) -> dict[str, str]:
    """The digest of each program and library among the files of a package."""
    plain = sorted(contents(files).items())
    return {name: hashlib.sha256(it).hexdigest() for name, it in plain if re.fullmatch(PROGRAMS, name)}


def proved(programs: dict[str, str]) -> dict[str, str]:
    """Those that are proved, of the programs of a package."""
    return {name: it for name, it in programs.items() if re.fullmatch(PROVED, name)}


def documents(tree: Tree, what: str) -> dict[str, bytes]:
    """The documents of a package or of the tarball, as the commit's make-docs makes them; of a commit without one, none."""
    tool = tree.folder / "deploy/deb/make-docs"
    if not tool.is_file():
        return {}
    with tempfile.TemporaryDirectory() as name:
        # Up to 1.1.0 make-docs told a path by the depth of the folder in which it was run.
        subprocess.run([sys.executable, tool, what, name], cwd=tree.folder, check=True)
        room = pathlib.Path(name)
        return {str(it.relative_to(room)): it.read_bytes() for it in room.rglob("*") if it.is_file()}


def command_source(name: str) -> str:
    return COMMANDS.get(name, f"deploy/bin/{name}")


def versions(tree: Tree, version: str, kit: str, programs: dict[str, str]) -> dict[str, bytes]:
    """The file VERSION of each package, by its path, as the commit's make-version makes it; of a commit without one, none."""
    if not (tree.folder / "deploy/deb/make-version").is_file():
        return {}
    found = {}
    for name in tree.packages():
        files = {path: it for path, it in sorted(proved(programs).items()) if re.match(OF_PACKAGES[name], path)}
        found[f"usr/share/doc/{name}/VERSION"] = version_text(tree, name, version, kit, {f"/{path}": it for path, it in files.items()})
    return found


def version_text(tree: Tree, name: str, version: str, kit: str, files: dict[str, str]) -> bytes:
    """What a package says of itself; files are what is proved in it, by path with the digest. The wheel has the library."""
    sources = tree.sources_of(name if name in PROVED_BESIDE else "libiodef-redact")
    words = ["deploy/deb/make-version", name, version, tree.commit, sources, kit, *(f"{path}={it}" for path, it in files.items())]
    given = {**os.environ, "SOURCE_DATE_EPOCH": str(tree.seconds)}
    return subprocess.run([sys.executable, *words], cwd=tree.folder, env=given, stdout=subprocess.PIPE, check=True).stdout


def generated(tree: Tree, name: str) -> bytes | None:
    """What the tree's tools make of it for a file that stands nowhere in it: a man page, a completion, or the page's policy."""
    if name.endswith("nginx/iodef-hub-csp.conf"):
        words = ["deploy/nginx/make-csp", "web/index.html"]
    elif found := re.fullmatch(rf"{MANUALS}(\d)/(.*)\.\d\.gz", name):
        words = ["deploy/deb/make-man", PAGES.get(found[2]) or command_source(found[2]), found[2], found[1]]
    elif found := re.fullmatch(rf"{COMPLETIONS}(.*)", name):
        words = ["deploy/deb/make-completion", command_source(found[1]), found[1]]
    else:
        return None
    given = {**os.environ, "SOURCE_DATE_EPOCH": str(tree.seconds)}
    ran = subprocess.run([sys.executable, *words], cwd=tree.folder, env=given, stdout=subprocess.PIPE)
    return ran.stdout if ran.returncode == 0 else None


def source_of(name: str) -> str | None:
    """Which file of the tree a file of a package is, if it is one."""
    if name.startswith(BESIDE):
        return name
    return next((found.expand(path) for pattern, path in FROM if (found := re.fullmatch(pattern, name))), None)


class Due:
    """What the files of a package have to be, by the commit and what each package says of its own version."""

    def __init__(self, tree: Tree, versions: dict[str, bytes]) -> None:
        self.tree = tree
        self.generated: dict[str, bytes | None] = {}
        self.documents = {**documents(tree, "tarball"), **versions}
        for name in tree.packages():
            made = documents(tree, name)
            self.documents |= {f"usr/share/doc/{name}/{path}": it for path, it in made.items()}

    def of(self, name: str) -> bytes | None:
        if name in self.documents:
            return self.documents[name]
        source = source_of(name)
        if source is None:
            # The tarball has the same files as the packages, so each is made once.
            if name not in self.generated:
                self.generated[name] = generated(self.tree, name)
            return self.generated[name]
        file = self.tree.folder / source
        return file.read_bytes() if file.is_file() else None

    def documents_of(self, what: str) -> set[str]:
        """The documents of a package, or those that the tarball has besides."""
        below = f"usr/share/doc/{what}/"
        return {it for it in self.documents if (not it.startswith("usr/") if what == "tarball" else it.startswith(below))}


def fault_of_link(name: str, link: Link, files: Files) -> str | None:
    is_due = re.fullmatch(LINKS, name) and link.to.startswith(f"{pathlib.PurePath(name).name}.")
    is_there = str(pathlib.PurePath(name).with_name(link.to)) in files
    return None if is_due and is_there else f"{name} leads to {link.to}"


def faults_of_files(due: Due, files: Files, told: dict[str, str], tops: Iterable[str], whats: Iterable[str]) -> list[str]:
    """What in a package isn't the commit's, but for what is proved, whose digests are told; and which files of these folders and
    documents it lacks."""
    faults = [fault for name, it in sorted(files.items()) if isinstance(it, Link) and (fault := fault_of_link(name, it, files))]
    for name, content in sorted(contents(files).items()):
        plain = gzip.decompress(content) if name.endswith(".gz") else content
        if re.fullmatch(PROVED, name):
            if hashlib.sha256(content).hexdigest() != told.get(name):
                faults.append(f"{name} isn't the one that PROVENANCE.json names")
        elif not re.fullmatch(ADDED, name) and plain != due.of(name):
            faults.append(f"{name} isn't the commit's")
    there = {source_of(name) for name in files}
    folder = due.tree.folder
    lacking = {str(it.relative_to(folder)) for top in tops for it in (folder / top).rglob("*") if it.is_file()} - there
    lacking |= {it for what in whats for it in due.documents_of(what)} - set(files)
    return faults + [f"it lacks {name}" for name in sorted(str(it) for it in lacking)]


def faults_of_commands(tree: Tree, files: Files) -> list[str]:
    """Which commands of a package have no man page or no completion. Of a commit that makes no completions, none."""
    if not (tree.folder / "deploy/deb/make-completion").is_file():
        return []
    faults = []
    for name in (found[1] for it in sorted(files) if (found := re.fullmatch(r"usr/s?bin/(.*)", it))):
        if not any(re.fullmatch(rf"{MANUALS}\d/{name}\.\d\.gz", it) for it in files):
            faults.append(f"{name} has no man page")
        if f"{COMPLETIONS}{name}" not in files:
            faults.append(f"{name} has no completion")
    return faults


def faults_between(one: Files, other: Files, what: str) -> list[str]:
    """Where the files of the packages and those of the tarball differ."""
    one = {name: it for name, it in one.items() if not re.fullmatch(ADDED, name)}
    other = {name: it for name, it in other.items() if not name.startswith(BESIDE)}
    return [f"{name} {what}" for name in sorted({*one, *other}) if one.get(name) != other.get(name)]


def wheel(tree: Tree, library: pathlib.Path, version: str, kit: str, room: pathlib.Path) -> pathlib.Path | None:
    """The wheel of the clients with the shared library inside, made in the room, which is new; of a commit that makes none, none."""
    tool = tree.folder / "clients/python/build_wheel.py"
    if not tool.is_file() or '"library"' not in tool.read_text():
        return None
    room.mkdir()
    file, about = (library / "libiodef_redact.so.1").resolve(), room / "VERSION"
    digest = hashlib.sha256(file.read_bytes()).hexdigest()
    about.write_bytes(version_text(tree, "iodef-hub-client", version, kit, {"iodef_redact/libiodef_redact.so.1": digest}))
    words = [sys.executable, tool, room, "--library", file, "--version", version, "--about", about]
    ran = subprocess.run([str(it) for it in words], capture_output=True, text=True, env={**os.environ, "PYTHONDONTWRITEBYTECODE": "1"})
    if ran.returncode:
        raise Refused(f"the wheel isn't built: {ran.stderr.strip()[-600:]}")
    about.unlink()
    return next(room.iterdir())


def entries_of_wheel(file: pathlib.Path) -> dict[str, tuple[object, ...]]:
    """The files of a wheel, with their times and modes; how they are packed depends on the machine."""
    with zipfile.ZipFile(file) as opened:
        listed = opened.infolist()
        if len({it.filename for it in listed}) != len(listed):
            raise Refused(f"{file.name} has a file twice")
        return {it.filename: (opened.read(it), it.date_time, it.external_attr) for it in listed}


def maintainer_of(package: pathlib.Path) -> str:
    return subprocess.run(["dpkg-deb", "-f", package, "Maintainer"], capture_output=True, text=True, check=True).stdout.strip()


def has_builder() -> bool:
    return all(shutil.which(it) for it in ("dpkg-buildpackage", "dh"))
