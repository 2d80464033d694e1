"""The parts of a release as CycloneDX 1.5: its programs, libraries and wheel, their crates, those of the kit, and what each stands on.

No schema of CycloneDX lies beside it: `faults_of_shape` asks by hand for the part of the schema that is used here.
"""
from __future__ import annotations

import pathlib
import re
import uuid
from typing import Any

from tree import PACKAGES, Refused, Tree

HUB = "usr/bin/iodef-hub"
# The packages of the programs and libraries besides the hub's, by the beginnings of their names.
OF_PACKAGE = {"iodef-redact": "iodef-redact", "libiodef_redact.": "libiodef-redact"}
WHEEL = ".whl"
Json = dict[str, Any]
# A licence by words of its text, by the identifiers of SPDX.
LICENCES = {
    "Apache-2.0": r"Apache License\s+Version 2\.0",
    "MIT": r"Permission is hereby granted, free of charge",
    "BSL-1.0": r"Boost Software License - Version 1\.0",
    "BSD-3-Clause": r"Redistribution and use in source and binary forms[\s\S]*Neither the name",
    "Unicode-3.0": r"UNICODE LICENSE V3",
}


class Kit:
    """The folder of the toolchain, with what it says of itself."""

    def __init__(self, folder: pathlib.Path) -> None:
        self.folder = folder
        try:
            self.line = (folder / "KIT-ID").read_text().strip()
            # What it was made of: a line each, a name and a digest.
            self.made_of = [line.split() for line in (folder / "WHAT").read_text().splitlines()]
        except OSError as fault:
            raise Refused(f"{folder} is no kit: {fault}") from None

    def below(self, name: str) -> list[str]:
        """The crates that one of the kit's stands on."""
        built = self.folder / "rlibs" / f"{name}.rlib"
        if not built.is_dir():
            raise Refused(f"the kit has no crate {name}")
        return sorted(it.name for it in built.glob("below/*"))

    def licences(self, name: str) -> list[Json]:
        found = set()
        for file in sorted((self.folder / "rattle" / name).glob("LICENSE*")):
            text = file.read_text()
            found |= {known for known, words in LICENCES.items() if re.search(words, text)} or {file.name}
        return [{"license": {"id" if it in LICENCES else "name": it}} for it in sorted(found)]

    def ancestors(self, name: str) -> list[Json]:
        """The Rust crate that it is a port of, where its page says so."""
        page = self.folder / "rattle" / name / "README.md"
        found = re.search(r"Rust crate `([\w-]+)` (\d[\d.]*\d)", page.read_text()) if page.is_file() else None
        return [{"type": "library", "name": found[1], "version": found[2], "purl": f"pkg:cargo/{found[1]}@{found[2]}"}] if found else []


def own(tree: Tree, version: str) -> list[Json]:
    """The repository's crates."""
    return [
        {
            "type": "library",
            "bom-ref": f"crates/{name}",
            "group": "iodef-hub",
            "name": name,
            "version": version,
            "licenses": [{"license": {"id": "Apache-2.0"}}],
            "properties": [{"name": "sha256 of its files", "value": tree.digest((tree.folder / "crates" / name).rglob("*"))["sha256"]}],
        }
        for name in tree.of_packages()
    ]


def hashes(digest: str) -> list[Json]:
    return [{"alg": "SHA-256", "content": digest}]


def beside(programs: dict[str, str], version: str) -> list[Json]:
    """The proved programs and libraries besides the hub's program, and the wheel, by the digests of all."""
    found = []
    for path, digest in sorted(programs.items()):
        if path != HUB:
            name = pathlib.PurePath(path).name
            kind = "library" if name.startswith("lib") or name.endswith(WHEEL) else "application"
            part: Json = {"type": kind, "bom-ref": name, "group": "iodef-hub", "name": name, "version": version, "hashes": hashes(digest)}
            found.append({**part, "licenses": [{"license": {"id": "Apache-2.0"}}]})
    return found


def of_kit(tree: Tree, kit: Kit) -> list[Json]:
    """The kit's crates that they stand on."""
    left = {"std"}.union(*(tree.crates()[it] for it in tree.of_packages())) - set(tree.crates())
    names = set[str]()
    while left:
        names |= left
        left = {it for name in left for it in kit.below(name)} - names
    found = []
    for name in sorted(names):
        component: Json = {"type": "library", "bom-ref": f"kit/{name}", "group": "rattle", "name": name, "version": kit.line}
        if licences := kit.licences(name):
            component["licenses"] = licences
        if ancestors := kit.ancestors(name):
            component["pedigree"] = {"ancestors": ancestors}
        found.append(component)
    return found


def dependencies(tree: Tree, programs: dict[str, str]) -> list[Json]:
    """What the programs and libraries stand on, and what each of the repository's crates names."""
    crates = tree.crates()
    found = [{"ref": "iodef-hub", "dependsOn": [f"crates/{PACKAGES['iodef-hub']}"]}]
    for part in beside(programs, ""):
        if part["name"].endswith(WHEEL):
            # It has the very file of the library.
            inside = [it["bom-ref"] for it in beside(programs, "") if ".so." in it["name"]]
            found.append({"ref": part["bom-ref"], "dependsOn": inside})
            continue
        package = next(it for begin, it in OF_PACKAGE.items() if part["name"].startswith(begin))
        found.append({"ref": part["bom-ref"], "dependsOn": [f"crates/{PACKAGES[package]}"]})
    for name in tree.of_packages():
        uses = [f"crates/{it}" if it in crates else f"kit/{it}" for it in ["std", *crates[name]]]
        found.append({"ref": f"crates/{name}", "dependsOn": sorted(uses)})
    return found


def of_kit_dependencies(components: list[Json], kit: Kit) -> list[Json]:
    return [{"ref": it["bom-ref"], "dependsOn": [f"kit/{name}" for name in kit.below(it["name"])]} for it in components]


def head(tree: Tree, version: str, programs: dict[str, str], kit: str, made_of: Json) -> Json:
    """The members beside the parts and what they stand on. `kit` is the kit's line, and `made_of` what it says of itself."""
    digests = " ".join(it for _, it in sorted(programs.items()))
    return {
        "bomFormat": "CycloneDX",
        "specVersion": "1.5",
        "serialNumber": f"urn:uuid:{uuid.uuid5(uuid.NAMESPACE_OID, f'iodef-hub {version} {tree.commit} {digests}')}",
        "version": 1,
        "metadata": {
            "timestamp": tree.moment(),
            "tools": {"components": [{"type": "application", "name": "Rattle kit", "version": kit, **made_of}]},
            "component": {
                "type": "application",
                "bom-ref": "iodef-hub",
                "name": "iodef-hub",
                "version": version,
                "hashes": hashes(programs[HUB]),
                "licenses": [{"license": {"id": "Apache-2.0"}}],
            },
        },
    }


def made(tree: Tree, kit: Kit, version: str, programs: dict[str, str]) -> Json:
    """Of the proved programs and libraries, by their paths in the packages."""
    parts, more = of_kit(tree, kit), [{"name": name, "value": digest} for name, digest in kit.made_of]
    return {
        **head(tree, version, programs, kit.line, {"properties": more}),
        "components": beside(programs, version) + own(tree, version) + parts,
        "dependencies": dependencies(tree, programs) + of_kit_dependencies(parts, kit),
    }


def faults_of_component(component: Json) -> list[str]:
    faults = []
    name = component.get("bom-ref") or component.get("name") or "a component"
    if component.get("type") not in ("application", "library"):
        faults.append(f"{name}: no type")
    faults += [f"{name}: no {it}" for it in ("name", "version") if not isinstance(component.get(it), str)]
    for it in component.get("hashes", []):
        if it.get("alg") != "SHA-256" or not re.fullmatch(r"[0-9a-f]{64}", str(it.get("content"))):
            faults.append(f"{name}: no SHA-256: {it}")
    for it in component.get("licenses", []):
        if set(it) != {"license"} or len({"id", "name"} & set(it["license"])) != 1:
            faults.append(f"{name}: no licence: {it}")
    for it in component.get("properties", []):
        if set(it) != {"name", "value"}:
            faults.append(f"{name}: no property: {it}")
    return faults + [fault for it in component.get("pedigree", {}).get("ancestors", []) for fault in faults_of_component(it)]


def faults_of_shape(sbom: Json) -> list[str]:
    """What CycloneDX 1.5 refuses, of the members that are used here."""
    faults = []
    wanted = {"bomFormat": "CycloneDX", "specVersion": "1.5", "version": 1}
    faults += [f"{name} is {sbom.get(name)}" for name, value in wanted.items() if sbom.get(name) != value]
    if not re.fullmatch(r"urn:uuid:[0-9a-f]{8}(-[0-9a-f]{4}){3}-[0-9a-f]{12}", str(sbom.get("serialNumber"))):
        faults.append(f"serialNumber is {sbom.get('serialNumber')}")
    metadata = sbom.get("metadata", {})
    if not re.fullmatch(r"\d{4}-\d\d-\d\dT\d\d:\d\d:\d\dZ", str(metadata.get("timestamp"))):
        faults.append(f"timestamp is {metadata.get('timestamp')}")
    components = [metadata.get("component", {}), *sbom.get("components", [])]
    tools = metadata.get("tools", {}).get("components", [])
    faults += [fault for it in components + tools for fault in faults_of_component(it)]
    refs = [it.get("bom-ref") for it in components]
    faults += [f"{it} is listed twice" for it in set(refs) if refs.count(it) > 1]
    for it in sbom.get("dependencies", []):
        faults += [f"{name} of a dependency isn't listed" for name in [it.get("ref"), *it.get("dependsOn", [])] if name not in refs]
    return faults


def faults_of_head(sbom: Json, tree: Tree, version: str, programs: dict[str, str], kit: str) -> list[str]:
    """Which members beside the parts differ from the commit, but for what the kit says of itself."""
    tools = sbom.get("metadata", {}).get("tools", {}).get("components", [{}])
    due = head(tree, version, programs, kit, {"properties": tools[0].get("properties", [])})
    found = {name: it for name, it in sbom.items() if name not in ("components", "dependencies")}
    inside, wanted = found.pop("metadata", {}), due.pop("metadata")
    faults = [f"`{name}` differs from the commit" for name in sorted({*found, *due}) if found.get(name) != due.get(name)]
    return faults + [f"`metadata.{name}` differs from the commit" for name in sorted({*inside, *wanted}) if inside.get(name) != wanted.get(name)]


def faults_of_tree(sbom: Json, tree: Tree, version: str, programs: dict[str, str], kit: str) -> list[str]:
    """Where it differs from what can be told without the kit: the members beside the parts, the programs and libraries, the
    repository's crates, what they stand on, and the kit's line, which PROVENANCE.json has."""
    components, named = sbom.get("components", []), dependencies(tree, programs)
    found = {it["bom-ref"]: it for it in components if it.get("group") == "iodef-hub"}
    due = {it["bom-ref"]: it for it in beside(programs, version) + own(tree, version)}
    faults = faults_of_head(sbom, tree, version, programs, kit)
    faults += [f"{name} differs from what the commit and PROVENANCE.json say" for name in sorted({*found, *due}) if found.get(name) != due.get(name)]
    if [it for it in sbom.get("dependencies", []) if not it["ref"].startswith("kit/")] != named:
        faults.append("the dependencies differ from crates.txt")
    lacking = {name for it in named for name in it["dependsOn"]} - {it["bom-ref"] for it in components}
    faults += [f"{name} isn't listed" for name in sorted(lacking)]
    faults += [f"{it.get('name')} is of another group" for it in components if it.get("group") not in ("iodef-hub", "rattle")]
    of_kits = [it for it in components if it.get("group") == "rattle"]
    faults += [f"{it['bom-ref']} is called {it['name']}" for it in of_kits if it["bom-ref"] != f"kit/{it['name']}"]
    kits = {it["version"] for it in of_kits}
    return faults + ([] if kits == {kit} else [f"the kit is {sorted(kits)}, but PROVENANCE.json names {kit}"])
