"""The parts of the programs, as a list that tools read: CycloneDX 1.5."""
import json
import re

import licences

# How a library says in its own page of which Rust crate it is a port.
PORT = re.compile(r"Rust crate `([\w-]+)`(?:,? (?:version )?(\d+\.\d+\.\d+))?")
# A licence by the file that has it; a file `LICENSE` says in its first words which one it is.
NAMES = {"LICENSE-MIT": "MIT", "LICENSE-APACHE": "Apache-2.0", "LICENSE-UNICODE": "Unicode-3.0"}
WORDS = {"MIT License": "MIT", "Permission is hereby granted, free of charge": "MIT", "BSD 3-Clause": "BSD-3-Clause",
         "Redistribution and use in source and binary forms": "BSD-3-Clause"}


def licence_of(folder):
    """The licences that a library may be used under, as SPDX writes a choice; none if no file says one."""
    found = [name for file, name in NAMES.items() if (folder / file).exists() and file != "LICENSE-UNICODE"]
    if not found and (folder / "LICENSE").exists():
        text = (folder / "LICENSE").read_text()[:800]
        found = [name for words, name in WORDS.items() if words in text][:1]
    choice = " OR ".join(found)
    has_data = (folder / "LICENSE-UNICODE").exists()
    return f"({choice}) AND {NAMES['LICENSE-UNICODE']}" if choice and has_data else choice


def part(name, place, kit):
    """One library of the kit: a port of a Rust crate, or the kit's own."""
    folder = place / name
    page = (folder / "README.md").read_text() if (folder / "README.md").exists() else ""
    ported = PORT.search(page)
    told = {"type": "library", "bom-ref": name, "name": name, "version": kit,
            "description": f"a library of {kit}"}
    if ported:
        crate, number = ported[1], ported[2]
        told["description"] = f"a port of the Rust crate {crate} {number or ''}".strip() + f", in {kit}"
        if number:
            told["pedigree"] = {"ancestors": [{"type": "library", "name": crate, "version": number,
                                               "purl": f"pkg:cargo/{crate}@{number}"}]}
    if licence := licence_of(folder):
        told["licenses"] = [{"expression": licence}]
    return told


def made(version, commit, kit, *crates):
    """The list of the parts that these crates stand on."""
    place = licences.kit()
    names = licences.libraries(*crates) if place else []
    root = {"type": "application", "bom-ref": "cuectl", "name": "cuectl", "version": version,
            "properties": [{"name": "commit", "value": commit}]}
    told = {"bomFormat": "CycloneDX", "specVersion": "1.5", "version": 1, "metadata": {"component": root},
            "components": [part(name, place, kit) for name in names],
            "dependencies": [{"ref": "cuectl", "dependsOn": names}, *({"ref": name} for name in names)]}
    return json.dumps(told, indent=2, ensure_ascii=False) + "\n"
