#!/usr/bin/env python3
"""Writes what a release is made of, as CycloneDX 1.5 in JSON, to standard output.

    packaging/release/sbom.py VERSION KIT LIBRARIES GLIBC LIBRARY ..

KIT is the kit's name, LIBRARIES the folder in which each of its libraries has its licences, GLIBC the version of the C library in the program.
A licence is named by its file; no clock and no random number stands in what is written.
"""
import json
import pathlib
import sys

# What the files are called in which a library has its licences.
LICENCES = {"LICENSE-APACHE": "Apache-2.0", "LICENSE-MIT": "MIT", "LICENSE-ZLIB": "Zlib", "UNLICENSE": "Unlicense"}


def licences(folder: pathlib.Path) -> list[dict]:
    """The licences of a library, by the files in its folder."""
    files = sorted(it.name for it in folder.iterdir() if it.name in LICENCES or it.name.startswith("LICENSE")) if folder.is_dir() else []
    return [{"license": {"id": LICENCES[it]} if it in LICENCES else {"name": it}} for it in files]


def library(name: str, version: str, **more: object) -> dict:
    """A component."""
    return {"type": "library", "bom-ref": name, "name": name, "version": version, **more}


def main() -> None:
    if len(sys.argv) < 5:
        sys.exit(__doc__)
    version, kit, folder, glibc, *names = sys.argv[1:]
    parts = [library(it, kit, licenses=licences(pathlib.Path(folder, it))) for it in names]
    parts.append(library("glibc", glibc, licenses=[{"license": {"id": "LGPL-2.1-or-later"}}], description="in bin/fowharimu, which is static"))
    release = library("fowharimu", version, licenses=[{"license": {"id": "Apache-2.0"}}])
    bom = {
        "bomFormat": "CycloneDX",
        "specVersion": "1.5",
        "version": 1,
        "metadata": {"component": release, "tools": {"components": [{"type": "application", "name": "rattle", "version": kit}]}},
        "components": parts,
        "dependencies": [{"ref": "fowharimu", "dependsOn": [it["bom-ref"] for it in parts]}],
    }
    print(json.dumps(bom, indent=2))


main()
