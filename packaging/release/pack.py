#!/usr/bin/env python3
"""Writes archives that have the same octets for the same files.

    packaging/release/pack.py zip FOLDER OUT      a zip file
    packaging/release/pack.py tar FOLDER OUT      a tar file, compressed by gzip
    packaging/release/pack.py wheel FOLDER VERSION README OUT
                                        a wheel of the package fowharimu in FOLDER, in the folder OUT; its tag names the processor by the folder of its
                                        library, the newest symbol of the C library that what is compiled in it uses, and CPython where it has the module in C
"""
import base64
import gzip
import hashlib
import io
import pathlib
import re
import subprocess
import sys
import tarfile
import zipfile

# The first moment that a zip file can have.
MOMENT = (1980, 1, 1, 0, 0, 0)
PLATFORM = pathlib.Path(__file__).resolve().parent.parent / "platform"


def files_in(folder: pathlib.Path) -> dict[str, bytes]:
    """The files below a folder, by their names, in order."""
    found = sorted((it.relative_to(folder).as_posix(), it) for it in folder.rglob("*") if it.is_file())
    return {name: it.read_bytes() for name, it in found}


def write_zip(files: dict[str, bytes], out: pathlib.Path) -> None:
    """Writes a zip file."""
    with zipfile.ZipFile(out, "w", zipfile.ZIP_DEFLATED, compresslevel=9) as archive:
        for name, octets in files.items():
            entry = zipfile.ZipInfo(name, MOMENT)
            # (a wheel's commands can be run)
            entry.external_attr = (0o100755 if ".data/scripts/" in name else 0o100644) << 16
            entry.compress_type = zipfile.ZIP_DEFLATED
            archive.writestr(entry, octets)


def write_tar(files: dict[str, bytes], out: pathlib.Path) -> None:
    """Writes a tar file, compressed by gzip."""
    with out.open("wb") as file, gzip.GzipFile(filename="", mode="wb", fileobj=file, mtime=0) as packed:
        with tarfile.open(fileobj=packed, mode="w", format=tarfile.USTAR_FORMAT) as archive:
            for name, octets in files.items():
                entry = tarfile.TarInfo(name)
                entry.size, entry.mode, entry.mtime = len(octets), 0o644, 499162500  # (npm's own: 1985-10-26)
                archive.addfile(entry, io.BytesIO(octets))


def newest(libraries: list[pathlib.Path], platform: str) -> int:
    """The minor number of the newest version of the C library whose symbols these libraries use; at least that of which pip has a tag."""
    said = [subprocess.run(["objdump", "-T", it], check=True, capture_output=True, text=True).stdout for it in libraries]
    oldest = subprocess.run([PLATFORM, platform, "glibc"], check=True, capture_output=True, text=True).stdout
    return max([int(oldest), *(int(it) for it in re.findall(r"GLIBC_2\.(\d+)", "".join(said)))])


def names_libraries(file: pathlib.Path) -> bool:
    """Whether a file names a library that it is loaded with."""
    return "NEEDED" in subprocess.run(["objdump", "-p", file], check=True, capture_output=True, text=True).stdout


def row(name: str, octets: bytes) -> str:
    """A line of a wheel's RECORD."""
    digest = base64.urlsafe_b64encode(hashlib.sha256(octets).digest()).rstrip(b"=").decode()
    return f"{name},sha256={digest},{len(octets)}\n"


def write_wheel(folder: pathlib.Path, version: str, readme: pathlib.Path, out: pathlib.Path) -> None:
    """Writes a wheel (PEP 427): one with the module in C is for the stable interface of CPython 3.9 and later (PEP 384), another for each Python."""
    (library,), module = folder.glob("fowharimu/*/libfowharimu.so.0"), folder / "fowharimu/_calls.abi3.so"
    platform = library.parent.name
    machine = platform.partition("-")[2]
    python, compiled = ("cp39-abi3", [library, module]) if module.exists() else ("py3-none", [library])
    if any(map(names_libraries, compiled)):
        sys.exit("pack: what is in a wheel has to run with each C library, and names one")
    systems = f"manylinux_2_{newest(compiled, platform)}_{machine}", f"musllinux_1_1_{machine}"
    tag = f"{python}-{'.'.join(systems)}"
    info = f"fowharimu-{version}.dist-info"
    files = files_in(folder)
    files[f"{info}/METADATA"] = (
        f"Metadata-Version: 2.1\nName: fowharimu\nVersion: {version}\n"
        "Summary: Validates JSON Web Tokens by a library that is proved correct\n"
        "License: Apache-2.0\nRequires-Python: >=3.9\nDescription-Content-Type: text/markdown\n\n" + readme.read_text()
    ).encode()
    tags = "".join(f"Tag: {python}-{it}\n" for it in systems)
    files[f"{info}/WHEEL"] = f"Wheel-Version: 1.0\nGenerator: fowharimu\nRoot-Is-Purelib: false\n{tags}".encode()
    record = "".join(row(name, octets) for name, octets in files.items()) + f"{info}/RECORD,,\n"
    files[f"{info}/RECORD"] = record.encode()
    write_zip(files, out / f"fowharimu-{version}-{tag}.whl")


def main() -> None:
    what, folder, *words = sys.argv[1:] if len(sys.argv) > 3 else ["", ""]
    if what == "zip":
        write_zip(files_in(pathlib.Path(folder)), pathlib.Path(words[0]))
    elif what == "tar":
        write_tar(files_in(pathlib.Path(folder)), pathlib.Path(words[0]))
    elif what == "wheel":
        write_wheel(pathlib.Path(folder), words[0], pathlib.Path(words[1]), pathlib.Path(words[2]))
    else:
        sys.exit(__doc__)


main()
