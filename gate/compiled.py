#!/usr/bin/env python3
"""Compiles what the libraries for C and a release are linked from, over libraries that are proved.

    gate/compiled.py                           compiles crates/jwt_tool/out/jwt_tool.o, where it isn't there or is older than its sources
    gate/compiled.py library TARGET OUT        the archive of the library for C, for another target of the kit
    gate/compiled.py program TARGET OUT        the object of the program, for another target of the kit
    gate/compiled.py library module OUT        the LLVM module that the kit compiles the archive of, for make wasm
    gate/compiled.py program module OUT        the same of the program

The last four write what the kit says of its proof into OUT.verdict, a line.
Behind `rt ci` that object isn't there where the program was kept from an earlier run, and no library has a stamp, without which
`rt run` and `rt lib` would prove all of them once more: so these are called only where the libraries are of `rt check`. For another target, and of a
module, nothing is written where the archive and the program are.
"""
import os, pathlib, shutil, subprocess, sys, tempfile

sys.dont_write_bytecode = True
sys.path.insert(0, str(pathlib.Path(__file__).resolve().parent))
import kit, progress

TOP = pathlib.Path(__file__).resolve().parent.parent
OBJECT = TOP / "crates/jwt_tool/out/jwt_tool.o"
# What make builds of the two crates, by rt.
ARCHIVE, PROGRAM = "crates/jwt_c/out/libjwt_c.a", "crates/jwt_tool/out/jwt_tool"
CRATES = {"library": "jwt_c", "program": "jwt_tool"}
# Stands for the kit's clang in a folder with its tools: keeps the module that it is handed, and compiles it as that does.
KEEPING = """#!/bin/sh
for it in "$@"; do case $it in *.bc) cp -- "$it" '{out}' ;; esac; done
exec '{clang}' "$@"
"""


def kits_tools():
    """The folder with the kit's tools."""
    return pathlib.Path(kit.loaded().__file__).parent.parent / "toolchain"


def made(name, command, build):
    """Makes something of a crate: over the libraries that `rt ci` has left, where they all stand so, else by this command of `rt`."""
    if kit.is_left_below(kit.crate(name)):
        return kit.built(name, build)
    folder = TOP / "crates" / name
    return subprocess.run(["rt", command], cwd=folder, stdin=subprocess.DEVNULL, capture_output=True).returncode == 0


def archive():
    """Builds the archive of jwt_c, and says whether that went well."""
    return made("jwt_c", "lib", lambda crate: crate.build_static([]))


def is_object_there():
    """Whether the program's object is there, and no file of the crates on which it stands is newer."""
    files = [it for crate in progress.crates_below("jwt_tool") for part in ("src", "specs", "proofs") for it in TOP.glob(f"crates/{crate}/{part}/**/*")]
    return OBJECT.is_file() and max(it.stat().st_mtime for it in files) <= OBJECT.stat().st_mtime


def program_object():
    """Compiles the program's object where it isn't there, and says whether it is there then."""
    # (a run of the program without words ends with another status than 0)
    return is_object_there() or made("jwt_tool", "run", lambda crate: crate.compile([], "out/jwt_tool.o")) or is_object_there()


def is_below_there(name):
    """Whether the libraries below a crate are proved and built, by `rt ci` or by commands of `rt`."""
    crate = kit.crate(name)
    return kit.is_left_below(crate) or all(it.is_built() for it in crate.below())


def compiled(crate, flags, to, verdict):
    """Compiles a crate, writes the line of its verdict, and gives the status."""
    status = crate.compile(["--backend", "llvm", *flags], to)
    crate.out.seek(0)
    pathlib.Path(verdict).write_text("".join(it for it in crate.out if it.startswith("logic=")))
    return status


def for_target(name, target, out):
    """Compiles a crate for another target of the kit than its own, and says whether that went well."""
    return kit.built(name, lambda crate: compiled(crate, ["--target", target], out, f"{out}.verdict"))


def module(name, out):
    """Keeps the LLVM module that the kit compiles of a crate, and says whether that went well."""
    with tempfile.TemporaryDirectory() as room:
        room, tools = pathlib.Path(room), kits_tools()
        for it in ("bin", "lib"):
            (room / it).mkdir()
            for file in (tools / it).iterdir():
                (room / it / file.name).symlink_to(file)
        clang = room / "bin/clang"
        clang.unlink()
        clang.write_text(KEEPING.format(out=room / "module", clang=tools / "bin/clang"))
        clang.chmod(0o755)

        def build(crate):
            call = crate.call
            crate.call = lambda *words: call(*(str(room) if it == str(tools) else it for it in words))
            return compiled(crate, [], str(room / "compiled"), f"{out}.verdict")

        if not kit.built(name, build) or not (room / "module").exists():
            return False
        shutil.copy(room / "module", out)
        return True


def main(words):
    """Does what the words ask for, and gives the status, or why it can't be done."""
    if not words:
        return 0 if program_object() else f"compiled: {OBJECT.relative_to(TOP)} can't be compiled"
    if len(words) != 3 or words[0] not in CRATES:
        return __doc__
    name, (target, out) = CRATES[words[0]], words[1:]
    if not is_below_there(name):
        return f"compiled: the libraries below {name} aren't proved here: make proves them"
    out = os.path.abspath(out)
    is_done = module(name, out) if target == "module" else for_target(name, target, out)
    return 0 if is_done else f"compiled: {name} can't be compiled for {target}"


if __name__ == "__main__":
    sys.exit(main(sys.argv[1:]))
