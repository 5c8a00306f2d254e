"""What the scripts of this folder share."""
import importlib.machinery
import importlib.util
import os
import pathlib
import subprocess

TOP = pathlib.Path(__file__).resolve().parent.parent
BUILD = TOP / "build"


def script(name):
    """A script of this folder as a module."""
    loader = importlib.machinery.SourceFileLoader(name, str(TOP / "bench" / name))
    module = importlib.util.module_from_spec(importlib.util.spec_from_loader(name, loader))
    loader.exec_module(module)
    return module


def compiled(name, *more, build=BUILD):
    """The program bench/c/NAME.c, compiled over the library for C in `build`."""
    program = build / f"tests/bench-{name}"
    program.parent.mkdir(parents=True, exist_ok=True)
    flags = ["-O2", "-std=gnu11", f"-I{TOP}/include", f"-I{TOP}/bindings/c"]
    subprocess.run([os.environ.get("CC", "cc"), *flags, "-o", program, TOP / f"bench/c/{name}.c", build / "libfowharimu.a", *more], check=True)
    return program
