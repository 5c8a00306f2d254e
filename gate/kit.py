#!/usr/bin/env python3
"""The kit's own modules: the one file that loads them.

    gate/kit.py    looks whether this kit has what is called here, and says which kit it is

No command of `rt` checks some functions of a changed copy of a crate over libraries that `rt ci` has left, and none compiles over these
without proving them once more. What is called here of the kit's modules is named in CALLED, with the parameters that it has to have.
It ends with 'N passed, M failed'.
"""
import functools, importlib.machinery, importlib.util, inspect, os, pathlib, subprocess, sys, tempfile

sys.dont_write_bytecode = True
TOP = pathlib.Path(__file__).resolve().parent.parent
# What is called of the command, of its library, and of a crate as that library has it.
CALLED = {
    "": {"checked": 4, "unread": 2},
    "rtlib": {"crates_below": 1, "guarded": 0},
    "rtlib.Crate": {"below": 1, "stamp": 1, "is_built": 1, "has_kept": 1, "build_static": 2, "compile": 3},
}


def version():
    """The name of the kit."""
    return subprocess.run(["rt", "version"], capture_output=True, text=True, check=True).stdout.strip()


def logic():
    """The sum of the kit's logic, which kits of several letters have in common."""
    return version().partition(" logic ")[2]


@functools.cache
def loaded():
    """The kit's command as a module."""
    folder = pathlib.Path(subprocess.run(["rt", "doc"], capture_output=True, text=True, check=True).stdout.strip()).parent
    loader = importlib.machinery.SourceFileLoader("kit_rt", str(folder / "bin/rt"))
    module = importlib.util.module_from_spec(importlib.util.spec_from_loader("kit_rt", loader))
    loader.exec_module(module)
    module.rtlib.guarded()
    return module


def crates(top=TOP):
    """The crates of a repository, as the kit has them."""
    return loaded().rtlib.crates_below(str(top))


def crate(name):
    """A crate of this repository."""
    return next(it for it in crates() if it.name == name)


def is_left_below(it):
    """Whether all libraries below a crate stand as one run of `rt ci` has left them: built, and with no stamp."""
    rlibs = [below.rlib for below in it.below()]
    return all(map(os.path.isdir, rlibs)) and not any(os.path.exists(f"{os.path.dirname(rlib)}/stamp") for rlib in rlibs)


def checked(it, texts, flags, kept):
    """Checks a crate in which these files have these texts, over kept work, and gives how the check ended."""
    return loaded().checked(it, texts, flags, kept)


def unread(line, texts):
    """Why a line of a check says that a changed file can't be read; else nothing."""
    return loaded().unread(line, texts)


def built(name, build):
    """Builds something of a crate over the libraries that `rt ci` has left, and says whether that went well."""
    it = crate(name)
    with tempfile.TemporaryFile("w+", errors="replace") as it.out:
        return build(it) == 0


def lacking():
    """What is called here and this kit hasn't, or has with fewer parameters, and how much is called."""
    found, count = [], 0
    for owner, calls in CALLED.items():
        place = functools.reduce(lambda it, part: getattr(it, part, None), owner.split(".") if owner else [], loaded())
        for name, parameters in calls.items():
            count += 1
            call = getattr(place, name, None)
            if not callable(call):
                found.append(f"{'.'.join(filter(None, [owner, name]))}: it isn't there")
                continue
            taken = inspect.signature(call).parameters.values()
            if not any(it.kind is it.VAR_POSITIONAL for it in taken) and len(taken) < parameters:
                found.append(f"{'.'.join(filter(None, [owner, name]))}: it takes {len(taken)} arguments, and {parameters} are given")
    return found, count


def main():
    found, count = lacking()
    for it in found:
        print(f"{version()}: {it}")
    print(f"{count - len(found)} passed, {len(found)} failed")
    return 1 if found else 0


if __name__ == "__main__":
    sys.exit(main())
