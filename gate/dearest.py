#!/usr/bin/env python3
"""Lists the functions whose proofs are dearest, by the processor seconds of one process that proves their crate from nothing.

    gate/dearest.py CRATE ..    the thirty dearest of these crates, over the libraries below them as they stand

The prover says when it ends with the proof of a function. What it has used since it ended with the one before counts as that function's, so that what a
proof shares with those behind it counts as its own. The first function of a crate isn't listed: until its end the libraries are read too.
"""
import os, pathlib, re, subprocess, sys

sys.dont_write_bytecode = True
sys.path.insert(0, str(pathlib.Path(__file__).resolve().parent))
import kit

CHECKED = re.compile(r"checked (\S+), \d+ of \d+$")
SHOWN = 30


def used(process):
    """The processor seconds that a process and its ended children have used."""
    fields = pathlib.Path(f"/proc/{process}/stat").read_text().rpartition(")")[2].split()
    return sum(map(int, fields[11:15])) / os.sysconf("SC_CLK_TCK")


def proving(it):
    """The command that proves a crate over the libraries below as they stand, from nothing that is kept, by one process that says what it has done."""
    it.out, rtlib = sys.stderr, kit.loaded().rtlib
    return [*rtlib.guarded(), rtlib.RATTLE, "check", *it.words(["--jobs", "1", "--progress"], keeps=False)]


def seconds(name):
    """The seconds of each function of a crate, in the order in which they are proved."""
    it, ends = kit.crate(name), []
    with subprocess.Popen(proving(it), cwd=it.folder, stdout=subprocess.PIPE, stderr=subprocess.STDOUT, text=True, errors="replace") as run:
        for line in run.stdout:
            checked = CHECKED.match(line.strip())
            if checked:
                ends.append((checked[1], used(run.pid)))
    if run.returncode:
        sys.exit(f"dearest: {name} isn't proved")
    return {function: now - before for (_, before), (function, now) in zip(ends, ends[1:])}


def main():
    """Prints the list."""
    if not sys.argv[1:]:
        sys.exit(__doc__)
    found = {}
    for name in sys.argv[1:]:
        found |= seconds(name)
    for function in sorted(found, key=found.get, reverse=True)[:SHOWN]:
        print(f"{found[function]:6.1f}  {function}")
    print(f"{sum(found.values()):6.1f}  all {len(found)}")


if __name__ == "__main__":
    main()
