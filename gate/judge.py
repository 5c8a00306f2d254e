#!/usr/bin/env python3
"""Holds what refusals.py makes of the prover's words to words that it has said, and to those words changed; runs no prover.

`words.txt` is what the prover said of a copy of the module `powers` of jwt_rsa with twelve wrong bodies and a control. Of each change it is known how many
of the twelve are clearly refused. It ends with 'N passed, M failed'.
"""
import pathlib, sys, types

sys.dont_write_bytecode = True
HERE = pathlib.Path(__file__).resolve().parent
sys.path.insert(0, str(HERE))
import refusals

# The control, and the functions that the wrong bodies change.
EDITED = """octets without_zeros
montgomery multiply
modulus bits
modulus size
montgomery step
modulus is_taken
octets number
modulus power_of_octets
montgomery negative_inverse
modulus has_size
power raise
octets write_limb
power first_forms"""
CONTROL = "fn jwt_rsa::powers::octets::without_zeros: no holes"
OTHER = "fn jwt_rsa::powers::limbs::is_less: "
HOLE = "depends on a hole in `Rattle.jwt_rsa.proofs.powers.limbs.is_less.Proof.is_less_spec`"
STEP = "fn jwt_rsa::powers::montgomery::step: not proved; it stands on `Rattle.jwt_rsa.proofs.powers.montgomery.step.Answers.returns`, which antt refuses"
BITS = "bits/Answers.antt"
CALLS = "no proof: it calls `jwt_rsa::powers::limbs::subtract`, which is not proved"
PASSES = "no proof: it passes the block `jwt_rsa::powers::limbs::LimbsShown`, which is not proved"
GOAL = "`returns`: `omega`: the goal does not follow from what it read. All of that holds, and the goal fails, at `mir"
# What is changed in the words, the status, and how many are then refused together.
CASES = [
    ("nothing", "", "", 1, 12),
    ("the control isn't proved", CONTROL, CONTROL.replace("no holes", "not proved"), 1, 0),
    ("the control calls what is refused", CONTROL, CONTROL.replace("no holes", CALLS), 1, 0),
    ("the control has no line", CONTROL, "", 1, 0),
    ("an unedited function has a fault", OTHER + HOLE, OTHER + "no proof: `search` did not prove `returns`", 1, 0),
    ("an unedited function has other words", OTHER + HOLE, OTHER + "could not tell", 1, 0),
    ("an unedited function hands on what is refused", OTHER + HOLE, OTHER + PASSES, 1, 12),
    ("an edited function only hands on what is refused", STEP, STEP.replace(STEP.partition(": ")[2], PASSES), 1, 11),
    ("no verdict", "", "", 3, 0),
    ("all is proved", "", "", 0, 0),
    ("an edited function rests on words that aren't known", STEP, STEP.replace("which antt refuses", "which is left"), 1, 11),
    ("another last line", "only=22 holes=9", "only=22", 1, 0),
    ("an edited function has other words", STEP, STEP.replace(STEP.partition(": ")[2], "declined"), 1, 11),
    ("an edited function only calls what is refused", STEP, STEP.replace(STEP.partition(": ")[2], CALLS), 1, 11),
    ("an edited function is proved", STEP, STEP.replace(STEP.partition(": ")[2], "proved"), 1, 11),
    ("an edited function has no line", STEP, "", 1, 11),
    ("its error names what is gone", GOAL, "`returns`: no field `x`", 1, 11),
    ("its proof lacks a file, and no goal is named", BITS + "; `search` did not prove `returns-clause-is`", BITS, 1, 11),
]


def group():
    """The control and the wrong bodies, with what the reading needs to know of them."""
    edits = []
    for line in EDITED.splitlines():
        module, name = line.split()
        path = f"src/powers/{module}.rt"
        function = refusals.Function(path, name, 0, 0, 0, False)
        edits.append(refusals.Edit(pathlib.Path(f"{module}_{name}.edit"), path, {}, function))
    return refusals.Group(edits, {})


def main():
    crate = object.__new__(refusals.Crate)
    crate.name, crate.folder = "jwt_rsa", refusals.TOP / "crates/jwt_rsa"
    words, failed = (HERE / "words.txt").read_text(), 0
    for name, old, new, status, wanted in CASES:
        is_there = old in words
        refused, others = crate.judged(group(), types.SimpleNamespace(stdout=words.replace(old, new), returncode=status))
        is_right = is_there and len(refused) == wanted
        failed += not is_right
        print(f"the prover's words, {name}: {len(refused)} refused{'' if is_right else f', where {wanted} have to be: {sorted(set(others.values()))}'}")
    print(f"{len(CASES) - failed} passed, {failed} failed")
    return 1 if failed else 0


sys.exit(main())
