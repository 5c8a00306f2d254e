#!/usr/bin/env python3
"""Tries the wrong bodies in crates/CRATE/wrong/ together: see README.md beside this file.

    gate/wrong_bodies.py CRATE ..                 has the libraries below built where they aren't
    gate/wrong_bodies.py --from-nothing CRATE ..  takes the libraries below as `rt ci` has left them
    gate/wrong_bodies.py --all CRATE ..           tries also what the ledger has as refused
    gate/wrong_bodies.py --write CRATE ..         writes what this run has refused into the ledger
    gate/wrong_bodies.py --groups CRATE ..        prints which would be tried together, and tries none
    gate/wrong_bodies.py --lacking                says how many the ledgers lack, and fails where that is more than a third of all: ./check --all writes them

crates/CRATE/wrong/*.edit are the wrong bodies. Beside them stand `control`, an edit that means the same as what stands there, and
so has to be proved, and `alone`, with the names of those that are tried one by one, a line each, and behind the name of one that stands
in no function that which has to be refused. The libraries below have to be
proved and built, as they are behind `rt ci`, `rt check` or `rt all check`. crates/CRATE/wrong/REFUSED is the ledger: a line for each wrong body that was refused, with
the digest of what that rests on (gate/rests.py). What isn't in it under the digest of today is tried, and of the rest a sample, which is another
for each tree that is committed. It ends with 'N passed, M failed'; one that is tried alone
and that `alone` doesn't name has failed, since the gate would else grow slow unseen.
"""
import hashlib, pathlib, resource, subprocess, sys, tempfile, time

sys.dont_write_bytecode = True
sys.path.insert(0, str(pathlib.Path(__file__).resolve().parent))
import rests
from refusals import REFUSED, TOP, Crate, grouped, read_edit

# Of what the ledger has as refused, one in so many is tried again.
SAMPLE = 10


def used():
    """The processor seconds of all processes below this one that have ended."""
    usage = resource.getrusage(resource.RUSAGE_CHILDREN)
    return usage.ru_utime + usage.ru_stime


def tree():
    """The tree that is checked out, by which the sample is chosen."""
    return subprocess.run(["git", "rev-parse", "HEAD^{tree}"], cwd=TOP, capture_output=True, text=True).stdout.strip()


def sample(tree):
    """One in SAMPLE of all wrong bodies: those of whole crates, in an order that is another for each tree, since what those of one crate share is paid once; of
    the last crate as many as are left."""
    files = [(it.parent.parent.name, it) for it in sorted(TOP.glob("crates/*/wrong/*.edit"))]
    place = lambda *words: hashlib.sha256(" ".join([tree, *words]).encode()).hexdigest()
    files.sort(key=lambda it: (place(it[0]), place(it[0], it[1].stem)))
    return {file for _, file in files[: -(-len(files) // SAMPLE)]}


def ledger(name):
    """The ledger of a crate."""
    return TOP / "crates" / name / "wrong/REFUSED"


def read_ledger(name):
    """The digests under which a crate's wrong bodies were refused, by their names."""
    file = ledger(name)
    rows = [it.split() for it in file.read_text().splitlines()] if file.is_file() else []
    return {row[1]: row[0] for row in rows if len(row) == 2}


def write_ledger(name, digests):
    """Writes a crate's ledger, a line for each wrong body that is there and was refused."""
    ledger(name).write_text("".join(f"{digests[it]} {it}\n" for it in sorted(digests)))


def files_in(name, folder):
    """A crate's edits in one of its folders, by their names."""
    return sorted((TOP / "crates" / name / folder).glob("*.edit"))


def crates_with_any():
    """The crates with wrong bodies that are tried together; those with most source first, since they take longest."""
    names = {it.parent.parent.name for it in (TOP / "crates").glob("*/wrong/*.edit")}
    return sorted(names, key=lambda name: -sum(it.stat().st_size for it in (TOP / "crates" / name / "src").rglob("*.rt")))


class Trial:
    """The wrong bodies of a crate, and what became of them."""

    def __init__(self, name, flags):
        """`flags` are the script's."""
        self.name, self.flags, self.folder = name, flags, TOP / "crates" / name
        self.files, self.control = files_in(name, "wrong"), self.read_control()
        self.listed = self.read_listed()
        self.digests, self.ledger = self.digests_now(), read_ledger(name)
        self.known = [it for it in self.files if self.ledger.get(it.stem) == self.digests[it.stem]]
        # (whoever takes a wrong body away says so by taking its line away, too)
        self.gone = sorted(set(self.ledger) - {it.stem for it in self.files})
        again = set(self.files) if "--all" in flags else sample(tree())
        self.left = [it for it in self.files if it in again or it not in self.known]
        self.refused, self.failed, self.why = {}, 0, {}

    def say(self, file, words):
        """Prints what became of a wrong body."""
        print(f"must-fail {self.name}/{file.name}: {words}", flush=True)

    def read_control(self):
        """The control, where it is there and can be used."""
        file = self.folder / "wrong/control"
        control = read_edit(file, self.folder) if file.is_file() else None
        if control is not None and control.alone:
            print(f"{self.name}: the control can't be used: {control.alone}")
            return None
        return control

    def read_listed(self):
        """The names of those that are tried alone, each with the function that the prover is asked for, where it stands in none."""
        file = self.folder / "wrong/alone"
        rows = [it.split() for it in file.read_text().splitlines()] if file.is_file() else []
        return {name: "".join(asked) for name, *asked in rows}

    def digests_now(self):
        """The digests of what each refusal rests on, as it is now."""
        sources = rests.here(self.name)
        return {it.stem: rests.digest(sources, read_edit(it, self.folder), self.name, it.read_text()) for it in self.files}

    def groups(self):
        """The groups of what is left to try; the others are noted with why they are tried alone."""
        edits = [read_edit(it, self.folder) for it in self.left]
        for edit in edits:
            if edit.file.stem in self.listed and not edit.alone:
                edit.alone = "it is listed so"
        groups, alone = grouped(edits, self.control, self.folder)
        self.why = {it.file: it.alone for it in alone}
        return groups

    def take(self, file, words):
        """Notes and says that a wrong body was refused."""
        self.refused[file.stem] = self.digests[file.stem]
        self.say(file, words)

    def try_groups(self, crate, groups):
        """Tries the groups."""
        for group in groups:
            start, (good, others) = used(), crate.together(group)
            for file in good:
                self.take(file, "refused, as it must be: its function has a fault of its own")
            self.why.update(others)
            print(f"{self.name}: together: {len(good)} of {len(group.edits) - 1} refused, {used() - start:.0f} processor seconds", flush=True)

    def try_alone(self, crate):
        """Tries what wasn't refused in a group, one by one."""
        start, rest = used(), [it for it in self.left if it.stem not in self.refused]
        for file in rest:
            print(f"{self.name}: {file.stem} is tried alone: {self.why[file]}", flush=True)
        for file, said in crate.alone(rest, self.control, self.listed, "--all" in self.flags).items():
            if not said.startswith(REFUSED):
                self.failed += 1
                self.say(file, said)
                continue
            self.take(file, said)
            if file.stem not in self.listed:
                self.failed += 1
                print(f"{self.name}: {file.stem} was tried alone, and wrong/alone doesn't list it: FAILED", flush=True)
        if rest:
            print(f"{self.name}: alone: {len(rest)} tried, {used() - start:.0f} processor seconds", flush=True)

    def run(self):
        """Tries what no earlier run has refused. Gives how many are refused, and what failed."""
        begun, before = time.time(), used()
        for file in [it for it in self.files if it not in self.left]:
            self.say(file, "refused, as it must be (by the ledger)")
        if self.left:
            with tempfile.TemporaryDirectory(prefix="together-") as room:
                crate = Crate(self.name, room, "--from-nothing" in self.flags, 1)
                self.try_groups(crate, self.groups())
                self.try_alone(crate)
        for name in self.gone if "--write" not in self.flags else []:
            self.failed += 1
            print(f"{self.name}: {name} is in wrong/REFUSED, and its edit is gone: FAILED", flush=True)
        # (nothing is written of what was changed meanwhile)
        if "--write" in self.flags and self.digests == self.digests_now():
            write_ledger(self.name, {**{it.stem: self.digests[it.stem] for it in self.known if it not in self.left}, **self.refused})
        good = len(self.files) - len(self.left) + len(self.refused)
        print(f"{self.name}: {good} refused, {self.failed} failed, {time.time() - begun:.0f} seconds, {used() - before:.0f} of a processor", flush=True)
        return good, self.failed

    def show_groups(self):
        """Prints what would be tried together."""
        for group in self.groups():
            print(f"{self.name}: together: " + ", ".join(f"{it.file.stem} ({it.path} {it.function.name})" for it in group.edits))
        for file, said in self.why.items():
            print(f"{self.name}: alone: {file.stem}: {said}")


def lacking():
    """Says how many wrong bodies the ledgers don't have as refused by what they rest on today; the status is 1 where that is more than a third."""
    trials = [Trial(it, []) for it in crates_with_any()]
    count, lack = sum(len(it.files) for it in trials), sum(len(it.files) - len(it.known) for it in trials)
    print(f"the ledgers lack {lack} of {count} wrong bodies" + (": ./check --all tries them and writes the ledgers, which are committed then" if lack else ""))
    print("0 passed, 1 failed" if 3 * lack > count else "1 passed, 0 failed")
    return int(3 * lack > count)


def main():
    """Tries the crates that the words name, and gives the status."""
    if sys.argv[1:] == ["--lacking"]:
        return lacking()
    flags = [it for it in sys.argv[1:] if it in ("--from-nothing", "--all", "--write", "--groups")]
    names = [it for it in sys.argv[1:] if it not in flags]
    unknown = [it for it in names if not (TOP / "crates" / it / "src").is_dir()]
    if unknown or not names:
        sys.exit(f"wrong_bodies: no crate {', '.join(unknown)}\n{__doc__}")
    passed, failed = 0, 0
    for name in names:
        trial = Trial(name, flags)
        if "--groups" in flags:
            trial.show_groups()
            continue
        good, lost = trial.run()
        passed, failed = passed + good, failed + lost
    print(f"{passed} passed, {failed} failed")
    return 1 if failed else 0


if __name__ == "__main__":
    sys.exit(main())
