#!/usr/bin/env python3
"""Tells, while crates are proved, where a run stands: see README.md beside this file.

    gate/progress.py LOG COMMAND ..   runs a command of rt in the folder of a crate, with all that it says in LOG, and tells it

At a terminal that is one line, which is written over; else a line for each crate that is done.
"""
import os, pathlib, shutil, subprocess, sys, threading, time

sys.dont_write_bytecode = True
sys.path.insert(0, str(pathlib.Path(__file__).resolve().parent))
import times

TOP = pathlib.Path(__file__).resolve().parent.parent
KEPT = TOP / "gate/minutes"
# A piece of work is done where no process was at it for so many seconds.
QUIET = 10
# At most so many provers run side by side in a build.
AT_ONCE = 2
# Of a run of the gate: the minutes by the clock of what follows `rt ci`, and the processor minutes of one fixed proof, by which machines compare.
BEHIND, UNIT = ("all", "clock"), ("all", "unit")


def minutes_kept():
    """Processor minutes by crate and kind, as the last run's table has them. Lines that can't be read count for nothing."""
    kept = {}
    try:
        lines = KEPT.read_text().splitlines()
    except OSError:
        return kept
    for line in lines:
        crate, _, rest = line.partition(" ")
        figure, _, kind = rest.partition(" ")
        try:
            kept[crate, kind] = float(figure)
        except ValueError:
            pass
    return kept


def keep(minutes, file):
    """Writes a table of processor minutes to a file."""
    file.parent.mkdir(exist_ok=True)
    file.write_text("".join(f"{crate} {minutes[crate, kind]:.2f} {kind}\n" for crate, kind in sorted(minutes)))


def crates_below(name):
    """A crate, and those of the repository on which it stands, by crates.txt."""
    below, found, left = stands_on(), [], [name]
    while left:
        crate = left.pop()
        if crate in below and crate not in found:
            found.append(crate)
            left += below[crate]
    return found


def stands_on():
    """Of each crate of the repository, what it stands on, by crates.txt."""
    found = {}
    for line in (TOP / "crates.txt").read_text().splitlines():
        head, colon, rest = line.partition("#")[0].partition(":")
        if colon:
            found[head.split()[0]] = rest.split()
    return found


def of_provers(kept):
    """Of a table of minutes, those of processors."""
    return {it: took for it, took in kept.items() if it not in (BEHIND, UNIT)}


def chain(kept):
    """The minutes of the longest chain of crates of which each stands on the one before, with the tests of the last."""
    below, took = stands_on(), {}

    def of(crate):
        if crate not in took:
            took[crate] = kept.get((crate, "proofs"), 0) + max((of(it) for it in below[crate] if it in below), default=0)
        return took[crate]

    return max((of(it) + kept.get((it, "tests"), 0) for it in below), default=0)


def expected(kept, unit=None):
    """About how many minutes by the clock a run of the gate takes here from scratch; None where no table of a run is there. `unit`: the processor minutes of the
    fixed proof here."""
    if not kept:
        return None
    slower = unit / kept[UNIT] if unit and kept.get(UNIT) else 1
    return slower * (max(sum(of_provers(kept).values()) / len(os.sched_getaffinity(0)), chain(kept)) + kept.get(BEHIND, 0))


def processors():
    """How many processors the proofs of a build have."""
    return min(len(os.sched_getaffinity(0)), AT_ONCE)


def of_crate(name):
    """About how many minutes by the clock it takes to prove a crate with all below it; None where that isn't known."""
    kept = minutes_kept()
    figures = [kept[crate, "proofs"] for crate in crates_below(name) if (crate, "proofs") in kept]
    return sum(figures) / processors() if figures else None


def in_words(minutes):
    """Minutes by the clock, in words."""
    if minutes is None:
        return "some minutes"
    return f"about {max(round(minutes), 1)} minute{'' if round(minutes) <= 1 else 's'}"


class Progress:
    """Tells where a run stands, by the pieces of work that it is expected to do: pairs of a crate and a kind, with their minutes."""

    def __init__(self, sampled, wanted, out=None):
        """`sampled` are the times of the run, `out` is where it is told, standard error where none is given."""
        self.sampled, self.wanted, self.out = sampled, wanted, out or sys.stderr
        self.told = set()
        self.is_terminal = self.out.isatty()
        self.lock = threading.Lock()
        self.shown = False
        self.ends = threading.Event()
        self.thread = threading.Thread(target=self.go_on, daemon=True)
        self.thread.start()

    def go_on(self):
        """Tells each second what has changed, until it ends."""
        while not self.ends.wait(1):
            with self.lock:
                self.tell()

    def left(self, done):
        """About how many minutes by the clock are left; None where nothing is known of what is to come."""
        used = self.sampled.minutes()
        left = [max(took - used.get(it, 0), 0) for it, took in self.wanted.items() if it not in done]
        return sum(left) / processors() if self.wanted else None

    def tell(self):
        """Writes what has changed."""
        last, now = dict(self.sampled.last), time.time()
        quiet = {it for it, when in last.items() if now - when > QUIET}
        # (a pass over the sources of all comes first, and takes a little of what a proof takes)
        used = self.sampled.minutes()
        done = {it for it in quiet if used.get(it, 0) * 4 >= self.wanted.get(it, 0)}
        under_way = [it for it in last if it not in quiet]
        of = len({*self.wanted, *last})
        so_far = f"{len(done)} of {of} done, {(now - self.sampled.begun) / 60:.0f} minutes so far"
        left = self.left(done)
        so_far += "" if left is None else f", {in_words(left)} left"
        if self.is_terminal and under_way:
            at = " and ".join(f"{crate} ({kind})" for crate, kind in sorted(under_way))
            # (a line that is longer than the terminal's couldn't be written over)
            line = f"{so_far}: {at}"[: shutil.get_terminal_size().columns - 1]
            self.write(f"\r\x1b[K{line}")
            self.shown = True
        for crate, kind in sorted(done - self.told) if not self.is_terminal else []:
            self.write(f"{crate}: {kind} done; {so_far}\n")
        self.told |= done

    def write(self, text):
        """Writes to where this is told; who can't read it misses it alone."""
        try:
            self.out.write(text)
            self.out.flush()
        except (OSError, ValueError):
            pass

    def clear(self):
        """Takes the line at the terminal away, before something else is printed."""
        with self.lock:
            if self.shown:
                self.write("\r\x1b[K")
                self.shown = False

    def stop(self):
        """Ends the telling."""
        self.ends.set()
        self.thread.join()
        self.clear()


def main():
    """Runs the command, and ends with its status; 70 where a signal ended it."""
    if len(sys.argv) < 3:
        sys.exit(__doc__)
    log, command = sys.argv[1], sys.argv[2:]
    name = pathlib.Path.cwd().name
    kept = minutes_kept()
    wanted = {(it, "proofs"): kept[it, "proofs"] for it in crates_below(name) if (it, "proofs") in kept}
    print(f"proving {name} and what it stands on, from nothing in {in_words(of_crate(name))}; less where proofs were kept ({log})", file=sys.stderr)
    sampled = times.Times()
    progress = Progress(sampled, wanted)
    with open(log, "w") as said:
        status = subprocess.run(command, stdin=subprocess.DEVNULL, stdout=said, stderr=subprocess.STDOUT).returncode
    progress.stop()
    sampled.stop()
    return status if status >= 0 else 70


if __name__ == "__main__":
    sys.exit(main())
