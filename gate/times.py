"""The processor minutes of a run, by crate and by what was done with it, sampled from the processes below this one."""
import collections, os, pathlib, threading, time

TICKS = os.sysconf("SC_CLK_TCK")
# What `rt ci` does with a crate, in the order of the table's columns.
KINDS = ("proofs", "tests", "wrong bodies", "programs")


class Times:
    """Processor seconds by crate and kind. `part` names what is under way; `wrong bodies` is also a part, of the wrong bodies that are
    tried together. `marks` are words of a process's folder, each with the part to which such a process belongs."""

    def __init__(self):
        self.part = "rt ci"
        self.marks = {}
        self.seen = {}
        self.last = {}
        self.begun = time.time()
        self.ends = threading.Event()
        self.thread = threading.Thread(target=self.sample, daemon=True)
        self.thread.start()

    def sample(self):
        """Looks at all processes five times a second, until it ends."""
        while not self.ends.wait(0.2):
            stats = {}
            for folder in pathlib.Path("/proc").iterdir():
                try:
                    if folder.name.isdigit():
                        stats[folder.name] = (folder / "stat").read_text().rpartition(")")[2].split()
                except OSError:
                    pass
            for number, fields in stats.items():
                if self.is_below(number, stats):
                    self.take(pathlib.Path("/proc", number), fields)

    def is_below(self, number, stats):
        """Whether a process is this one's, or one of those that it started."""
        while number in stats and number != str(os.getpid()):
            number = stats[number][1]
        return number == str(os.getpid())

    def take(self, folder, fields):
        """Notes what a process has used so far, where it is a prover's or a compiler's at work on a crate."""
        try:
            words = (folder / "cmdline").read_bytes().decode(errors="replace").split("\0")
            where = os.readlink(folder / "cwd")
        except OSError:
            return
        if "--crate-name" not in words or not words[0].endswith("rattle"):
            return
        crate = words[words.index("--crate-name") + 1]
        kind = self.kind(words, where)
        used = (int(fields[11]) + int(fields[12])) / TICKS
        # (a process is told by its number and its start)
        self.seen[folder.name, fields[19]] = kind, crate, used
        self.last[crate, kind] = time.time()

    def kind(self, words, where):
        """What a process does, by its words and the folder in which it runs."""
        for mark, part in self.marks.items():
            if mark in where:
                return part
        if "rt-edit-" in where:
            return "wrong bodies"
        if self.part != "rt ci":
            return self.part
        if "--crate-checked" in words:
            return "programs"
        return "tests" if "--test" in words else "proofs"

    def minutes(self):
        """Processor minutes by crate and kind, so far."""
        minutes = collections.Counter()
        for kind, crate, used in list(self.seen.values()):
            minutes[crate, kind] += used / 60
        return minutes

    def stop(self):
        """Ends the sampling."""
        self.ends.set()
        self.thread.join()

    def table(self, others, unit=None):
        """A line for each crate and a column for each part, in processor minutes; what ran without a crate's name stands last.
        `others` are the processor seconds of all processes that have ended; `unit`, where it is known, is the processor minutes of one fixed proof, and
        the last column has each sum in it."""
        self.stop()
        minutes = self.minutes()
        kinds = [it for it in KINDS if any(k == it for _, k in minutes)]
        kinds += sorted({k for _, k in minutes} - set(kinds))
        crates = sorted({c for c, _ in minutes})
        total = sum(minutes.values())
        rows = [["processor minutes", *kinds, "all"]]
        for crate in crates:
            figures = [minutes[crate, kind] for kind in kinds]
            rows.append([crate, *[f"{it:.1f}" for it in figures], f"{sum(figures):.1f}"])
        rows.append(["other processes", *[""] * len(kinds), f"{max(others / 60 - total, 0):.1f}"])
        sums = [sum(minutes[crate, kind] for crate in crates) for kind in kinds]
        rows.append(["all", *[f"{it:.1f}" for it in sums], f"{max(others / 60, total):.1f}"])
        if unit:
            rows[0].append("units")
            for row in rows[1:]:
                row.append(f"{float(row[-1]) / unit:.0f}")
        widths = [max(len(row[i]) for row in rows) for i in range(len(rows[0]))]
        for row in rows:
            print("  ".join(it.ljust(w) if i == 0 else it.rjust(w) for i, (it, w) in enumerate(zip(row, widths))))
