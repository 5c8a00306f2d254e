"""Says of wrong bodies whether the prover refuses them: reads edits, puts those that can stand together into one copy, and reads the prover's words.
wrong_bodies.py chooses which are tried, and tells what became of them. A line of a ledger holds this file's text, so all that decides stands here
and in kit.py, and nothing else does.
"""
import copy, dataclasses, os, pathlib, re, shutil, subprocess, sys, tempfile, time

sys.path.insert(0, str(pathlib.Path(__file__).resolve().parent))
import kit

TOP = pathlib.Path(__file__).resolve().parent.parent
# How a line of `rt must-fail` goes on of one that the prover refuses.
REFUSED = "refused, as it must be"
# A function's first line, and the name that it has; its end is a line of its own, `}`, as far in (rt fmt lays out so).
CLAUSE = re.compile(r"^ *(?:requires|ensures|ghost)\b", re.MULTILINE)
HEAD = re.compile(r"( *)(?:pub(?:\([a-z ]+\))? )?((?:const |unsafe |extern \"C\" )*)fn (\w+)")


@dataclasses.dataclass(frozen=True)
class Function:
    """A function of a file: its name, and the lines of its body, counted from 0."""

    path: str
    name: str
    first: int
    last: int
    indent: int
    is_const: bool


@dataclasses.dataclass
class Edit:
    """A wrong body: the lines that it changes, and the function whose body they stand in; or why it is tried alone."""

    file: pathlib.Path
    path: str = ""
    lines: dict = dataclasses.field(default_factory=dict)
    function: Function = None
    alone: str = ""
    # The function that the prover is asked for, by its path below the crate, of an edit that stands in none.
    asked: str = ""


@dataclasses.dataclass
class Group:
    """Edits in different functions, with the control, which is the first, and the texts that have them all."""

    edits: list
    texts: dict


def functions_of(path, text):
    """The functions of a file in rt fmt's layout."""
    lines, found = text.split("\n"), []
    for at, line in enumerate(lines):
        head = HEAD.match(line)
        if not head:
            continue
        ends = next((i for i in range(at, len(lines)) if lines[i] == head[1] + "}"), None)
        # Behind clauses the body's bracket stands alone, as far in as the function; else at the end of the signature.
        begins = next((i for i in range(at, ends or at) if lines[i] == head[1] + "{"), None)
        if ends is not None and begins is None and not CLAUSE.search("\n".join(lines[at:ends])):
            begins = next((i for i in range(at, ends) if lines[i].endswith("{")), None)
        # (a method with no body ends before the next one's head)
        if begins is not None and not any(HEAD.match(it) for it in lines[at + 1 : begins]):
            found.append(Function(path, head[3], begins + 1, ends - 1, len(head[1]), "const" in head[2]))
    return found


OWNER = re.compile(r"(?:pub(?:\([a-z ]+\))? )?(?:impl|trait)\b")
# Of an impl its trait where it is one's, the first word of what that is of, and the type.
IMPL = re.compile(r"impl(?:<.*?>)? (?:(\w+)(?:<(?:(?:\w+::)*(\w+))?.*>)? for )?&?(?:'\w+ )?(\w+)")


def owner_name(of):
    """The word by which the prover names an impl: the type, and behind it its trait with what that is of."""
    return of[3] + (of[1] or "") + (of[2] or "")


def module_of(path):
    """The module that a file of src/ is, by its parts."""
    return [it for it in path.removeprefix("src/").removesuffix(".rt").split("/") if it not in ("lib", "main", "mod")]


def owner_of(function, lines):
    """The first line of the impl or the trait in which a function stands; none for one that stands by itself."""
    return next((it for it in reversed(lines[: function.first]) if OWNER.match(it)), "") if function.indent else ""


def own_name(function, lines):
    """A function's path below its crate, as the prover has it; None for a trait's own, and where it can't be told."""
    above = owner_of(function, lines)
    of = IMPL.match(above)
    # (a method whose impl stands in another file than its type is named by the type's module, and a `drop` of one's own by the type alone)
    if function.indent and not (of and of[1] != "Drop" and any(re.match(rf"(?:pub(?:\([a-z ]+\))? )?(?:struct|enum) {of[3]}\b", it) for it in lines)):
        return None
    # (a method of a trait's impl is named by the type, the trait and what that is of in one word)
    return "::".join([*module_of(function.path), *([owner_name(of)] if of else []), function.name])


def is_in_cycle(function, lines):
    """Whether a function has one proof with those that call it and that it calls."""
    at = next(i for i in reversed(range(function.first)) if (HEAD.match(lines[i]) or [""] * 4)[3] == function.name)
    above = range(at - 1, -1, -1)
    over = [lines[i] for i in above if all(lines[j].lstrip().startswith(("#", "//")) for j in range(i, at))]
    return any(it.lstrip().startswith("#[cycle") for it in over)


def hole(crate, name):
    """What stands for the proof of a function: its statement, and a hole."""
    path = name.split("::")
    spec = f"{path[-1]}_spec"
    return f"use Rattle.{crate}.proofs.{'.'.join(path)}.Statement.{{statement}}\n\npub {spec} : {{M : Type 1}} → statement M\n{spec} 𝓤 𝓛 𝓜 𝓡 w = ?\n"


def read_edit(file, folder):
    """Reads an edit, and says where it stands."""
    edit, path, old, was, texts = Edit(file), "", None, {}, {}
    for line in file.read_text().split("\n"):
        if line.startswith("file: "):
            path = line.removeprefix("file: ").strip()
        elif line.startswith("old: "):
            old = line.removeprefix("old: ")
        elif line.startswith("new:") and path and old:
            if path not in texts:
                if not re.fullmatch(r"(src|specs|proofs)/[\w/.]+", path) or not (folder / path).is_file():
                    edit.alone = f"there is no file {path}"
                    return edit
                texts[path] = was[path] = (folder / path).read_text()
            if texts[path].count(old) != 1:
                edit.alone = f"an 'old:' text is in {path} {texts[path].count(old)} times"
                return edit
            texts[path], old = texts[path].replace(old, line.removeprefix("new:").removeprefix(" ")), None
    place(edit, was, texts)
    return edit


def place(edit, was, texts):
    """Finds the one function whose body an edit changes, beside lines that bring names in."""
    changed = [it for it in texts if texts[it] != was[it]]
    if len(changed) != 1 or not changed[0].endswith(".rt"):
        edit.alone = "it changes a file of specs or proofs, several files, or nothing"
        return
    edit.path = changed[0]
    before, after = was[edit.path].split("\n"), texts[edit.path].split("\n")
    edit.lines = {i: now for i, (old, now) in enumerate(zip(before, after)) if old != now}
    # (a line that is brought in beside the body, which the others don't see)
    inside = [i for i in edit.lines if not (before[i].startswith("use ") and after[i].startswith("use "))]
    found = {f for i in inside for f in functions_of(edit.path, was[edit.path]) if f.first <= i <= f.last}
    covered = all(any(f.first <= i <= f.last for f in found) for i in inside)
    if len(found) != 1 or not covered:
        edit.alone = "it doesn't stand in the body of one function"
    elif next(iter(found)).is_const:
        edit.alone = "a const function may be run by the definitions of others"
    else:
        (edit.function,) = found


def grouped(edits, control, folder):
    """Puts edits that stand in different functions, and at different lines, together. Gives the groups, and the other edits."""
    groups, alone = [], [it for it in edits if it.alone]
    for edit in [] if control is None else [it for it in edits if not it.alone]:
        group = next((it for it in groups if has_room(it, edit)), None)
        if group is None:
            group = Group([], {})
            put(group, control, folder)
            if not has_room(group, edit):
                edit.alone = "it stands in the control's function"
                alone.append(edit)
                continue
            groups.append(group)
        put(group, edit, folder)
    if control is None:
        for edit in [it for it in edits if not it.alone]:
            edit.alone = "the crate has no control"
            alone.append(edit)
    return groups, alone


def has_room(group, edit):
    """Whether an edit can join: no other one is in its function, or in one of that name in its module, or changes its lines."""
    for other in group.edits:
        if other.path == edit.path and (other.function.name == edit.function.name or set(other.lines) & set(edit.lines)):
            return False
    return True


def put(group, edit, folder):
    """Adds an edit to a group's texts, by its lines: each pair of an edit is a line each, so that no line moves."""
    text = group.texts.get(edit.path) or (folder / edit.path).read_text()
    lines = text.split("\n")
    for at, now in edit.lines.items():
        lines[at] = now
    group.texts[edit.path] = "\n".join(lines)
    group.edits.append(edit)


# What a function's line says behind its name, piece by piece: it calls what is refused, or hands on an `impl` with such a method; a
# file that it hasn't; an open goal.
CALLS = re.compile(r"it (?:calls|passes the block) `[^`]+`(?:(?:,| and) `[^`]+`)*, which (?:is|are) not proved")
EXPECTED = re.compile(r"expected answers in \./proofs/\S+")
UNSHOWN = re.compile(r"`search` did not prove `[^`]+`(?:(?:,| and) `[^`]+`)*")
STANDS = re.compile(r"it stands on `[^`]+`(?:(?:,| and) `[^`]+`)*, which antt refuses")
# What it says of one that is proved, but for what stands by its contract alone: the only holes are those.
FINE = re.compile(r"proved|no holes|depends on a hole in `[^`]+`(?:(?:,| and) `[^`]+`)*")
# What an error in a function's own proof says where a goal isn't shown. What isn't listed says nothing: a name that is gone, a
# declaration that wasn't admitted, a file that can't be read.
SHOWS_NOT = re.compile(r"`[^`]+`: (?:(?:as printed|computed as far as they go), the two types (?:first )?differ |"
                       r"`omega`: the goal does not follow )")
# Before a piece that is of another function, with which this one is proved in one: nothing behind it counts as its own.
CYCLE = re.compile(r"in `[^`]+`, of this cycle of calls: ")
# The last line of what the prover says, where it has tried what it was asked for.
LAST = re.compile(r"only=\d+ (?:proved|holes)=\d+")
PROVED, OWN, INFECTED, UNKNOWN = "proved", "a fault of its own", "it only calls what is refused", "words that aren't known"


def verdicts(said, crate):
    """Reads the prover's words: what each function comes to, by its name. This is the one place that reads them."""
    errors = re.findall(r"^(?:\./)?proofs/(\S+)/(?:Answers|Invariants|Proof)\.antt:\d+:\d+: error: (.*)$", said, re.MULTILINE)
    found = {}
    for name, words in re.findall(r"^fn (.+?): (.*)$", said, re.MULTILINE):
        if FINE.fullmatch(words):
            found[name] = PROVED
            continue
        head, *pieces = re.split(r"; ", re.sub(r"^no proof: ", "; ", words))
        in_cycle = CYCLE.search(words)
        pieces = [CYCLE.sub("", it) for it in pieces if it]
        folder = name.removeprefix(f"{crate}::").replace("::", "/")
        owns = head == "not proved" and any(at == folder and SHOWS_NOT.match(error) for at, error in errors)
        owns = owns or head == "" and any(map(UNSHOWN.fullmatch, pieces))
        known = all(any(form.fullmatch(it) for form in (CALLS, EXPECTED, UNSHOWN, STANDS)) for it in pieces)
        if not known or head not in ("", "not proved"):
            found[name] = UNKNOWN
        elif owns and not in_cycle:
            found[name] = OWN
        else:
            found[name] = INFECTED if head == "" and any(map(CALLS.fullmatch, pieces)) else UNKNOWN
    return found


def names_of(edit, found, crate, folder):
    """The names that the prover may give to the function that an edit stands in; it is told only where that is one."""
    module = [crate, *module_of(edit.path)]
    lines = (folder / edit.path).read_text().split("\n")
    above = owner_of(edit.function, lines)
    of = IMPL.match(above) or re.match(r".*()()\btrait (\w+)", above)
    owner = [owner_name(of) if of else ""] if edit.function.indent else []
    whole = "::".join([*module, *owner, edit.function.name])
    if whole in found:
        return [whole]
    start, end = "::".join(module) + "::", f"::{edit.function.name}"
    here = [it for it in found if it.startswith(start) and it.endswith(end)]
    # (a method whose impl stands in another file than its type is named by the type's module)
    method = "::".join(["", *owner, edit.function.name])
    return here or [it for it in found if owner and it.startswith(f"{crate}::") and it.endswith(method)]


class Crate:
    """A crate whose wrong bodies are tried, in a copy of the repository that is thrown away."""

    def __init__(self, name, room, from_nothing, jobs):
        """`room` is the folder of the copy, `jobs` how many processes a check has. Ends the script where what is below can't be built."""
        self.name, self.folder, self.jobs = name, TOP / "crates" / name, jobs
        self.made = kit.crate(name)
        if not (from_nothing and kit.is_left_below(self.made)):
            self.build_below()
        self.room = pathlib.Path(room)
        self.kept = self.room / "crates" / name / "out/incremental"
        self.copy()
        self.kept.mkdir(parents=True)

    def build_below(self):
        """Has the libraries below this crate proved and built, where they aren't. Ends the script where that fails."""
        missing = [it.name for it in self.made.below() if not it.is_built()]
        if not missing:
            return
        print(f"{self.name}: {', '.join(missing)}: not built, and so proved now", flush=True)
        said = subprocess.run(["rt", "check"], cwd=self.folder, stdout=subprocess.PIPE, stderr=subprocess.STDOUT, text=True, errors="replace")
        if any(not it.is_built() for it in self.made.below()):
            sys.exit(f"wrong_bodies: the libraries below {self.name} can't be built\n{said.stdout[-2000:]}")

    def copy(self):
        """Copies the repository's crates without their wrong bodies, and links the libraries below this one."""
        listed = subprocess.run(["git", "ls-files", "-co", "--exclude-standard", "crates", "crates.txt", "HANDLES"],
                                cwd=TOP, capture_output=True, text=True, check=True).stdout.splitlines()
        for path in listed:
            if (TOP / path).is_file() and "/must-fail/" not in path and "/wrong/" not in path:
                (self.room / path).parent.mkdir(parents=True, exist_ok=True)
                shutil.copy(TOP / path, self.room / path)
        subprocess.run(["git", "init", "-q"], cwd=self.room, check=True)
        for it in self.made.below():
            rlib = self.room / "crates" / it.name / "out/rlib"
            shutil.copytree(os.path.dirname(it.rlib), rlib, copy_function=link_or_copy)
        # (without a stamp, rt would prove them once more for an edit that is tried alone)
        for it in kit.crates(self.room):
            rlib = pathlib.Path(os.path.dirname(it.rlib))
            if rlib.is_dir() and not (rlib / "stamp").exists():
                (rlib / "stamp").write_text(it.stamp())

    def together(self, group):
        """Tries a group. Gives the files of those that are refused, and why each of the others isn't clearly so."""
        while True:
            run = self.check_of(group)
            errors = re.findall(r"^\S*?(src/\S+?\.rt):(\d+):\d+: error", run.stdout, re.MULTILINE)
            bad = {(path, int(line) - 1) for path, line in errors}
            lost = [it for it in group.edits[1:] if any((it.path, at) in bad for at in it.lines)]
            if not lost or LAST.fullmatch(run.stdout.rstrip().split("\n")[-1]):
                break
            # (without those that don't compile)
            left = Group([], {})
            for edit in [it for it in group.edits if it not in lost]:
                put(left, edit, self.folder)
            for it in lost:
                it.alone = "it doesn't compile"
            if len(left.edits) < 2:
                return [], {it.file: it.alone for it in lost}
            refused, others = self.together(left)
            return refused, {**others, **{it.file: it.alone for it in lost}}
        return self.judged(group, run)

    def check_of(self, group):
        """Has the prover try the functions that a group changes, over what the groups before it have left. Each other function stands there
        by its contract alone, so that none is proved once more."""
        only = [word for it in group.edits for word in ("--only", self.name_of(it))]
        with tempfile.TemporaryDirectory(dir=self.room) as folder:
            made, texts = copy.copy(self.made), self.shut(group, pathlib.Path(folder))
            made.folder = folder
            return kit.checked(made, texts, ["--jobs", str(self.jobs), "--allow-holes", "--short-goals", *only], str(self.kept))

    def name_of(self, edit):
        """The name by which the prover is asked for the function of an edit."""
        return edit.asked or own_name(edit.function, (self.folder / edit.path).read_text().split("\n")) or edit.function.name

    def shut(self, group, folder):
        """Copies the crate to a folder, and gives its texts with those of a group, in which each function that no edit changes has a body
        that never ends, and a hole for its proof."""
        for part in ("src", "specs", "proofs"):
            if (self.folder / part).is_dir():
                shutil.copytree(self.folder / part, folder / part)
        edited, texts = {self.name_of(it) for it in group.edits}, {}
        for file in sorted((self.folder / "src").rglob("*.rt")):
            path = str(file.relative_to(self.folder))
            lines = file.read_text().split("\n")
            now = group.texts.get(path, "\n".join(lines)).split("\n")
            for function in functions_of(path, "\n".join(lines)):
                name = own_name(function, lines)
                if name is None or function.is_const or {name, function.name} & edited or is_in_cycle(function, lines):
                    continue
                # (as many lines as before, since an error is told by its line)
                now[function.first : function.last + 1] = ["loop {}", *[""] * (function.last - function.first)]
                proof = folder / "proofs" / name.replace("::", "/")
                shutil.rmtree(proof, ignore_errors=True)
                proof.mkdir(parents=True)
                (proof / "Proof.antt").write_text(hole(self.name, name))
            texts[path] = "\n".join(now)
        return texts

    def judged(self, group, run):
        """What a group's check comes to, if its control is proved and no function has a fault that isn't edited."""
        found = verdicts(run.stdout, self.name)
        meant = {id(it): names_of(it, found, self.name, self.folder) for it in group.edits}
        names = {it: of[0] if len(of) == 1 else None for it, of in meant.items()}
        control, worthless = group.edits[0], ""
        strangers = [it for it, came in found.items() if came in (OWN, UNKNOWN) and not any(it in of for of in meant.values())]
        if run.returncode != 1 or not LAST.fullmatch(run.stdout.rstrip().split("\n")[-1]):
            worthless = f"the check of all ended with {run.returncode}, and didn't refuse them"
        elif found.get(names[id(control)]) != PROVED:
            worthless = f"the control isn't proved ({found.get(names[id(control)])})"
        elif strangers:
            worthless = f"{strangers[0]}, which isn't edited, has {found[strangers[0]]}"
        if worthless:
            return [], {it.file: worthless for it in group.edits[1:]}
        unnamed = "the prover has no line that is surely its function's"
        came = {it.file: found.get(names[id(it)], unnamed) for it in group.edits[1:]}
        return [it for it in came if came[it] == OWN], {it: what for it, what in came.items() if what != OWN}

    def by_itself(self, edit, control, asked):
        """Tries an edit of one function as a group does, with the control alone beside it, and counts as refused whatever isn't proved of it, as `rt`
        does. Gives why it isn't refused."""
        group = Group([], {})
        put(group, control, self.folder)
        edit.asked = asked
        if not asked and (edit.function is None or not has_room(group, edit)):
            return "it stands in no function, or in the control's"
        put(group, edit, self.folder)
        run = self.check_of(group)
        lines = run.stdout.rstrip().split("\n")
        found = verdicts(run.stdout, self.name)
        names = [[f"{self.name}::{it.asked}"] if it.asked else names_of(it, found, self.name, self.folder) for it in group.edits]
        bad = next((it for it in lines if kit.unread(it, group.texts)), None)
        if bad or run.returncode != 1 or not LAST.fullmatch(lines[-1]) or any(len(it) != 1 for it in names):
            return bad or f"the check ended with {run.returncode}: {lines[-1]}"
        came = [found.get(it[0], "no line") for it in names]
        lost = [it for it in found if found[it] in (OWN, UNKNOWN) and it != names[1][0]]
        if came[0] != PROVED or lost or came[1] == PROVED:
            return f"its control has {came[0]}, itself {came[1]}, and others with a fault are: {', '.join(lost) or 'none'}"
        return None

    def alone(self, files, control, listed, anew):
        """Tries edits one by one, and those not refused so by `rt must-fail`. `listed` has the function that the prover is asked for of an edit
        that stands in none. Gives what was said of each, by its file."""
        came = {it: self.by_itself(read_edit(it, self.folder), control, listed.get(it.stem, "")) if control else "the crate has no control" for it in files}
        refused = {it: f"{REFUSED}: by itself" for it, why in came.items() if why is None}
        for file, why in came.items():
            if why is not None:
                print(f"{self.name}: {file.stem} is tried over the whole crate: {why}", flush=True)
        return {**refused, **self.alone_by_rt([it for it in files if it not in refused], anew)}

    def alone_by_rt(self, files, anew):
        """Tries edits one by one, by `rt must-fail`. Gives what it said of each, by its file."""
        if not files:
            return {}
        folder = self.room / "crates" / self.name / "must-fail"
        folder.mkdir()
        # (rt keeps what it has tried by the name of its file, too)
        fresh = f"{time.time_ns()}-" if anew else ""
        for file in files:
            shutil.copy(file, folder / f"{fresh}{file.name}")
        said = subprocess.run(["rt", "must-fail", self.name], cwd=self.room, stdout=subprocess.PIPE, stderr=subprocess.STDOUT,
                              text=True, errors="replace").stdout
        shutil.rmtree(folder)
        lines = {it: "NOT TRIED: rt says nothing of it" for it in files}
        of = {it.name: it for it in files}
        for name, words in re.findall(rf"^(?:rt: )?must-fail {self.name}/{fresh}([\w.-]+?\.edit): (.*)$", said, re.MULTILINE):
            lines[of[name]] = words
        return lines


def link_or_copy(source, target):
    """Links a file that is only read, or copies it where the file system has no such link."""
    try:
        os.link(source, target)
    except OSError:
        shutil.copy2(source, target)
