#!/usr/bin/env python3
"""Says which definitions a reader has to believe: what contracts of public functions rest on, what laws alone rest on, and what private functions
alone do.

    gate/rooms.py              of each crate how many definitions there are of each, and whether each stands where it belongs
    gate/rooms.py CRATE ..     each definition of these crates, with its file

A definition belongs to the first of these that cites it, or cites one that cites it. `specs/Lib.antt` lists the files in these three parts, and so does
the list of each folder below it, a file in the part of its first definition; in a file that has several, a line parts them. What proofs alone cite belongs in `proofs/`. It
is a rough reader of the layout of `rt fmt`, and of definitions by their names.
"""
import collections, pathlib, re, sys

TOP = pathlib.Path(__file__).resolve().parent.parent
PUBLIC, LAW, PRIVATE, PROOF = range(4)
ROOMS = ["public contracts", "laws alone", "private functions alone", "proofs alone"]
PARTS = [
    "-- ---- What contracts of public functions cite, in reading order",
    "-- ---- What laws alone cite",
    "-- ---- What contracts of private functions alone cite, which nobody has to believe",
]
LINES = {"-- ---- Cited by laws alone": LAW, "-- ---- Cited by contracts of private functions alone": PRIVATE}
# Crates that nothing stands on.
ASIDE = re.compile(r"_tests$|^jwt_(support|tool)$")
# Both forms of an import: names of a module, and the module by a name of its own.
NAMES = re.compile(r"use Rattle\.(\w+)\.specs\.([\w.]+)\.\{([^}]*)\}")
WHOLE = re.compile(r"use Rattle\.(\w+)\.specs\.([\w.]+) as (\w+)")
HEAD = re.compile(r"\s*(?:(?:abbrev|unfoldable) )?(?:pub )?(?:(?:record|data) (\S+)|(\S+) :(?!:) )")
FUNCTION = re.compile(r"( *)((?:pub(?:\([^)]*\))? )?)(?:const |unsafe |extern \"C\" )*fn (\w+)")
OWNER = re.compile(r"(?:pub(?:\([^)]*\))? )?(?:impl(?:<.*?>)? (?:(?P<trait>\w+)(?:<.*>)? for )?&?(?:'\w+ )?(?P<type>\w+)|trait (?P<own>\w+))")


def words(text):
    """The words of a text that may name a definition: names, operators with their places, and names behind a dot."""
    plain = set(re.findall(r"[^\s(){}\[\],;.]+", text))
    return plain | {f"◌{it}◌" for it in plain} | set(re.findall(r"\.(\w+)", text)) | set(re.findall(r"\b(\w+\.\w+)", text))


class Imports:
    """The names that a file brings in, and where they stand."""

    def __init__(self, text):
        self.names, self.modules = {}, {}
        for crate, module, names in NAMES.findall(text):
            for item in names.split(","):
                name, _, alias = item.strip().partition(" as ")
                self.names[alias or name] = (f"{crate}.{module}", name)
        for crate, module, alias in WHOLE.findall(text):
            self.modules[alias] = f"{crate}.{module}"

    def find(self, word):
        """The definition that a word names, if any."""
        module, dot, name = word.partition(".")
        if dot and module in self.modules:
            return (self.modules[module], name)
        return self.names.get(word)


class Definitions:
    """All definitions, by module and name, with their lines and what they cite."""

    def __init__(self):
        self.text, self.file, self.imports, self.order = {}, {}, {}, collections.defaultdict(list)
        for path in sorted(TOP.glob("crates/*/specs/**/*.antt")):
            self.read(path)
        self.cites = {it: self.cited(it) for it in self.text}

    def read(self, path):
        parts = path.relative_to(TOP / "crates").with_suffix("").parts
        module = ".".join([parts[0], *parts[2:]])
        text = path.read_text()
        self.imports[module] = Imports(text)
        now, is_mutual = None, False
        for line in text.split("\n"):
            if not line.strip() or line.startswith(("use ", "pub use ", "unfoldable pub use ", "pub mod ", "infix", "--")):
                continue
            if re.match(r"(abbrev |unfoldable )?mutual", line):
                is_mutual, now = True, None
                continue
            head, indent = HEAD.match(line), len(line) - len(line.lstrip())
            is_mutual = is_mutual and indent > 0
            if head and (indent == 0 or is_mutual and indent == 2):
                now = (module, head[1] or head[2])
                self.file[now] = path
                if now not in self.text:
                    self.order[path].append(now)
                    self.text[now] = ""
            if now:
                self.text[now] += line + "\n"

    def resolve(self, module, word):
        """The definition that a word of this module names, through what is passed on."""
        if (module, word) in self.text:
            return (module, word)
        found, seen = self.imports[module].find(word), set()
        while found and found not in self.text and found not in seen:
            seen.add(found)
            passed_on = self.imports.get(found[0])
            found = passed_on.find(found[1]) if passed_on else None
        return found if found in self.text else None

    def cited(self, it):
        found = {self.resolve(it[0], word) for word in words(self.text[it])}
        return found - {it, None}

    def closed(self, roots):
        """These, and all that they rest on."""
        seen, left = set(), list(roots)
        while left:
            it = left.pop()
            if it not in seen:
                seen.add(it)
                left += self.cites[it]
        return seen


def exported(crate):
    """The names that a crate's lib.rt and its public modules pass on, and the files of those modules."""
    names, root = set(), TOP / "crates" / crate / "src/lib.rt"
    modules = public_modules(root, root.parent)
    for file in (root, *modules):
        for listed in re.findall(r"^pub use ([^;]+);", file.read_text(), re.MULTILINE):
            names |= set(re.findall(r"\w+", listed))
    return names, modules


def public_modules(path, folder):
    """The files of the public modules that a file names, which stand in a folder, and of those in them."""
    found = set()
    for name in re.findall(r"^pub mod (\w+);", path.read_text(), re.MULTILINE):
        file = next(it for it in (folder / f"{name}.rt", folder / name / "mod.rt") if it.exists())
        found |= {file, *public_modules(file, folder / name)}
    return found


def end_of_signature(lines, at, indent):
    """The line at which the signature of a function ends, with its clauses: before the body, or at the semicolon of a method that has none."""
    depth, has_clauses = 0, False
    for end in range(at, len(lines)):
        line = re.sub(r'"[^"]*"', "", lines[end]).rstrip()
        has_clauses = has_clauses or re.match(r"\s*(?:ensures|requires|ghost)\b", line) is not None
        opened = depth + sum(line.count(it) for it in "([{") - sum(line.count(it) for it in ")]}")
        is_body = lines[end] == f"{indent}{{" or line.endswith("{") and opened == 1 and not has_clauses
        if is_body or opened == 0 and line.endswith((";", "{}")):
            return end
        depth = opened
    return len(lines) - 1


def contracts(path, crate):
    """Of a file of code each contract, with the room that it has by itself: of a function, of a trait's and a type's ghost members."""
    names, modules = exported(crate)
    is_open = path in modules
    lines, found, owner = path.read_text().split("\n"), [], None
    at = 0
    while at < len(lines):
        line = lines[at]
        head = OWNER.match(line)
        if head:
            owner = head["own"] or head["trait"] or head["type"]
        elif line == "}":
            owner = None
        function = FUNCTION.match(line)
        if function:
            end = end_of_signature(lines, at, function[1])
            text = "\n".join(lines[at : end + 1])
            clauses = text[re.search(r"\b(?:ensures|requires|ghost)\b", text).start():] if re.search(r"\b(?:ensures|requires|ghost)\b", text) else ""
            if path.stem == "laws":
                room = LAW
            elif function[1]:
                room = PUBLIC if (owner in names or is_open) and (function[2].strip() == "pub" or OWNER.match(line)) or is_of_trait(lines, at, owner, names) else PRIVATE
            else:
                room = PUBLIC if function[2].strip() == "pub" and (function[3] in names or is_open) else PRIVATE
            found.append((room, clauses))
            at = end + 1
            continue
        if re.match(r"\s*(?:pub(?:\([^)]*\))? )?ghost (?!use)", line):
            end = at
            while end < len(lines) and not lines[end].rstrip().endswith((";", "},")) and lines[end].strip():
                end += 1
            found.append((PUBLIC if owner is None or owner in names or is_open else PRIVATE, "\n".join(lines[at : end + 1])))
            at = end + 1
            continue
        at += 1
    return found


def is_of_trait(lines, at, owner, names):
    """Whether the function is a method of a trait that is passed on: such methods have no `pub`."""
    for line in reversed(lines[:at]):
        head = OWNER.match(line)
        if head:
            return bool(head["own"] and head["own"] in names)
    return False


def rooms():
    """The definitions, and the room of each."""
    all_of = Definitions()
    roots = [set(), set(), set()]
    for path in sorted(TOP.glob("crates/*/src/**/*.rt")):
        crate = path.relative_to(TOP / "crates").parts[0]
        if ASIDE.search(crate) or not (TOP / "crates" / crate / "src/lib.rt").exists():
            continue
        imports = Imports(path.read_text())
        for room, text in contracts(path, crate):
            for word in words(text):
                found = imports.find(word)
                while found and found not in all_of.text:
                    passed_on = all_of.imports.get(found[0])
                    found = passed_on.find(found[1]) if passed_on else None
                if found:
                    roots[room].add(found)
    room_of = {it: PROOF for it in all_of.text}
    for room in (PRIVATE, LAW, PUBLIC):
        room_of.update({it: room for it in all_of.closed(roots[room])})
    return all_of, {it: room for it, room in room_of.items() if not ASIDE.search(it[0].split(".")[0])}


def misplaced_files(crate, room_of_file):
    """What is wrong in the parts of a crate's `specs/Lib.antt`, and of the lists of the folders below it."""
    found = []
    for path in sorted((TOP / "crates" / crate / "specs").rglob("*.antt")):
        folder = path.parent if path.name == "Lib.antt" else path.with_suffix("")
        part = None
        for line in path.read_text().split("\n") if folder.is_dir() else []:
            module = re.match(r"pub mod (\w+)", line)
            room = room_of_file.get(folder / f"{module[1]}.antt") if module else None
            if line in PARTS:
                part = PARTS.index(line)
            elif room not in (None, part):
                found.append(f"{path.relative_to(TOP)}: {module[1]} belongs to the part of {ROOMS[room]}")
    return found


def misplaced_definitions(path, listed, room_of):
    """What is wrong in the order of a file: each definition stands below the line of its room, the file's first room aside."""
    below, found = min(room_of[it] for it in listed), []
    starts = {}
    for line in path.read_text().split("\n"):
        head = HEAD.match(line)
        below = LINES.get(line, below)
        if head:
            starts.setdefault(head[1] or head[2], below)
    for it in listed:
        if room_of[it] == PROOF or starts.get(it[1]) != room_of[it]:
            found.append(f"{path.relative_to(TOP)}: {it[1]} is cited by {ROOMS[room_of[it]]}")
    return found


def main():
    all_of, room_of = rooms()
    if sys.argv[1:]:
        for (module, name), room in sorted(room_of.items(), key=lambda it: (it[1], it[0])):
            if module.split(".")[0] in sys.argv[1:]:
                print(f"{ROOMS[room]}: {module}.{name}")
        return 0
    counts, wrong, files = collections.defaultdict(collections.Counter), [], collections.defaultdict(dict)
    for path, listed in all_of.order.items():
        listed = [it for it in listed if it in room_of]
        if listed:
            crate = listed[0][0].split(".")[0]
            counts[crate].update(room_of[it] for it in listed)
            files[crate][path] = min(room_of[it] for it in listed)
            wrong += misplaced_definitions(path, listed, room_of)
    print("crate", *ROOMS, sep="\t")
    for crate in sorted(counts):
        print(crate, *(counts[crate][room] for room in range(4)), sep="\t")
        wrong += misplaced_files(crate, files[crate])
    print("\n".join([*wrong, f"{len(room_of) - len(wrong)} passed, {len(wrong)} failed"]))
    return int(bool(wrong))


sys.exit(main())
