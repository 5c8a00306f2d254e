#!/usr/bin/env python3
"""What the refusal of a wrong body rests on, by the sources alone: see README.md beside this file.

    gate/rests.py CRATE/NAME ..    prints, of these wrong bodies, the digest and what it holds
    gate/rests.py                  tries that each kind of change which may turn a refusal changes the digest, and no other does

A function's theorem rests on its own code, contract and proof files, and on what these name: definitions, types, constants, lemmas, and the
contracts of what it calls. So the digest holds those, and what they name in turn, in its crate and in those below. Where that can't be told by names, as of an
edit of a constant or of functions that have one proof, it holds all files of the crate and of those below.
"""
import functools, hashlib, pathlib, re, sys

sys.dont_write_bytecode = True
sys.path.insert(0, str(pathlib.Path(__file__).resolve().parent))
import kit, refusals

TOP = pathlib.Path(__file__).resolve().parent.parent
# The files of a function's own proof.
PROOFS = {"Invariants.antt", "Answers.antt", "Proof.antt"}
# What is a name in a text of either language.
NAME = r"[^\s(){}\[\],;.⟨⟩\"|:`&*!?<>=+\-/%^#@\\]+"
WORD = re.compile(rf"{NAME}(?:-{NAME})*")
# An item that stands by itself, and its name.
ITEM = re.compile(r"(?:pub(?:\([a-z ]+\))? )?(?:unsafe |const )*(struct|enum|union|const|static|trait|type|mod|use|impl|macro_rules!|fn)(?= |<)[ ]?(?:mut )?(\w*)")
DECLARED = re.compile(r"(?:(?:pub|abbrev|data|record|unfolding|unfoldable|opaque)\s+(?:\{[^}]*\}\s*)?)*(\S+)")


def words(text):
    """The names in a text."""
    return frozenset(WORD.findall(text))


def bare(lines, mark):
    """A text without the lines that are comments, and without empty ones."""
    return "\n".join(it.rstrip() for it in lines if it.strip() and not it.lstrip().startswith(mark))


def sum_of(*parts):
    """A digest of parts that print alike where they are alike."""
    return hashlib.sha256(repr(parts).encode()).hexdigest()[:32]


class Definitions:
    """A file of specs/ or proofs/: what it brings in, and its declarations by name."""

    def __init__(self, text):
        self.brought, self.modules, self.items = {}, {}, {}
        for block in self.blocks(text):
            use = re.match(r"(?:pub )?use ([\w.+◌-]+?)(?:\.\{(.*)\})?(?: as (\S+))?$", block, re.S)
            if use and use[2] is not None:
                for name in use[2].split(","):
                    was, _, now = name.strip().partition(" as ")
                    self.brought.setdefault(now or was, []).append((use[1], was))
            elif use:
                self.modules[use[3] or use[1].split(".")[-1]] = use[1]
            elif not re.match(r"(?:pub )?mod ", block):
                for name in self.names(block):
                    self.items[name] = f"{self.items[name]}\n{block}" if self.items.get(name, block) != block else block
        self.words = {name: words(text) for name, text in self.items.items()}

    def blocks(self, text):
        """The declarations of a file, each with the lines that are further in."""
        found = []
        for line in bare(text.split("\n"), "--").split("\n"):
            if found and (line[:1].isspace() or line[:1] in ")]}"):
                found[-1] += f"\n{line}"
            elif line:
                found.append(line)
        return found

    def names(self, block):
        """The names that a declaration declares."""
        if re.match(r"(?:pub |abbrev )*mutual", block):
            return re.findall(r"^\s+(?:(?:pub|abbrev|data|record)\s+)*(\S+) :", block, re.MULTILINE)
        return [DECLARED.match(block)[1]]

    def having(self, name):
        """The declarations that have a name: theirs, or that of a constructor or a field."""
        if name in self.items:
            return [name]
        return [it for it in self.items if name in self.words[it] and re.match(r"(?:pub |abbrev )*(?:data|record)\b", self.items[it])]


class Item:
    """An item of a file of src/, where it is a function without its body; and the type that it is of."""

    def __init__(self, kind, name, owner, text, is_seen=True):
        """`is_seen`: whether a crate above can name it."""
        self.kind, self.name, self.owner, self.text, self.is_seen = kind, name, owner, text, is_seen
        self.words = words(text)


class Code:
    """A file of src/: its items, what it brings in for its clauses, and the whole texts of its functions by their paths."""

    def __init__(self, path, text):
        self.path, self.lines, self.brought, self.items, self.whole = path, text.split("\n"), {}, [], {}
        taken = set()
        for function in refusals.functions_of(path, text):
            taken |= self.take(function)
        left = [("" if at in taken else line) for at, line in enumerate(self.lines)]
        for block in self.blocks(bare(left, "//").split("\n")):
            self.take_block(block)

    def take(self, function):
        """Notes a function, and gives the lines that needn't be read again."""
        lines, name = self.lines, refusals.own_name(function, self.lines)
        is_shut = name is not None and not function.is_const and not refusals.is_in_cycle(function, lines)
        at = next(i for i in reversed(range(function.first)) if (refusals.HEAD.match(lines[i]) or [""] * 4)[3] == function.name)
        top, inner = at, " " * (function.indent + 1)
        while top and (lines[top - 1].lstrip().startswith(("#[", "//")) or lines[top - 1].endswith(")]") and lines[top - 1].startswith(inner)):
            top -= 1
        body = range(function.first, function.last + 1)
        if is_shut:
            self.whole[name] = bare(lines[top : function.last + 2], "//")
        above = refusals.owner_of(function, lines)
        if above and (" for " in above or re.match(r"(?:pub(?:\([a-z ]+\))? )?trait\b", above)):
            # (it stays in its impl or its trait, without its body)
            return set(body) if is_shut else set()
        of = refusals.IMPL.match(above)
        text = bare([lines[i] for i in range(top, function.last + 2) if not (is_shut and i in body)], "//")
        is_seen = bool(re.match(r" *pub (?!\()", lines[at]))
        self.items.append(Item("method" if of else "fn", function.name, of[3] if of else "", text, is_seen))
        return set(range(top, function.last + 2))

    def blocks(self, lines):
        """What is left, item by item, each with its attributes."""
        found, is_open = [], False
        for line in filter(None, lines):
            if is_open or (found and (line[0].isspace() or line[0] in ")]}{" or line.startswith("where"))):
                found[-1] += f"\n{line}"
            else:
                found.append(line)
            is_open = line.startswith("#[") or (is_open and (line[0].isspace() or line[0] in ")]}"))
        return found

    def take_block(self, block):
        """Notes an item that is no function by itself."""
        ghost = re.match(r"ghost use ([\w.+◌-]+?)\.\{(.*)\};", block, re.S)
        if ghost:
            for name in ghost[2].split(","):
                was, _, now = name.strip().partition(" as ")
                self.brought.setdefault(now or was, []).append((ghost[1], was))
            return
        head = next((it for it in block.split("\n") if not it.startswith(("#[", " ", ")", "]"))), block)
        found = ITEM.match(head)
        kind = found[1] if found else "other"
        if kind == "use":
            self.items += [Item("use", now, "", block) for now in re.findall(r"\w+ as (\w+)", block)]
        elif kind == "impl":
            of = refusals.IMPL.match(head)
            self.items.append(Item("impl", (of[1] or "") if of else "", of[3] if of else "", block))
        elif not (kind == "mod" and block.endswith(";")):
            self.items.append(Item(kind, found[2] if found else "", "", block))


@functools.cache
def definitions(text):
    """A file of specs/ or proofs/, read once."""
    return Definitions(text)


@functools.cache
def code(path, text):
    """A file of src/, read once."""
    return Code(path, text)


def on_disk(names):
    """The texts of crates: by crate, and by the path in it."""
    found = {}
    for name in names:
        folder = TOP / "crates" / name
        files = [it for part in ("src", "specs", "proofs") for it in sorted((folder / part).rglob("*")) if it.suffix in (".rt", ".antt")]
        found[name] = {str(it.relative_to(folder)): it.read_text() for it in files}
    return found


def stands_on(text):
    """Of each crate what it stands on, by crates.txt."""
    lines = [it.partition("#")[0].partition(":") for it in text.splitlines()]
    return {head.split()[0]: rest.split() for head, colon, rest in lines if colon}


def here(crate):
    """The sources of a crate and of those below, as they stand."""
    lines = stands_on((TOP / "crates.txt").read_text())
    return Sources(on_disk([crate, *below(lines, crate)]), lines)


def below(lines, crate):
    """The crates of the repository below one."""
    found, left = [], [crate]
    while left:
        for it in lines[left.pop()]:
            if it in lines and it not in found:
                found.append(it)
                left.append(it)
    return sorted(found)


class Sources:
    """The sources of all crates, and what is asked of them."""

    def __init__(self, texts, lines):
        """`texts` by crate and path, `lines`: what each crate stands on."""
        self.texts, self.lines = texts, lines
        self.code = {name: {path: code(path, text) for path, text in of.items() if path.endswith(".rt")} for name, of in texts.items()}
        self.definitions = {name: {path[:-5]: definitions(text) for path, text in of.items() if path.endswith(".antt")} for name, of in texts.items()}
        self.by_name = {name: self.index(name) for name in texts}

    def index(self, crate):
        """The items of a crate by name, those of a type by the type's name, and methods by theirs."""
        names, owners, methods = {}, {}, {}
        for path, of in self.code[crate].items():
            for item in of.items:
                place = owners.setdefault(item.owner, []) if item.kind in ("impl", "method") else names.setdefault(item.name, [])
                place.append((crate, path, item))
                if item.kind == "method":
                    methods.setdefault(item.name, []).append((crate, path, item))
                if item.kind == "impl" and item.name:
                    # (those of a trait, for types that aren't of these crates)
                    owners.setdefault(f"trait {item.name}", []).append((crate, path, item))
        return names, owners, methods

    def below(self, crate):
        """The crates of the repository below one."""
        return below(self.lines, crate)

    def whole(self, crate):
        """All files of a crate and of those below, without their comments."""
        return [((it, path, ""), bare(text.split("\n"), "//" if path.endswith(".rt") else "--"))
                for it in [crate, *self.below(crate)] for path, text in sorted(self.texts[it].items())]

    def reached(self, crate, path, name):
        """What the theorem of a function rests on: texts by crate, file and name; None where that can't be told by names."""
        text = self.code[crate][path].whole.get(name)
        return None if text is None else Reach(self, crate).of_function(path, name, text)


class Reach:
    """What is reached from a function by names."""

    def __init__(self, sources, crate):
        self.sources, self.crate = sources, crate
        self.crates = [crate, *sources.below(crate)]
        self.found, self.said, self.types, self.left = {}, set(), set(), []

    def of_function(self, path, name, text):
        """What a function rests on, with its own text."""
        of = self.sources.code[self.crate][path]
        function = next(it for it in refusals.functions_of(path, "\n".join(of.lines)) if refusals.own_name(it, of.lines) == name)
        self.left.append((self.crate, path, words(text) | words(refusals.owner_of(function, of.lines)) | {""}))
        for file, its in self.sources.definitions[self.crate].items():
            folder, _, last = file.rpartition("/")
            if folder == f"proofs/{name.replace('::', '/')}" and f"{last}.antt" in PROOFS:
                for it in its.items:
                    self.take_definition(self.crate, file, it)
                for module, was in [pair for pairs in its.brought.values() for pair in pairs]:
                    self.take_from(module, was)
        for it in self.sources.code[self.crate].values():
            self.found |= {(self.crate, it.path, item.text): item.text for item in it.items if item.kind == "other" and item.text.startswith("#!")}
        while self.left:
            self.follow(*self.left.pop())
        return {(self.crate, path, name): text, **self.found}

    def follow(self, crate, file, names):
        """Takes what stands under these names, which a text in this file has."""
        if file.endswith(".rt"):
            brought, modules = self.sources.code[crate][file].brought, {}
            for it in names:
                self.say(it)
            self.take_tactics(crate, names)
        else:
            its = self.sources.definitions[crate][file]
            brought, modules = its.brought, its.modules
            for it in names:
                if it in its.items:
                    self.take_definition(crate, file, it)
        for it in names:
            for module, was in brought.get(it, []):
                self.take_from(module, was)
            if it in modules:
                for other in names:
                    self.take_from(modules[it], other)

    def say(self, name):
        """Takes the items of any crate that have a name, and methods of the types that are reached."""
        if name in self.said:
            return
        self.said.add(name)
        for crate in self.crates:
            names, _, methods = self.sources.by_name[crate]
            for place in [*names.get(name, []), *(it for it in methods.get(name, []) if it[2].owner in self.types)]:
                self.take(*place)

    def take(self, crate, path, item):
        """Takes an item, and of a type its impls, and those of its methods that are named."""
        if (crate, path, item.text) in self.found or not (item.is_seen or crate == self.crate):
            return
        self.found[crate, path, item.text] = item.text
        self.left.append((crate, path, item.words))
        if item.kind not in ("struct", "enum", "union", "type", "trait") or item.name in self.types:
            return
        self.types.add(item.name)
        for other in self.crates:
            owners = self.sources.by_name[other][1]
            for place in [*owners.get(item.name, []), *owners.get(f"trait {item.name}", [])]:
                of = place[2]
                of_others = of.owner != item.name and any(of.owner in self.sources.by_name[it][0] for it in self.crates)
                if of.kind == "impl" and not of_others or of.kind == "method" and of.name in self.said:
                    self.take(*place)

    def take_definition(self, crate, file, name):
        """Takes a declaration of specs/ or proofs/."""
        its = self.sources.definitions[crate][file]
        if (crate, file, name) not in self.found:
            self.found[crate, file, name] = its.items[name]
            self.left.append((crate, file, its.words[name]))

    def take_from(self, module, name):
        """Takes what a module of the logic has under a name: a declaration, or what is made of an item of src/."""
        parts = module.split(".")
        if parts[0] != "Rattle" or len(parts) < 3 or parts[1] not in self.crates:
            return
        crate, file, inner = parts[1], "/".join(parts[2:]), parts[3:]
        its = self.sources.definitions[crate].get(file)
        if its and its.having(name):
            for it in its.having(name):
                self.take_definition(crate, file, it)
            return
        names, owners, _ = self.sources.by_name[crate]
        for word in {*inner, name}:
            places = [*names.get(word, []), *(place for owner in inner for place in owners.get(owner, []) if place[2].name == word)]
            for place in places:
                self.take(*place)

    def take_tactics(self, crate, names):
        """Takes lemmas and definitions that a tactic names by their path."""
        for other in self.crates:
            if other in names or other == crate and "crate" in names:
                for file, its in self.sources.definitions[other].items():
                    if names.issuperset(file.split("/")):
                        for it in names.intersection(its.items):
                            self.take_definition(other, file, it)


@functools.cache
def judge():
    """What says whether a wrong body is refused: the kit's logic, HANDLES, and the files of this gate that decide."""
    files = [pathlib.Path(refusals.__file__), pathlib.Path(kit.__file__), TOP / "HANDLES"]
    return sum_of(kit.logic(), [it.read_text() for it in files])


def held(sources, edit, crate):
    """What the digest of a wrong body holds, beside the judge and the edit."""
    path, name = edit.path, None
    if edit.function is not None and not edit.alone:
        name = refusals.own_name(edit.function, sources.texts[crate][path].split("\n"))
    reached = sources.reached(crate, path, name) if name else None
    lines = [(it, sources.lines[it]) for it in [crate, *sources.below(crate)]]
    return lines, sorted(reached.items()) if reached is not None else sources.whole(crate)


def digest(sources, edit, crate, text):
    """The digest of what the refusal of a wrong body rests on; `text` is that of its file."""
    return sum_of(judge(), text, held(sources, edit, crate))


# What is changed in which crate and file, a text that stands there once and what comes in its place; a wrong body; and whether that has to be tried again.
CHANGES = [
    ("its body", "jwt_request", "src/urls/url.rt", "    if len == 0 || ", "    if len <= 0 || ", "empty_host_taken", True),
    ("another body", "jwt_request", "src/urls/url.rt", "    if len == 0 || ", "    if len <= 0 || ", "empty_port_taken", False),
    ("a contract of what it calls", "jwt_request", "src/urls/kind.rt", "ensures value { result ≡ run self octets.now }", "ensures value { run self octets.now ≡ result }", "scheme_behind_a_slash", True),
    ("a contract of what it doesn't call", "jwt_request", "src/urls/kind.rt", "ensures value { result ≡ suffix_len (is_of self) octets.now }", "ensures value { suffix_len (is_of self) octets.now ≡ result }", "scheme_behind_a_slash", False),
    ("a definition that its contract cites", "jwt_request", "specs/urls/Urls.antt", "is_of First c = not (c == 58 || c == 47 || c == 63)", "is_of First c = not (c == 58 || c == 47)", "scheme_behind_a_slash", True),
    ("a comment", "jwt_text", "src/lib.rt", "#![tactic(auto)]", "#![tactic(auto)]\n// a comment", "one_octet_more", False),
    ("a constant of a crate below", "jwt_text", "src/limits.rt", "LONGEST_KEY_SET: u32 = 4_194_304", "LONGEST_KEY_SET: u32 = 4_194_305", "one_octet_more", True),
]


def changed(sources, crate, path, old, new):
    """The sources with one text in place of another; None where it doesn't stand there once."""
    text = sources.texts[crate].get(path, "")
    if text.count(old) != 1:
        return None
    return Sources({**sources.texts, crate: {**sources.texts[crate], path: text.replace(old, new)}}, sources.lines)


def edit_of(crate, name):
    """A wrong body, and the text of its file."""
    file = TOP / "crates" / crate / "wrong" / f"{name}.edit"
    return refusals.read_edit(file, TOP / "crates" / crate), file.read_text()


def tried():
    """Tries each change of CHANGES, and says how many came out as they have to."""
    failed = 0
    for what, crate, path, old, new, of, again in CHANGES:
        sources, (edit, text) = here("jwt_request"), edit_of("jwt_request", of)
        now = changed(sources, crate, path, old, new)
        came = None if now is None else digest(now, edit, "jwt_request", text) != digest(sources, edit, "jwt_request", text)
        if came is not again:
            failed += 1
            print(f"rests: {what}, of {of}: {'the text is gone' if came is None else 'tried again' if came else 'not tried again'}")
    print(f"{len(CHANGES) - failed} passed, {failed} failed")
    return 1 if failed else 0


def main():
    """Prints what wrong bodies rest on, or tries changes."""
    if not sys.argv[1:]:
        return tried()
    for it in sys.argv[1:]:
        crate, _, name = it.partition("/")
        sources = here(crate)
        edit, text = edit_of(crate, name)
        lines, its = held(sources, edit, crate)
        print(f"{it}: {digest(sources, edit, crate, text)}, {len(its)} texts of {len(lines)} crates")
        for key, text in its:
            print("  ", key[0], key[1], key[2].split("\n")[0][:90])
    return 0


if __name__ == "__main__":
    sys.exit(main())
