#!/usr/bin/env python3
"""Takes each "Proved:" of include/fowharimu.h apart by call and status, and finds for each a clause of the exported function that has that status: in
the clause, or in a definition of jwt_handles that it cites. What is said without a status is one of the sentences below, and the call has the
clauses that stand beside it. Besides it compares each exported function, clause by clause, with the one of jwt_handles that it calls, whose structs
that are taken by value it spells out. A rough reader
of the layout of `rt fmt`: it finds that a clause is there, and not that it says the same as the header. It ends with 'N passed, M failed', where a call
with a status, a sentence without one, and an exported function count as one."""
import pathlib, re, sys

TOP = pathlib.Path(__file__).resolve().parent.parent
HEADER = (TOP / "include/fowharimu.h").read_text()
# The crate that exports, and the library that it calls.
EXPORTS, LIBRARY = TOP / "crates/jwt_c", TOP / "crates/jwt_handles"
# What is said of a call without a status, or beside one, and the clauses that say it; `CALL.CLAUSE` is one of another call. With `=` it is all
# of the sentence.
SENTENCES = {
    "the other holds what it held": ["another"],
    "holds what it held": ["same"],
    "what is held stays": ["same"],
    "both hold what they held": ["same", "same_rule"],
    "the validator and the proof stay as they are": ["same", "same_proof"],
    "no claims and no payload are kept": ["claims", "payload"],
    "the policy and the key set stay": ["alike"],
    "*report is written for FOW_REFUSED alone": ["unsaid"],
    "what is accepted or refused, and all that *report says of it, is the verdict": ["judged", "verdict"],
    "the validator holds nothing": ["closed"],
    "=nothing is held": ["closed"],
    "it remembers nothing new but its own token": ["fow_judge.remembers"],
    "a verdict is the one that fow_judge's contract says, remembered or not": ["fow_judge.judged"],
    "it is remembered only where the memory holds all octets of the token": ["fow_judge.judged"],
    "it is true only where the memory held all octets of the token": ["remembered", "fow_judge.judged"],
    "is false where nothing is held": ["none"],
    "true exactly where that is so; false where nothing is held": ["public", "none"],
    "true exactly where each octet is a printable one": ["quotable"],
    "the status and the challenge of each scheme are those of the outcome": ["reply"],
    "each 401 has at least one challenge": ["reply"],
    "of any other status it is FOW_UNANSWERED": ["outcome", "known"],
    "nothing has happened so far, and the times are these": ["stands", "times"],
    "keys are named exactly where their fetch began less than max_age ago": ["keys", "stands"],
    "a fetch begins exactly where it is wanted": ["fetch", "stands"],
    "they count, and are those to be used from now on, exactly where that fetch is under way": ["counts", "stands"],
    "it counts exactly where that fetch is under way": ["counts", "stands"],
    "the keys stay as they are": ["stands"],
    "it may wait exactly where that fetch is under way": ["waits", "stands"],
    "it waits from now on, until the fetch ends": ["waits", "stands"],
    "after exactly so many milliseconds more a token that comes begins a fetch": ["due"],
    "for exactly so many milliseconds more the keys are used": ["quiet"],
    "a status of 200 is taken, and none else": ["step", "most"],
    "of 301, 302, 303, 307 and 308 five are followed": ["step"],
    "is asked for exactly where FOW_ASKED_OPENID is answered by 404": ["step"],
    "whoever keeps this time beside the keys asks": ["quiet"],
    "of two that are new for one issuer and `jti` the second has the later `exp`": ["taken"],
    "what counts in the memory stays": ["taken"],
    "the policy for proofs stays": ["held"],
}
# No clause can say that an allocation was refused.
UNSAID = "FOW_OUT_OF_MEMORY"


def definitions():
    """The definitions of jwt_handles by their names, each with its text."""
    found = {}
    for file in LIBRARY.glob("specs/*.antt"):
        for block in re.split(r"\n\s*\n", file.read_text()):
            name = re.search(r"^(?:(?:abbrev|unfoldable) )?(?:pub )?(?:record )?(\w+)", re.sub(r"^--.*\n", "", block, flags=re.MULTILINE))
            if name:
                found[name[1]] = block
    return found


def contracts():
    """The clauses of each exported function: a name, or nothing, with its text."""
    found = {}
    for file in EXPORTS.glob("src/*.rt"):
        for name, contract in re.findall(r'^pub extern "C" fn (\w+)\(.*?\n((?:    ensures .*?)?)^\{', file.read_text(), re.MULTILINE | re.DOTALL):
            found[name] = dict(re.findall(r"^    ensures (\w*) ?\{(.*?)\}$", contract, re.MULTILINE | re.DOTALL))
    return found


def fields():
    """The fields of each struct of the crates that is all in the open, by its name: theirs with their types, in order."""
    found = {}
    for file in sorted(TOP.glob("crates/*/src/**/*.rt")):
        for name, body in re.findall(r"^pub struct (\w+)(?:<'a>)? \{\n((?: +(?:///.*|pub \w+: .*,)?\n)*)\}", file.read_text(), re.MULTILINE):
            found[name] = re.findall(r"^    pub (\w+): (.*),$", body, re.MULTILINE)
    return found


def spelled_out(head, known):
    """What a function takes, answers and promises, where each struct that it takes by value is spelled out as its fields."""
    while True:
        taken = next((it for it in re.finditer(r"\b(\w+): (\w+)(?:<'_>)?(?=[,)])", head) if known.get(it[2])), None)
        if not taken:
            return head
        name, parts = taken[1], known[taken[2]]
        head = head.replace(taken[0], ", ".join(f"{field}: {kind}" for field, kind in parts).replace("'a ", "").replace("<'a>", "<'_>"))
        head = re.sub(rf"\b{name}\.(?:entry\.)?(?=(?:{'|'.join(field for field, _ in parts)})\b)", "", head)
        head = re.sub(rf"(?<!ensures )(?<![.\w]){name}(?![.\w:])", f"record {{ {'; '.join(f'{field} = {field}' for field, _ in parts)} }}", head)


def heads(folder):
    """What each public function of a crate takes, answers and promises, in a line, by its file and name; and the function of another file that it calls,
    where it is one call."""
    known = fields()
    for file in sorted(folder.glob("src/*.rt")):
        found = re.findall(r'^pub (?:extern "C" )?fn (\w+)(\(.*?)^\{\n(.*?)^\}', file.read_text(), re.MULTILINE | re.DOTALL)
        for name, head, body in found:
            called = re.search(r"^    (\w+::\w+)\(", body, re.MULTILINE)
            line = " ".join(head.split()).replace("( ", "(").replace(", )", ")").replace("; }", " }")
            yield f"{file.stem}::{name}", spelled_out(line, known), called and called[1]


def unlike():
    """Each exported function, and whether it takes, answers and promises other than the one that it calls."""
    known = {name: head for name, head, _ in heads(LIBRARY)}
    for name, head, called in heads(EXPORTS):
        yield name, known.get(called) != head


def spread(clause, known):
    """A clause with all definitions that it rests on."""
    texts, todo, seen = [clause], [clause], set()
    while todo:
        for name in set(re.findall(r"\w+", todo.pop())) & known.keys() - seen:
            seen.add(name)
            texts.append(known[name])
            todo.append(known[name])
    return "\n".join(texts)


def said():
    """What the header says of each declared call, and what of that is proved."""
    for comment, name in re.findall(r"/\*((?:(?!\*/).)*)\*/\n(?:const )?\w+ \*?(fow_\w+)\(", HEADER, re.DOTALL):
        paragraphs = [re.sub(r"\s+", " ", it) for it in re.sub(r"\n \* ?", "\n", comment).split("\n\n")]
        proved = [it[it.index("Proved") :] for it in paragraphs if "Proved" in it]
        yield name, " ".join(paragraphs), " ".join(proved)


def sentences(proved):
    """The sentences of what is proved, without what is said in parentheses to be tested."""
    text = re.sub(r"\([^()]*tested\.?\)", "", re.sub(r"^Proved:?(?: as with fow_\w+\.)?", "", proved)).strip()
    return [it.strip(" .") for it in re.split(r"\.(?= |$)", text) if it.strip(" .")]


class Judge:
    """Counts what is said, and says what has no clause."""

    def __init__(self):
        self.known, self.clauses = definitions(), contracts()
        enum = re.search(r"enum fow_status \{(.*?)\};", HEADER, re.DOTALL)[1]
        self.statuses = re.findall(r"\b(FOW_\w+) =", enum)
        self.passed, self.failed = 0, 0

    def count(self, holds, words):
        """Counts one, and says what is wrong with it."""
        self.passed += holds
        self.failed += not holds
        if not holds:
            print(f"include/fowharimu.h: {words}")

    def has(self, call, clause):
        """Whether the call, or the other one that is named, has a clause of that name."""
        other, _, name = clause.rpartition(".")
        return name in self.clauses.get(other or call, {})

    def speaks_of(self, call, status, never):
        """Whether a clause of the call has the status: that it is answered, or within what is, or never."""
        sign = "≢" if never else "[≡≤]"
        bound = "|≤ FOW_REFUSED" if status in ("FOW_OK", "FOW_REFUSED") else ""
        return any(re.search(rf"{sign} (?:bare )?{status}\b{bound}", spread(it, self.known)) for it in self.clauses.get(call, {}).values())

    def sentence(self, call, words):
        """Judges one sentence."""
        if UNSAID in words:
            return self.count(False, f"{call}: no clause says why {UNSAID} is answered: {words}")
        folded = words[0].lower() + words[1:]
        hit = next((it for it in SENTENCES if it in words or it in folded or it == f"={folded}"), None)
        named = [it for it in self.statuses if re.search(rf"\b{it}\b", words)]
        if hit:
            lacking = [it for it in SENTENCES[hit] if not self.has(call, it)]
            self.count(not lacking, f"{call}: no clause {', '.join(lacking)} for: {words}")
        for status in named:
            self.count(self.speaks_of(call, status, "never answers" in words), f"{call}: no clause has {status}: {words}")
        if not hit and not named:
            self.count(False, f"{call}: nothing says which clauses say: {words}")

    def call(self, name, line, proved):
        """Judges all that is said of a call. What is C is said to be."""
        if name not in self.clauses:
            return self.count("It is C, and tested" in line, f"{name}: it isn't exported by jwt_c, and isn't said to be C")
        self.count(bool(proved), f"{name}: nothing is said to be proved of it")
        for it in proved:
            self.sentence(name, it)


def main():
    """Judges the header."""
    judge, all_said = Judge(), list(said())
    texts = {name: proved for name, _, proved in all_said}
    for name, line, proved in all_said:
        as_with = re.match(r"Proved:? as with (fow_\w+)\.", proved)
        judge.call(name, line, [*sentences(texts[as_with[1]] if as_with else ""), *sentences(proved)])
    for name in sorted(judge.clauses.keys() - texts.keys()):
        judge.count(False, f"{name}: it is exported, and isn't declared")
    for name, is_unlike in unlike():
        judge.count(not is_unlike, f"{name}: its clauses aren't those of the function of jwt_handles that it calls")
    print(f"{judge.passed} passed, {judge.failed} failed")
    return judge.failed > 0


if __name__ == "__main__":
    sys.exit(main())
