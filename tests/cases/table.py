"""The table of cases that callers read, the answers that are stored, and what a caller's answers are compared with."""
import base64
import hashlib
import itertools
import json
import pathlib
from typing import Iterator

import corpus
from harness import hexadecimal

FOLDER = pathlib.Path(__file__).resolve().parent
STORED = FOLDER / "answers.tsv"
FIELDS = ("verdict", "fault", "part", "signature", "key", "claim", "work", "states", "tries", "claims")
# The faults of fowharimu.h that no call can come to, with why.
NEVER = {
    "text.Read": "nothing is read from a stream",
    "signature.NoVerifier": "fow_judge has a verifier for each algorithm",
    "issue.AlgNotHmac": "fow_issue answers FOW_ABSENT",
    "issue.Spent": "32 signatures of 1,048,576 octets cost less than 10^8 octets, and the budget is 10^12",
}
# How many characters of claims are stored; of longer ones the front of their digest is.
LONGEST = 100


def lines_of(cases: list[corpus.Case]) -> Iterator[str]:
    """The table, line by line: a policy and a key set stand before all cases that have them."""
    opened = None
    for case in cases:
        if opened != (case.policy, case.keys):
            opened = (case.policy, case.keys)
            yield f"open {hexadecimal(case.policy)} {hexadecimal(case.keys)}\n"
        if isinstance(case, corpus.Judging):
            yield f"judge {case.name} {case.now} {hexadecimal(case.token)}\n"
        elif isinstance(case, corpus.Denying):
            yield f"deny {case.name} {case.now} {hexadecimal(case.rule)} {hexadecimal(case.token)}\n"
        else:
            yield f"issue {case.name} {case.alg} {case.form} {case.key} {hexadecimal(case.typ)} {hexadecimal(case.claims)}\n"


def group_of(name: str) -> str:
    """The group of a case: the first word of its name."""
    return name.partition("/")[0]


def digests(cases: list[corpus.Case]) -> list[str]:
    """A line for each group, with how many cases it has and their digest: it tells a change of the cases from one of the answers."""
    groups = itertools.groupby(cases, lambda it: group_of(it.name))
    return [f"group\t{name}\t{len(found)}\t{hashlib.sha256(repr(found).encode()).hexdigest()}\n" for name, found in ((name, list(it)) for name, it in groups)]


def shortened(answer: str) -> str:
    """An answer as it is stored."""
    rest, _, claims = answer.rpartition("\t")
    return answer if len(claims) <= LONGEST else f"{rest}\tsha256:{hashlib.sha256(claims.encode()).hexdigest()[:32]}"


def read_answers(text: str) -> dict[str, str]:
    """What a caller says, by the names of the cases. Raises ValueError where it answers a case twice."""
    pairs = [it.split("\t", 1) for it in text.splitlines()]
    answers = {name: answer for name, answer in pairs}
    if len(answers) != len(pairs):
        raise ValueError("a case is answered twice")
    return answers


def rows(cases: list[corpus.Case], answers: dict[str, str]) -> Iterator[str]:
    """The answers as they are stored: cases one after another with the same answer are one row."""
    pairs = [(it.name, shortened(answers[it.name])) for it in cases]
    for (_, answer), found in itertools.groupby(pairs, lambda it: (group_of(it[0]), it[1])):
        names = [name for name, _ in found]
        yield f"{names[0]}\t{len(names)}\t{answer}\n"


def stored(cases: list[corpus.Case]) -> dict[str, str]:
    """The stored answers, by the names of the cases. Raises ValueError where they are of other cases."""
    lines = STORED.read_text().splitlines(keepends=True)
    if [it for it in lines if it.startswith("group\t")] != digests(cases):
        raise ValueError(f"{STORED.name} has the answers to other cases than are made now: look at both, then see tests/cases/README.md")
    places = {it.name: i for i, it in enumerate(cases)}
    answers: dict[str, str] = {}
    for line in lines:
        if not line.startswith("group\t"):
            first, count, answer = line.rstrip("\n").split("\t", 2)
            answers |= {it.name: answer for it in cases[places[first] : places[first] + int(count)]}
    return answers


def faults_of(answers: list[str]) -> set[str]:
    """The names of the faults that these answers speak of, those of signatures that are barred among them."""
    found = set()
    for answer in answers:
        said = dict(zip(FIELDS, answer.split("\t")))
        found.add(said["fault"])
        found |= {f"signature.{it.split('/')[1]}" for it in said["states"].split(",") if it.startswith("1/")}
    return found - {"-"}


def json_line(case: corpus.Case, answer: str) -> str:
    """A case with its answer, as JSON text: `token` where it is a text in UTF-8, and else `token64` in base64, and so for the other octets."""
    members: dict[str, object] = {}
    for name, value in case._asdict().items():
        if isinstance(value, bytes):
            try:
                members[name] = value.decode()
            except UnicodeDecodeError:
                members[name + "64"] = base64.b64encode(value).decode()
        else:
            members[name] = value
    members["answer"] = answer_of(answer)
    return json.dumps(members) + "\n"


def answer_of(answer: str) -> dict[str, object]:
    """An answer with its numbers as numbers, and its names as texts."""
    values: dict[str, object] = dict(zip(FIELDS, answer.split("\t")))
    for name in ("part", "signature", "key", "work"):
        values[name] = int(values[name])
    for name in ("states", "tries"):
        values[name] = [it.split("/") for it in values[name].split(",")] if values[name] else []
    for name in ("claim", "claims"):
        if not values[name].startswith("sha256:"):
            values[name] = None if values[name] == "-" else bytes.fromhex(values[name]).decode()
    return values
