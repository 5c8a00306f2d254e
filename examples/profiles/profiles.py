"""The profiles: what each folder beside this file has, and the tokens that are made of it. docs/PROFILES.md lists them.

policy.json and access.json, where there is one, are written by hand, and so is tokens.json: the keys by their algorithms and names, a header, claims, and
each token as a change of these. steps.tsv has a row for each token: the step of the standard that it breaks, what does this step, and the verdict.
"""
from __future__ import annotations

import json
import pathlib
import sys
from typing import Any, Iterator, NamedTuple

HERE = pathlib.Path(__file__).resolve().parent
TOP = HERE.parent.parent
DOCUMENT = TOP / "docs/PROFILES.md"
# The moment of all tokens, that of the cases of tests/cases, in seconds since 1970-01-01T00:00:00Z.
NOW = 1300819379
APPLICATION = "the application: "
# What the library does behind a verdict: with a token that comes twice, by what the call knows, and by what its sender shows.
MEMORY = "a memory of tokens that count once: "
EXPECTED = "what the call expects: "
HOLDER = "who holds the key: "

sys.path.insert(0, str(TOP / "tests/cases"))

from signing import base64url, key_text, sign  # noqa: E402


class Step(NamedTuple):
    """A row of steps.tsv."""

    section: str
    step: str
    by: str
    token: str
    verdict: str


def names() -> list[str]:
    """The names of the profiles."""
    return sorted(it.parent.name for it in HERE.glob("*/policy.json"))


def steps_of(name: str) -> list[Step]:
    """The rows of a profile."""
    _, *rows = (HERE / name / "steps.tsv").read_text().splitlines()
    return [Step(*row.split("\t")) for row in rows]


def rule_of(name: str) -> pathlib.Path | None:
    """The access rule of a profile; None where it has none."""
    path = HERE / name / "access.json"
    return path if path.exists() else None


# ---- tokens


def text_of(value: Any) -> str:
    """A value as base64url of its JSON text."""
    return base64url(json.dumps(value, separators=(",", ":")).encode())


def changed(members: dict[str, Any], change: dict[str, Any]) -> dict[str, Any]:
    """Members with others in their place; one that is null is left out."""
    return {name: it for name, it in {**members, **change}.items() if it is not None}


def encrypted(kid: str) -> str:
    """Five parts, as of a JWE (RFC 7516, section 3.1): its text means nothing."""
    return ".".join([text_of({"alg": "RSA-OAEP-256", "enc": "A256GCM", "kid": kid}), *(base64url(bytes(count)) for count in (256, 12, 64, 16))])


def token(made: dict[str, Any], change: dict[str, Any]) -> str:
    """A token: that of the header and the claims, with a change."""
    if "text" in change:
        return change["text"]
    if "encrypted" in change:
        return encrypted(made["header"]["kid"])
    first = text_of(changed(made["header"], change.get("header", {})))
    second = base64url(change["payload"].encode()) if "payload" in change else text_of(changed(made["claims"], change.get("claims", {})))
    alg, signed, how = made["header"]["alg"], f"{first}.{second}", change.get("signature")
    if how == "none":
        return f"{signed}."
    if how == "of the good token":
        return f"{signed}.{token(made, {}).rpartition('.')[2]}"
    return f"{signed}.{base64url(sign(how or alg, signed.encode()))}"


def key_set(made: dict[str, Any]) -> str:
    """The key set of these algorithms and names."""
    keys = [{**json.loads(key_text(alg)), "kid": kid, "use": "sig", "alg": alg} for alg, kid in made["keys"]]
    return json.dumps({"keys": keys}, indent=2) + "\n"


def made_of(name: str) -> Iterator[tuple[pathlib.Path, str]]:
    """What is made of tokens.json: the key set and each token."""
    made = json.loads((HERE / name / "tokens.json").read_text())
    yield HERE / name / "keys.json", key_set(made)
    for what, change in made["tokens"].items():
        yield HERE / name / "tokens" / f"{what}.jwt", token(made, change)
