"""The cases that a library is asked too, and why what it accepts is refused here: in words, with the section of the RFC."""
from __future__ import annotations

import base64
import json
import pathlib
import re
import sys
from typing import Iterator, NamedTuple

from cryptography.hazmat.primitives import serialization
from cryptography.hazmat.primitives.asymmetric import ec, ed25519, rsa

TOP = pathlib.Path(__file__).resolve().parent.parent.parent
sys.path.insert(0, str(TOP / "tests/cases"))

import corpus
import table
from harness import hexadecimal, octets_of

# The groups whose cases are a token with one key. The other groups are of documents and ceilings that no other library has.
GROUPS = ("octets", "parts", "forms", "signatures", "headers", "claims", "profiles")
CURVES = {"P-256": ec.SECP256R1, "P-384": ec.SECP384R1, "P-521": ec.SECP521R1}
BASE64URL = re.compile(rb"[A-Za-z0-9_-]*")


class Question(NamedTuple):
    """A case that a library can be asked, with the stored answer."""

    case: corpus.Judging | corpus.Denying
    policy: dict
    kind: str
    key: bytes
    answer: dict[str, str]


def number_of(text: str) -> int:
    return int.from_bytes(octets_of(text), "big")


def key_of(jwk: dict) -> tuple[str, bytes]:
    """The key as a library takes it: a secret, or a public key in PEM. Raises ValueError where there is none."""
    if jwk["kty"] == "oct":
        return "secret", octets_of(jwk["k"])
    if jwk["kty"] == "RSA":
        key = rsa.RSAPublicNumbers(number_of(jwk["e"]), number_of(jwk["n"])).public_key()
    elif jwk["kty"] == "EC":
        key = ec.EllipticCurvePublicNumbers(number_of(jwk["x"]), number_of(jwk["y"]), CURVES[jwk["crv"]]()).public_key()
    elif jwk["crv"] == "Ed25519":
        key = ed25519.Ed25519PublicKey.from_public_bytes(octets_of(jwk["x"]))
    else:
        raise ValueError(jwk["crv"])
    return "pem", key.public_bytes(serialization.Encoding.PEM, serialization.PublicFormat.SubjectPublicKeyInfo)


def questions() -> Iterator[Question]:
    """The cases of one key, at the moment of most, whose policy and key set aren't refused."""
    cases = corpus.all_cases()
    answers = table.stored(cases)
    for case in cases:
        if case.name.partition("/")[0] not in GROUPS or isinstance(case, corpus.Issuing) or case.now != corpus.NOW:
            continue
        answer = dict(zip(table.FIELDS, answers[case.name].split("\t")))
        if answer["fault"].startswith(("policy.", "keys.", "access.")):
            continue
        policy, keys = json.loads(case.policy), json.loads(case.keys)["keys"]
        if len(keys) != 1 or any(len(policy.get(it, [])) > 1 for it in ("issuers", "audiences")) or "" in policy.get("required", []):
            continue
        try:
            yield Question(case, policy, *key_of(keys[0]), answer)
        except ValueError:
            continue


def line_of(it: Question) -> str:
    """A question as a library's program reads it."""
    one = lambda name: hexadecimal("".join(it.policy.get(name, [])).encode())
    required = ",".join(name.encode().hex() for name in it.policy.get("required", [])) or "-"
    fields = (it.case.name, ",".join(it.policy["algs"]), it.kind, it.key.hex(), one("issuers"), one("audiences"), required)
    return "\t".join((*fields, str(it.policy.get("leeway", 0)), hexadecimal(it.case.token))) + "\n"


# ---- why


class Why(NamedTuple):
    """Why a token is refused here: in words, the section that asks for it, and what stands in the policy or what an issuer changes."""

    what: str
    section: str
    here: str


MUST = "always"
DATES = {"exp": "4.1.4", "nbf": "4.1.5", "iat": "4.1.6"}
CLAIM_SECTIONS = {"iss": "4.1.1", "sub": "4.1.2", "aud": "4.1.3", **DATES, "jti": "4.1.7"}
STRICTER = "**stricter**: "


def has_name_twice(octets: bytes) -> bool:
    """Whether it is JSON text in which a name stands twice."""
    found = []

    def look(pairs: list[tuple[str, object]]) -> dict:
        found.append(len(dict(pairs)) < len(pairs))
        return dict(pairs)

    try:
        json.loads(octets.decode(), object_pairs_hook=look)
    except (ValueError, RecursionError):
        return False
    return any(found)


def why_not_base64(part: bytes) -> Why:
    """Why a part is no base64url."""
    if b"=" in part:
        return Why("padding in a part", "RFC 7515, 2", MUST)
    if not BASE64URL.fullmatch(part):
        return Why("a character that base64url doesn't have", "RFC 4648, 3.3 and 5", MUST)
    if len(part) % 4 == 1:
        return Why("a number of characters that spells no bytes", "RFC 4648, 4", MUST)
    return Why("spare bits of the last character of a part that aren't zero", "RFC 4648, 3.5", STRICTER + "a second spelling of the same bytes; the issuer's encoder writes zeros")


def why_no_object(octets: bytes, what: str, section: str, unique: str) -> Why:
    """Why the octets are no header, or no claims."""
    if has_name_twice(octets):
        return Why(f"a name that stands twice in the {what}", unique, STRICTER + "the RFC lets a reader take the last; the issuer writes each name once")
    try:
        text = octets.decode()
    except UnicodeDecodeError:
        return Why(f"other bytes than UTF-8 in the {what}", section, MUST)
    if text.startswith("\ufeff"):
        return Why(f"a byte order mark before the {what}", "RFC 8259, 8.1", STRICTER + "the RFC lets a reader skip it; the issuer writes none")
    if re.search(r"\\u[dD][89a-fA-F]", text) or re.search("[\ud800-\udfff]", text):
        return Why(f"half of a surrogate pair in the {what}", "RFC 8259, 8.2", STRICTER + "it is no text in UTF-8; the issuer writes whole characters")
    if re.search(r"\[{100}", text):
        return Why(f"more than 127 levels in the {what}", "RFC 8259, 9", STRICTER + "the RFC lets a reader set a limit")
    try:
        isn_object = not isinstance(json.loads(text), dict)
    except ValueError:
        isn_object = True
    if isn_object or re.search(r"\b(NaN|Infinity)\b", text):
        return Why(f"no JSON object in place of the {what}", section, MUST)
    return Why(f"a number in the {what} that no float of 64 bits has", "RFC 8259, 6", STRICTER + "the RFC lets a reader set limits")


SIGNATURE = {
    "AlgMissing": Why("no `alg`, or one that is no text", "RFC 7515, 4.1.1", MUST),
    "AlgNone": Why("`alg` is `none`", "RFC 8725, 3.1", MUST),
    "AlgUnknown": Why("an unknown `alg`", "RFC 8725, 3.1", MUST),
    "AlgNotAllowed": Why("an `alg` that isn't among those allowed", "RFC 8725, 3.1", "policy `algs`"),
    "KeyUrl": Why("`jku` or `x5u` in the header", "RFC 8725, 3.10", STRICTER + "a key is never fetched, and such a header is refused; the issuer leaves it out"),
    "EncHeader": Why("`enc` in the header of a signed token", "RFC 7516, 9", STRICTER + "it is a JWE's; the issuer leaves it out"),
    "Unencoded": Why("`b64` in the header", "RFC 7797, 6 and 7", STRICTER + "payloads are always encoded; the issuer leaves it out"),
    "CritShape": Why("a `crit` that is empty, no list, doubled, or names what isn't there", "RFC 7515, 4.1.11", MUST),
    "CritUnknown": Why("a `crit` that names an extension that isn't understood", "RFC 7515, 4.1.11", "policy `understood`"),
    "TypShape": Why("a `typ` or `cty` that is no text", "RFC 7515, 4.1.9 and 4.1.10", MUST),
    "TypMismatch": Why("another `typ` than is asked for", "RFC 8725, 3.11", "policy `typ`"),
    "Nested": Why("`cty` is `JWT`: a token within a token", "RFC 7519, 7.2, step 8", STRICTER + "what is inside isn't judged; the issuer signs claims"),
    "KidShape": Why("a `kid` that is no text", "RFC 7515, 4.1.4", MUST),
    "KidMissing": Why("no `kid`", "RFC 7515, 4.1.4", "policy `need_kid`"),
    "BadSignature": Why("a signature that isn't the key's", "RFC 7515, 5.2, step 8", MUST),
}


def why_no_key(it: Question) -> Why:
    """Why the key isn't one for the token."""
    if it.kind == "secret" and len(it.key) < 32:
        return Why("a secret that is shorter than the digest", "RFC 7518, 3.2", MUST)
    return Why("a `kid` that isn't the key's", "RFC 7515, 4.1.4", "key set: a `kid` there is compared")


def part_of(token: bytes, place: int) -> bytes:
    """A part of a token in compact form."""
    parts = token.split(b".")
    return parts[place] if place < len(parts) else b""


def decoded(part: bytes) -> bytes:
    return base64.urlsafe_b64decode(part + b"=" * (-len(part) % 4))


def why(it: Question) -> Why:
    """Why the token is refused here."""
    kind, _, name = it.answer["fault"].partition(".")
    token = it.case.token
    if name == "Base64":
        return why_not_base64(part_of(token, {"1": 1, "2": 0, "3": 2}[it.answer["part"]]))
    if name == "Header":
        return why_no_object(decoded(part_of(token, 0)), "header", "RFC 7519, 7.2, step 4", "RFC 7515, 4")
    if name == "ClaimsShape":
        return why_no_object(decoded(part_of(token, 1)), "claims", "RFC 7519, 7.2, step 10", "RFC 7519, 4")
    if kind == "signature":
        return why_no_key(it) if name == "NoKey" else SIGNATURE[name]
    if kind == "claims":
        return why_not_claims(name, bytes.fromhex(it.answer["claim"].replace("-", "")).decode())
    if kind == "denied":
        return Why("claims that don't meet the access rule", "RFC 6750, 3.1", "access rule")
    if kind == "ceiling":
        return Why("more work or tries than are allowed", "RFC 8725, 3.2", "policy `work`, `max_calls`")
    if token[:1] in (b"{", b" ", b"\t", b"\n", b"\r"):
        return Why("a token with white space before it, or in JSON form", "RFC 7515, 7.1", MUST)
    return Why("another number of parts than three", "RFC 7515, 7.1", MUST)


def why_not_claims(name: str, claim: str) -> Why:
    """Why the claims aren't as the policy asks, by the fault and the claim that it names."""
    section = f"RFC 7519, {CLAIM_SECTIONS.get(claim, '4')}"
    if name == "ClaimKind":
        return Why(f"{'a' if claim[0] in 'js' else 'an'} `{claim}` of another kind", section, MUST)
    if name == "ClaimDate":
        return Why(f"a date `{claim}` with a fraction, an exponent, or beyond 64 bits", "RFC 7519, 2", STRICTER + "the RFC lets a date have a fraction; the issuer writes whole seconds")
    if name == "ClaimMissing":
        return Why("a claim that is asked for isn't there", "RFC 7519, 4.1", "policy `required`, `max_age`")
    return {
        "Issuer": Why("another `iss`, or none", "RFC 8725, 3.8", "policy `issuers`"),
        "Audience": Why("another `aud`, or one where none is expected", "RFC 7519, 4.1.3", "policy `audiences`"),
        "Expired": Why("`exp` is now or before", "RFC 7519, 4.1.4", MUST + ", policy `leeway`"),
        "NotYet": Why("`nbf` is later than now", "RFC 7519, 4.1.5", MUST + ", policy `leeway`"),
        "IssuedLater": Why("`iat` is later than now", "RFC 7519, 4.1.6", "policy `max_age`"),
        "TooOld": Why("`iat` is too long ago", "RFC 7519, 4.1.6", "policy `max_age`"),
    }[name]
