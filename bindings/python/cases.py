"""cases.py [-remember] FILE: answers each case of a table that tests/cases/make wrote, and with -remember each of them after the token was
judged before. tests/cases/README.md says what a line is."""
import dataclasses
import json
import sys
from typing import Optional, Union

from fowharimu import Access, AccessRefused, CeilingReached, ClaimsRefused, Denied, FormRefused, FowharimuError, IssueRefused, KeysRefused, PolicyRefused, Report, SignatureRefused, TooLong, Validator

PARTS = {None: 0, "payload": 1, "protected": 2, "signature": 3}
STATES = {"barred": 1, "no key": 2, "bad signature": 3, "verified": 4, "not reached": 5, "stopped": 6}
KINDS = {PolicyRefused: "policy", KeysRefused: "keys", TooLong: "text", FormRefused: "form", CeilingReached: "ceiling", SignatureRefused: "signature"}
KINDS |= {ClaimsRefused: "claims", IssueRefused: "issue", AccessRefused: "access", Denied: "denied"}
ALGORITHMS = {1: "HS256", 2: "HS384", 3: "HS512"}
FORMS = {1: "compact", 2: "general", 3: "flattened"}
# How many tokens of how many octets are remembered.
REMEMBER = (100, 2**20) if "-remember" in sys.argv else (0, 0)
# Faults of claims, for which issuing refuses too.
CLAIM_FAULTS = ("ClaimsShape", "ClaimKind", "ClaimDate")


def octets_of(word: str) -> bytes:
    """The octets that a word of the table spells."""
    return b"" if word == "-" else bytes.fromhex(word)


def spelled(text: Optional[str]) -> str:
    """A text in hexadecimal, and `-` where it is empty or there is none."""
    return text.encode().hex() if text else "-"


def line_of(verdict: str, refusal: Optional[FowharimuError], signature: object, key: object, work: object = 0, states: str = "", tries: str = "", claims: str = "-") -> str:
    """An answer. What a refusal says beside the report has to be the same."""
    fault = "-" if refusal is None else f"{KINDS[type(refusal)]}.{refusal.fault}"
    claim = getattr(refusal, "claim", None) or getattr(refusal, "member", None) or getattr(refusal, "scope", None)
    for name, value in (("signature", signature), ("key", key)):
        if getattr(refusal, name, value) != value:
            raise AssertionError(f"{name} of the refusal and of the report differ")
    fields = [verdict, fault, PARTS[getattr(refusal, "part", None)], signature, key, spelled(claim), work, states, tries, claims]
    return "\t".join(map(str, fields))


def judged(validator: Validator, token: bytes, now: int, access: Optional[Access] = None) -> str:
    """The answer to a token: the report, and the claims as `validate` gives them where the access rule, if any, is met."""
    report: Report = validator.judge(token, now)
    if REMEMBER[0]:
        for moment in (now, max(now - 10**9, -(2**63)), min(now + 10**9, 2**63 - 1)):
            validator.judge(token, moment)
        again = validator.judge(token, now)
        if again.accepted and b"." in token and not again.remembered:
            raise AssertionError("an accepted token isn't remembered")
        report = dataclasses.replace(again, remembered=False)
    states = ",".join(f"{STATES[it.state]}/{it.fault or ''}/{it.key or 0}" for it in report.states)
    tries = ",".join(f"{it.signature}/{it.key}/{it.cost}" for it in report.tries)
    refusal, claims = report.refusal, "-"
    try:
        rule = {} if access is None else {"access": access}
        claims = spelled(json.dumps(validator.validate(token, now, **rule)))
    except Denied as denial:
        if not report.accepted or access is None or denial.scopes != access.scopes:
            raise
        return line_of("denied", denial, report.signature, report.key, report.work, states, tries)
    except FowharimuError as error:
        if type(error) is not type(refusal) or error.args != refusal.args:
            raise
    verdict = "accepted" if report.accepted else "refused"
    return line_of(verdict, refusal, report.signature, report.key, report.work, states, tries, claims)


def denied(validator: Validator, token: bytes, now: int, rule: bytes) -> str:
    """The answer to a token under an access rule, which is read first."""
    try:
        return judged(validator, token, now, Access(rule))
    except AccessRefused as refusal:
        return line_of("refused", refusal, 0, 0)


def issued(validator: Validator, alg: str, form: str, key: str, typ: bytes, claims: bytes) -> str:
    """The answer to claims that are to be issued."""
    try:
        token = validator.issue(claims, int(key), ALGORITHMS[int(alg)], FORMS[int(form)], typ.decode())
    except IssueRefused as refusal:
        line = line_of("refused", refusal, refusal.signature, 0)
        # (the exception is the same for the faults of claims, and doesn't name the claim)
        return line.replace("issue.", "claims.").replace("\t-\t0\t\t\t-", "\t?\t0\t\t\t-") if refusal.fault in CLAIM_FAULTS else line
    return line_of("accepted", None, 0, 0, claims=spelled(token))


def opened(policy: str, keys: str) -> Union[Validator, FowharimuError]:
    """A validator, or why there is none."""
    try:
        return Validator(octets_of(policy), octets_of(keys), remember=REMEMBER)
    except (PolicyRefused, KeysRefused) as refusal:
        return refusal


def answer(validator: Union[Validator, FowharimuError], what: str, words: list[str]) -> str:
    """The answer to a case."""
    if isinstance(validator, FowharimuError):
        return line_of("refused", validator, 0, 0)
    if what == "judge":
        return judged(validator, octets_of(words[1]), int(words[0]))
    if what == "deny":
        return denied(validator, octets_of(words[2]), int(words[0]), octets_of(words[1]))
    return issued(validator, *words[:3], octets_of(words[3]), octets_of(words[4]))


def main() -> None:
    validator: Union[Validator, FowharimuError, None] = None
    with open(sys.argv[-1], encoding="ascii") as table:
        for line in table:
            what, *words = line.split()
            if what == "open":
                validator = opened(*words)
            else:
                print(f"{words[0]}\t{answer(validator, what, words[1:])}")


main()
