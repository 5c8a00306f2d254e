"""Why something is refused: an exception for each kind.

They are plain exceptions, whose arguments are their attributes in order: so they pass through `contextlib`, take notes, and are copied and
pickled as any other.
"""

from __future__ import annotations

from typing import Mapping, Optional, Tuple

from . import _meanings


def _named(fault: str, meanings: Mapping[str, str]) -> str:
    """The name of a fault, and what it means, where that is told."""
    meaning = meanings.get(fault)
    return fault if meaning is None else f"{fault} ({meaning})"


class FowharimuError(Exception):
    """Something was refused."""


class Closed(FowharimuError):
    """The validator was closed: nothing is said of the token."""

    def __str__(self) -> str:
        return "the validator is closed"


class AnotherLibrary(FowharimuError):
    """The library that was loaded has another interface than this package was made for. `made_for` and `loaded` are the numbers of the two,
    FOW_ABI in fowharimu.h; `loaded` is None of a library that has no number yet. `version` is the library's, where it tells one."""

    def __init__(self, made_for: int, loaded: Optional[int], version: Optional[str] = None) -> None:
        super().__init__(made_for, loaded, version)
        self.made_for = made_for
        self.loaded = loaded
        self.version = version

    def __str__(self) -> str:
        if self.loaded is None:
            return f"the library has no number of its interface yet, and this package was made for {self.made_for}"
        return f"the library {self.version} has interface {self.loaded}, and this package was made for {self.made_for}"


class PolicyRefused(FowharimuError):
    """The policy is refused. `fault` is the name that the program `jwt` prints, such as `Member`; `member` the name of the member that it
    speaks of, where it speaks of one."""

    def __init__(self, fault: str, member: Optional[str] = None) -> None:
        super().__init__(fault, member)
        self.fault = fault
        self.member = member

    def __str__(self) -> str:
        return f"the policy is refused: {_named(self.fault, {**_meanings.POLICY, **_meanings.PROOF})}" + (f": {self.member!r}" if self.member is not None else "")


class KeysRefused(FowharimuError):
    """The key set is refused. `fault` is the name that the program `jwt` prints, such as `NotKeySet`."""

    def __init__(self, fault: str) -> None:
        super().__init__(fault)
        self.fault = fault

    def __str__(self) -> str:
        return f"the key set is refused: {_named(self.fault, _meanings.KEYS)}"


class AccessRefused(FowharimuError):
    """The access rule is refused. `fault` is the name that the program `jwt` prints, such as `ClaimRange`; `member` the name of the member, or of
    the claim, that it speaks of, where it speaks of one."""

    def __init__(self, fault: str, member: Optional[str] = None) -> None:
        super().__init__(fault, member)
        self.fault = fault
        self.member = member

    def __str__(self) -> str:
        return f"the access rule is refused: {_named(self.fault, _meanings.ACCESS)}" + (f": {self.member!r}" if self.member is not None else "")


class Denied(FowharimuError):
    """The token is accepted, and its claims don't meet the access rule: a service answers 403 to this, and 401 to TokenRefused.

    `fault` is `ScopeMissing`, `ClaimMissing`, `ClaimNotAllowed` or another of docs/ACCESS.md; `scope` the scope that isn't granted, or else `claim` the name of the claim;
    `scopes` are all that the rule asks for: joined by spaces, the `scope` of a challenge that says insufficient_scope (RFC 6750, section 3.1).
    """

    def __init__(self, fault: str, scope: Optional[str], claim: Optional[str], scopes: Tuple[str, ...]) -> None:
        super().__init__(fault, scope, claim, scopes)
        self.fault = fault
        self.scope = scope
        self.claim = claim
        self.scopes = scopes

    def __str__(self) -> str:
        name = self.claim if self.scope is None else self.scope
        return f"the token is denied: {_named(self.fault, _meanings.DENIED)}: {name!r}"


class TokenRefused(FowharimuError):
    """The token is refused. `fault` is the name that the program `jwt` prints, such as `Expired`."""

    # by what a guard answers, the number of enum fow_outcome: FOW_NOT_ACCEPTED, where the library doesn't say another of a proof
    _outcome = 5

    def __init__(self, fault: str, *others: object) -> None:
        super().__init__(fault, *others)
        self.fault = fault

    def __str__(self) -> str:
        return f"the token is refused: {_named(self.fault, _meanings.TOKEN)}"


class NotTaken(TokenRefused):
    """The token is accepted, and counts once. `fault` is `Seen`: it was taken before; `Late`: its `exp` and the leeway have passed by the greatest moment
    that was judged at; `Full`: as many tokens are held as there is room for; `NoId`, `NoEnd`: it has no `jti`, or no `exp`; `Ahead`: its `iat`
    is further ahead of now than the leeway; `OwnFull`: its issuer and `sub` have as many as one owner may; `Before`: it was issued before the memory was
    opened, or says no `iat`."""

    def __str__(self) -> str:
        why = "it was issued before this memory was opened" if self.fault == "Before" else self.fault
        return f"the token counts once, and isn't taken: {why}"


class NotExpected(TokenRefused):
    """The token is accepted, and isn't the one that was expected. `claim` is the first that isn't as it has to be: `fault` is `Absent`, or `Other`, where it is
    there and is another text or no text."""

    def __init__(self, fault: str, claim: str) -> None:
        super().__init__(fault, claim)
        self.claim = claim

    def __str__(self) -> str:
        return f"the token isn't what was expected: {self.fault}: {self.claim!r}"


class NotHeld(TokenRefused):
    """The token is accepted, and its sender hasn't shown that the key is theirs that it is bound to. `fault` is why the proof is none for this request, such as `OtherUri`
    (docs/POSSESSION.md); `OtherCertificate`: it isn't bound to this certificate, or is bound to one that wasn't shown; `OtherKey`: it is bound to a key as well;
    `Unknown`: it is bound in a way that isn't known; `Bound`: it is bound, and came without any."""

    def __str__(self) -> str:
        return f"the sender of the token doesn't hold its key: {_named(self.fault, {**_meanings.TOKEN, **_meanings.BINDING, **_meanings.PROOF})}"


class TooLong(TokenRefused):
    """The token has more octets than the policy's `limit`."""


class FormRefused(TokenRefused):
    """The octets are no signed token. `part` is `payload`, `protected`, `signature` or None; `signature` a number from 0."""

    def __init__(self, fault: str, part: Optional[str], signature: int) -> None:
        super().__init__(fault, part, signature)
        self.part = part
        self.signature = signature


class CeilingReached(TokenRefused):
    """The policy's `work` or `max_calls` was reached before this key was tried on this signature, both numbered from 0."""

    def __init__(self, fault: str, signature: int, key: int) -> None:
        super().__init__(fault, signature, key)
        self.signature = signature
        self.key = key


class SignatureRefused(TokenRefused):
    """The signature of this number, from 0, isn't verified."""

    def __init__(self, fault: str, signature: int) -> None:
        super().__init__(fault, signature)
        self.signature = signature


class ClaimsRefused(TokenRefused):
    """The claims are refused; `claim` is the name of the claim that the fault speaks of, where it speaks of one."""

    def __init__(self, fault: str, claim: Optional[str]) -> None:
        super().__init__(fault, claim)
        self.claim = claim

    def __str__(self) -> str:
        return super().__str__() + (f": {self.claim!r}" if self.claim is not None else "")


class Unreadable(TokenRefused):
    """The JSON text of the claims, or of a header, has what Python's `json` doesn't take, such as a whole number of more digits than
    `sys.get_int_max_str_digits` allows. `octets` is that text. Of claims the library has accepted them; it takes no such number today,
    since that is infinite as a float."""

    def __init__(self, fault: str, octets: bytes) -> None:
        super().__init__(fault, octets)
        self.octets = octets


class IssueRefused(FowharimuError):
    """Nothing is issued. `fault` is the name that the program `jwt` prints; `signature` the signature that it speaks of, from 0."""

    def __init__(self, fault: str, signature: int) -> None:
        super().__init__(fault, signature)
        self.fault = fault
        self.signature = signature

    def __str__(self) -> str:
        return f"nothing is issued: {_named(self.fault, {**_meanings.TOKEN, **_meanings.ISSUE})}"
