"""Validates JSON Web Tokens (RFC 7519) by a library that is proved correct. Public-key signatures are verified by its proved
verifiers.

    from fowharimu import TokenRefused, Validator

    with Validator(policy, keys) as validator:
        try:
            claims = validator.validate(token)
        except TokenRefused as refusal:
            ...
"""

from __future__ import annotations

import ctypes
import json
import operator
import sys
import time
from dataclasses import dataclass
from types import TracebackType
from typing import Any, Dict, List, NoReturn, Optional, SupportsIndex, Tuple, Type, Union

from . import _expected, _library, _possession
from ._access import NO_RULE, Access, Rule, checked
from ._dpop import DPoP
from ._expected import NOTHING, Expected
from ._faults import (
    AccessRefused,
    AnotherLibrary,
    CeilingReached,
    ClaimsRefused,
    Closed,
    Denied,
    FormRefused,
    FowharimuError,
    IssueRefused,
    KeysRefused,
    NotExpected,
    NotHeld,
    NotTaken,
    PolicyRefused,
    SignatureRefused,
    TokenRefused,
    TooLong,
    Unreadable,
)
from ._once import Once, OnceEntry, OnceStore, asks_store, once_of
from ._possession import ANYONE, UNBOUND, Certificate, Holder, Nonces, Proof, Proofs
from ._seats import SHORT, Seat, Seats, said, written
from ._texts import Document, Text, document_of, octets_of

__all__ = [
    "Access",
    "AccessRefused",
    "AnotherLibrary",
    "CeilingReached",
    "Certificate",
    "Claims",
    "ClaimsRefused",
    "Closed",
    "DPoP",
    "Denied",
    "Expected",
    "FormRefused",
    "FowharimuError",
    "IssueRefused",
    "KeysRefused",
    "Holder",
    "NotExpected",
    "NotHeld",
    "NotTaken",
    "Nonces",
    "Once",
    "OnceEntry",
    "OnceStore",
    "PolicyRefused",
    "Proof",
    "Proofs",
    "Report",
    "SignatureRefused",
    "SignatureState",
    "TokenRefused",
    "TooLong",
    "Try",
    "UNBOUND",
    "Unreadable",
    "Validator",
]

Claims = Dict[str, Any]

# What json.loads calls of a text, after a look at its other arguments.
_decoder = json.JSONDecoder()

_PARTS = {1: "payload", 2: "protected", 3: "signature"}
_STATES = {1: "barred", 2: "no key", 3: "bad signature", 4: "verified", 5: "not reached", 6: "stopped"}
_CLAIMS = {1: "iss", 2: "sub", 3: "aud", 4: "exp", 5: "nbf", 6: "iat", 7: "jti"}
_FORMS = {"compact": 1, "general": 2, "flattened": 3}
_HMAC = {"HS256": 1, "HS384": 2, "HS512": 3}


@dataclass(frozen=True)
class SignatureState:
    """What became of a signature: `fault` where it is barred, `key` where that key verified it."""

    state: str
    fault: Optional[str]
    key: Optional[int]


@dataclass(frozen=True)
class Try:
    """The try of a key on a signature, and the octets that it fed to HMAC: 0 for a public key."""

    signature: int
    key: int
    cost: int


@dataclass(frozen=True)
class Report:
    """All that is said of a token. `refusal` is why it isn't accepted, and None where it is. Of a token that is `remembered` nothing was tried and
    nothing paid: `work` and `tries` are those of the judging that accepted it."""

    refusal: Optional[TokenRefused]
    signature: int
    key: int
    work: int
    states: List[SignatureState]
    tries: List[Try]
    remembered: bool = False

    @property
    def accepted(self) -> bool:
        """Whether the token is accepted."""
        return self.refusal is None


def _number(number: SupportsIndex, what: str, least: int, greatest: int) -> int:
    """A whole number in its range. Raises TypeError and ValueError: it is never wrapped."""
    value = operator.index(number)
    if not least <= value <= greatest:
        raise ValueError(f"{what} has to be from {least} to {greatest}")
    return value


def _moment(now: Optional[SupportsIndex]) -> int:
    if now is None:
        return time.time_ns() // 1_000_000_000
    return now if type(now) is int and -(2**63) <= now < 2**63 else _number(now, "now", -(2**63), 2**63 - 1)


def _object(text: str, what: str) -> Dict[str, Any]:
    """The object that a JSON text spells. Raises Unreadable where Python's `json` doesn't take it, though the library does."""
    try:
        # (the library has read the whole text: what stands behind the object is white space, which need not be looked at once more)
        members: Dict[str, Any] = _decoder.raw_decode(text)[0] if text.startswith("{") else _decoder.decode(text)
    except ValueError:
        raise Unreadable(what, text.encode()) from None
    return members


def _is_hmac_alone(policy: bytes) -> bool:
    """Whether a policy that the library has read allows HMAC alone."""
    return all(it.startswith("HS") for it in json.loads(policy)["algs"])


class Validator:
    """A policy and a key set, by which tokens are judged.

    Both are given as octets, as a text, or as what is written as their JSON text. Threads may share it, and judge side by side; after
    fork, parent and child each go on with their own. It isn't copied. It is closed by `close` or at the end of `with`: calls that are
    under way end, and later ones raise Closed. What a validator holds that is never closed is freed with it.

    `remember=(tokens, octets)` remembers so many accepted tokens of at most so many octets each, the least used goes first: one that comes again
    is found by all its octets, and only its claims are looked at. Each call that is under way at once has a memory of its own. Accepted tokens
    lie in memory until they go, and aren't wiped.

    `once=tokens` lets each token in once: `validate` takes what is accepted and meets the access rule, by issuer and `jti`, until its `exp` and the
    leeway, and refuses what was taken (NotTaken), what has no `jti` or no `exp`, and what there is no room for. So many tokens are held at most: as
    many as are accepted within the lifetime of one. `once=Once(tokens)` is a memory that validators share. A token is let in once a memory, so once a
    process; after fork each child has its own: where several have to share one, `once` is an OnceStore. `now` is then the clock's moment: one far in the future closes the memory. `judge` takes nothing.

    Raises PolicyRefused or KeysRefused, AnotherLibrary where another library was loaded than this package is made for,
    and MemoryError where memory is refused.
    """

    def __init__(
        self,
        policy: Document,
        keys: Document,
        *,
        remember: Tuple[SupportsIndex, SupportsIndex] = (0, 0),
        once: Union[Once, OnceStore, SupportsIndex, None] = None,
    ) -> None:
        tokens, octets = (_number(it, "remember", 0, 2 * sys.maxsize + 1) for it in remember)
        self._once = once_of(once)
        self._asks_store = asks_store(self._once)
        self._library = _library.load()
        policy_octets, key_octets = document_of(policy, "a policy"), document_of(keys, "a key set")
        documents = Seat()
        fault = ctypes.c_uint32()
        status = self._library.fow_open(documents.held, policy_octets, len(policy_octets), key_octets, len(key_octets), fault)
        if status == _library.OUT_OF_MEMORY:
            raise MemoryError
        if status != _library.OK:
            raise self._document_refused(fault.value, policy_octets)
        self._issuer = written(65_536, self._library.fow_sole_issuer, documents.held)
        self._is_public = bool(self._library.fow_documents_are_public(documents.held))
        limit = ctypes.c_uint32()
        self._library.fow_token_limit(documents.held, limit)
        self._limit = limit.value
        # (a signature by a public key, and a try of many secrets, take long enough for another thread to go on)
        self._seats = Seats(documents, (tokens, octets), SHORT if _is_hmac_alone(policy_octets) and len(key_octets) <= SHORT else -1)

    def validate(
        self,
        token: Text,
        now: Optional[SupportsIndex] = None,
        access: Rule = NO_RULE,
        *,
        expected: Expected = NOTHING,
        holder: Holder = ANYONE,
    ) -> Claims:
        """The claims of a token that is accepted at a moment, in seconds since 1970-01-01T00:00:00Z; without one, at the clock's. With an
        access rule, only where they meet it; with what is expected, only where they are that; with a Proof or a Certificate, only where the token is bound to its
        key, and with UNBOUND only where it is bound to none.

        Raises TokenRefused, Denied where the rule isn't met, and then NotExpected and NotHeld, Closed, MemoryError where memory is refused, TypeError for a token that
        is neither str nor bytes-like and for an access rule or an expectation that is none, such as None, and ValueError for a moment that 64 bits don't have.
        """
        octets, moment = octets_of(token, "a token"), _moment(now)
        known = _expected.checked(expected)
        sender = _possession.checked(holder)
        return _object(self._seats.call(self._payload, octets, moment, checked(access), known, sender), "Claims")

    def _payload(self, seat: Seat, octets: bytes, moment: int, access: Rule, expected: Expected, holder: Holder) -> str:
        """The payload of a token that is accepted, whose claims meet the access rule and are what is expected, and whose sender holds its key. Raises TokenRefused, Denied
        and MemoryError."""
        payload = seat.accepted(octets, moment)
        if payload is None:
            raise self._refusal(seat, seat.report)
        denial = None if access is NO_RULE else access.denial(seat)
        if denial is not None:
            raise denial
        if expected is not NOTHING:
            expected.hold(seat, octets)
        if holder is not ANYONE:
            holder.hold(seat, octets, moment)
        if self._once is not None:
            self._once.take(seat, moment)
        return payload

    def judge(self, token: Text, now: Optional[SupportsIndex] = None) -> Report:
        """All that is said of a token: its verdict, its signatures, and each try with its cost. Raises as `validate` does, TokenRefused
        aside: a refusal stands in the report."""
        return self._seats.call(self._report, octets_of(token, "a token"), _moment(now))

    def _report(self, seat: Seat, octets: bytes, moment: int) -> Report:
        report = seat.judge(octets, moment)
        return Report(
            refusal=None if report.verdict == _library.OK else self._refusal(seat, report),
            signature=report.signature,
            key=report.key,
            work=report.work,
            states=self._states(seat),
            tries=self._tries(seat, report.tries),
            remembered=seat.is_remembered(),
        )

    def unverified_header(self, token: Text, signature: SupportsIndex = 0) -> Optional[Dict[str, Any]]:
        """The protected header of the signature of this number; None where there is none. Anyone may have written it.

        Raises Closed, Unreadable, MemoryError, TypeError and ValueError, as `validate` does.
        """
        octets, number = octets_of(token, "a token"), _number(signature, "a signature's number", 0, 2**32 - 1)
        header = self._header(octets, number)
        return None if header is None else _object((header or b"{}").decode(), "Header")

    def _header(self, octets: bytes, number: int = 0) -> Optional[bytes]:
        """The octets of the protected header of the signature of this number; None where there is none."""
        function = self._library.fow_unverified_header
        return self._seats.call(lambda seat: written(len(octets) + 1, function, seat.held, octets, len(octets), number))

    @property
    def issuer(self) -> Optional[str]:
        """The issuer that the policy allows; None where it allows any, or several."""
        return None if self._issuer is None else self._issuer.decode()

    @property
    def limit(self) -> int:
        """The greatest number of octets of a token that the policy takes."""
        return self._limit

    @property
    def is_public(self) -> bool:
        """Whether everyone may read the keys: no algorithm of the policy is HMAC, and no key a shared secret (RFC 8725, section 2.1)."""
        return self._is_public

    def unverified_issuer(self, token: Text) -> Optional[str]:
        """The issuer that a token names; None where it names none, or the octets are no token under the policy. Anyone may have written it.

        Raises Closed, MemoryError and TypeError, as `validate` does.
        """
        return self._named(octets_of(token, "a token"))[1]

    def _named(self, octets: bytes) -> Tuple[bool, Optional[str]]:
        """Whether the octets are a token under the policy, and the issuer that it names."""
        function = self._library.fow_unverified_issuer
        status, issuer = self._seats.call(lambda seat: said(len(octets) + 1, function, seat.held, octets, len(octets)))
        return status != _library.ABSENT, issuer.decode() if status == _library.OK else None

    def issue(
        self, claims: Document, key: SupportsIndex = 0, alg: str = "HS256", form: str = "compact", typ: str = ""
    ) -> str:
        """The claims as a token, signed by HMAC with the key of this number; its header has `typ` where that isn't empty.

        Raises IssueRefused, Closed, MemoryError where memory is refused, KeyError for another algorithm or form, ValueError for a key's
        number that 32 bits don't have or a `typ` that is no text in UTF-8, and TypeError.
        """
        octets, typ_octets = document_of(claims, "claims"), typ.encode()
        number, algorithm, form_number = _number(key, "a key's number", 0, 2**32 - 1), _HMAC[alg], _FORMS[form]
        report = _library.CReport()

        def issue_by(seat: Seat) -> Optional[bytes]:
            given = (typ_octets, len(typ_octets), octets, len(octets))

            def issue_into(*out: Any) -> int:
                return int(self._library.fow_issue(seat.held, algorithm, form_number, number, *given, *out, report))

            return written(2 * len(octets) + 2 * len(typ_octets) + 1_024, issue_into)

        token = self._seats.call(issue_by)
        if token is None:
            raise IssueRefused(self._name(report.fault), report.signature)
        return token.decode()

    def close(self) -> None:
        """Frees what is held. It may be called twice. Calls that are under way end as if it weren't closed; later ones raise Closed."""
        self._seats.close()

    def __enter__(self) -> "Validator":
        return self

    def __exit__(
        self,
        kind: Optional[Type[BaseException]],
        error: Optional[BaseException],
        trace: Optional[TracebackType],
    ) -> None:
        self.close()

    def __reduce_ex__(self, protocol: SupportsIndex) -> NoReturn:
        raise TypeError("a Validator isn't copied or pickled: what it holds belongs to it alone")

    def _refusal(self, seat: Seat, report: _library.CReport) -> TokenRefused:
        name, kind = self._name(report.fault), report.fault // 100
        if kind == 3:
            return TooLong(name)
        if kind == 4:
            return FormRefused(name, _PARTS.get(report.part), report.signature)
        if kind == 5:
            return CeilingReached(name, report.signature, report.key)
        if kind == 6:
            return SignatureRefused(name, report.signature)
        return ClaimsRefused(name, self._claim(seat, report.claim))

    def _document_refused(self, fault: int, policy: bytes) -> FowharimuError:
        if fault // 100 == 2:
            return KeysRefused(self._name(fault))
        member = written(len(policy) + 1, self._library.fow_refused_member, policy, len(policy))
        return PolicyRefused(self._name(fault), member if member is None else member.decode())

    def _claim(self, seat: Seat, number: int) -> Optional[str]:
        if number in _CLAIMS:
            return _CLAIMS[number]
        claim = written(256, self._library.fow_refused_claim, seat.held)
        return None if claim is None else claim.decode()

    def _states(self, seat: Seat) -> List[SignatureState]:
        states, state = [], _library.CState()
        while self._library.fow_state_of(seat.held, len(states), state) == _library.OK:
            states.append(
                SignatureState(
                    _STATES[state.state],
                    self._name(state.fault) if state.state == 1 else None,
                    state.key if state.state == 4 else None,
                )
            )
        return states

    def _tries(self, seat: Seat, count: int) -> List[Try]:
        tries, tried = [], _library.CTry()
        while len(tries) < count and self._library.fow_try_of(seat.held, len(tries), tried) == _library.OK:
            tries.append(Try(tried.signature, tried.key, tried.cost))
        return tries

    def _name(self, fault: int) -> str:
        return str(self._library.fow_fault_name(fault).decode())
