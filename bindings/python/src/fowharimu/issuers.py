"""Several issuers, each with a policy and keys of its own.

    from fowharimu.issuers import Issuers

    issuers = Issuers({"https://a.example": one, "https://b.example": two})
    claims = issuers.validate(token)
"""

from __future__ import annotations

from types import TracebackType
from typing import Mapping, Optional, SupportsIndex, Type, Union

from . import Claims, ClaimsRefused, Report, TokenRefused, Validator
from ._access import NO_RULE, Rule
from ._expected import NOTHING, Expected
from ._possession import ANYONE, Holder
from ._texts import Text, octets_of
from ._waiting import Waiting
from .remote import RemoteKeys

__all__ = ["Issuers"]

Judging = Union[Validator, RemoteKeys]


class Issuers:
    """A map from issuers to what judges their tokens: validators, or keys by URL. A token is judged by the one under the issuer that it names, which
    nobody has verified by then: so each has a policy whose `issuers` is exactly the one under which it stands, and checks it again.

    A token that names no issuer, or one that isn't here, is refused as `Issuer`. What is no token under the policy with the least `limit` is refused as
    that one refuses it; of those with the same limit the first issuer in ascending byte order counts. `close` closes them all.

    Raises ValueError for an empty map, and for one whose policy doesn't name exactly the issuer.
    """

    def __init__(self, validators: Mapping[str, Judging]) -> None:
        self._validators = dict(validators)
        for issuer, it in self._validators.items():
            if it.issuer != issuer:
                raise ValueError(f"the policy under {issuer!r} has to name it in issuers, and no other")
        order = sorted(self._validators.items(), key=lambda it: (it[1].limit, it[0].encode()))
        if not order:
            raise ValueError("there has to be an issuer")
        self._reader = order[0][1]
        self._asks_store = any(it._asks_store for it in self._validators.values())

    def validate(
        self, token: Text, now: Optional[SupportsIndex] = None, access: Rule = NO_RULE, *, expected: Expected = NOTHING, holder: Holder = ANYONE
    ) -> Claims:
        """As Validator.validate, by the validator of the issuer that the token names. Raises ClaimsRefused with the fault Issuer where there is none."""
        octets = octets_of(token, "a token")
        chosen = self._chosen(octets)
        if chosen is None:
            raise _refused()
        return chosen.validate(octets, now, access, expected=expected, holder=holder)

    def _validate_at_once(self, token: Text, access: Rule, holder: Holder) -> Union[Claims, Waiting]:
        """As of RemoteKeys."""
        octets = octets_of(token, "a token")
        chosen = self._chosen(octets)
        if isinstance(chosen, RemoteKeys):
            return chosen._validate_at_once(octets, access, holder)
        if chosen is None:
            raise _refused()
        return chosen.validate(octets, None, access, holder=holder)

    def judge(self, token: Text, now: Optional[SupportsIndex] = None) -> Report:
        """As Validator.judge. Where there is no validator of the issuer that the token names, the report has that refusal and nothing else."""
        octets = octets_of(token, "a token")
        chosen = self._chosen(octets)
        if chosen is None:
            return Report(refusal=_refused(), signature=0, key=0, work=0, states=[], tries=[])
        return chosen.judge(octets, now)

    def close(self) -> None:
        """Closes all of them. It may be called twice."""
        for it in self._validators.values():
            it.close()

    def __enter__(self) -> "Issuers":
        return self

    def __exit__(
        self, kind: Optional[Type[BaseException]], error: Optional[BaseException], trace: Optional[TracebackType]
    ) -> None:
        self.close()

    def _chosen(self, octets: bytes) -> Optional[Judging]:
        """What judges these octets: the reader, where they are no token; else what stands under the issuer that they name."""
        is_token, issuer = self._reader._named(octets)
        if not is_token:
            return self._reader
        return None if issuer is None else self._validators.get(issuer)


def _refused() -> TokenRefused:
    return ClaimsRefused("Issuer", None)
