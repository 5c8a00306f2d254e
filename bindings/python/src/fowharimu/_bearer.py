"""The token of a request, and what is answered where it isn't accepted (RFC 6750, sections 2.1 and 3; RFC 9449, section 7)."""

from __future__ import annotations

import logging
from typing import Any, Callable, Dict, List, NamedTuple, Protocol, Tuple, TypeVar, Union

from . import Claims, Denied, TokenRefused, Validator
from ._access import NO_RULE, Rule, checked
from ._dpop import DPoP
from ._possession import UNBOUND, Holder
from ._replies import NoToken, Outcome, Quoted, Scheme, Shown, checked_realm, reply_to, token_in
from ._waiting import Waiting

_LOG = logging.getLogger("fowharimu")
_Said = TypeVar("_Said")


class Validates(Protocol):
    """What a guard asks: a `Validator`, `RemoteKeys`, or `Issuers`."""

    def validate(self, token: str, now: None = None, access: Rule = NO_RULE, *, holder: Holder = UNBOUND) -> Claims: ...


class Sent(NamedTuple):
    """What a request sends, each character an octet: the values of its headers `Authorization` and `DPoP`, its method, and its path as the client wrote it."""

    authorizations: List[str]
    proofs: List[str]
    method: str
    path: str


class Challenged(Exception):
    """The request isn't let through: it is answered with this status and these headers."""

    def __init__(self, status: int, headers: List[Tuple[str, str]]) -> None:
        super().__init__(status, headers)
        self.status = status
        self.headers = headers


class NoDPoP:
    """That a guard takes no proofs: another thing than None, which somebody may have looked up and not found."""


NO_DPOP = NoDPoP()


class Asking(NamedTuple):
    """A token that is shown, and what is asked of who sends it."""

    shown: Shown
    holder: Holder


class Bearer:
    """Asks a validator, and an access rule where there is one, for the token of a request, and where proofs are taken, for its proof."""

    def __init__(self, validator: Validates, access: Rule, realm: str, dpop: Union[DPoP, NoDPoP]) -> None:
        if not isinstance(dpop, (DPoP, NoDPoP)):
            raise TypeError("dpop has to be a DPoP: where no proofs are taken, it is left out")
        self._validator = validator
        self._asks_store = getattr(validator, "_asks_store", False)
        self._access = checked(access)
        # (what stands for a validator may know no rules)
        self._words: Dict[str, Any] = {} if access is NO_RULE else {"access": access}
        self._dpop = dpop if isinstance(dpop, DPoP) else None
        self._schemes = Scheme.BEARER if self._dpop is None else self._dpop.schemes
        self._quoted = Quoted(checked_realm(realm), algs=b"" if self._dpop is None else self._dpop.algs)

    def claims(self, sent: Sent) -> Claims:
        """The claims of the token of a request. Raises Challenged, and MemoryError and Closed where nothing is said of the token: a server answers
        these by 500."""
        asking = self._asking(sent)
        return self._told(asking, lambda: self._validator.validate(asking.shown.token.decode(), **self._words, holder=asking.holder))

    def claims_at_once(self, sent: Sent) -> Union[Claims, Tuple[Asking, Waiting], None]:
        """The same, but for waiting: a token that waits for a fetch of keys, and None for what may have to be waited for in a thread."""
        asking = self._asking(sent)
        said = self._told(asking, lambda: self._at_once(asking))
        return (asking, said) if isinstance(said, Waiting) else said

    def claims_at_last(self, asking: Asking, waiting: Waiting) -> Claims:
        """The claims of a token that waited, when its fetch is over. Raises as `claims` does."""
        return self._told(asking, waiting.claims)

    def _at_once(self, asking: Asking) -> Union[Claims, Waiting, None]:
        token = asking.shown.token.decode()
        if self._asks_store or asking.holder.asks_store:
            return None
        if isinstance(self._validator, Validator):
            return self._validator.validate(token, **self._words, holder=asking.holder)
        judge = getattr(self._validator, "_validate_at_once", None)
        return None if judge is None else judge(token, self._access, asking.holder)

    def _told(self, asking: Asking, judge: Callable[[], _Said]) -> _Said:
        """What is said of a token; where it isn't accepted, the answer."""
        shown = asking.shown.scheme
        try:
            return judge()
        except Denied as denial:
            _LOG.info("%s", denial)
            outcome = Outcome.NOT_GRANTED if denial.scope is None else Outcome.SCOPE_MISSING
            raise self._challenged(shown, outcome, " ".join(denial.scopes)) from denial
        except TokenRefused as refusal:
            _LOG.info("%s", refusal)
            outcome = Outcome.KEYS_TOO_OLD if refusal.fault == "KeysTooOld" else Outcome(refusal._outcome)
            raise self._challenged(shown, outcome) from refusal

    def _challenged(self, shown: Scheme, outcome: Outcome, scopes: str = "") -> Challenged:
        """The answer to a request of which this is known."""
        reply = reply_to(self._schemes, shown, outcome, self._quoted._replace(scopes=scopes.encode()))
        headers = [("WWW-Authenticate", it) for it in reply.challenges]
        nonces = None if self._dpop is None else self._dpop.nonces
        if reply.wants_nonce and nonces is not None:
            headers += [("DPoP-Nonce", nonces.now()), ("Cache-Control", "no-store")]
        return Challenged(reply.status, headers)

    def _asking(self, sent: Sent) -> Asking:
        """The token of a request, and what is asked of who sends it. Raises Challenged."""
        if len(sent.authorizations) > 1:
            raise self._challenged(Scheme.NONE, Outcome.SEVERAL)
        try:
            # (as WSGI has it, each character an octet)
            shown = token_in(self._schemes, "".join(sent.authorizations).encode("latin-1", "replace"))
        except NoToken as lacking:
            raise self._challenged(lacking.scheme, lacking.outcome) from None
        return Asking(shown, self._holder(shown, sent))

    def _holder(self, shown: Shown, sent: Sent) -> Holder:
        """What is asked of who sends a token that is shown. Raises Challenged where it takes a proof, and there isn't one."""
        if self._dpop is None or shown.scheme != Scheme.DPOP:
            return UNBOUND
        if len(sent.proofs) != 1:
            raise self._challenged(shown.scheme, Outcome.PROOF_REFUSED)
        return self._dpop.proof(sent.proofs[0], sent.method, sent.path)
