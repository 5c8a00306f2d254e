"""The token in `Authorization`, and what a request is answered: the library decides, by fow_credentials, fow_reply_to and fow_challenge."""

from __future__ import annotations

import ctypes
import enum
from typing import List, NamedTuple

from ._library import ABSENT, OK, CReply, load_holding


# At most so many octets has a challenge beside what it quotes.
_MOST_BESIDE = 64


class Scheme(enum.IntFlag):
    """The schemes of `Authorization`: enum fow_scheme."""

    NONE, BEARER, DPOP = 0, 1, 2


class Outcome(enum.IntEnum):
    """What is known of a request and its token: enum fow_outcome."""

    UNANSWERED, ADMITTED, SEVERAL, NO_TOKEN, MALFORMED = range(5)
    NOT_ACCEPTED, SCOPE_MISSING, NOT_GRANTED, KEYS_TOO_OLD = range(5, 9)
    PROOF_REFUSED, NONCE_WANTED, PATH_FORM, SHARE_USED_UP, MEMORY_FULL = range(9, 14)


class Shown(NamedTuple):
    """The token that a request shows, and by which scheme."""

    scheme: Scheme
    token: bytes


class Quoted(NamedTuple):
    """What stands in challenges between quotation marks, as it is: the realm of the service, the scopes that a token needs, the algorithms of proofs."""

    realm: bytes
    scopes: bytes = b""
    algs: bytes = b""


class Reply(NamedTuple):
    """A status of HTTP, and the values of `WWW-Authenticate` beside it."""

    status: int
    challenges: List[str]
    wants_nonce: bool


class NoToken(Exception):
    """A request has no token that could be judged."""

    def __init__(self, outcome: Outcome, scheme: Scheme) -> None:
        super().__init__(outcome, scheme)
        self.outcome = outcome
        self.scheme = scheme


# enum fow_challenge_kind: no challenge, and that which asks for a nonce.
_NO_CHALLENGE, _USE_DPOP_NONCE = 0, 7


def token_in(schemes: Scheme, value: bytes) -> Shown:
    """The token in the value of the one header Authorization, by a scheme that is taken. Raises NoToken."""
    scheme, begin, end = ctypes.c_uint32(), ctypes.c_size_t(), ctypes.c_size_t()
    status = load_holding().fow_credentials(schemes, value, len(value), scheme, begin, end)
    if status != OK:
        raise NoToken(Outcome.NO_TOKEN if status == ABSENT else Outcome.MALFORMED, Scheme(scheme.value))
    return Shown(Scheme(scheme.value), value[begin.value : end.value])


def checked_realm(realm: str) -> bytes:
    """A realm that can be quoted. Raises ValueError."""
    octets = realm.encode(errors="surrogatepass")
    if not load_holding().fow_quotable(octets, len(octets)):
        raise ValueError("a realm has printable characters of ASCII, and neither quotation marks nor backslashes")
    return octets


def reply_to(schemes: Scheme, shown: Scheme, outcome: Outcome, quoted: Quoted) -> Reply:
    """What a request is answered of which this is known, whose token was shown by that scheme."""
    library, reply = load_holding(), CReply()
    library.fow_reply_to(schemes, shown, outcome, ctypes.byref(reply))
    kinds = ((Scheme.BEARER, reply.bearer), (Scheme.DPOP, reply.dpop))
    challenges = [_challenge(scheme, kind, quoted) for scheme, kind in kinds if kind != _NO_CHALLENGE]
    return Reply(reply.status, challenges, reply.dpop == _USE_DPOP_NONCE)


def _challenge(scheme: Scheme, kind: int, quoted: Quoted) -> str:
    """The text of a challenge, whose parts can be quoted."""
    parts = [it for octets in quoted for it in (octets, len(octets))]
    room, written = ctypes.create_string_buffer(sum(map(len, quoted)) + _MOST_BESIDE), ctypes.c_size_t()
    status = load_holding().fow_challenge(scheme, kind, *parts, room, len(room), written)
    if status != OK:
        raise ValueError("a challenge quotes what can't be quoted")
    return room.raw[: written.value].decode()
