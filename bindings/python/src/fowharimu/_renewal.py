"""When keys by URL are fetched, until when they are used, and who waits for a fetch: the library decides, by fow_renewal_ask and the calls beside it."""

from __future__ import annotations

import ctypes
import enum
import math
from typing import NamedTuple, Optional

from ._library import CRenewal, CRenewalAnswer, load_holding

# What becomes of fetches: enum fow_fetch.
_NO_FETCH, _BEGINS = 0, 1

# The greatest number of milliseconds: 584 million years.
_MOST = 2**64 - 1


class Asker(enum.IntEnum):
    """Who asks: enum fow_asker."""

    TOKEN, REFUSED, OWNER, WAITED = range(4)


class Answer(NamedTuple):
    """Which keys are to be used, and what becomes of fetches."""

    keys: Optional[int]
    """The ticket of the fetch that gave the keys to be used; None where there are none, or they are too old."""
    begins: Optional[int]
    """The ticket of a fetch that whoever asked has to make; None where none begins."""
    is_under_way: bool
    """Whether that fetch, or another, is under way."""


def _milliseconds(seconds: float) -> int:
    return _MOST if seconds == math.inf else min(math.floor(seconds * 1_000), _MOST)


class Renewal:
    """The state of keys by URL. Each call is made under a lock, with the seconds of one clock that are read under it."""

    def __init__(
        self, now: float, *, refresh_after: float, cooldown: float, max_age: float, timeout: float
    ) -> None:
        self._library, self._state = load_holding(), CRenewal()
        times = (_milliseconds(it) for it in (refresh_after, cooldown, max_age, timeout, now))
        self._library.fow_renewal_begin(ctypes.byref(self._state), *times)

    def ask(self, now: float, asker: Asker, keys: int = 0) -> Answer:
        """Which keys are to be used, and whether a fetch begins; for a token that was refused, by the keys of this ticket."""
        said = CRenewalAnswer()
        self._library.fow_renewal_ask(ctypes.byref(self._state), _milliseconds(now), asker, keys, ctypes.byref(said))
        keys_to_use = said.keys if said.has_keys else None
        return Answer(keys_to_use, said.ticket if said.fetch == _BEGINS else None, said.fetch != _NO_FETCH)

    def took(self, now: float, ticket: int) -> bool:
        """Whether the keys of that fetch count; else they are to be dropped."""
        return bool(self._library.fow_renewal_took(ctypes.byref(self._state), _milliseconds(now), ticket))

    def failed(self, now: float, ticket: int) -> None:
        """That fetch gave no keys."""
        self._library.fow_renewal_failed(ctypes.byref(self._state), _milliseconds(now), ticket)

    def wait(self, now: float, ticket: int, kid: str) -> bool:
        """Whether a token of this `kid` may wait for that fetch."""
        name = hash(kid) & _MOST
        return bool(self._library.fow_renewal_wait(ctypes.byref(self._state), _milliseconds(now), ticket, name))

    def quiet_until(self) -> float:
        """The moment until which no token need ask."""
        return (self._state.heard + self._library.fow_renewal_quiet_for(ctypes.byref(self._state))) / 1_000
