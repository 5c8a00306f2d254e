"""What one call knows of the claims of its token."""

from __future__ import annotations

import ctypes
from typing import Mapping, Tuple

from . import _library
from ._faults import NotExpected
from ._seats import Seat
from ._texts import Text, octets_of

# The names of enum fow_unmet, from FOW_UNMET_ABSENT on.
_WHY = {1: "Absent", 2: "Other"}


class Expected:
    """What one login or one request knows of the claims of its token: `texts` are what claims have to be, octet by octet, as the `nonce` that was sent, and
    `hashes` that of which claims have to have the half of a hash, by the algorithm of the signature, as `at_hash` of the access token and `c_hash` of the
    code (OpenID Connect Core 1.0, sections 3.1.3.8 and 3.3.2.11). Each is given by the claim's name, or by a JSON Pointer (RFC 6901), which begins with `/`.

    It is handed to `Validator.validate`. Threads may share it. Raises TypeError for a claim's name that is no str and for what is neither str nor
    bytes-like, such as None, and ValueError for a name that UTF-8 doesn't have.
    """

    def __init__(self, texts: Mapping[str, Text] = {}, *, hashes: Mapping[str, Text] = {}) -> None:
        self._texts = [(name, *_octets_of(name, it)) for name, it in texts.items()]
        self._hashes = [(name, *_octets_of(name, it)) for name, it in hashes.items()]

    def hold(self, seat: Seat, token: bytes) -> None:
        """Holds it against the token that a seat has accepted just now: the texts in their order, then the hashes. Raises NotExpected for the first that isn't
        met, and MemoryError where memory is refused."""
        unmet, library = ctypes.c_uint32(), seat.library
        for name, claim, octets in self._texts:
            status = library.fow_expect_text(seat.held, claim, len(claim), octets, len(octets), unmet)
            _check(status, unmet.value, name)
        for name, claim, octets in self._hashes:
            given = (token, len(token), seat.report.signature, claim, len(claim), octets, len(octets))
            status = library.fow_expect_half_hash(seat.held, *given, unmet)
            _check(status, unmet.value, name)


def _octets_of(name: str, value: Text) -> Tuple[bytes, bytes]:
    """The octets of a claim's name and of what is expected of it."""
    if not isinstance(name, str):
        raise TypeError("the name of a claim has to be a str")
    return name.encode(), octets_of(value, f"what is expected of the claim {name!r}")


def _check(status: int, unmet: int, name: str) -> None:
    """Raises what the status of a call says."""
    if status == _library.OK:
        return
    if status == _library.OUT_OF_MEMORY:
        raise MemoryError
    raise NotExpected(_WHY.get(unmet, "Other"), name)


NOTHING = Expected()


def checked(expected: Expected) -> Expected:
    """What is expected. Raises TypeError for anything else."""
    if not isinstance(expected, Expected):
        raise TypeError("expected has to be an Expected: where nothing is expected, it is left out")
    return expected
