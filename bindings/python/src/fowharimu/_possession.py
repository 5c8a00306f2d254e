"""Who sends a token holds the key that it is bound to: proofs of possession (DPoP, RFC 9449), and certificates (RFC 8705)."""

from __future__ import annotations

import ctypes
import operator
import time
from typing import List, Optional, SupportsIndex, Union

from . import _library
from ._faults import NotHeld, PolicyRefused
from ._once import Once, OnceStore, asks_store, once_of
from ._seats import Seat, written
from ._texts import Document, Text, document_of, octets_of


# FOW_NONCE_LEN, FOW_PROOF_OTHER_NONCE, and FOW_BOUND_CERTIFICATE.
_NONCE, _OTHER_NONCE, _BY_CERTIFICATE = 43, 1303, 2


def _shown(seat: Seat, possession: _library.CPossession, der: bytes) -> int:
    """How the token that a seat has accepted just now is bound, where each way was shown by the proof that is kept and this certificate. Raises NotHeld, and MemoryError
    where memory is refused."""
    ways, fault = ctypes.c_uint32(), ctypes.c_uint32()
    status = seat.library.fow_shown(seat.held, possession, der, len(der), ways, fault)
    if status == _library.REFUSED:
        raise NotHeld(seat.library.fow_fault_name(fault.value).decode())
    if status != _library.OK:
        raise MemoryError
    return ways.value


class Holder:
    """What a call asks of the sender of its token, beside the token: a Proof, a Certificate, or UNBOUND. Where it is left out, nothing is asked, of a token that is bound
    to a key or to a certificate neither."""

    @property
    def asks_store(self) -> bool:
        """Whether a store of the application's own is asked, which may have its caller wait."""
        return False

    def hold(self, seat: Seat, token: bytes, moment: int) -> None:
        """Holds it against the token that a seat has accepted just now. Raises NotHeld or NotTaken, and MemoryError where memory is refused."""
        raise NotImplementedError


class _Anyone(Holder):
    """Nothing is asked."""

    def hold(self, seat: Seat, token: bytes, moment: int) -> None:
        pass


class _Unbound(Holder):
    """The token isn't bound: else whoever stole it could use it (RFC 9449, section 7.2)."""

    def hold(self, seat: Seat, token: bytes, moment: int) -> None:
        try:
            _shown(seat, _library.CPossession(), b"")
        except NotHeld:
            raise NotHeld("Bound") from None


class Certificate(Holder):
    """The client's certificate, in DER, as whoever ended TLS has it: the token is bound to it, by `x5t#S256` in its `cnf` (RFC 8705, section 3).

    Raises TypeError for what isn't bytes-like.
    """

    def __init__(self, der: Union[bytes, bytearray, memoryview]) -> None:
        self._der = bytes(memoryview(der))

    def hold(self, seat: Seat, token: bytes, moment: int) -> None:
        if not _shown(seat, _library.CPossession(), self._der) & _BY_CERTIFICATE:
            raise NotHeld("OtherCertificate")


class _Opened:
    """A policy for proofs in the library, and the proof that was accepted last. It is used by one call at a time."""

    def __init__(self, policy: bytes) -> None:
        self.library = _library.load()
        self.held = _library.CPossession()
        fault = ctypes.c_uint32()
        status = self.library.fow_possession_open(self.held, policy, len(policy), fault)
        if status == _library.OUT_OF_MEMORY:
            raise MemoryError
        if status != _library.OK:
            member = written(len(policy) + 1, self.library.fow_refused_member, policy, len(policy))
            raise PolicyRefused(self.library.fow_fault_name(fault.value).decode(), None if member is None else member.decode())

    def __del__(self) -> None:
        if hasattr(self, "held"):
            self.library.fow_possession_close(self.held)


class Nonces:
    """The nonces that a service asks of proofs (RFC 9449, section 8), by a secret and the time: each is good for the `period` in which it is given, in seconds, and for the next
    one. Nothing is kept of them, and processes that share a secret ask for the same.

    Raises ValueError for a secret of less than 32 octets and for a period that isn't from 1 to 2^32 - 1, TypeError for a secret that isn't bytes-like, and AnotherLibrary as
    Validator does.
    """

    def __init__(self, secret: Union[bytes, bytearray, memoryview], period: SupportsIndex = 60) -> None:
        self.secret = bytes(memoryview(secret))
        self.period = operator.index(period)
        if not 1 <= self.period < 2**32:
            raise ValueError("a period has to be from 1 to 4294967295 seconds")
        self._library = _library.load()
        self.now(0)

    def now(self, moment: Optional[SupportsIndex] = None) -> str:
        """The nonce of a moment, in seconds since 1970-01-01T00:00:00Z; without one, of the clock's: the value of a header `DPoP-Nonce`."""
        at = int(time.time()) if moment is None else operator.index(moment)
        room, size = ctypes.create_string_buffer(_NONCE), ctypes.c_size_t()
        status = self._library.fow_nonce(self.secret, len(self.secret), self.period, at, room, _NONCE, size)
        if status != _library.OK:
            raise ValueError("a secret of nonces has at least 32 octets")
        return room.raw.decode()

    def __repr__(self) -> str:
        return f"Nonces(.., {self.period})"


class Proofs:
    """A policy for proofs of possession (docs/POSSESSION.md), and a memory of those that were taken: at most `once` at a time, or those of a `Once` that others share, or a
    store that several processes share (docs/ONCE.md). Each proof counts once (RFC 9449, section 11.1). Threads may share it; after fork parent and child each go on with
    their own.

    Raises PolicyRefused where the policy isn't one for proofs, AnotherLibrary as Validator does, ValueError for no proofs, TypeError for None, and MemoryError where
    memory is refused.
    """

    def __init__(self, policy: Document, once: Union[Once, OnceStore, SupportsIndex]) -> None:
        self._policy = document_of(policy, "a policy for proofs")
        self._free: List[_Opened] = [_Opened(self._policy)]
        taking = once_of(once)
        if taking is None:
            raise TypeError("once has to be a number, a Once or a store: each proof counts once")
        self._once = taking
        self.asks_store = asks_store(taking)

    @property
    def algs(self) -> str:
        """The names of the algorithms of the policy, with a space between two: what a challenge names."""
        opened = self._taken()
        try:
            octets = written(len(self._policy), opened.library.fow_possession_algs, opened.held)
        finally:
            self._free.append(opened)
        return "" if octets is None else octets.decode()

    def _taken(self) -> _Opened:
        """A policy that no other call has."""
        try:
            return self._free.pop()
        except IndexError:
            return _Opened(self._policy)

    def hold(self, proof: "Proof", seat: Seat, token: bytes, moment: int) -> None:
        """Holds a proof against the token that a seat has accepted just now, at that moment, and takes it. Raises as Holder.hold."""
        opened = self._taken()
        try:
            self._hold(opened, proof, seat, token, moment)
        finally:
            self._free.append(opened)

    def _hold(self, opened: _Opened, proof: "Proof", seat: Seat, token: bytes, moment: int) -> None:
        """The same by a policy that no other call has."""
        fault = ctypes.c_uint32()
        given = (it for octets in (*proof.octets, token) for it in (octets, len(octets)))
        status = opened.library.fow_possession_judge(opened.held, seat.held, *given, moment, fault)
        if status == _library.OK and proof.nonces is not None:
            secret = proof.nonces.secret
            status = opened.library.fow_possession_fresh(opened.held, secret, len(secret), proof.nonces.period, moment)
            fault.value = _OTHER_NONCE
        if status in (_library.REFUSED, _library.NOT_EXPECTED):
            refusal = NotHeld(opened.library.fow_fault_name(fault.value).decode())
            refusal._outcome = opened.library.fow_proof_outcome(status, fault.value)
            raise refusal
        if status != _library.OK:
            raise MemoryError
        _shown(seat, opened.held, b"")
        self._once.take_proof(opened.held, moment)


class Proof(Holder):
    """A proof of possession, and the request that it comes with: `value` is that of the request's only header `DPoP`, `method` the request's, by case, and `uri` what the client
    sees, with scheme and host, which behind a proxy come from the configuration. `nonce` is the one that was asked for, where one was, or the Nonces of which it has to be one.

    Raises TypeError for what is neither str nor bytes-like, and for proofs that are none, and ValueError for an empty nonce.
    """

    def __init__(self, proofs: Proofs, value: Text, method: Text, uri: Text, nonce: Union[Text, Nonces, None] = None) -> None:
        if not isinstance(proofs, Proofs):
            raise TypeError("proofs has to be a Proofs")
        self.nonces = nonce if isinstance(nonce, Nonces) else None
        nonce = None if isinstance(nonce, Nonces) else nonce
        asked = b"" if nonce is None else octets_of(nonce, "a nonce")
        if nonce is not None and not asked:
            raise ValueError("a nonce isn't empty: where none was asked for, it is left out")
        self._proofs = proofs
        self.octets = (octets_of(value, "a proof"), octets_of(method, "a method"), octets_of(uri, "a URI"), asked)

    @property
    def asks_store(self) -> bool:
        return self._proofs.asks_store

    def hold(self, seat: Seat, token: bytes, moment: int) -> None:
        self._proofs.hold(self, seat, token, moment)


ANYONE, UNBOUND = _Anyone(), _Unbound()


def checked(holder: Holder) -> Holder:
    """What is asked of the sender. Raises TypeError for anything else."""
    if not isinstance(holder, Holder):
        raise TypeError("holder has to be a Proof, a Certificate or UNBOUND: where nothing is asked, it is left out")
    return holder
