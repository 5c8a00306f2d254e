"""A memory of tokens that count once."""

from __future__ import annotations

import ctypes
import operator
import sys
import threading
import time
from typing import Callable, NamedTuple, NoReturn, Optional, Protocol, SupportsIndex, Tuple, Union, runtime_checkable

from . import _library
from ._faults import NotTaken
from ._seats import Seat

# The names of the answers of enum fow_taken, from FOW_TAKEN_SEEN on, and their numbers.
_WHY = {2: "Seen", 3: "Late", 4: "Full", 5: "NoId", 6: "NoEnd", 7: "Ahead", 8: "OwnFull", 9: "Before"}
_NUMBERS = {why: number for number, why in _WHY.items()}


def not_taken(why: str, is_proof: bool) -> NotTaken:
    """That a token, or a proof, isn't taken, for the cause of this name: with what a guard answers."""
    refusal = NotTaken(why)
    refusal._outcome = _library.load().fow_taken_outcome(is_proof, _library.REFUSED, _NUMBERS[why])
    return refusal


class Once:
    """The tokens that were taken, by their issuer and `jti`, at most so many. Validators may share it, whatever their policies, and threads, under a
    lock. After fork parent and child each go on with their own. It isn't copied. What it holds is freed with it.

    Of one owner, an issuer with a `sub`, at most `share` are held; without one, a sixteenth. `opened` is the moment from which on it knows everything, in seconds since
    1970: what was issued before, by its `iat` and the leeway, is refused, and so is a token without `iat`. Without one it is the second after this one, so that
    a restart refuses some tokens and lets none in twice. With 0 it lets in each token once more.

    Raises ValueError for no tokens, or numbers that are out of range, AnotherLibrary as Validator does, and MemoryError where memory is refused.
    """

    def __init__(self, tokens: SupportsIndex, *, share: Optional[SupportsIndex] = None, opened: Optional[SupportsIndex] = None) -> None:
        room = _number(tokens, "once", 1, _MOST)
        owned = 0 if share is None else _number(share, "share", 1, _MOST)
        since = int(time.time()) + 1 if opened is None else _number(opened, "opened", 0, 2**64 - 1)
        self._library = _library.load()
        self._held = _library.COnce()
        self._lock = threading.Lock()
        if self._library.fow_once_open(self._held, room, owned, since) != _library.OK:
            raise MemoryError

    def __del__(self) -> None:
        if hasattr(self, "_held"):
            self._library.fow_once_close(self._held)

    def __reduce_ex__(self, protocol: SupportsIndex) -> NoReturn:
        raise TypeError("a Once isn't copied or pickled: what it holds belongs to it alone")

    def take(self, seat: Seat, moment: int) -> None:
        """Takes the token that a seat has accepted just now, at that moment. Raises NotTaken, and MemoryError where memory is refused."""
        self._taken(self._library.fow_once_take, (self._held, seat.held), moment, False)

    def take_proof(self, possession: _library.CPossession, moment: int) -> None:
        """Takes the proof that was accepted just now, at that moment. Raises as `take`."""
        self._taken(self._library.fow_possession_take, (possession, self._held), moment, True)

    def _taken(self, take: Callable[..., int], held: Tuple[ctypes.Structure, ctypes.Structure], moment: int, is_proof: bool) -> None:
        """Takes by this call of the library."""
        taken = ctypes.c_uint32()
        with self._lock:
            status = take(*held, moment, taken)
        if status == _library.OK:
            return
        if status != _library.REFUSED:
            raise MemoryError
        raise not_taken(_WHY[taken.value], is_proof)


# The greatest number of size_t.
_MOST = 2 * sys.maxsize + 1


def _number(value: SupportsIndex, name: str, least: int, most: int) -> int:
    """A whole number in this range. Raises ValueError for another one."""
    number = operator.index(value)
    if not least <= number <= most:
        raise ValueError(f"{name} has to be from {least} to {most}")
    return number


class OnceEntry(NamedTuple):
    """How a token or a proof that counts once is held by a store that several processes share. Moments are in seconds since 1970.

    `mark`: the digest of issuer and `jti`, of 32 bytes; of a proof, of the thumbprint of its key and its `jti`. `owner`: the digest by which its owner's share is
    counted; None where it has none. `moment`: what it has of itself, `exp` or of a proof `iat`. `grace`: for how many seconds behind it is accepted. `issued`: the
    earliest moment at which it may have been accepted; 0 where nobody can say.
    """

    mark: bytes
    owner: Optional[bytes]
    moment: int
    grace: int
    issued: int


@runtime_checkable
class OnceStore(Protocol):
    """A store of the application's own, which several processes share: docs/ONCE.md says what it has to promise."""

    def take(self, entry: OnceEntry) -> Union[bool, str]:
        """Whether the token is new: then it is held for everybody. True: it is; `"Seen"`, `"Late"`, `"Before"`, `"Full"`, `"OwnFull"`: why it isn't taken; anything
        else is `"Seen"`. What it raises refuses the token too."""


class _Stored:
    """Asks such a store."""

    def __init__(self, store: OnceStore) -> None:
        self._store, self._library = store, _library.load()

    def take(self, seat: Seat, moment: int) -> None:
        """As Once.take. Raises what the store raises too."""
        entry, lacks = _library.CEntry(), ctypes.c_uint32()
        status = self._library.fow_once_entry(seat.held, moment, entry, lacks)
        if status == _library.REFUSED:
            raise not_taken(_WHY[lacks.value], False)
        self._take(status, entry, False)

    def take_proof(self, possession: _library.CPossession, moment: int) -> None:
        """As Once.take_proof. Raises what the store raises too."""
        entry = _library.CEntry()
        self._take(self._library.fow_possession_entry(possession, entry), entry, True)

    def _take(self, status: int, entry: _library.CEntry, is_proof: bool) -> None:
        """Takes what the library tells."""
        if status != _library.OK:
            raise MemoryError
        owner = bytes(entry.owner) if entry.owned else None
        said = self._store.take(OnceEntry(bytes(entry.mark), owner, entry.moment, entry.grace, entry.issued))
        if said is not True:
            raise not_taken(said if isinstance(said, str) and said in _NUMBERS else "Seen", is_proof)


Taking = Union[Once, _Stored]


def asks_store(taking: Optional[Taking]) -> bool:
    """Whether a store of the application's own is asked, which may have its caller wait."""
    return isinstance(taking, _Stored)


def once_of(once: Union[Taking, OnceStore, SupportsIndex, None]) -> Optional[Taking]:
    """A memory that was made, or a store, or a new memory for so many tokens; None where none is asked for."""
    if once is None or isinstance(once, (Once, _Stored)):
        return once
    return _Stored(once) if isinstance(once, OnceStore) else Once(once)
