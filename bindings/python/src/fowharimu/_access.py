"""An access rule: what an accepted token may do."""

from __future__ import annotations

import ctypes
import enum
from typing import List, NoReturn, Optional, SupportsIndex, Tuple, Union

from . import _library
from ._faults import AccessRefused, Denied
from ._seats import Seat, written
from ._texts import Document, document_of

_SCOPE_MISSING = 1001


class _Held:
    """A rule that the library holds. It is used by one call at a time, and freed with this."""

    __slots__ = ("library", "held")

    def __init__(self) -> None:
        self.library = _library.load()
        self.held = _library.CAccess()

    def __del__(self) -> None:
        if hasattr(self, "held"):
            self.library.fow_access_close(self.held)


class Access:
    """An access rule: which scopes and which values of claims an accepted token has to have (docs/ACCESS.md).

    It is given as octets, as a text, or as what is written as its JSON text, and handed to `Validator.validate`. Threads may share it, as
    validators may, and so may parent and child after fork. It isn't copied. What it holds is freed with it.

    Raises AccessRefused, AnotherLibrary where another library was loaded than this package is made for, and MemoryError where memory is
    refused.
    """

    def __init__(self, rule: Document) -> None:
        self._document = document_of(rule, "an access rule")
        held = self._open()
        self._scopes = self._scopes_of(held)
        # (those that no call has: a list's `append` and `pop` are one step each, so no lock is held)
        self._free: List[_Held] = [held]

    @property
    def scopes(self) -> Tuple[str, ...]:
        """The scopes that have to be granted, in the order of the rule."""
        return self._scopes

    def __reduce_ex__(self, protocol: SupportsIndex) -> NoReturn:
        raise TypeError("an Access isn't copied or pickled: what it holds belongs to it alone")

    def denial(self, seat: Seat) -> Optional[Denied]:
        """Why the rule denies the token that a seat has accepted just now, and None where it doesn't."""
        held = self._take()
        try:
            number = ctypes.c_uint32()
            status = held.library.fow_denied(seat.held, held.held, number)
            if status == _library.OK:
                return None
            if status != _library.DENIED:
                raise MemoryError
            name = written(256, held.library.fow_denied_name, seat.held, held.held)
        finally:
            self._free.append(held)
        if name is None:
            raise MemoryError
        fault = str(held.library.fow_fault_name(number.value).decode())
        if number.value == _SCOPE_MISSING:
            return Denied(fault, name.decode(), None, self._scopes)
        return Denied(fault, None, name.decode(), self._scopes)

    def _take(self) -> _Held:
        """One that no other call has: it is opened where there is none."""
        try:
            return self._free.pop()
        except IndexError:
            return self._open()

    def _open(self) -> _Held:
        held, fault = _Held(), ctypes.c_uint32()
        octets = self._document
        status = held.library.fow_access_open(held.held, octets, len(octets), fault)
        if status == _library.OUT_OF_MEMORY:
            raise MemoryError
        if status != _library.OK:
            member = written(len(octets) + 1, held.library.fow_access_refused, octets, len(octets))
            name = str(held.library.fow_fault_name(fault.value).decode())
            raise AccessRefused(name, None if member is None else member.decode())
        return held

    @staticmethod
    def _scopes_of(held: _Held) -> Tuple[str, ...]:
        scopes: List[str] = []
        while (scope := written(256, held.library.fow_access_scope, held.held, len(scopes))) is not None:
            scopes.append(scope.decode())
        return tuple(scopes)


class NoRule(enum.Enum):
    """What stands where no access rule is asked for. It isn't None, which a rule may be that was looked up and not found."""

    NO_RULE = enum.auto()


NO_RULE = NoRule.NO_RULE
Rule = Union[Access, NoRule]


def checked(access: Rule) -> Rule:
    """An access rule, or NO_RULE. Raises TypeError for anything else."""
    if access is not NO_RULE and not isinstance(access, Access):
        raise TypeError("access has to be an Access: where no rule is meant, it is left out")
    return access
