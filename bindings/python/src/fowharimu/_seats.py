"""What one call at a time judges with, and how calls take it and give it back."""

from __future__ import annotations

import ctypes
import os
import sys
import threading
import time
from types import FrameType
from typing import Any, Callable, List, Optional, Tuple, TypeVar

from . import _library
from ._faults import Closed

try:
    from . import _calls
except ImportError:
    # (where it isn't built, ctypes makes two calls of its one)
    _calls = None  # type: ignore[assignment]

_Result = TypeVar("_Result")

# What is held while a seat is opened, which needs the documents for itself, and while the process forks. A judging holds nothing.
_opening = threading.RLock()

# Whether the process is about to fork.
_is_forking = False

# The octets of room that a payload is first given. A longer one gets more.
_ROOM = 1_024

# The longest token, and the longest key set of secrets, for which the interpreter's lock is kept: both are gone through in less time than the lock
# takes to come back.
SHORT = 4_096

# How long a fork waits for calls that are under way, in seconds: each ends by itself, and takes some milliseconds at most as a rule.
_PATIENCE = 10.0


def _wait_for_fork() -> None:
    """Waits until a fork is done."""
    with _opening:
        pass


def _has_call(frame: Optional[FrameType]) -> bool:
    """Whether a thread that has got this far has a call under way. One that waits for the lock has none: a fork, which has it, would wait for that call."""
    while frame is not None:
        if frame.f_code in _WAITING:
            return False
        if frame.f_code is _CALL:
            return True
        frame = frame.f_back
    return False


def _before_fork() -> None:
    """Waits until no other thread opens a seat or judges: so the child has the documents whole. Where each thread stands says what is under way: a note of it would stay where a signal cuts a call off."""
    global _is_forking
    _opening.acquire()
    _is_forking = True
    own, until = threading.get_ident(), time.monotonic() + _PATIENCE
    while time.monotonic() < until:
        if not any(_has_call(frame) for thread, frame in sys._current_frames().items() if thread != own):
            return
        time.sleep(0.0002)


def _after_fork_in_parent() -> None:
    """Lets the calls go on that waited."""
    global _is_forking
    _is_forking = False
    _opening.release()


def _after_fork_in_child() -> None:
    """The child has one thread: what others held is forgotten."""
    global _opening, _is_forking
    _opening = threading.RLock()
    _is_forking = False


if hasattr(os, "register_at_fork"):
    os.register_at_fork(before=_before_fork, after_in_parent=_after_fork_in_parent, after_in_child=_after_fork_in_child)


class Seat:
    """A validator of the library. It is used by one call at a time. What it holds is freed with it, without a
    lock: Python may do so at any moment, in any thread."""

    __slots__ = ("library", "holding", "short", "held", "report", "room", "view", "length", "calls")

    def __init__(self, short: int = -1) -> None:
        """`short` is the length of the longest token for which the interpreter's lock is kept."""
        self.library, self.holding, self.short = _library.load(), _library.load_holding(), short
        self.held = _library.CValidator()
        self.report = _library.CReport()
        self.length = ctypes.c_size_t()
        self._make_room(_ROOM)
        self.calls = None if _calls is None else _calls.Calls(*self._addresses(), short)

    def _addresses(self) -> Tuple[int, int, int, int]:
        """Where the library has its functions, and the seat what they change."""
        functions = (self.library.fow_judge, self.library.fow_accepted_payload)
        judge, payload = (ctypes.cast(it, ctypes.c_void_p).value or 0 for it in functions)
        return judge, payload, ctypes.addressof(self.held), ctypes.addressof(self.report)

    def accepted(self, octets: bytes, moment: int) -> Optional[str]:
        """The payload of a token that is accepted; None where it isn't, and `report` says why. Raises MemoryError where memory is refused."""
        if self.calls is not None:
            return self.calls.validate(octets, moment)
        return self.payload(octets).decode() if self.judge(octets, moment).verdict == _library.OK else None

    def judge(self, octets: bytes, moment: int) -> _library.CReport:
        """The report on a token, until the next call. Raises MemoryError where memory is refused."""
        library = self.holding if len(octets) <= self.short else self.library
        if library.fow_judge(self.held, octets, len(octets), moment, self.report) > _library.REFUSED:
            raise MemoryError
        return self.report

    def is_remembered(self) -> bool:
        """Whether the last verdict came out of the seat's memory."""
        return bool(self.library.fow_remembered(self.held))

    def payload(self, octets: bytes) -> bytes:
        """The payload of the token that was judged last, whose octets these are, and accepted. Raises MemoryError where memory is refused."""
        size = len(octets)
        library = self.holding if size <= SHORT else self.library
        if size > len(self.room):
            self._make_room(size)
        if library.fow_accepted_payload(self.held, self.room, len(self.room), self.length) != _library.OK:
            raise MemoryError
        return bytes(self.view[: self.length.value])

    def _make_room(self, size: int) -> None:
        """Makes room for a payload, which is kept for the next one. A payload has fewer octets than its token."""
        self.room = ctypes.create_string_buffer(size)
        self.view = memoryview(self.room)

    def close(self) -> None:
        """Frees what is held. It may be called twice."""
        self.library.fow_close(self.held)

    def __del__(self) -> None:
        if hasattr(self, "held"):
            self.close()


class Seats:
    """The seats of a validator: a call takes one that is free, or opens another on the same documents, and gives it back. So there is at most
    one for each call that was under way at once, and each has a memory of its own. A list's `append` and `pop` are one step each, so no lock is held for them.

    A fork waits for the calls that are under way, and for no longer than some seconds. In the child a seat that another thread had
    taken even then is lost: it may be half written, and is never looked at.
    """

    def __init__(self, documents: Seat, remember: Tuple[int, int], short: int) -> None:
        self._documents = documents
        self._remember = remember
        self._short = short
        self._free: List[Seat] = []
        self._is_closed = False

    def call(self, work: Callable[..., _Result], *words: Any) -> _Result:
        """What comes of some work with a seat that no other call has, and with these words. Raises Closed, and MemoryError where memory is refused. A
        seat whose call is cut off before it is given back, as by a signal, is freed."""
        while _is_forking:
            _wait_for_fork()
        # (as `take` and `give` do: two calls of Python are a tenth of what it adds to one of the library)
        try:
            seat = self._free.pop()
        except IndexError:
            seat = self._open()
        try:
            if self._is_closed:
                raise Closed
            return work(seat, *words)
        finally:
            self._free.append(seat)
            if self._is_closed:
                self._close_free()

    def take(self) -> Seat:
        """A seat that no other call has. Raises as `call` does."""
        seat = self._pop() or self._open()
        if self._is_closed:
            self.give(seat)
            raise Closed
        return seat

    def give(self, seat: Seat) -> None:
        """Gives a seat back. Where all was closed meanwhile, it is closed too."""
        self._free.append(seat)
        if self._is_closed:
            self._close_free()

    def close(self) -> None:
        """Frees what is held; what calls under way have, when they end."""
        with _opening:
            self._is_closed = True
            self._documents.close()
        self._close_free()

    def _open(self) -> Seat:
        with _opening:
            if self._is_closed:
                raise Closed
            seat = Seat(self._short)
            if seat.library.fow_open_beside(seat.held, self._documents.held) != _library.OK:
                raise MemoryError
            if seat.library.fow_remember(seat.held, *self._remember) != _library.OK:
                raise MemoryError
            return seat

    def _close_free(self) -> None:
        while (seat := self._pop()) is not None:
            seat.close()

    def _pop(self) -> Optional[Seat]:
        """A free seat, and None where there is none: another call may have taken it between a look and a step."""
        try:
            return self._free.pop()
        except IndexError:
            return None


# What a thread has among its frames while it has a call under way, and what it has above that where it waits.
_CALL = Seats.call.__code__
_WAITING = (_wait_for_fork.__code__, Seats._open.__code__)


def said(room: int, function: Callable[..., int], *arguments: object) -> Tuple[int, bytes]:
    """The status of a call of the library, and what it writes, in as much room as it needs.

    Raises MemoryError where memory is refused.
    """
    length = ctypes.c_size_t()
    while True:
        out = ctypes.create_string_buffer(room)
        status = function(*arguments, out, room, length)
        if status == _library.OK:
            return status, ctypes.string_at(out, length.value)
        if status == _library.OUT_OF_MEMORY:
            raise MemoryError
        if status != _library.TOO_SHORT:
            return status, b""
        room *= 2


def written(room: int, function: Callable[..., int], *arguments: object) -> Optional[bytes]:
    """What a call of the library writes, and None where there is nothing to write.

    Raises MemoryError where memory is refused.
    """
    status, octets = said(room, function, *arguments)
    return octets if status == _library.OK else None
