"""The functions and structures of fowharimu.h, through ctypes."""

from __future__ import annotations

import ctypes
import functools
import os
import pathlib
import platform
import sys
from ctypes.util import find_library
from typing import Optional

from ._faults import AnotherLibrary

# The number of the interface that this package is made for: FOW_ABI of fowharimu.h.
ABI = 5

OK, REFUSED, _, OUT_OF_MEMORY, NOT_OPEN, TOO_SHORT, ABSENT, DENIED, UNNAMED, NOT_EXPECTED = range(10)


class CValidator(ctypes.Structure):
    """fow_validator."""

    _fields_ = [("at", ctypes.c_void_p), ("held", ctypes.c_bool)]


class CAccess(ctypes.Structure):
    """fow_access."""

    _fields_ = [("at", ctypes.c_void_p), ("held", ctypes.c_bool)]


class COnce(ctypes.Structure):
    """fow_once."""

    _fields_ = [("at", ctypes.c_void_p), ("held", ctypes.c_bool)]


class CEntry(ctypes.Structure):
    """fow_entry."""

    _fields_ = [
        ("mark", ctypes.c_uint8 * 32),
        ("owner", ctypes.c_uint8 * 32),
        ("owned", ctypes.c_uint64),
        ("moment", ctypes.c_uint64),
        ("grace", ctypes.c_uint64),
        ("issued", ctypes.c_uint64),
    ]


class CPossession(ctypes.Structure):
    """fow_possession."""

    _fields_ = [("at", ctypes.c_void_p), ("held", ctypes.c_bool)]


class CReport(ctypes.Structure):
    """fow_report."""

    _fields_ = [
        ("work", ctypes.c_uint64),
        ("tries", ctypes.c_uint64),
        ("verdict", ctypes.c_uint32),
        ("fault", ctypes.c_uint32),
        ("part", ctypes.c_uint32),
        ("signature", ctypes.c_uint32),
        ("key", ctypes.c_uint32),
        ("claim", ctypes.c_uint32),
    ]


class CState(ctypes.Structure):
    """fow_state."""

    _fields_ = [("state", ctypes.c_uint32), ("fault", ctypes.c_uint32), ("key", ctypes.c_uint32)]


class CTry(ctypes.Structure):
    """fow_try."""

    _fields_ = [("cost", ctypes.c_uint64), ("signature", ctypes.c_uint32), ("key", ctypes.c_uint32)]


class CReply(ctypes.Structure):
    """fow_reply."""

    _fields_ = [("status", ctypes.c_uint32), ("bearer", ctypes.c_uint32), ("dpop", ctypes.c_uint32)]


class CRenewal(ctypes.Structure):
    """fow_renewal."""

    _fields_ = [
        (name, ctypes.c_uint64)
        for name in (
            *("refresh_after", "cool_down", "max_age", "timeout"),
            *("heard", "keys_age", "keys_ticket", "begun_age", "ticket", "is_open"),
            *("waiting", "first", "second", "third", "fourth"),
        )
    ]


class CRenewalAnswer(ctypes.Structure):
    """fow_renewal_answer."""

    _fields_ = [(name, ctypes.c_uint64) for name in ("has_keys", "keys", "fetch", "ticket", "left")]


class CUrl(ctypes.Structure):
    """fow_url."""

    _fields_ = [
        *((name, ctypes.c_uint32) for name in ("https", "port")),
        *((name, ctypes.c_size_t) for name in ("host", "host_end", "target")),
    ]


class CNext(ctypes.Structure):
    """fow_next."""

    _fields_ = [("step", ctypes.c_uint32), ("most", ctypes.c_uint32)]


_U32, _U64, _SIZE = ctypes.c_uint32, ctypes.c_uint64, ctypes.c_size_t
_IN = [ctypes.c_char_p, _SIZE]
_OUT = [ctypes.c_char_p, _SIZE, ctypes.POINTER(_SIZE)]
_VALIDATOR = ctypes.POINTER(CValidator)
_ACCESS = ctypes.POINTER(CAccess)
_ONCE = ctypes.POINTER(COnce)
_POSSESSION = ctypes.POINTER(CPossession)
_REPORT = ctypes.POINTER(CReport)
_RENEWAL = ctypes.POINTER(CRenewal)

_SIGNATURES = {
    "fow_open": (_U32, [_VALIDATOR, *_IN, *_IN, ctypes.POINTER(_U32)]),
    "fow_open_prepared": (_U32, [_VALIDATOR, *_IN, *_IN, _SIZE, ctypes.POINTER(_U32)]),
    "fow_open_beside": (_U32, [_VALIDATOR, _VALIDATOR]),
    "fow_close": (None, [_VALIDATOR]),
    "fow_remember": (_U32, [_VALIDATOR, _SIZE, _SIZE]),
    "fow_remembered": (ctypes.c_bool, [_VALIDATOR]),
    "fow_refused_member": (_U32, [*_IN, *_OUT]),
    "fow_state_of": (_U32, [_VALIDATOR, _U32, ctypes.POINTER(CState)]),
    "fow_try_of": (_U32, [_VALIDATOR, ctypes.c_uint64, ctypes.POINTER(CTry)]),
    "fow_refused_claim": (_U32, [_VALIDATOR, *_OUT]),
    "fow_accepted_payload": (_U32, [_VALIDATOR, *_OUT]),
    "fow_unverified_header": (_U32, [_VALIDATOR, *_IN, _U32, *_OUT]),
    "fow_unverified_issuer": (_U32, [_VALIDATOR, *_IN, *_OUT]),
    "fow_sole_issuer": (_U32, [_VALIDATOR, *_OUT]),
    "fow_token_limit": (_U32, [_VALIDATOR, ctypes.POINTER(_U32)]),
    "fow_documents_are_public": (ctypes.c_bool, [_VALIDATOR]),
    "fow_text_member": (_U32, [*_IN, *_IN, *_OUT]),
    "fow_access_open": (_U32, [_ACCESS, *_IN, ctypes.POINTER(_U32)]),
    "fow_access_refused": (_U32, [*_IN, *_OUT]),
    "fow_access_scope": (_U32, [_ACCESS, _U32, *_OUT]),
    "fow_access_close": (None, [_ACCESS]),
    "fow_denied": (_U32, [_VALIDATOR, _ACCESS, ctypes.POINTER(_U32)]),
    "fow_denied_name": (_U32, [_VALIDATOR, _ACCESS, *_OUT]),
    "fow_expect_text": (_U32, [_VALIDATOR, *_IN, *_IN, ctypes.POINTER(_U32)]),
    "fow_expect_half_hash": (_U32, [_VALIDATOR, *_IN, _U32, *_IN, *_IN, ctypes.POINTER(_U32)]),
    "fow_once_open": (_U32, [_ONCE, _SIZE, _SIZE, ctypes.c_uint64]),
    "fow_once_take": (_U32, [_ONCE, _VALIDATOR, ctypes.c_int64, ctypes.POINTER(_U32)]),
    "fow_once_entry": (_U32, [_VALIDATOR, ctypes.c_int64, ctypes.POINTER(CEntry), ctypes.POINTER(_U32)]),
    "fow_once_close": (None, [_ONCE]),
    "fow_possession_open": (_U32, [_POSSESSION, *_IN, ctypes.POINTER(_U32)]),
    "fow_possession_judge": (_U32, [_POSSESSION, _VALIDATOR, *_IN * 5, ctypes.c_int64, ctypes.POINTER(_U32)]),
    "fow_possession_take": (_U32, [_POSSESSION, _ONCE, ctypes.c_int64, ctypes.POINTER(_U32)]),
    "fow_possession_entry": (_U32, [_POSSESSION, ctypes.POINTER(CEntry)]),
    "fow_possession_algs": (_U32, [_POSSESSION, *_OUT]),
    "fow_possession_fresh": (_U32, [_POSSESSION, *_IN, _U32, ctypes.c_int64]),
    "fow_possession_close": (None, [_POSSESSION]),
    "fow_nonce": (_U32, [*_IN, _U32, ctypes.c_int64, *_OUT]),
    "fow_proof_outcome": (_U32, [_U32, _U32]),
    "fow_taken_outcome": (_U32, [_U32, _U32, _U32]),
    "fow_shown": (_U32, [_VALIDATOR, _POSSESSION, *_IN, ctypes.POINTER(_U32), ctypes.POINTER(_U32)]),
    "fow_fault_name": (ctypes.c_char_p, [_U32]),
    "fow_issue": (_U32, [_VALIDATOR, _U32, _U32, _U32, *_IN, *_IN, *_OUT, _REPORT]),
    "fow_credentials": (_U32, [_U32, *_IN, ctypes.POINTER(_U32), ctypes.POINTER(_SIZE), ctypes.POINTER(_SIZE)]),
    "fow_reply_to": (None, [_U32, _U32, _U32, ctypes.POINTER(CReply)]),
    "fow_quotable": (ctypes.c_bool, _IN),
    "fow_challenge": (_U32, [_U32, _U32, *_IN * 3, *_OUT]),
    "fow_url_of": (_U32, [*_IN, ctypes.c_bool, ctypes.POINTER(CUrl)]),
    "fow_redirected": (_U32, [*_IN, *_IN, *_OUT]),
    "fow_metadata_url": (_U32, [_U32, *_IN, *_OUT]),
    "fow_keys_url": (_U32, [*_IN, *_IN, *_OUT]),
    "fow_next_step": (None, [_U32, _U32, _U32, ctypes.POINTER(CNext)]),
    "fow_renewal_begin": (None, [_RENEWAL, *[_U64] * 5]),
    "fow_renewal_ask": (None, [_RENEWAL, _U64, _U64, _U64, ctypes.POINTER(CRenewalAnswer)]),
    "fow_renewal_took": (ctypes.c_bool, [_RENEWAL, _U64, _U64]),
    "fow_renewal_failed": (ctypes.c_bool, [_RENEWAL, _U64, _U64]),
    "fow_renewal_wait": (ctypes.c_bool, [_RENEWAL, _U64, _U64, _U64]),
    "fow_renewal_quiet_for": (_U64, [_RENEWAL]),
    "fow_judge": (_U32, [_VALIDATOR, *_IN, ctypes.c_int64, _REPORT]),
}


@functools.lru_cache(maxsize=None)
def load() -> ctypes.CDLL:
    """The library, which is looked for once: the one that FOWHARIMU_LIBRARY names, or the one in this package, or the installed one. Raises
    AnotherLibrary where it has another interface, and OSError where there is none."""
    library = ctypes.CDLL(os.environ.get("FOWHARIMU_LIBRARY") or _shipped() or _installed())
    _compare(library)
    _declare(library)
    return library


@functools.lru_cache(maxsize=None)
def load_holding() -> ctypes.CDLL:
    """The same library, whose calls keep the interpreter's lock: for what takes less time than to give the lock away and to wait for it."""
    library = ctypes.PyDLL(load()._name)
    _declare(library)
    return library


def _declare(library: ctypes.CDLL) -> None:
    """Says what the functions take and give."""
    for function, (result, arguments) in _SIGNATURES.items():
        getattr(library, function).restype = result
        getattr(library, function).argtypes = arguments


def _shipped() -> Optional[str]:
    """The library in this package, where it is a wheel's, in the folder of its system and processor. Raises OSError on another one."""
    shipped = {it.parent.name: str(it) for it in pathlib.Path(__file__).parent.glob("*/libfowharimu.so.0")}
    here = f"{sys.platform}-{platform.machine()}"
    if shipped and here not in shipped:
        raise OSError(f"fowharimu has a library for {' and '.join(shipped)}, and this is {here}")
    return shipped.get(here)


def _installed() -> str:
    """The installed library."""
    return find_library("fowharimu") or "libfowharimu.so.0"


def _compare(library: ctypes.CDLL) -> None:
    """Raises AnotherLibrary where the library has another interface than this package is made for."""
    # (a library that was built before there were numbers has neither function)
    if not hasattr(library, "fow_abi"):
        raise AnotherLibrary(ABI, None)
    library.fow_abi.restype, library.fow_abi.argtypes = _U32, []
    library.fow_version.restype, library.fow_version.argtypes = ctypes.c_char_p, []
    if library.fow_abi() != ABI:
        raise AnotherLibrary(ABI, library.fow_abi(), library.fow_version().decode())
