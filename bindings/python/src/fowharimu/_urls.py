"""From which URLs keys and metadata are fetched, and what follows on an answer: the library decides, by fow_url_of and the calls beside it."""

from __future__ import annotations

import ctypes
import enum
from typing import NamedTuple, Optional

from ._library import ABSENT, OK, CNext, CUrl, load, load_holding
from ._seats import said, written


class Asked(enum.IntEnum):
    """What is asked for: enum fow_asked."""

    KEYS, OPENID, OAUTH = range(3)


class Step(enum.IntEnum):
    """What follows on an answer: enum fow_step."""

    FAIL, TAKE, FOLLOW, ASK_OAUTH, TOO_OFTEN = range(5)


class Next(NamedTuple):
    """What follows on an answer."""

    step: Step
    most: int
    """How many octets of it are taken at most."""


class Url(NamedTuple):
    """A URL that is asked, by its parts."""

    text: str
    is_https: bool
    host: str
    port: int
    target: str
    """Path and query, as they are sent."""


def url_of(text: str, allow_http: bool) -> Optional[Url]:
    """A URL from which something may be fetched; None where it is none, or its scheme isn't allowed."""
    octets, at = _octets(text), CUrl()
    if load_holding().fow_url_of(octets, len(octets), allow_http, ctypes.byref(at)) != OK:
        return None
    target = text[at.target :]
    return Url(text, at.https == 1, text[at.host : at.host_end], at.port, target if target[:1] == "/" else f"/{target}")


def redirected(url: Url, location: str) -> Optional[Url]:
    """Where a redirection leads; None where it isn't followed."""
    asked, to = _octets(url.text), _octets(location)
    text = written(len(asked) + len(to) + 1, load_holding().fow_redirected, asked, len(asked), to, len(to))
    return None if text is None else url_of(text.decode(), True)


def metadata_url(issuer: str, asked: Asked) -> Optional[Url]:
    """Where the metadata of an issuer stand; None where it can have none."""
    octets = _octets(issuer)
    text = written(len(octets) + 64, load_holding().fow_metadata_url, asked, octets, len(octets))
    return None if text is None else url_of(text.decode(), True)


def keys_url(document: bytes, issuer: str) -> str:
    """The URL of an issuer's keys, as its metadata tell it. Raises ValueError where they are of another issuer, or tell none."""
    octets = _octets(issuer)
    status, text = said(len(document) + 1, load().fow_keys_url, document, len(document), octets, len(octets))
    if status == OK:
        return text.decode()
    raise ValueError("the metadata have no jwks_uri" if status == ABSENT else "the metadata are of another issuer")


def next_step(asked: Asked, status: int, followed: int) -> Next:
    """What follows on an answer of this status, where so many redirections were followed."""
    said_next = CNext()
    load_holding().fow_next_step(asked, status, followed, ctypes.byref(said_next))
    return Next(Step(said_next.step), said_next.most)


def _octets(text: str) -> bytes:
    # (a code that is none of a text becomes octets that no URL has)
    return text.encode(errors="surrogatepass")
