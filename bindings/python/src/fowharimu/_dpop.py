"""How a guard takes tokens that are bound to a key, with a proof in each request (DPoP, RFC 9449)."""

from __future__ import annotations

import re
from typing import Union
from urllib.parse import quote

from ._possession import Nonces, Proof, Proofs
from ._replies import Scheme

_ORIGIN = re.compile(r"https?://[a-z0-9._~!$&'()*+,;=:\[\]%-]+", re.ASCII | re.IGNORECASE)


# What a path may have as it is, beside letters and digits (RFC 3986, section 3.3).
_OF_PATHS = "/!$&'()*+,;=:@"


def spelled(path: Union[str, bytes]) -> str:
    """A path that was decoded, encoded as clients mostly write it."""
    return quote(path, safe=_OF_PATHS)


def checked_mount(mount: str) -> str:
    """What stands before the path of each request. Raises ValueError where it isn't empty and doesn't begin with `/`, or ends with one."""
    if mount and (not mount.startswith("/") or mount.endswith("/")):
        raise ValueError("a mount is empty, or begins with / and doesn't end with one")
    return mount


class NoNonces:
    """That no nonces are asked for: another thing than None, which somebody may have looked up and not found."""


NO_NONCES = NoNonces()


class DPoP:
    """What a guard needs to take tokens of the scheme `DPoP`: the policy for proofs, and the `origin` that clients see, as `https://api.example`, with no path. Nothing of a
    request is taken for it, `Host` and `X-Forwarded-Host` neither. With `only` no bearer's token is taken; else one is, unless it is bound. With `nonces` each proof has to have
    one of them, and a client that has none is told.

    Raises TypeError for proofs or nonces that are none, such as None, and for an only that is no bool, and ValueError for another origin.
    """

    def __init__(self, proofs: Proofs, origin: str, *, only: bool = False, nonces: Union[Nonces, NoNonces] = NO_NONCES) -> None:
        if not isinstance(proofs, Proofs):
            raise TypeError("proofs has to be a Proofs")
        if not isinstance(only, bool):
            raise TypeError("only has to be a bool")
        if not isinstance(nonces, (Nonces, NoNonces)):
            raise TypeError("nonces has to be a Nonces: where none is asked for, it is left out")
        if not _ORIGIN.fullmatch(origin):
            raise ValueError("an origin is a scheme and a host, as https://api.example, and has no path")
        self.schemes = Scheme.DPOP if only else Scheme.BEARER | Scheme.DPOP
        self.algs = proofs.algs.encode()
        self.nonces = nonces if isinstance(nonces, Nonces) else None
        self._proofs = proofs
        self._origin = origin

    def proof(self, value: str, method: str, path: str) -> Proof:
        """The proof of a request: `value` is that of its only header `DPoP`, each character an octet, and `path` the one that the client wrote. A `#` belongs to it, since
        no request has a fragment."""
        uri = self._origin + (path if path.startswith("/") else "/" + path).replace("#", "%23")
        octets = (it.encode("latin-1", "replace") for it in (value, method, uri))
        return Proof(self._proofs, *octets, nonce=self.nonces)
