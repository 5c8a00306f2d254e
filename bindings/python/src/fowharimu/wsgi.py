"""Lets requests to a WSGI application (PEP 3333) through where their token is accepted, as of Flask and Django.

    app.wsgi_app = Guard(app.wsgi_app, Validator(policy, keys))

The claims are `request.environ["fowharimu.claims"]`. A server joins two headers Authorization by a comma, which no token has, and so it does two headers DPoP.
"""

from __future__ import annotations

from typing import Any, Callable, Dict, Iterable, List, Union

from ._access import NO_RULE, Rule
from ._bearer import NO_DPOP, Bearer, Challenged, NoDPoP, Sent, Validates
from ._dpop import DPoP, checked_mount, spelled

Environ = Dict[str, Any]
StartResponse = Callable[..., Any]
Application = Callable[[Environ, StartResponse], Iterable[bytes]]

_STATUS = {400: "400 Bad Request", 401: "401 Unauthorized", 403: "403 Forbidden", 429: "429 Too Many Requests", 503: "503 Service Unavailable"}


class Guard:
    """An application before another, which is asked only where the request's token is accepted now, and its claims meet the access rule.

    Else the answer is 400, 401 or 403, with `WWW-Authenticate` (RFC 6750, section 3), 429 where the owner of what counts once has used up its share, or 503 where
    keys by URL are too old or there is no room for what counts once. Where nothing is said of a
    token, for want of memory, the exception is the server's, which answers 500. With `hides_token` the application isn't shown `Authorization`, nor `DPoP`.

    With `dpop` tokens that are bound to a key are taken too, with a proof in each request (RFC 9449, section 7), or alone. A bearer's token that is bound is refused. The
    path of a proof's URI is `mount` and the path of the request's target, as the server tells it in `REQUEST_URI` or `RAW_URI`, else `PATH_INFO`, encoded. `mount` is
    what a proxy before the server has taken off the path; `SCRIPT_NAME` isn't looked at, since some servers take it from a header.

    Raises TypeError for an access rule or a dpop that is none, such as None: where none is meant, it is left out; and ValueError for a mount that isn't empty
    and doesn't begin with `/`, or that ends with one.
    """

    def __init__(
        self,
        application: Application,
        validator: Validates,
        access: Rule = NO_RULE,
        *,
        realm: str = "jwt",
        hides_token: bool = False,
        dpop: Union[DPoP, NoDPoP] = NO_DPOP,
        mount: str = "",
    ) -> None:
        self._application = application
        self._bearer = Bearer(validator, access, realm, dpop)
        self._mount = checked_mount(mount)
        self._hides_token = hides_token

    def __call__(self, environ: Environ, start_response: StartResponse) -> Iterable[bytes]:
        try:
            claims = self._bearer.claims(_sent(environ, self._mount))
        except Challenged as why:
            start_response(_STATUS[why.status], [*why.headers, ("Content-Length", "0")])
            return []
        shown = {name: it for name, it in environ.items() if not (self._hides_token and name in _HIDDEN)}
        return self._application({**shown, "fowharimu.claims": claims}, start_response)


# What the application isn't shown, where the token is hidden.
_HIDDEN = ("HTTP_AUTHORIZATION", "HTTP_DPOP")


def _sent(environ: Environ, mount: str) -> Sent:
    """What a request sends."""
    authorizations, proofs = ([environ[name]] if name in environ else [] for name in _HIDDEN)  # type: List[str], List[str]
    return Sent(authorizations, proofs, environ.get("REQUEST_METHOD", ""), mount + _path(environ))


def _path(environ: Environ) -> str:
    """The path of the request's target, as the client wrote it where that is known."""
    target = environ.get("REQUEST_URI") or environ.get("RAW_URI") or ""  # type: str
    return target.split("?")[0] or spelled(environ.get("PATH_INFO", "").encode("latin-1", "replace"))
