"""Lets requests to an ASGI application through where their token is accepted, as of Starlette and FastAPI.

    app.add_middleware(Guard, validator=Validator(policy, keys))

The claims are `request.state.claims`. A call of a validator takes microseconds, so it stays in the event loop: `max_calls` in the policy bounds it. A store
of tokens or proofs that count once is asked in a thread, since it may have its caller wait. A token that waits for a fetch of keys by URL holds no thread,
and the others don't wait behind it.
"""

from __future__ import annotations

import asyncio
from typing import Any, Awaitable, Callable, Dict, Union

from . import Claims
from ._access import NO_RULE, Rule
from ._bearer import NO_DPOP, Bearer, Challenged, NoDPoP, Sent, Validates
from ._dpop import DPoP, checked_mount, spelled
from ._waiting import Fetching

Message = Dict[str, Any]
Receive = Callable[[], Awaitable[Message]]
Send = Callable[[Message], Awaitable[None]]
Application = Callable[[Message, Receive, Send], Awaitable[None]]

# The code by which a WebSocket is closed for a policy (RFC 6455, section 7.4.1): before it is accepted, a server answers 403.
_POLICY_VIOLATION = 1008


class Guard:
    """An application before another, which is asked only where the request's token is accepted now, and its claims meet the access rule.

    Else the answer is 400, 401 or 403, with `WWW-Authenticate` (RFC 6750, section 3), 429 where the owner of what counts once has used up its share, or 503 where
    keys by URL are too old or there is no room for what counts once; a WebSocket is closed before it
    is open. Where nothing is said of a token, for want of memory, the exception is the server's, which answers 500. With `hides_token` the application
    isn't shown `Authorization`, nor `DPoP`.

    With `dpop` tokens that are bound to a key are taken too, with a proof in each request (RFC 9449, section 7), or alone. A bearer's token that is bound is refused. The
    path of a proof's URI is `mount` and `raw_path`, where the server tells it, else `path`, encoded. `mount` is what a proxy before the server has taken off the
    path; `root_path` isn't looked at.

    Raises TypeError for an access rule or a dpop that is none, such as None: where none is meant, it is left out; and ValueError for a mount that isn't empty
    and doesn't begin with `/`, or that ends with one.
    """

    def __init__(
        self,
        app: Application,
        validator: Validates,
        access: Rule = NO_RULE,
        *,
        realm: str = "jwt",
        hides_token: bool = False,
        dpop: Union[DPoP, NoDPoP] = NO_DPOP,
        mount: str = "",
    ) -> None:
        self._app = app
        self._bearer = Bearer(validator, access, realm, dpop)
        self._mount = checked_mount(mount)
        self._hides_token = hides_token

    async def __call__(self, scope: Message, receive: Receive, send: Send) -> None:
        if scope["type"] == "lifespan":
            await self._app(scope, receive, send)
            return
        try:
            claims = await self._claims(_sent(scope, self._mount))
        except Challenged as why:
            await _refuse(scope, send, why)
            return
        shown = [it for it in scope["headers"] if not (self._hides_token and it[0].lower() in (b"authorization", b"dpop"))]
        await self._app({**scope, "headers": shown, "state": {**scope.get("state", {}), "claims": claims}}, receive, send)

    async def _claims(self, sent: Sent) -> Claims:
        said = self._bearer.claims_at_once(sent)
        if isinstance(said, tuple):
            asking, waiting = said
            await _over(waiting.fetch)
            return self._bearer.claims_at_last(asking, waiting)
        # (what stands for a validator may wait for anything)
        return await asyncio.to_thread(self._bearer.claims, sent) if said is None else said


def _sent(scope: Message, mount: str) -> Sent:
    """What a request sends. A WebSocket is asked for by GET (RFC 6455, section 4.1)."""
    authorizations, proofs = (
        [value.decode("latin-1") for name, value in scope["headers"] if name.lower() == wanted] for wanted in (b"authorization", b"dpop")
    )
    return Sent(authorizations, proofs, scope.get("method", "GET"), mount + _path(scope))


def _path(scope: Message) -> str:
    """The path that the client wrote."""
    if scope.get("raw_path"):
        # (some servers have the query behind it)
        return str(scope["raw_path"].split(b"?")[0].decode("latin-1"))
    return spelled(scope.get("path", ""))


async def _over(fetch: Fetching) -> None:
    """Waits until a fetch is over, and no longer than its deadline."""
    loop = asyncio.get_running_loop()
    over = loop.create_future()

    def settle() -> None:
        if not over.done():
            over.set_result(None)

    def ended() -> None:
        try:
            loop.call_soon_threadsafe(settle)
        except RuntimeError:
            pass  # (the loop is closed, and nobody waits)

    fetch.tell(ended)
    await asyncio.wait([over], timeout=fetch.left)


async def _refuse(scope: Message, send: Send, why: Challenged) -> None:
    """Answers a request that isn't let through."""
    if scope["type"] == "websocket":
        await send({"type": "websocket.close", "code": _POLICY_VIOLATION})
        return
    headers = [*((name.lower().encode(), value.encode()) for name, value in why.headers), (b"content-length", b"0")]
    await send({"type": "http.response.start", "status": why.status, "headers": headers})
    await send({"type": "http.response.body", "body": b""})
