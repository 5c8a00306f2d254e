"""The application of the cases, over Starlette under uvicorn: starlette_app.py FOLDER"""

import json
import pathlib
import socket
import sys

import uvicorn
from starlette.applications import Starlette
from starlette.responses import Response
from starlette.routing import Route

from fowharimu import Access, DPoP, Nonces, Once, Proofs, Validator
from fowharimu.asgi import Guard

FOLDER = pathlib.Path(sys.argv[1])


async def answer(request):
    """Stands for the service behind the guards."""
    return Response(json.dumps({"claims": request.state.claims, "shown": "authorization" in request.headers or "dpop" in request.headers}))


def guarded(validator, **how):
    """The application behind a guard."""
    app = Starlette(routes=[Route("/{path:path}", answer, methods=["GET", "HEAD", "POST", "OPTIONS"])])
    app.add_middleware(Guard, validator=validator, **how)
    return app


def opened():
    """The validator of the folder."""
    return Validator(*((FOLDER / it).read_bytes() for it in ("policy.json", "keys.json")))


def closed():
    """One that says nothing of a token."""
    validator = opened()
    validator.close()
    return validator


def guards():
    """The guards of the paths."""
    validator = opened()
    rules = {f"/{it}": guarded(validator, access=Access((FOLDER / f"{it}.json").read_bytes())) for it in ("scope", "role")}
    others = {"/hidden": guarded(validator, hides_token=True), "/closed": guarded(closed()), "/": guarded(validator)}
    return {**rules, **others, **with_proofs(validator)}


def with_proofs(validator):
    """The guards that ask who sends a token."""
    proofs, origin = Proofs((FOLDER / "proofs.json").read_bytes(), Once(1000, share=1000, opened=0)), "https://api.example"
    nonces = Nonces((FOLDER / "nonce.secret").read_bytes(), 3600)
    dpop = DPoP(proofs, origin)
    return {
        "/unbound": guarded(validator),
        "/dpop": guarded(validator, dpop=dpop),
        "/dpop-only": guarded(validator, dpop=DPoP(proofs, origin, only=True)),
        "/dpop-nonce": guarded(validator, dpop=DPoP(proofs, origin, nonces=nonces)),
        "/dpop-scope": guarded(validator, access=Access((FOLDER / "scope.json").read_bytes()), dpop=dpop),
        "/dpop-hidden": guarded(validator, dpop=dpop, hides_token=True),
    }


PATHS = guards()


async def by_path(scope, receive, send):
    """Asks the guard of each path."""
    await PATHS.get(scope.get("path"), PATHS["/"])(scope, receive, send)


listener = socket.create_server(("127.0.0.1", 0))
print(f"listening on 127.0.0.1:{listener.getsockname()[1]}", flush=True)
server = uvicorn.Server(uvicorn.Config(by_path, log_level="warning", lifespan="off"))
server.run(sockets=[listener])
