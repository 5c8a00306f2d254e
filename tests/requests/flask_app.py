"""The application of the cases, over Flask: flask_app.py FOLDER"""

import json
import pathlib
import sys

import flask
from werkzeug.serving import make_server

from fowharimu import Access, DPoP, Nonces, Once, Proofs, Validator
from fowharimu.wsgi import Guard

FOLDER = pathlib.Path(sys.argv[1])
app = flask.Flask(__name__)


@app.route("/", defaults={"path": ""}, methods=["GET", "HEAD", "POST", "OPTIONS"], provide_automatic_options=False)
@app.route("/<path:path>", methods=["GET", "HEAD", "POST", "OPTIONS"], provide_automatic_options=False)
def answer(path):
    """Stands for the service behind the guards."""
    headers = flask.request.headers
    return json.dumps({"claims": flask.request.environ["fowharimu.claims"], "shown": "Authorization" in headers or "DPoP" in headers})


def opened():
    """The validator of the folder."""
    return Validator(*((FOLDER / it).read_bytes() for it in ("policy.json", "keys.json")))


def closed():
    """One that says nothing of a token."""
    validator = opened()
    validator.close()
    return validator


def guards():
    """The guards of the paths."""
    validator = opened()
    behind = app.wsgi_app
    rules = {f"/{it}": Guard(behind, validator, Access((FOLDER / f"{it}.json").read_bytes())) for it in ("scope", "role")}
    others = {"/hidden": Guard(behind, validator, hides_token=True), "/closed": Guard(behind, closed()), "/": Guard(behind, validator)}
    return {**rules, **others, **with_proofs(behind, validator)}


def with_proofs(behind, validator):
    """The guards that ask who sends a token."""
    proofs, origin = Proofs((FOLDER / "proofs.json").read_bytes(), Once(1000, share=1000, opened=0)), "https://api.example"
    nonces = Nonces((FOLDER / "nonce.secret").read_bytes(), 3600)
    dpop = DPoP(proofs, origin)
    return {
        "/unbound": Guard(behind, validator),
        "/dpop": Guard(behind, validator, dpop=dpop),
        "/dpop-only": Guard(behind, validator, dpop=DPoP(proofs, origin, only=True)),
        "/dpop-nonce": Guard(behind, validator, dpop=DPoP(proofs, origin, nonces=nonces)),
        "/dpop-scope": Guard(behind, validator, Access((FOLDER / "scope.json").read_bytes()), dpop=dpop),
        "/dpop-hidden": Guard(behind, validator, dpop=dpop, hides_token=True),
    }


def by_path(paths):
    """An application that asks the guard of each path."""
    return lambda environ, start_response: paths.get(environ["PATH_INFO"], paths["/"])(environ, start_response)


app.wsgi_app = by_path(guards())
server = make_server("127.0.0.1", 0, app, threaded=True)
print(f"listening on 127.0.0.1:{server.server_port}", flush=True)
server.serve_forever()
