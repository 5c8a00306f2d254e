#!/usr/bin/env python3
"""Lets requests through whose token is accepted: gateway.py HOST:PORT POLICY KEYS

POLICY and KEYS are files. What is behind the gateway answers the claims of the token.
"""

from __future__ import annotations

import json
import logging
import pathlib
import sys
from socketserver import ThreadingMixIn
from typing import Iterable
from wsgiref.simple_server import WSGIServer, make_server

from fowharimu import Validator
from fowharimu.wsgi import Environ, Guard, StartResponse


def answer(environ: Environ, start_response: StartResponse) -> Iterable[bytes]:
    """Stands for the service behind the gateway."""
    start_response("200 OK", [("Content-Type", "application/json")])
    return [json.dumps(environ["fowharimu.claims"]).encode()]


class Server(ThreadingMixIn, WSGIServer):
    """A server with a thread for each request."""

    daemon_threads = True


def main() -> None:
    if len(sys.argv) != 4:
        sys.exit(__doc__)
    logging.basicConfig(level=logging.INFO)
    host, _, port = sys.argv[1].rpartition(":")
    policy, keys = (pathlib.Path(name).read_bytes() for name in sys.argv[2:])
    with Validator(policy, keys) as validator, make_server(host, int(port), Guard(answer, validator, realm="gateway"), Server) as server:
        print(f"listening on {host}:{server.server_port}", flush=True)
        server.serve_forever()


if __name__ == "__main__":
    main()
