"""The proofs of possession of requests, as they are now: each is made for one request, by its word in the table of cases."""

import hashlib
import hmac
import itertools
import json
import pathlib
import sys
import time

HERE = pathlib.Path(__file__).resolve().parent
sys.path[:0] = [str(HERE.parent), str(HERE.parent / "cases")]

from harness import base64url
from signing import key_text, sign

ORIGIN = "https://api.example"
POLICY = {"version": 2, "algs": ["ES256", "EdDSA"], "typ": "dpop+jwt", "required": ["jti", "htm", "htu", "iat"], "max_age": 300, "leeway": 5, "max_signatures": 1, "max_calls": 1}
# The secret of nonces, and how long one is offered, in seconds.
SECRET = b"a secret that is known to all, for nonces of these tests"
PERIOD = 3600
_NUMBERS = itertools.count()


def compact(value: object) -> bytes:
    return json.dumps(value, separators=(",", ":")).encode()


def thumbprint(alg: str) -> str:
    """The thumbprint of the key of an algorithm (RFC 7638)."""
    key = json.loads(key_text(alg))
    names = ("crv", "kty", "x", "y") if alg == "ES256" else ("crv", "kty", "x")
    return base64url(hashlib.sha256(compact({name: key[name] for name in names})).digest())


def nonce_of(period: int) -> str:
    """The nonce of now, or of so many periods later."""
    number = int(time.time()) // PERIOD + period
    return base64url(hmac.new(SECRET, number.to_bytes(8, "big"), "sha256").digest())


def proof_of(spelled: str, method: str, path: str, words: dict[str, str]) -> str:
    """A proof for a request with this method and path: `spelled` is what is otherwise, as `htm=POST,iat=-400`. Of a member that is empty there is none."""
    otherwise = dict(it.split("=", 1) for it in spelled.split(",")) if spelled else {}
    alg = otherwise.get("alg", "ES256")
    token = words[otherwise.get("token", "bound" if alg == "ES256" else "bound-EdDSA")]
    key = json.loads(key_text(alg)) | ({"d": otherwise["d"]} if "d" in otherwise else {})
    header = {"typ": otherwise.get("typ", "dpop+jwt"), "alg": alg, "jwk": key}
    ath = base64url(hashlib.sha256(token.encode()).digest())
    claims = {"jti": f"{time.time_ns()}-{next(_NUMBERS)}", "htm": method, "htu": ORIGIN + path.split("?")[0], "iat": int(time.time()) + int(otherwise.get("iat", 0)), "ath": ath}
    claims |= {name: otherwise[name] for name in ("htm", "htu") if name in otherwise}
    if "nonce" in otherwise:
        claims["nonce"] = "text" if otherwise["nonce"] == "text" else nonce_of(int(otherwise["nonce"]))
    for name in ("jti", "ath", "jwk"):
        if otherwise.get(name) == "":
            claims.pop(name, None)
            header.pop(name, None)
    signed = base64url(compact(header)) + "." + base64url(compact(claims))
    signature = sign(alg, signed.encode())
    return signed + "." + base64url(bytes([signature[0] ^ 1]) + signature[1:] if "changed" in otherwise else signature)
