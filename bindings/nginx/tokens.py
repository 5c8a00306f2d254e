"""Tokens and key sets for the tests: HMAC by Python's own library, public keys by the command openssl."""
import hashlib
import hmac
import importlib.machinery
import importlib.util
import json
import pathlib
import re
import secrets
import time

TOP = pathlib.Path(__file__).resolve().parent.parent.parent
HASHES = {"HS256": hashlib.sha256, "HS384": hashlib.sha384, "HS512": hashlib.sha512}


def module_of(path: pathlib.Path):
    """A program of this repository as a module."""
    loader = importlib.machinery.SourceFileLoader(path.name, str(path))
    module = importlib.util.module_from_spec(importlib.util.spec_from_loader(path.name, loader))
    loader.exec_module(module)
    return module


MAKE = module_of(TOP / "tests/tokens/make")
PUBLIC = [*MAKE.RSA, *MAKE.CURVES, *MAKE.EDWARDS]


class Secret:
    """A new secret, which signs by HMAC."""

    def __init__(self, size: int = 64) -> None:
        self.octets = secrets.token_bytes(size)

    def jwk(self, **members) -> dict:
        return {"kty": "oct", "k": MAKE.base64url(self.octets), **members}

    def signed(self, header: dict, payload: bytes) -> str:
        """A token in compact form, by whatever its header says."""
        signing_input = f"{text_of(header)}.{MAKE.base64url(payload)}"
        tag = hmac.digest(self.octets, signing_input.encode(), HASHES.get(header.get("alg"), hashlib.sha256))
        return f"{signing_input}.{MAKE.base64url(tag)}"

    def token(self, alg: str = "HS256", **claims) -> str:
        """A token with these claims and an hour to live; one that is None is left out."""
        return self.signed({"alg": alg}, payload_of(claims))


def text_of(header: dict) -> str:
    return MAKE.base64url(json.dumps(header).encode())


def payload_of(claims: dict) -> bytes:
    """The claims in JSON, with a name, an issuer and an hour to live where they don't say another."""
    whole = {"iss": "joe", "sub": "ann", "exp": int(time.time()) + 3600, **claims}
    return json.dumps({name: it for name, it in whole.items() if it is not None}).encode()


def public_token(name: str, room: pathlib.Path) -> tuple[dict, str]:
    """A new public key for an algorithm or a curve, and a token by it."""
    alg = "EdDSA" if name in MAKE.EDWARDS else name
    message = room / "message"
    message.write_text(f"{text_of({'alg': alg})}.{MAKE.base64url(payload_of({}))}")
    sign = MAKE.eddsa if name in MAKE.EDWARDS else MAKE.ecdsa if name in MAKE.CURVES else MAKE.rsa
    jwk, signature = sign(name, str(room / "key"), str(message))
    return jwk, f"{message.read_text()}.{MAKE.base64url(signature)}"


def key_set(*keys: dict) -> str:
    return json.dumps({"keys": keys})


def corpus() -> list[bytes]:
    """The tokens of the tests of the libraries that can stand in a line, with the token of RFC 7515 where they name it."""
    example = (TOP / "examples/rfc7515-a1.jwt").read_text().strip()
    names = dict(zip(("<HEADER_A>", "<PAYLOAD_A>", "<SIGNATURE_A>"), example.split(".")), **{"<TOKEN_A>": example})
    found = set()
    for path in (TOP / "crates/jwt_support/src").glob("*.rt"):
        for raw, plain in re.findall(r'token: (?:r#"(.*?)"#|"([^"\\]*)")', path.read_text()):
            found.add(re.sub(r"<[A-Z_]+>", lambda it: names.get(it[0], it[0]), raw or plain))
    return [it.encode() for it in sorted(found) if it.strip() == it and it and "\n" not in it]
