"""Prints the least time of a call, in microseconds, on a token by HMAC and one by RS256, whose keys stand at a URL too: bench.py HMAC RSA URL"""

import pathlib
import sys
import time
from typing import Callable

from fowharimu import Validator
from fowharimu._replies import Scheme, token_in
from fowharimu.remote import RemoteKeys

ROUNDS = 400
NOW = 1300819379
REMEMBER = (10, 4096)


def measure(label: str, calls: int, call: Callable[[], object]) -> None:
    """Prints the least time of this call, taken over so many of them."""
    least = float("inf")
    for _ in range(ROUNDS):
        begun = time.perf_counter()
        for _ in range(calls):
            call()
        least = min(least, time.perf_counter() - begun)
    print(f"{label} {least / calls * 1e6:.3f}")


def read(name: str, end: str) -> bytes:
    return pathlib.Path(f"{name}.{end}").read_bytes()


def main(hmac: str, rsa: str, url: str) -> None:
    token = read(hmac, "jwt")
    with Validator(read(hmac, "policy"), read(hmac, "keys")) as validator:
        measure("HS256 claims", 100, lambda: validator.validate(token, NOW))
    with Validator(read(hmac, "policy"), read(hmac, "keys"), remember=REMEMBER) as validator:
        measure("HS256 claims, remembered", 200, lambda: validator.validate(token, NOW))
    token, policy, keys = read(rsa, "jwt"), read(rsa, "policy"), read(rsa, "keys")
    with Validator(policy, keys) as validator:
        measure("RS256 claims", 20, lambda: validator.validate(token, NOW))
    with Validator(policy, keys, remember=REMEMBER) as validator:
        measure("RS256 claims, remembered", 200, lambda: validator.validate(token, NOW))
    with RemoteKeys(policy, url, allow_http=True, remember=REMEMBER) as remote:
        measure("RS256 claims, remembered, keys by URL", 200, lambda: remote.validate(token, NOW))
    value = b"Bearer " + token
    measure("Authorization", 200, lambda: token_in(Scheme.BEARER, value))


if __name__ == "__main__":
    if len(sys.argv) != 4:
        sys.exit(__doc__)
    main(*sys.argv[1:])
