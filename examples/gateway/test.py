#!/usr/bin/env python3
"""Starts a gateway and asks it by HTTP, as its clients would: test.py COMMAND ..

COMMAND is how the gateway is started, without its address and files. It ends with 1 where an answer isn't as it has to be.
"""

from __future__ import annotations

import base64
import concurrent.futures
import hashlib
import hmac
import http.client
import json
import pathlib
import subprocess
import sys
import time
from typing import Any, Dict, List, Optional, Tuple

EXAMPLES = pathlib.Path(__file__).resolve().parent.parent
POLICY, KEYS = EXAMPLES / "login.policy", EXAMPLES / "rfc7515-a1.keys"
# A gateway that sees two headers as two answers 400, and one that sees them joined by a comma, as WSGI does, 401.
TWICE = {"two headers": 400}
ANY, NONE, INVALID = "Bearer ", 'Bearer realm="gateway"', 'Bearer error="invalid_token"'

Header = Tuple[str, str]


def base64url(octets: bytes) -> str:
    """The octets as base64url without padding (RFC 7515, section 2)."""
    return base64.urlsafe_b64encode(octets).rstrip(b"=").decode()


def token(**claims: Any) -> str:
    """A token by HS256 with these claims, in the place of those that the policy takes now."""
    key = json.loads(KEYS.read_text())["keys"][0]["k"]
    now = int(time.time())
    held = {"iss": "https://login.example", "sub": "ann", "aud": "shop", "iat": now, "exp": now + 600, **claims}
    header = {"alg": "HS256", "typ": "at+jwt"}
    signing_input = ".".join(base64url(json.dumps(it).encode()) for it in (header, held))
    tag = hmac.digest(base64.urlsafe_b64decode(key + "=="), signing_input.encode(), hashlib.sha256)
    return f"{signing_input}.{base64url(tag)}"


def changed(text: str) -> str:
    """The token with another first character of its signature."""
    start, _, signature = text.rpartition(".")
    return f"{start}.{'B' if signature[0] == 'A' else 'A'}{signature[1:]}"


def asked(port: int, headers: List[Header]) -> Tuple[int, Optional[str], bytes]:
    """The status, the challenge and the body of the answer to a request with these headers."""
    connection = http.client.HTTPConnection("127.0.0.1", port, timeout=30)
    connection.putrequest("GET", "/")
    for name, value in headers:
        connection.putheader(name, value)
    connection.endheaders()
    answer = connection.getresponse()
    body = answer.read()
    connection.close()
    return answer.status, answer.getheader("WWW-Authenticate"), body


def cases() -> Dict[str, Tuple[List[Header], int, Optional[str]]]:
    """Each request, the status of its answer, and how its challenge begins."""
    good = token()
    name = "Authorization"
    return {
        "a token": ([(name, f"Bearer {good}")], 200, None),
        "the scheme in small letters": ([(name.lower(), f"bearer {good}")], 200, None),
        "no header": ([], 401, NONE),
        "another scheme": ([(name, "Basic YW5uOmFubg==")], 401, NONE),
        "no token behind the scheme": ([(name, "Bearer ")], 401, ANY),
        "two headers": ([(name, f"Bearer {good}"), (name, f"Bearer {good}")], 401, ANY),
        "a changed signature": ([(name, f"Bearer {changed(good)}")], 401, INVALID),
        "an expired token": ([(name, f"Bearer {token(exp=int(time.time()) - 1)}")], 401, INVALID),
        "another audience": ([(name, f"Bearer {token(aud='bank')}")], 401, INVALID),
        "no token at all": ([(name, "Bearer e30.*.AA")], 401, INVALID),
        "a token that is too long": ([(name, f"Bearer {token(text='x' * 9000)}")], 401, INVALID),
    }


def is_right(port: int, name: str, headers: List[Header], status: int, challenge: Optional[str]) -> bool:
    """Whether the answer is as it has to be; it is printed where it isn't."""
    said, header, body = asked(port, headers)
    right = said in (status, TWICE.get(name)) and (header or "").startswith(challenge or "") and (header is None) == (challenge is None)
    if right and status == 200:
        right = json.loads(body)["sub"] == "ann"
    if not right:
        print(f"{name}: {said}, {header}, {body!r}, where {status} and {challenge} have to be")
    return right


def many(port: int) -> bool:
    """Whether 200 requests of eight clients are answered, each other one with a changed token by 401."""
    good = token()
    headers = [[("Authorization", f"Bearer {it}")] for it in (good, changed(good))]
    with concurrent.futures.ThreadPoolExecutor(8) as pool:
        said = list(pool.map(lambda n: asked(port, headers[n % 2])[0], range(200)))
    if said != [200, 401] * 100:
        print(f"many clients: {said}")
    return said == [200, 401] * 100


def main() -> int:
    if len(sys.argv) < 2:
        sys.exit(__doc__)
    command = [*sys.argv[1:], "127.0.0.1:0", str(POLICY), str(KEYS)]
    with subprocess.Popen(command, stdout=subprocess.PIPE, stderr=subprocess.DEVNULL, text=True) as gateway:
        try:
            port = int(gateway.stdout.readline().rpartition(":")[2])
            results = [is_right(port, name, *case) for name, case in cases().items()] + [many(port)]
        finally:
            gateway.terminate()
    print(f"{results.count(True)} passed, {results.count(False)} failed")
    return 0 if all(results) else 1


if __name__ == "__main__":
    sys.exit(main())
