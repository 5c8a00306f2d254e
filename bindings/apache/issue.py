#!/usr/bin/env python3
"""Judges tokens for Apache, and makes one of the gateway's own for each that is accepted (docs/GATEWAYS.md).

    issue.py --own KEYS ISSUER AUDIENCE --policy FILE --keys FILE

RewriteMap starts it. Each line of standard input is a token in compact form, and has a line of standard output: `accepted` and a token of the
gateway's own, or `refused`, or `failed` where there is no verdict. The gateway's token is signed by HS256, with the first key of the file KEYS.
Its claims are `iss` and `aud` as they are given here, `iat`, which is the moment, `exp`, which is a minute later and no later than that of the
client's token, and `sub` and `scope` as the client's token has them, where they are texts, whole numbers or lists of texts. Started by root, it
reads its files and goes on as nobody.
"""
import argparse
import os
import pathlib
import pwd
import sys
import time

from fowharimu import FowharimuError, Validator

LIFETIME = 60
# The policy beside the keys that sign: nothing is judged by it.
SIGNING = '{"version": 2, "algs": ["HS256"]}'


def is_taken_over(claim: object) -> bool:
    """Whether a claim goes into the gateway's token: a text, a whole number or a list of texts."""
    if isinstance(claim, list):
        return all(isinstance(it, str) for it in claim)
    return isinstance(claim, (str, int)) and not isinstance(claim, bool)


class Gateway:
    """What judges the clients' tokens, and what makes the gateway's own."""

    def __init__(self, words: argparse.Namespace) -> None:
        keys, self.issuer, self.audience = words.own
        self.validator = Validator(words.policy.read_bytes(), words.keys.read_bytes())
        self.own = Validator(SIGNING, pathlib.Path(keys).read_bytes())
        self.token_of({}, int(time.time()))

    def token_of(self, claims: dict, now: int) -> str:
        """The gateway's token in place of one with these claims."""
        # (within the leeway the client's may have expired)
        expiry = min(now + LIFETIME, max(claims.get("exp", now + LIFETIME), now + 1))
        taken = {name: claims[name] for name in ("sub", "scope") if is_taken_over(claims.get(name))}
        return self.own.issue({"iss": self.issuer, "aud": self.audience, "iat": now, "exp": expiry, **taken})

    def answer(self, line: bytes) -> str:
        """The answer to a line."""
        now = int(time.time())
        try:
            return f"accepted {self.token_of(self.validator.validate(line, now), now)}"
        except FowharimuError:
            return "refused"
        except (MemoryError, ValueError) as error:
            print(f"issue.py: {type(error).__name__}", file=sys.stderr, flush=True)
            return "failed"


def become_nobody() -> None:
    """Gives up root's rights."""
    nobody = pwd.getpwnam("nobody")
    os.setgroups([])
    os.setgid(nobody.pw_gid)
    os.setuid(nobody.pw_uid)


def main() -> None:
    words = argparse.ArgumentParser(usage="issue.py --own KEYS ISSUER AUDIENCE --policy FILE --keys FILE")
    words.add_argument("--own", nargs=3, required=True)
    words.add_argument("--policy", type=pathlib.Path, required=True)
    words.add_argument("--keys", type=pathlib.Path, required=True)
    gateway = Gateway(words.parse_args())
    if os.geteuid() == 0:
        become_nobody()
    for line in sys.stdin.buffer:
        print(gateway.answer(line.rstrip(b"\n")), flush=True)


if __name__ == "__main__":
    main()
