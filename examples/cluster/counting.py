"""Counts what becomes of the tokens in a part of a log, with a token a line."""
from __future__ import annotations

import collections
import pathlib

from fowharimu import TokenRefused, Validator


def count(log: str, begin: int, end: int, name: str, now: int) -> dict[str, int]:
    """How many lines of this part of a log are accepted, and refused for each fault; NAME.policy and NAME.keys say by what."""
    policy, keys = (pathlib.Path(f"{name}.{it}").read_bytes() for it in ("policy", "keys"))
    with open(log, "rb") as file, Validator(policy, keys) as validator:
        file.seek(begin)
        lines = file.read(end - begin).split(b"\n")
        return dict(collections.Counter(verdict(validator, it, now) for it in lines[:-1]))


def verdict(validator: Validator, token: bytes, now: int) -> str:
    """`accepted`, or the fault for which a token is refused."""
    try:
        validator.validate(token, now)
    except TokenRefused as refusal:
        return refusal.fault
    return "accepted"


def parts(log: str, size: int) -> list[tuple[int, int]]:
    """The places of parts of about so many octets, each of which ends with a line."""
    places, length = [0], pathlib.Path(log).stat().st_size
    with open(log, "rb") as file:
        while places[-1] < length:
            file.seek(min(places[-1] + size, length))
            file.readline()
            places.append(file.tell())
    return list(zip(places, places[1:]))
