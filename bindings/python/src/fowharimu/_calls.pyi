"""The module of native/_calls.c."""

from typing import Optional

class Calls:
    """Calls of the library with what a seat holds, by the addresses of both."""

    def __init__(self, judge: int, payload: int, validator: int, report: int, held: int, /) -> None: ...
    def validate(self, token: bytes, now: int, /) -> Optional[str]:
        """The payload of a token that is accepted at a moment, and None where it isn't: then the report says why. Raises MemoryError where memory is
        refused."""
