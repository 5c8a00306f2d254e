"""A token that waits for a fetch of keys."""

from __future__ import annotations

from typing import Any, Callable, Dict, Protocol

Claims = Dict[str, Any]


class Fetching(Protocol):
    """A fetch that is under way."""

    @property
    def left(self) -> float:
        """The seconds until its deadline, 0 where none are left."""

    def tell(self, ended: Callable[[], None]) -> None:
        """Calls this once when it is over, in whatever thread ends it."""


class Waiting:
    """A token that is judged once more when a fetch is over, at its deadline at the latest."""

    def __init__(self, fetch: Fetching, judge: Callable[[], Claims]) -> None:
        self.fetch = fetch
        self._judge = judge

    def claims(self) -> Claims:
        """Its claims, when the fetch is over. Raises as `RemoteKeys.validate` does."""
        return self._judge()
