"""Why a request isn't answered."""
from __future__ import annotations


class Refused(Exception):
    """A request that isn't answered: the status of HTTP, and why in words for a player."""

    def __init__(self, status: int, why: str) -> None:
        super().__init__(status, why)
        self.status, self.why = status, why
