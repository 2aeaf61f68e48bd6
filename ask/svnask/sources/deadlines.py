"""How long the commands of Subversion may take that ask about a source."""
from __future__ import annotations

import time
from collections.abc import Iterator
from contextlib import contextmanager
from contextvars import ContextVar
from typing import NamedTuple, Optional


class Deadline(NamedTuple):
    """When the commands of a question have to be done, and how many seconds it gave them."""

    when: float
    seconds: int

    @property
    def in_words(self) -> str:
        return f"after {self.seconds} seconds, which --timeout gives"


# That of the question that a thread answers.
CURRENT: ContextVar[Optional[Deadline]] = ContextVar("CURRENT", default=None)


@contextmanager
def within(seconds: int | None) -> Iterator[None]:
    """End the commands that the block runs after so many seconds, if a number is given."""
    token = CURRENT.set(None if seconds is None else Deadline(time.monotonic() + seconds, seconds))
    try:
        yield
    finally:
        CURRENT.reset(token)
