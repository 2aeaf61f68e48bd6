"""A source that stays open between questions, and is as new as it can be at each of them."""
from __future__ import annotations

import argparse
from collections.abc import Callable
from contextlib import closing
from types import TracebackType

from svnask.asking.running import Stale, source_in
from svnask.errors import Damaged
from svnask.history.open_history import OpenHistory
from svnask.sources.progress import Bar, Progress
from svnask.sources.source import Source


class OpenSource:
    """The history of a source. It is read when it is first asked for, and read on when the source has changed."""

    def __init__(self, given: argparse.Namespace) -> None:
        self._no_cache = given.no_cache
        self._history: OpenHistory | None = None

    def __enter__(self) -> OpenSource:
        return self

    def __exit__(
        self, kind: type[BaseException] | None, value: BaseException | None, trace: TracebackType | None
    ) -> None:
        self.forget()

    def rest(self) -> None:
        """End the program that is asked, also within a question."""
        if self._history is not None:
            self._history.rest()

    def forget(self) -> None:
        """Close the history. It is opened again when it is asked for."""
        if self._history is not None:
            self._history.close()
            self._history = None

    def updated(self, given: argparse.Namespace, source: Source) -> OpenHistory:
        """The history, which is open, as its source is now. It uses no cache if it began without one."""
        is_cached = not given.no_cache and not self._no_cache
        with closing(Progress() if vars(given).get("quiet") else Bar()) as bar:
            if self._history is None:
                self._history = OpenHistory.of(source, bar, is_cached, given.offline)
            else:
                self._history.renew(source, bar, is_cached, given.offline)
        return self._history

    def asked(self, given: argparse.Namespace, question: Callable[[OpenHistory], object]) -> None:
        """Ask about the history. What the cache has of it is made anew where it is refused: the disk may have changed
        it."""
        for _ in range(2):
            with source_in(given) as source:
                history = self.updated(given, source)
                try:
                    question(history)
                    return
                except Stale:
                    history.forget()
                    self.forget()
        raise Damaged
