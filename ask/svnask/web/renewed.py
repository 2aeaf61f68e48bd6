"""A history that many threads ask about, and that is as new as it was two seconds ago."""
from __future__ import annotations

import threading
import time
from argparse import Namespace
from collections.abc import Callable
from concurrent import futures
from concurrent.futures import Future
from typing import Any, NamedTuple

from svnask.asking import running
from svnask.asking.open_source import OpenSource
from svnask.copy.index import Index
from svnask.errors import Error
from svnask.history.open_history import OpenHistory

# How many seconds pass before the source is looked at again, how many answers are kept, and how many are found at once.
PAUSE, MOST_KEPT, MOST_FOUND = 2.0, 16, 8


class KeptAnswer(NamedTuple):
    """An answer that was made once, with what is to be known beside it, or why there is none, and of which history."""

    value: Any
    notes: list[str]
    error: Exception | None
    of: Index


Make = Callable[[], KeptAnswer]


class KeptAnswers:
    """Answers that take long to find. They are found in threads of their own, each once for a history and few at once.
    What finds one may not ask for another one of these."""

    def __init__(self) -> None:
        self._kept: dict[str, KeptAnswer] = {}
        self._made: dict[str, Future[KeptAnswer]] = {}
        self._lock = threading.Lock()

    def has(self, name: str, index: Index) -> bool:
        """Return whether an answer about a history is there."""
        found = self._kept.get(name)
        return found is not None and found.of is index

    def is_being_made(self, name: str) -> bool:
        return name in self._made

    def of(self, name: str, index: Index, begin: Callable[[], Make], patience: float | None) -> KeptAnswer | None:
        """Return an answer about a history, or the last one about an older state of it, if it is there in time."""
        made: Future[KeptAnswer] | None = None
        if not self.has(name, index):
            until = None if patience is None else time.monotonic() + patience
            made = self._begun(name, begin, until)
            futures.wait([made] if made is not None else [], left(until))
        with self._lock:
            found = self._kept.get(name)
            if found is not None and found.error is not None:
                # It is told once, to all who waited for it. The next question tries again.
                del self._kept[name]
        if found is None and made is not None and made.done():
            found = made.result()
        return found if found is not None and is_older(found.of, index) else None

    def _begun(self, name: str, begin: Callable[[], Make], until: float | None) -> Future[KeptAnswer] | None:
        """Return an answer that is being found, which others may have to be before. None if these are not soon enough."""
        while True:
            with self._lock:
                if name in self._made:
                    return self._made[name]
                if len(self._made) < MOST_FOUND:
                    return self._begin(name, begin())
                others = list(self._made.values())
            if not futures.wait(others, left(until), futures.FIRST_COMPLETED).done:
                return None

    def _begin(self, name: str, make: Make) -> Future[KeptAnswer]:
        made: Future[KeptAnswer] = Future()
        threading.Thread(target=self._make, args=(name, make, made), daemon=True).start()
        self._made[name] = made
        return made

    def _make(self, name: str, make: Make, made: Future[KeptAnswer]) -> None:
        answer = make()
        with self._lock:
            if len(self._kept) >= MOST_KEPT and name not in self._kept:
                self._kept.pop(next(iter(self._kept)))
            self._kept[name] = answer
            del self._made[name]
        made.set_result(answer)


def left(until: float | None) -> float | None:
    """Return how many seconds are left until a time, which may be none."""
    return None if until is None else max(until - time.monotonic(), 0)


def is_older(one: Index, other: Index) -> bool:
    """Return whether one state of a history may be an older one of another state, or is the same."""
    return one is other or one.uuid == other.uuid and len(one.revisions) <= len(other.revisions)


class RenewedHistory:
    """The history of a source. One thread looks for what is new in it, and others need not wait for that."""

    def __init__(self, given: Namespace) -> None:
        # What pages are made of, and pages, of which there are many.
        self.answers, self.pages = KeptAnswers(), KeptAnswers()
        self._given = given
        self._source = OpenSource(given)
        self._renewing, self._lock = threading.Lock(), threading.Lock()
        self._renewed = -PAUSE
        # A view, of which each question has one of its own.
        self._history: OpenHistory | None = None
        self._is_damaged = False
        # Why it could not be renewed.
        self._error: Error | None = None

    def close(self) -> None:
        """End the program that is asked, and close the history, which perhaps is still asked about."""
        self._source.rest()
        with self._lock:
            if self._history is not None:
                self._history.close()
        self._source.forget()

    def view(self) -> OpenHistory:
        """The history for one question, after which it is closed."""
        is_first = self._history is None
        if (is_first or time.monotonic() >= self._renewed + PAUSE) and self._renewing.acquire(blocking=is_first):
            try:
                self._renew()
            finally:
                self._renewed = time.monotonic()
                self._renewing.release()
        if self._error is not None:
            raise self._error
        with self._lock:
            assert self._history is not None
            return self._history.view()

    def forget(self) -> None:
        """Mark what the cache has as damaged: the next question reads the source anew."""
        with self._renewing:
            self._is_damaged, self._renewed = True, -PAUSE

    def _renew(self) -> None:
        if self._is_damaged and self._history is not None:
            self._history.forget()
            self._source.forget()
            self._is_damaged = False
        try:
            self._source.asked(self._given, self._take)
            self._error = None
        except Error as error:
            self._error = error
        # The bar is for the first time, when nobody sees a page yet.
        self._given.quiet = True

    def _take(self, history: OpenHistory) -> None:
        running.check(history, self._given.dump)
        before = self._history
        if before is not None and before.index is history.index and before.is_asked:
            return
        taken = history.view()
        with self._lock:
            self._history = taken
            if before is not None:
                before.close()
