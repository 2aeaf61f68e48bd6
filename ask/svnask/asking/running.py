"""A question from its words to what is printed."""
from __future__ import annotations

import argparse
import os
import sys
from collections.abc import Iterator
from contextlib import closing, contextmanager
from typing import TYPE_CHECKING, Callable, NamedTuple

from svnask.asking.verb import object_line
from svnask.asking.verbs import verb_named
from svnask.errors import Damaged, Denied, Error, Failed, Refused, Unsound
from svnask.history.open_history import OpenHistory
from svnask.history.targets import path_in, path_of
from svnask.lazy import Lazy
from svnask.sources.access import IS_URL
from svnask.sources.deadlines import within
from svnask.sources.opening import source_of
from svnask.sources.source import Source
from svnask.texts import say

if TYPE_CHECKING:
    from svnask.asking import refusals, table
else:
    refusals = Lazy("svnask.asking.refusals")
    table = Lazy("svnask.asking.table")

# The refusals that come from records which lack others.
OF_HIDDEN = (16, 18, 19)
HIDDEN = "a host hides from a user the paths that he may not read, and a history without them may have gaps"
# The status where svnask itself is at fault.
FAULT = 5


@contextmanager
def source_in(given: argparse.Namespace) -> Iterator[Source]:
    """Open the source that a command line names, with the path in it that is asked about."""
    need_folder(given.dump)
    with within(given.timeout), closing(source_of(given.dump, given.access, given.offline)) as source:
        source.path = path_in(source.path, path_of(given.below))
        yield source


def need_folder(name: str) -> None:
    """Raise an error where a name is one in the working folder, and that was deleted."""
    if name != "-" and not IS_URL.match(name) and not os.path.isabs(name):
        try:
            os.getcwd()
        except OSError as error:
            raise Failed(f"the working folder, in which {name} is, can't be found: {error.strerror}") from error


def answer_lines(history: OpenHistory, given: argparse.Namespace) -> Iterator[bytes]:
    verb = verb_named(given.verb)
    if verb.judges:
        history.begin()
        if not history.is_whole:
            history.check()
    if given.csv:
        yield from table.csv_lines(verb, history, given)
        return
    if not given.json:
        yield from verb.text(history, given)
        return
    for each in verb.objects(history, given):
        yield object_line(each)


class Stale(Exception):
    """The cache has a dump that is refused or damaged, and nothing was printed."""


def tell(
    history: OpenHistory, given: argparse.Namespace, write: Callable[[bytes], object], is_last: bool = False
) -> None:
    """Answer a question about a history, the last one or not."""
    history.is_last_question = is_last
    is_begun = False
    history.notice = note
    try:
        for line in answer_lines(history, given):
            is_begun = True
            write(line)
    except (Refused, Damaged) as error:
        if history.may_be_stale(error) and not is_begun:
            raise Stale from error
        raise explained_of(error, history, given.dump) from error
    except Denied:
        # A dump that is refused has no answer, not even that there is no such path or revision.
        check(history, given.dump)
        raise


def note(text: str) -> None:
    say(f"svnask: {text}")


def check(history: OpenHistory, dump: str) -> None:
    try:
        history.check()
    except (Refused, Damaged) as error:
        if history.may_be_stale(error):
            raise Stale from error
        raise explained_of(error, history, dump) from error


def explained_of(error: Refused | Damaged, history: OpenHistory, dump: str) -> Failed:
    """The error, with what a refusal means."""
    if isinstance(error, Refused):
        return Failed(str(error), error.status, advice(error, history, dump))
    return error


def advice(refused: Refused, history: OpenHistory, dump: str) -> list[str]:
    if refused.unit == "record":
        found = [refusals.about_record(each) for each in history.records() if each.number == refused.place]
        return [*found, HIDDEN] if history.source.is_url and refused.number in OF_HIDDEN else found
    return refusals.explained(refused, dump, history.front())


class Stopped(BaseException):
    """A signal came that ends the command, which first takes away what it wrote for itself."""


class Ending(NamedTuple):
    """The end of a question: a status, and lines for standard error."""

    status: int
    said: list[str]


def ending_of(error: Exception) -> Ending:
    """Return how a question ends that has no answer, or one that says what is wrong."""
    if isinstance(error, Unsound):
        return Ending(error.status, [])
    if isinstance(error, Error):
        return Ending(error.status, [f"svnask: {error}", *error.advice])
    if isinstance(error, OSError):
        return Ending(3, [f"svnask: cannot write: {error.strerror}"])
    if isinstance(error, MemoryError):
        return Ending(4, ["svnask: out of memory"])
    if os.environ.get("SVNASK_DEBUG") == "1":
        sys.__excepthook__(type(error), error, error.__traceback__)
    fault = "svnask: a fault of svnask: %s: %s. Please report it, with what it prints where SVNASK_DEBUG=1 is set"
    return Ending(FAULT, [fault % (type(error).__name__, error)])
