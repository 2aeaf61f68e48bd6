"""`show`."""
from __future__ import annotations

from argparse import ArgumentParser, Namespace
from collections.abc import Iterator

from svnask.asking.verb import OF_CHANGE, OF_LOG, Object, Verb, object_of_revision, rows_of_changes
from svnask.history.open_history import OpenHistory
from svnask.history.targets import known, revision_of
from svnask.log.forms import LogEntry, as_wanted
from svnask.log.plain import RULE, PlainForm


class ShowVerb(Verb):
    columns = ("revision", *OF_LOG, *OF_CHANGE)

    def arguments(self, parser: ArgumentParser) -> None:
        parser.add_argument("revision", metavar="REV", help="a number, HEAD or a {DATE}")

    def revision(self, history: OpenHistory, given: Namespace) -> int:
        history.check()
        return known(history, revision_of(history, given.revision))

    def text(self, history: OpenHistory, given: Namespace) -> Iterator[bytes]:
        revision = as_wanted(history.revision(self.revision(history, given)), None)
        yield PlainForm().entry(LogEntry(revision, history.changes(revision.number))) + RULE

    def objects(self, history: OpenHistory, given: Namespace) -> Iterator[Object]:
        yield object_of_revision(history, self.revision(history, given))

    def rows(self, history: OpenHistory, given: Namespace) -> Iterator[Object]:
        """Return a row for each changed path."""
        return rows_of_changes(self.objects(history, given))


VERB = ShowVerb()
