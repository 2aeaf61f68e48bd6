"""`unmerged`."""
from __future__ import annotations

from argparse import ArgumentParser, Namespace
from collections.abc import Iterator

from svnask.asking.verb import (
    Object,
    Verb,
    add_log,
    add_patterns,
    fields_line,
    fields_of_log,
    object_of_revision,
    patterns_of,
)
from svnask.branches import questions as branches
from svnask.history.open_history import OpenHistory
from svnask.history.targets import target_of
from svnask.texts import decoded


OF_PATTERN = "what is merged from: 'unmerged branches/1.4' lists what its trunk lacks of branches/1.4. It is a path"
OF_INTO = (
    "what is merged into, in place of the trunk of each branch's own project: 'unmerged trunk --into branches/1.4' lists "
    "what branches/1.4 lacks of the trunk. Without a PATTERN its own trunk is asked about, too, if it is no trunk"
)


class UnmergedVerb(Verb):
    columns = ("path", "revision", "partial", "recorded", "author", "date", "message")

    def arguments(self, parser: ArgumentParser) -> None:
        add_patterns(parser, "all branches", OF_PATTERN)
        parser.add_argument("--into", metavar="TARGET[@PEG]", help=OF_INTO)
        add_log(parser)

    def compared(self, history: OpenHistory, given: Namespace) -> Iterator[branches.Compared]:
        into = None if given.into is None else target_of(history, given.into)
        return branches.unmerged(history, patterns_of(history, given), into)

    def text(self, history: OpenHistory, given: Namespace) -> Iterator[bytes]:
        for compared in self.compared(history, given):
            path, revisions = compared.left
            for rev, is_partial in revisions:
                named = b"r%d%s" % (rev, b"*" if is_partial else b"")
                yield fields_line([path, named, *fields_of_log(history, rev, given)])

    def objects(self, history: OpenHistory, given: Namespace) -> Iterator[Object]:
        for (path, revisions), recorded in branches.recorded_of(history, self.compared(history, given)):
            found = sorted(
                [
                    *((rev, is_partial, False) for rev, is_partial in revisions),
                    *((rev, False, True) for rev in recorded),
                ]
            )
            for rev, is_partial, is_recorded in found:
                about = {"path": decoded(path), "partial": is_partial, "recorded": is_recorded}
                yield {**object_of_revision(history, rev), **about}


VERB = UnmergedVerb()
