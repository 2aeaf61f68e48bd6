"""`where`, `segments` and `heirs`."""
from __future__ import annotations

from argparse import ArgumentParser, Namespace
from collections.abc import Iterator

from svnask.asking.verb import Object, Verb, shown
from svnask.engine.queries import Locate
from svnask.history.open_history import OpenHistory
from svnask.history.targets import known, revision_of, target_of
from svnask.log import selection as log


class WhereVerb(Verb):
    columns = ("path",)

    def arguments(self, parser: ArgumentParser) -> None:
        parser.add_argument("target", metavar="PATH[@PEG]")
        parser.add_argument("revision", metavar="REV", help="the other revision")

    def answer(self, history: OpenHistory, given: Namespace) -> bytes | None:
        """Return where the target was in a revision. In a later one it is at its own path, if what is there comes from
        it."""
        target = target_of(history, given.target)
        rev = known(history, revision_of(history, given.revision))
        earlier, later = Locate(*target, min(rev, target.rev)), Locate(target.path, max(rev, target.rev), target.rev)
        answers = history.answers([earlier, later])
        if not answers[earlier].ok:
            raise log.not_found(history, target, target.rev)
        if rev <= target.rev:
            return answers[earlier].path
        return target.path if answers[later].path == target.path else None

    def text(self, history: OpenHistory, given: Namespace) -> Iterator[bytes]:
        yield (self.answer(history, given) or b"-") + b"\n"

    def objects(self, history: OpenHistory, given: Namespace) -> Iterator[Object]:
        yield {"path": shown(self.answer(history, given))}


VERB = WhereVerb()
