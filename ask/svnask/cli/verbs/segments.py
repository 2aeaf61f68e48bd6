"""`segments`."""
from __future__ import annotations

from argparse import ArgumentParser, Namespace
from collections.abc import Iterator

from svnask.asking.verb import Object, Verb, shown
from svnask.engine.queries import Segments
from svnask.history.open_history import OpenHistory
from svnask.history.targets import target_of
from svnask.log import selection as log


class SegmentsVerb(Verb):
    columns = ("first", "last", "path")

    def arguments(self, parser: ArgumentParser) -> None:
        parser.add_argument("target", metavar="PATH[@PEG]")

    def answer(self, history: OpenHistory, given: Namespace) -> Segments:
        target = target_of(history, given.target)
        answer = history.segments(*target)
        if not answer.ok:
            raise log.not_found(history, target, target.rev)
        return answer

    def text(self, history: OpenHistory, given: Namespace) -> Iterator[bytes]:
        yield self.answer(history, given).text + b"\n"

    def objects(self, history: OpenHistory, given: Namespace) -> Iterator[Object]:
        for segment in self.answer(history, given).segments:
            yield {"first": segment.lo, "last": segment.hi, "path": shown(segment.path)}


VERB = SegmentsVerb()
