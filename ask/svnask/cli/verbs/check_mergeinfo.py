"""`check-mergeinfo`."""
from __future__ import annotations

from argparse import ArgumentParser, Namespace
from collections.abc import Iterator

from svnask.asking.verb import Object, Verb, add_patterns, patterns_of, shown
from svnask.errors import Unsound
from svnask.history.open_history import OpenHistory
from svnask.merges.soundness import findings
from svnask.texts import decoded, encoded


class CheckMergeinfoVerb(Verb):
    columns = ("path", "source", "ranges", "reason")

    def arguments(self, parser: ArgumentParser) -> None:
        add_patterns(parser, "all paths")

    def text(self, history: OpenHistory, given: Namespace) -> Iterator[bytes]:
        found = findings(history, patterns_of(history, given))
        for each in found:
            named = b"" if each.source is None else b"%s:%s " % (each.source, each.ranges)
            yield b"%s\t%s%s\n" % (each.path, named, encoded(each.reason))
        if found:
            raise Unsound

    def objects(self, history: OpenHistory, given: Namespace) -> Iterator[Object]:
        found = findings(history, patterns_of(history, given))
        for each in found:
            named = {"source": shown(each.source), "ranges": each.ranges.decode("ascii") or None}
            yield {"path": decoded(each.path), **named, "reason": each.reason}
        if found:
            raise Unsound


VERB = CheckMergeinfoVerb()
