"""`check-git`: what differs in git after a migration."""
from __future__ import annotations

from argparse import ArgumentParser, Namespace
from collections.abc import Iterator

from svnask.asking.verb import Object, Verb, fields_line
from svnask.errors import Unsound
from svnask.export.git import Comparison
from svnask.history.open_history import OpenHistory
from svnask.texts import decoded, encoded


class CheckGitVerb(Verb):
    columns = ("type", "path", "text")

    def arguments(self, parser: ArgumentParser) -> None:
        parser.add_argument("folder", metavar="FOLDER", help="the repository of git that was made")

    def text(self, history: OpenHistory, given: Namespace) -> Iterator[bytes]:
        found = list(Comparison(history, given.folder).differences())
        yield from (fields_line([encoded(each.what), each.path, each.text]) for each in found)
        if found:
            raise Unsound

    def objects(self, history: OpenHistory, given: Namespace) -> Iterator[Object]:
        found = list(Comparison(history, given.folder).differences())
        for each in found:
            yield {"type": each.what, "path": decoded(each.path), "text": decoded(each.text)}
        if found:
            raise Unsound


VERB = CheckGitVerb()
