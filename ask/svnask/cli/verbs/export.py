"""`export`: the history as a database."""
from __future__ import annotations

from argparse import ArgumentParser, Namespace
from collections.abc import Iterator

from svnask.asking.verb import Object, Verb
from svnask.errors import Usage
from svnask.export.database import Exported, export
from svnask.history.open_history import OpenHistory


class ExportVerb(Verb):
    # It begins without svnhist.
    judges = False

    def arguments(self, parser: ArgumentParser) -> None:
        parser.add_argument("output", metavar="FILE", help="the file, which is made, or gets what is new")

    def export(self, history: OpenHistory, given: Namespace) -> Exported:
        if history.is_read_from(given.output):
            raise Usage(f"{given.output} would overwrite the dump")
        return export(history, given.output)

    def text(self, history: OpenHistory, given: Namespace) -> Iterator[bytes]:
        self.export(history, given)
        return iter(())

    def objects(self, history: OpenHistory, given: Namespace) -> Iterator[Object]:
        found = self.export(history, given)
        yield {"file": given.output, "youngest": found.youngest, "new": found.new}


VERB = ExportVerb()
