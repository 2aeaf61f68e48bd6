"""`serve`."""
from __future__ import annotations

from argparse import ArgumentParser, Namespace

from svnask.asking.verb import Verb, counted
from svnask.serving import server


class ServeVerb(Verb):
    needs_history = False

    def arguments(self, parser: ArgumentParser) -> None:
        parser.add_argument(
            "--stop-after",
            metavar="SECONDS",
            type=counted,
            default=3600,
            help="end after this time without a question; 3600 if it is not given",
        )

    def run(self, given: Namespace) -> int:
        server.serve(given)
        return 0


VERB = ServeVerb()
