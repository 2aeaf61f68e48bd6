"""`stop`."""
from __future__ import annotations

from argparse import Namespace

from svnask.asking.verb import Verb
from svnask.serving import server


class StopVerb(Verb):
    needs_history = False

    def run(self, given: Namespace) -> int:
        server.stop(given.dump, given.access)
        return 0


VERB = StopVerb()
