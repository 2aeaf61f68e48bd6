"""`shell`."""
from __future__ import annotations

from argparse import Namespace

from svnask.asking.verb import Verb
from svnask.serving import shell


class ShellVerb(Verb):
    needs_history = False

    def run(self, given: Namespace) -> int:
        return shell.run_shell(given)


VERB = ShellVerb()
