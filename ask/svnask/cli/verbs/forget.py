"""`forget`."""
from __future__ import annotations

from argparse import Namespace
from contextlib import closing
from functools import partial

from svnask.asking.verb import Verb
from svnask.errors import Failed
from svnask.sources.opening import source_of
from svnask.sources.progress import Bar


class ForgetVerb(Verb):
    needs_history = False

    def run(self, given: Namespace) -> int:
        with closing(source_of(given.dump, given.access, is_offline=True)) as source, closing(Bar()) as bar:
            entry = source.entry()
            if entry is None or not entry.is_there:
                raise Failed(f"nothing is kept of {source.name}", 1)
            with entry.locked(partial(bar.waits, source.name)):
                entry.forget()
        return 0


VERB = ForgetVerb()
