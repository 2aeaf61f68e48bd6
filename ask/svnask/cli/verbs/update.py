"""`update`."""
from __future__ import annotations

from argparse import ArgumentParser, Namespace
from contextlib import closing

from svnask.asking.running import explained_of
from svnask.asking.verb import Verb, object_line, write_all
from svnask.errors import Damaged, Failed, Refused, Usage
from svnask.history.open_history import OpenHistory
from svnask.sources.deadlines import within
from svnask.sources.dump import Dump
from svnask.sources.entries import read_index
from svnask.sources.opening import source_of
from svnask.sources.progress import Bar, Progress
from svnask.sources.repository import SubversionSource

UNKEPT = "the cache can't be written"


class UpdateVerb(Verb):
    needs_history = False

    def arguments(self, parser: ArgumentParser) -> None:
        parser.add_argument(
            "--properties", action="store_true", help="also compare all revisions, and read their properties again"
        )

    def run(self, given: Namespace) -> int:
        with within(given.timeout), closing(source_of(given.dump, given.access)) as source, closing(Bar()) as bar:
            if given.properties and not isinstance(source, SubversionSource):
                raise Usage("--properties is for a repository: those of a dump do not change")
            entry = source.entry()
            before = read_index(entry.folder) if entry is not None else None
            head = len(before.revisions) - 1 if before is not None else -1
            store = source.store(bar)
            with OpenHistory(store, None, source) as history:
                youngest = store.head
                if isinstance(source, Dump):
                    refuse_with_advice(history, given.dump)
            if given.properties and isinstance(source, SubversionSource):
                with_properties(source, bar)
            name = source.root or source.name
            new = youngest - head if youngest >= head else youngest + 1
        return write_all([object_line({"source": name, "youngest": youngest, "new": new})] * given.json)


def with_properties(source: SubversionSource, progress: Progress) -> None:
    """Renew the properties of all revisions in the copy of a repository."""
    entry = source.entry()
    if entry is None:
        raise Failed(UNKEPT)
    with entry.locked(lambda: progress.waits(source.name)):
        kept = entry.load()
        if kept is None:
            raise Failed(UNKEPT)
        with closing(kept):
            source.reworded(entry, kept, progress).close()


def refuse_with_advice(history: OpenHistory, dump: str) -> None:
    """Raise the refusal of a dump, with what it means."""
    try:
        history.check()
    except (Refused, Damaged) as error:
        raise explained_of(error, history, dump) from error


VERB = UpdateVerb()
