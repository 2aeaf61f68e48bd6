"""`record`."""
from __future__ import annotations

from argparse import ArgumentParser, Namespace
from collections.abc import Iterator

from svnask.asking.refusals import about_record
from svnask.asking.verb import Object, Verb, counted, object_of_record
from svnask.copy.store import Record
from svnask.errors import Failed, Usage
from svnask.history.open_history import OpenHistory
from svnask.texts import encoded


def described_record(history: OpenHistory, record: Record) -> Iterator[bytes]:
    yield encoded(about_record(record)) + b"\n"
    yield from (b"  " + line + b"\n" for line in history.header(record.at))


def need_dump(history: OpenHistory) -> None:
    """Refuse a repository, which is read by its log."""
    if history.source.root:
        raise Usage("'record' and 'byte' are for a dump: a repository is read by its log, without one")


class RecordVerb(Verb):
    judges = False

    def arguments(self, parser: ArgumentParser) -> None:
        parser.add_argument("number", metavar="K", type=counted, help="the number of a record")

    def record(self, history: OpenHistory, given: Namespace) -> Record:
        need_dump(history)
        for _, record in history.blocks():
            if record is not None and record.number == given.number:
                return record
        has = "the dump has %d" if history.is_whole else "%d could be read of the dump"
        raise Failed("there is no record %d: %s" % (given.number, has % history.index.records), 1)

    def text(self, history: OpenHistory, given: Namespace) -> Iterator[bytes]:
        return described_record(history, self.record(history, given))

    def objects(self, history: OpenHistory, given: Namespace) -> Iterator[Object]:
        yield object_of_record(self.record(history, given))


VERB = RecordVerb()
