"""`byte`."""
from __future__ import annotations

from argparse import ArgumentParser, Namespace
from collections.abc import Iterator

from svnask.asking.verb import Object, Verb, counted, object_of_record
from svnask.cli.verbs.record import described_record, need_dump
from svnask.copy.store import Record
from svnask.errors import Failed
from svnask.history.open_history import OpenHistory


class ByteVerb(Verb):
    judges = False

    def arguments(self, parser: ArgumentParser) -> None:
        parser.add_argument("offset", metavar="B", type=counted, help="an offset in the dump")

    def block(self, history: OpenHistory, given: Namespace) -> tuple[int, Record | None]:
        need_dump(history)
        if not 0 <= given.offset <= history.index.size:
            raise Failed(f"the dump has {history.index.size} bytes", 1)
        found: tuple[int, Record | None] = (0, None)
        for at, record in history.blocks():
            if at > given.offset:
                break
            found = at, record
        return found

    def text(self, history: OpenHistory, given: Namespace) -> Iterator[bytes]:
        at, record = self.block(history, given)
        if record is not None:
            return described_record(history, record)
        return iter([b"block at byte %d\n" % at] + [b"  " + line + b"\n" for line in history.header(at)])

    def objects(self, history: OpenHistory, given: Namespace) -> Iterator[Object]:
        at, record = self.block(history, given)
        yield object_of_record(record) if record is not None else {"byte": at}


VERB = ByteVerb()
