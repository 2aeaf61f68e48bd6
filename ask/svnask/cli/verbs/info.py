"""`info`."""
from __future__ import annotations

from argparse import Namespace
from collections.abc import Iterator

from svnask.asking.verb import Object, Verb, shown
from svnask.history.open_history import OpenHistory
from svnask.texts import encoded


class InfoVerb(Verb):
    def object(self, history: OpenHistory) -> Object:
        dates = [history.revision(rev).date for rev in (0, history.head)]
        return {
            "format": history.index.format,
            "uuid": shown(history.index.uuid),
            "youngest": history.head,
            "first_date": shown(dates[0]),
            "last_date": shown(dates[1]),
            "revisions": history.head + 1,
            "records": history.index.records,
        }

    def text(self, history: OpenHistory, given: Namespace) -> Iterator[bytes]:
        history.check()
        for name, value in self.object(history).items():
            yield encoded("%s: %s\n" % (name.replace("_", " "), "-" if value is None else value))

    def objects(self, history: OpenHistory, given: Namespace) -> Iterator[Object]:
        history.check()
        yield self.object(history)


VERB = InfoVerb()
