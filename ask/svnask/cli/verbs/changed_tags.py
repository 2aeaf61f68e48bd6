"""`changed-tags`."""
from __future__ import annotations

from argparse import ArgumentParser, Namespace
from collections.abc import Iterator

from svnask.asking.verb import (
    Object,
    Verb,
    add_log,
    add_patterns,
    fields_line,
    object_of_life,
    object_of_log,
    patterns_of,
)
from svnask.branches import questions as branches
from svnask.cli.verbs.branches import origin_of
from svnask.history.open_history import OpenHistory
from svnask.log.plain import about
from svnask.texts import decoded


class ChangedTagsVerb(Verb):
    columns = (
        "path",
        "first",
        "last",
        "from.path",
        "from.revision",
        "what",
        "revision",
        "to",
        "author",
        "date",
        "message",
        "is_alive",
        "is_changed_when_made",
    )

    def arguments(self, parser: ArgumentParser) -> None:
        add_patterns(parser, "all tags")
        add_log(parser)

    def text(self, history: OpenHistory, given: Namespace) -> Iterator[bytes]:
        for life, _, _, events in branches.touched(history, patterns_of(history, given)):
            made = b"%s@%d\tmade in r%d %s" % (life.path, life.last, life.first, origin_of(life))
            for event in events:
                author, date, line = about(history.revision(event.rev))
                yield fields_line([made, text_of_event(event), author, date, *[line] * given.log])

    def objects(self, history: OpenHistory, given: Namespace) -> Iterator[Object]:
        for life, is_changed_when_made, revisions, events in branches.touched(history, patterns_of(history, given)):
            found = dict(object_of_life(life), is_changed_when_made=is_changed_when_made, changed=revisions)
            yield {**found, "events": [object_of_event(history, event) for event in events]}

    def rows(self, history: OpenHistory, given: Namespace) -> Iterator[Object]:
        """Return a row for each event."""
        return ({**each, **event} for each in self.objects(history, given) for event in each["events"])


def text_of_event(event: branches.TagEvent) -> bytes:
    what = b"%s in r%d" % (event.what.encode("ascii"), event.rev)
    return what + b" to " + event.other[0] if event.what == branches.RENAMED and event.other is not None else what


def object_of_event(history: OpenHistory, event: branches.TagEvent) -> Object:
    found: Object = {"what": event.what, "revision": event.rev, **object_of_log(history, event.rev)}
    if event.what == branches.RENAMED and event.other is not None:
        found["to"] = decoded(event.other[0])
    return found


VERB = ChangedTagsVerb()
