"""`heirs`."""
from __future__ import annotations

from argparse import ArgumentParser, Namespace
from collections.abc import Iterator

from svnask.asking.verb import Object, Verb, add_log, fields_line, fields_of_log, object_of_log, object_of_place
from svnask.branches import heirs
from svnask.errors import Usage
from svnask.history.open_history import OpenHistory
from svnask.history.targets import known, revision_of, target_of
from svnask.log import selection as log
from svnask.texts import decoded


class HeirsVerb(Verb):
    columns = ("path", "revision", "from.path", "from.revision", "is_moved")

    def arguments(self, parser: ArgumentParser) -> None:
        parser.add_argument("target", metavar="PATH[@PEG]")
        parser.add_argument(
            "revision", metavar="REV", nargs="?", default="HEAD", help="the later revision; HEAD if none is given"
        )
        add_log(parser)

    def heirs(self, history: OpenHistory, given: Namespace) -> Iterator[heirs.Heir]:
        target = target_of(history, given.target)
        rev = known(history, revision_of(history, given.revision))
        if rev < target.rev:
            raise Usage(f"revision {rev} is before the peg revision {target.rev}: where and segments look back")
        if not history.locate(*target, target.rev).ok:
            raise log.not_found(history, target, target.rev)
        return heirs.heirs(history, target, rev)

    def text(self, history: OpenHistory, given: Namespace) -> Iterator[bytes]:
        for heir in self.heirs(history, given):
            way = b", ".join(map(text_of_step, heir.way)) or b"itself"
            yield fields_line([heir.path, way, *fields_of_log(history, newest_step(heir), given)])

    def objects(self, history: OpenHistory, given: Namespace) -> Iterator[Object]:
        for heir in self.heirs(history, given):
            found: Object = {"path": decoded(heir.path), "way": [object_of_step(step) for step in heir.way]}
            rev = newest_step(heir)
            yield {**found, **(object_of_log(history, rev) if given.log and rev is not None else {})}

    def rows(self, history: OpenHistory, given: Namespace) -> Iterator[Object]:
        """Return a row for each heir, with its newest step."""
        return ({**each, **(each["way"] or [{}])[0]} for each in self.objects(history, given))


def newest_step(heir: heirs.Heir) -> int | None:
    """Return the revision of the newest step of the way to an heir, if it has any."""
    return heir.way[0].rev if heir.way else None


def text_of_step(step: heirs.Step) -> bytes:
    return b"r%d %s%s@%d" % (step.rev, b"moved from " if step.is_moved else b"from ", *step.source)


def object_of_step(step: heirs.Step) -> Object:
    return {"revision": step.rev, "from": object_of_place(step.source), "is_moved": step.is_moved}


VERB = HeirsVerb()
