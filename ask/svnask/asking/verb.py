"""A verb of the command, and what several have in common."""
from __future__ import annotations

import re
import sys
from argparse import ArgumentParser, ArgumentTypeError, Namespace
from collections.abc import Iterable, Iterator, Sequence
from typing import TYPE_CHECKING, Any

from svnask.digits import number
from svnask.history.open_history import OpenHistory
from svnask.history.targets import pattern_of
from svnask.lazy import Lazy
from svnask.texts import decoded

if TYPE_CHECKING:
    import json

    from svnask.copy.changes import Change
    from svnask.copy.store import Record
    from svnask.history.lives import Life
    from svnask.log import plain
    from svnask.paths import Place
else:
    json = Lazy("json")
    plain = Lazy("svnask.log.plain")

Object = dict[str, Any]
# The columns that `--log` adds, and those of a changed path.
OF_LOG = ("author", "date", "message")
OF_CHANGE = ("action", "path", "kind", "text", "properties", "from.path", "from.revision")


class Verb:
    """A verb of the command."""

    # pylint: disable=unused-argument

    # How it is called, if not after a SOURCE.
    usage: str | None = None
    # Whether it is a question about an open history. Others run by themselves.
    needs_history = True
    # Whether a dump that is refused has no answer.
    judges = True
    # The fields of its objects that are the columns of a table, if it has one; what is in an object follows a dot.
    columns: Sequence[str] = ()

    def arguments(self, parser: ArgumentParser) -> None:
        """Tell the parser what follows the verb."""

    def text(self, history: OpenHistory, given: Namespace) -> Iterator[bytes]:
        """Return what is printed about an open history, piece after piece."""
        return iter(())

    def objects(self, history: OpenHistory, given: Namespace) -> Iterator[Object]:
        """Return the same for a script, one object a line."""
        return iter(())

    def objects_as_found(self, history: OpenHistory, given: Namespace) -> Iterator[Object]:
        """Return the objects for who may need the first ones alone. What is refused may be refused after some."""
        return self.objects(history, given)

    def columns_for(self, given: Namespace) -> Sequence[str]:
        """Return the columns by the options of a question."""
        return [*self.columns, *OF_LOG * (getattr(given, "log", False) and "message" not in self.columns)]

    def rows(self, history: OpenHistory, given: Namespace) -> Iterator[Object]:
        """Return the objects of which each is a row of a table."""
        return self.objects(history, given)

    def run(self, given: Namespace) -> int:
        """Do what needs no open history, and return the status."""
        return 0


def write_all(pieces: Iterable[bytes]) -> int:
    """Write to the standard output, and return the status."""
    for piece in pieces:
        sys.stdout.buffer.write(piece)
    sys.stdout.buffer.flush()
    return 0


def patterns_of(history: OpenHistory, given: Namespace) -> list[bytes]:
    return [pattern_of(history, pattern) for pattern in given.patterns]


def add_patterns(parser: ArgumentParser, default: str, what: str = "a path") -> None:
    parser.add_argument(
        "patterns",
        metavar="PATTERN",
        nargs="*",
        default=[],
        help=f"{what}, in which *, ? and [..] stand for characters of a name, and ** at the end for the trunks, the "
        f"branches and the tags at any depth; {default} if none is given",
    )


def add_log(parser: ArgumentParser) -> None:
    parser.add_argument(
        "--log", action="store_true", help="also author, date and first line of the message of each revision"
    )


def fields_of_log(history: OpenHistory, rev: int | None, given: Namespace) -> list[bytes]:
    """The fields that `--log` adds to a line, which perhaps names no revision."""
    return [] if not given.log else [b"-"] * 3 if rev is None else plain.about(history.revision(rev))


def fields_line(fields: Iterable[bytes]) -> bytes:
    return b"\t".join(fields) + b"\n"


def counted(text: str) -> int:
    """The number that an argument is."""
    if re.match("[0-9]+\\Z", text) is None:
        raise ArgumentTypeError(f"'{text}' is not a number")
    return number(text)


def seconds(text: str) -> int:
    """The number of seconds that an argument is, which is not 0."""
    found = counted(text)
    if found == 0:
        raise ArgumentTypeError("it takes one second or more")
    return found


def shown(text: bytes | None) -> str | None:
    return None if text is None else decoded(text)


def object_of_place(place: Place) -> Object:
    return {"path": decoded(place[0]), "revision": place[1]}


def object_of_change(change: Change) -> Object:
    found: Object = {"path": decoded(change.path), "action": change.letter, "kind": change.kind}
    found.update(text=change.has_text, properties=change.has_properties)
    if change.source:
        found["from"] = object_of_place(change.source)
    return found


def rows_of_changes(found: Iterable[Object]) -> Iterator[Object]:
    """Return a row for each changed path of some revisions, and one for a revision that changed none."""
    return ({**each, **change} for each in found for change in each["changes"] or [{}])


def object_of_log(history: OpenHistory, rev: int) -> Object:
    """The author, the date and the message of a revision."""
    revision = history.revision(rev)
    return {"author": shown(revision.author), "date": shown(revision.date), "message": shown(revision.message)}


def object_of_revision(history: OpenHistory, rev: int) -> Object:
    history.find_kinds([rev])
    changes = [object_of_change(each) for each in history.changes(rev)]
    return {"revision": rev, **object_of_log(history, rev), "changes": changes}


def object_of_record(record: Record) -> Object:
    found: Object = {
        "record": record.number,
        "revision": record.rev,
        "path": decoded(record.path),
        "action": record.action,
        "kind": record.kind,
        "byte": record.at,
    }
    if record.source:
        found["from"] = object_of_place(record.source)
    if record.mergeinfo:
        found["mergeinfo"] = shown(record.mergeinfo.text)
    return found


def object_of_life(life: Life) -> Object:
    found: Object = {"path": decoded(life.path), "first": life.first, "last": life.last, "is_alive": life.is_alive}
    if life.source is not None:
        found["from"] = object_of_place(life.source)
    return found


# What JSON need not escape, but rules a terminal.
HIGH_CONTROL = re.compile("[\x7f-\x9f]")


def object_line(found: Object) -> bytes:
    """An object as JSON, without any control character."""
    line = json.dumps(found, ensure_ascii=False)
    return HIGH_CONTROL.sub(lambda each: "\\u%04x" % ord(each[0]), line).encode("utf-8", "backslashreplace") + b"\n"
