"""The log as `svn log` prints it."""
from __future__ import annotations

import re
from collections.abc import Iterator

from svnask.copy.store import Revision
from svnask.history import dates
from svnask.log.forms import Form, LogEntry, up_to_nul

RULE = b"-" * 72 + b"\n"
LINE_END = re.compile(rb"\r\n|\n\r|\n|\r")


def author_of(revision: Revision) -> bytes:
    return b"(no author)" if revision.author is None else up_to_nul(revision.author)


def first_line(revision: Revision) -> bytes:
    """The first line of the message that is not empty."""
    return LINE_END.split(up_to_nul(revision.message or b"").lstrip(), 1)[0]


def count_of_lines(message: bytes) -> int:
    return 1 + (len(LINE_END.findall(message)) if b"\r" in message else message.count(b"\n"))


def date_of(revision: Revision) -> bytes:
    return dates.shown_date(revision.date).encode("ascii")


def about(revision: Revision) -> list[bytes]:
    """The author, the date and the first line of the message."""
    return [author_of(revision), date_of(revision), first_line(revision)]


def head_line(revision: Revision) -> bytes:
    """The line of a revision without its message."""
    return b"r%d | %s | %s" % (revision.number, author_of(revision), date_of(revision))


class PlainForm(Form):
    """The form without `--xml`; with `is_quiet` it has no messages, and with `is_incremental` no last line."""

    def __init__(self, is_quiet: bool = False, is_incremental: bool = False) -> None:
        self.has_messages = not is_quiet
        self._shown = dates.Clock().shown
        self.end = b"" if is_incremental else RULE
        self._via: tuple[int, ...] = ()
        self._via_text = b""

    def texts(self, revision: Revision) -> Iterator[bytes]:
        """Author and date as they are printed."""
        yield author_of(revision)
        yield self._shown(revision.date)
        if self.has_messages:
            yield revision.message or b""

    def _text_of(self, via: tuple[int, ...], is_reverse: bool) -> bytes:
        """Return where an entry was merged. Entries that follow each other mostly have the same list."""
        if via is not self._via:
            self._via, self._via_text = via, b", ".join([b"r%d" % rev for rev in via])
        return b"%s via: %s\n" % (b"Reverse merged" if is_reverse else b"Merged", self._via_text)

    def entry(self, entry: LogEntry) -> bytes:
        (number, author, date, message, _, _), changes, via, is_reverse, _ = entry
        author = b"(no author)" if author is None else author
        head = b"%sr%d | %s | %s" % (RULE, number, author, self._shown(date))
        paths = b"Changed paths:\n%s\n" % b"\n".join([change.line() for change in changes]) if changes else b""
        merges = self._text_of(via, is_reverse) if via else b""
        if not self.has_messages:
            return b"%s\n%s%s" % (head, paths, merges)
        message = message or b""
        count = count_of_lines(message)
        return b"%s | %d line%s\n%s%s\n%s\n" % (head, count, b"" if count == 1 else b"s", paths, merges, message)
