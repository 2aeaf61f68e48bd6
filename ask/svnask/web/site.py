"""The templates of the pages, and the addresses in them."""
from __future__ import annotations

import re
from collections.abc import Mapping
from typing import Any, NamedTuple
from urllib.parse import quote, urlencode

from jinja2 import Environment, PackageLoader
from markupsafe import Markup
from svnask.engine.queries import is_askable
from svnask.links import Links
from svnask.texts import DIRECTIONS, encoded, escaped
from svnask.web.request import LONGEST
from svnask.web.words import choice

# What a page does not show as it is: control characters but for newlines and tabs.
CONTROL = re.compile("[\x00-\x08\x0b-\x1f\x7f-\x9f\ufffe\uffff]")
# So many components of a date are shown: the day and the minute.
MINUTE = len("2024-01-01T00:00")
# How much of an address may follow a path.
REST = 1 << 10


class Page(NamedTuple):
    """A template, a title, the command lines that say the same, the addresses of the objects, and what is shown."""

    template: str
    title: str
    commands: list[str]
    addresses: list[str]
    values: Mapping[str, Any]


class OwnLinks(Links):
    """The addresses of the pages of revisions and paths."""

    def __init__(self, root: str) -> None:
        super().__init__("/revision/{revision}{path}")
        self._root = root

    def of_revision(self, rev: int) -> str:
        return f"{self._root}/revision/{rev}"

    def of_path(self, path: bytes, rev: int) -> str | None:
        """Return the address of the page of a path, if it has one."""
        named = quote(path)
        has_page = is_askable(path) and len(named) < LONGEST - REST
        return f"{self._root}/path{named}?rev={rev}" if has_page else None


def printable(value: Any) -> Any:
    """Return a text of the repository as a page may have it. Control characters are shown as `\\x1b`."""
    if not isinstance(value, str):
        return value
    text = DIRECTIONS.sub(escaped, CONTROL.sub(escaped, value.encode("utf-8", "backslashreplace").decode("utf-8")))
    return Markup(text) if isinstance(value, Markup) else text


def minute(date: str | None) -> str:
    """Return a date of Subversion with its minute, in UTC."""
    return "" if date is None else date[:MINUTE].replace("T", " ") + "Z"


def first_line_of(message: str | None) -> str:
    return next((line for line in (message or "").splitlines() if line.strip()), "")


def quantity(number: int, name: str) -> str:
    """Return a number of things.

    >>> quantity(1, "merge"), quantity(2, "merge")
    ('1 merge', '2 merges')
    """
    plural = name + ("es" if name.endswith("ch") else "s")
    return f"{number} {name if number == 1 else plural}"


def address(front: str, **values: str | int | None) -> str:
    """Return an address with those values of its query that are given."""
    chosen = {name.rstrip("_").replace("_", "-"): value for name, value in values.items() if value is not None}
    return front + ("?" + urlencode(chosen, safe="/", errors="surrogateescape") if chosen else "")


class Site:
    """The maker of pages, from templates."""

    def __init__(self, source: str, viewer: Links | None = None) -> None:
        self._source, self._viewer = source, viewer
        self._made = Environment(
            loader=PackageLoader("svnask.web"),
            autoescape=True,
            finalize=printable,
            trim_blocks=True,
            lstrip_blocks=True,
        )
        self._made.filters.update(minute=minute, first_line=first_line_of, counted=quantity, choice=choice)

    def rendered(self, page: Page, head: int, notes: list[str], root: str, is_waiting: bool = False) -> bytes:
        """Return the bytes of a page about a history up to a revision."""
        own = OwnLinks(root)
        text = self._made.get_template(page.template).render(
            page=page,
            source=self._source,
            head=head,
            is_waiting=is_waiting,
            notes=notes,
            root=root,
            revision_link=own.of_revision,
            path_link=lambda path, rev: own.of_path(encoded(path), rev),
            viewer=self._of_viewer,
            **page.values,
        )
        return text.encode("utf-8", "backslashreplace")

    def _of_viewer(self, rev: int, path: str | None = None) -> str | None:
        if self._viewer is None:
            return None
        return self._viewer.of_revision(rev) if path is None else self._viewer.of_path(encoded(path), rev)
