"""What a browser asks, and what it gets."""
from __future__ import annotations

from collections.abc import Iterable
from typing import Any, NamedTuple
from urllib.parse import parse_qs

from svnask.errors import Usage

# How many values a query may have, and how long an address may be.
MOST_VALUES, LONGEST = 200, 1 << 17
HTML, TEXT, JSON, CSV = "text/html", "text/plain", "application/x-ndjson", "text/csv"
METHODS = ("GET", "HEAD")
Environ = dict[str, Any]


class Request(NamedTuple):
    """The method, the parts of the path, the values of the query by their names, and the path of the pages."""

    method: str
    parts: list[str]
    query: dict[str, list[str]]
    root: str

    def value(self, name: str, default: str = "") -> str:
        """Return the last value of a name."""
        return self.query.get(name, [default])[-1]


class Response(NamedTuple):
    """A status, the type of what follows, and that in pieces. Other headers are by their names."""

    status: str
    kind: str
    pieces: Iterable[bytes]
    headers: dict[str, str] = {}


def request_of(environ: Environ) -> Request:
    """Return what a server was asked."""
    path, asked = environ.get("PATH_INFO", ""), environ.get("QUERY_STRING", "")
    if len(path) + len(asked) > LONGEST:
        raise Usage("the address is too long")
    try:
        query = parse_qs(asked, keep_blank_values=True, errors="surrogateescape", max_num_fields=MOST_VALUES)
    except ValueError as error:
        raise Usage("the address has too many values") from error
    # A server gives the bytes of the path as characters.
    text = path.encode("latin-1", "replace").decode("utf-8", "surrogateescape")
    return Request(environ["REQUEST_METHOD"], text.split("/")[1:] or [""], query, environ.get("SCRIPT_NAME", ""))
