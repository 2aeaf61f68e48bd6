"""The application that a WSGI server runs."""
from __future__ import annotations

import argparse
import importlib.resources
import json
from collections.abc import Callable, Iterable, Iterator, Sequence
from typing import NamedTuple

from svnask.asking import running
from svnask.asking.parser import parsed
from svnask.errors import Damaged, Denied, Refused, Usage
from svnask.links import Links
from svnask.texts import say
from svnask.web.asked import PATIENCE, Asked, words_of
from svnask.web.checks import checks
from svnask.web.compare import compare
from svnask.web.hosts import LOOPBACK, Hosts
from svnask.web.overview import overview
from svnask.web.path import path
from svnask.web.renewed import RenewedHistory
from svnask.web.request import CSV, HTML, JSON, METHODS, TEXT, Environ, Request, Response, request_of
from svnask.web.revision import revision
from svnask.web.search import search
from svnask.web.site import Page, Site

StartResponse = Callable[[str, list[tuple[str, str]]], object]
PAGES: dict[str, Callable[[Asked, Request], Page]] = {
    "": overview,
    "revision": revision,
    "path": path,
    "compare": compare,
    "checks": checks,
    "search": search,
}
# The pages that may take long, and how many seconds the first answer waits for one. It has a browser ask again at once.
SLOW, SOON = ("path", "compare", "search", "checks"), 0.1
FORMS = {"api": JSON, "csv": CSV, "text": TEXT}
# What the command prints of some verbs is no plain text.
SVG = "image/svg+xml"
FILES = {"svnask.css": "text/css", "svnask.js": "text/javascript", "svnask.svg": SVG}
POLICY = "default-src 'none'; style-src 'self'; script-src 'self'; img-src 'self'; form-action 'self'; base-uri 'none'"
HEADERS = {
    "Content-Security-Policy": POLICY + "; frame-ancestors 'none'",
    "X-Content-Type-Options": "nosniff",
    "Referrer-Policy": "no-referrer",
    "Cache-Control": "no-cache",
}
# A picture by itself has its style in it.
OF_PICTURE = {"Content-Security-Policy": "default-src 'none'; style-src 'unsafe-inline'; sandbox"}
# How many bytes are sent together.
PIECE = 1 << 16
OK, NOT_FOUND, WRONG, FAULT = "200 OK", "404 Not Found", "400 Bad Request", "500 Internal Server Error"
# What svn says of a path or a revision that there is not.
MISSING = ("E160013", "E160006")


class Refusal(NamedTuple):
    """Why there is no answer: a status, and the lines that the command says."""

    status: str
    lines: list[str]


def refusal_of(error: Exception) -> Refusal:
    """Return what is said of an error."""
    lines = [line.partition("svnask: ")[2] or line for line in running.ending_of(error).said]
    if isinstance(error, Denied):
        return Refusal(NOT_FOUND if error.code in MISSING else WRONG, lines)
    if isinstance(error, Usage):
        return Refusal(WRONG, lines)
    is_ours = running.ending_of(error).status == running.FAULT
    return Refusal(FAULT if is_ours else "502 Bad Gateway", lines)


def gathered(pieces: Iterable[bytes]) -> Iterator[bytes]:
    """Yield small pieces together."""
    found = bytearray()
    for piece in pieces:
        found += piece
        if len(found) >= PIECE:
            yield bytes(found)
            found.clear()
    if found:
        yield bytes(found)


class Application:
    """The pages about a history, and the answers of verbs."""

    def __init__(self, given: argparse.Namespace, hosts: Hosts) -> None:
        self._given, self._hosts = given, hosts
        self._history = RenewedHistory(given)
        self._site = Site(given.dump, None if given.link is None else Links(given.link))
        folder = importlib.resources.files("svnask.web") / "static"
        self._files = {name: (folder / name).read_bytes() for name in FILES}

    def open(self) -> None:
        """Read the history, which the first question would do."""
        self._history.view().close()

    def close(self) -> None:
        self._history.close()

    def __call__(self, environ: Environ, start_response: StartResponse) -> Iterable[bytes]:
        response = self._response(environ)
        kind = response.kind if response.kind == SVG else f"{response.kind}; charset=utf-8"
        start_response(response.status, [*{**HEADERS, "Content-Type": kind, **response.headers}.items()])
        return [] if environ["REQUEST_METHOD"] == "HEAD" else response.pieces

    def _response(self, environ: Environ) -> Response:
        if environ["REQUEST_METHOD"] not in METHODS:
            return whole("405 Method Not Allowed", TEXT, b"only GET and HEAD\n", {"Allow": ", ".join(METHODS)})
        if not self._hosts.has(environ.get("HTTP_HOST", "")):
            return whole("403 Forbidden", TEXT, b"this name is not the one that is listened on\n")
        is_page = True
        try:
            request = request_of(environ)
            is_page = request.parts[0] not in FORMS
            return self._page(request) if is_page else self._answer(request)
        except Exception as error:  # pylint: disable=broad-exception-caught
            return self._refused(error, environ.get("SCRIPT_NAME", ""), is_page)

    def _refused(self, error: Exception, root: str, is_page: bool) -> Response:
        self._look_at(error)
        refusal = refusal_of(error)
        if not is_page:
            text = json.dumps({"error": "\n".join(refusal.lines)}).encode("ascii") + b"\n"
            return whole(refusal.status, "application/json", text)
        page = Page("error.html", refusal.status.partition(" ")[2], [], [], {"lines": refusal.lines})
        return whole(refusal.status, HTML, self._site.rendered(page, -1, [], root))

    def _look_at(self, error: Exception) -> None:
        """Say what is our fault, and read anew what may be damaged."""
        if isinstance(error, (Refused, Damaged, running.Stale)):
            self._history.forget()
        elif running.ending_of(error).status == running.FAULT:
            say(*running.ending_of(error).said)

    def _page(self, request: Request) -> Response:
        name = request.parts[0]
        if name == "static" and request.parts[1:] and request.parts[1] in FILES and len(request.parts) == 2:
            return whole(OK, FILES[request.parts[1]], self._files[request.parts[1]])
        if name not in PAGES or name not in ("path", "revision") and len(request.parts) > 1:
            raise Denied(MISSING[0], f"There is no page '/{'/'.join(request.parts)}'")
        with self._history.view() as history:
            asked = Asked(self._given, self._history.answers, history)
            number = request.value("q").strip().lstrip("r") if name == "search" else ""
            if number.isdigit() and number.isascii() and int(number[:20]) <= history.head:
                return whole("303 See Other", TEXT, b"", {"Location": f"{request.root}/revision/{int(number[:20])}"})
            page = self._made_soon(asked, request) if name in SLOW else PAGES[name](asked, request)
            return whole(OK, HTML, self._site.rendered(page, history.head, asked.notes, request.root, asked.is_waiting))

    def _made_soon(self, asked: Asked, request: Request) -> Page:
        """Return a page that another thread makes, or one that says that it is not there yet."""
        name, pages = f"{request.root} {request.parts} {request.query}", self._history.pages
        patience = PATIENCE if pages.is_being_made(name) else SOON
        page = asked.kept(name, lambda about: PAGES[request.parts[0]](about, request), patience, pages)
        return page or Page("wait.html", "Please wait", [], [], {})

    def _answer(self, request: Request) -> Response:
        if len(request.parts) != 2:
            raise Usage("the address of an answer is /api/VERB, /csv/VERB or /text/VERB")
        form, verb = request.parts
        words = words_of(verb, request.query)
        pieces = gathered(self._lines(form, verb, words))
        first = next(pieces, b"")
        kind, headers = FORMS[form], {}
        if form == "text" and verb == "graph":
            kind, headers = SVG, OF_PICTURE
        second = next(pieces, None)
        if second is None:
            return whole(OK, kind, first, headers)
        return Response(OK, kind, self._streamed([first, second], pieces), headers)

    def _lines(self, form: str, verb: str, words: Sequence[str]) -> Iterator[bytes]:
        with self._history.view() as history:
            asked = Asked(self._given, self._history.answers, history)
            given = asked.given(verb, words, is_json=form == "api", is_csv=form == "csv")
            yield from asked.lines(given)

    def _streamed(self, begun: list[bytes], pieces: Iterator[bytes]) -> Iterator[bytes]:
        """Yield a long answer. Where it fails, the server ends the connection, so that no one takes a part for all."""
        yield from begun
        try:
            yield from pieces
        except Exception as error:
            self._look_at(error)
            raise


def whole(status: str, kind: str, text: bytes, headers: dict[str, str] | None = None) -> Response:
    """Return a response whose length is known."""
    return Response(status, kind, [text], {**(headers or {}), "Content-Length": str(len(text))})


def application(*words: str, hosts: Iterable[str] = LOOPBACK) -> Application:
    """Return the application about a source: what stands before a verb, such as `"repo", "--offline"`, and the names by
    which the server may be called."""
    return Application(parsed([*words, "web"]), Hosts(hosts))
