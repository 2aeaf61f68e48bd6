"""`web`: the history in a browser."""
from __future__ import annotations

from argparse import ArgumentParser, Namespace
from typing import TYPE_CHECKING

from svnask.asking.verb import Verb
from svnask.errors import Failed
from svnask.lazy import Lazy

if TYPE_CHECKING:
    from svnask.web import server
else:
    server = Lazy("svnask.web.server")

NEEDED = ("jinja2", "markupsafe", "waitress")
LACKING = (
    "web needs Jinja2 and waitress: 'pip install jinja2 waitress', or 'apt install python3-jinja2 python3-waitress'"
)


class WebVerb(Verb):
    needs_history = False

    def arguments(self, parser: ArgumentParser) -> None:
        parser.add_argument(
            "--listen", metavar="HOST:PORT", help="where, in place of 127.0.0.1:8080; port 0 is any that is free"
        )
        parser.add_argument("--link", metavar="ADDRESS", help="where contents are shown, as for graph")

    def run(self, given: Namespace) -> int:
        try:
            server.serve_pages(given)
        except ModuleNotFoundError as error:
            if error.name not in NEEDED:
                raise
            raise Failed(LACKING) from error
        return 0


VERB = WebVerb()
