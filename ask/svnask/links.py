"""Addresses of revisions and paths, as those of a viewer of contents."""
from __future__ import annotations

import re
from urllib.parse import quote

from svnask.errors import Usage

REVISION, PATH = "{revision}", "{path}"
# What a browser opens, and nothing that it would run.
OPENED = re.compile(r"https?://|/(?!/)", re.IGNORECASE)


class Links:
    """The addresses that a form gives: one with `{revision}` and `{path}` in it, in place of which these are put."""

    def __init__(self, form: str) -> None:
        if REVISION not in form and PATH not in form:
            raise Usage(f"--link takes an address with {REVISION} or {PATH} in it, not '{form}'")
        if OPENED.match(form) is None:
            raise Usage(f"--link takes an address that begins with https://, http:// or /, not '{form}'")
        self._form = form

    def of_revision(self, rev: int) -> str | None:
        """Return the address of a revision, if the form is one of revisions."""
        return self._filled("/", rev) if REVISION in self._form else None

    def of_path(self, path: bytes, rev: int) -> str | None:
        """Return the address of a path in a revision, if the form is one of paths."""
        return self._filled(quote(path), rev) if PATH in self._form else None

    def _filled(self, path: str, rev: int) -> str:
        return self._form.replace(REVISION, str(rev)).replace(PATH, path)
