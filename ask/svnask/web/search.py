"""The page that finds revisions by their messages, authors and paths."""
from __future__ import annotations

from itertools import islice

from svnask.web.asked import Asked
from svnask.web.request import Request
from svnask.web.site import Page, address

# How many revisions a page has.
MOST = 50


def search(asked: Asked, request: Request) -> Page:
    """Return the newest revisions that a pattern matches."""
    pattern, has_paths = request.value("q").strip(), "paths" in request.query
    before = request.value("before")
    values = {"pattern": pattern, "has_paths": has_paths, "before": before, "found": [], "older": None}
    if not pattern:
        return Page("search.html", "Search", [], [], values)
    words = [f"--search={pattern}", *["--verbose"] * has_paths, *[f"--revision={before}:1"] * bool(before)]
    found = list(islice(asked.objects("log", *words), MOST + 1))
    flags = {"verbose": "1" if has_paths else None, "revision": f"{before}:1" if before else None}
    if len(found) > MOST:
        older = found[MOST]["revision"]
        paths = "1" if has_paths else None
        values["older"] = address(f"{request.root}/search", q=pattern, paths=paths, before=older)
    values["found"] = found[:MOST]
    addresses = [address(f"{request.root}/api/log", search=pattern, **flags)]
    return Page("search.html", f"Search: {pattern}", [asked.command("log", *words)], addresses, values)
