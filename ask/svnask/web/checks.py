"""The page of what should not be: tags that changed, and values of mergeinfo that are not sound."""
from __future__ import annotations

from svnask.web.asked import Asked
from svnask.web.request import Request
from svnask.web.site import Page

VERBS = ("changed-tags", "check-mergeinfo")


def checks(asked: Asked, request: Request) -> Page:
    """Return what happened to tags, and what is wrong with mergeinfo."""
    values = {
        "tags": asked.kept("tags", lambda about: list(about.objects("changed-tags"))),
        "findings": asked.kept("findings", lambda about: list(about.objects("check-mergeinfo"))),
    }
    addresses = [f"{request.root}/api/{verb}" for verb in VERBS]
    return Page("checks.html", "Checks", [asked.command(verb) for verb in VERBS], addresses, values)
