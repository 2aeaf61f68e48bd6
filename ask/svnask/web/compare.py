"""The page that compares two branches or tags."""
from __future__ import annotations

from itertools import islice

from svnask.errors import Denied
from svnask.paths import with_peg
from svnask.web.asked import Asked
from svnask.web.request import Request
from svnask.web.site import Page, address
from svnask.web.words import text_of_choice

NEEDED = ("from", "to")
# How many revisions a table has.
MOST = 200


def compare(asked: Asked, request: Request) -> Page:
    """Return what the second one has and the first one lacks, and what can still be merged."""
    before, after = (text_of_choice(request.value(name)) for name in NEEDED)
    names = asked.kept("names", names_of_today, patience=None)
    values: dict[str, object] = {"before": before, "after": after, "names": names, "is_asked": bool(before and after)}
    if not (before and after):
        return Page("compare.html", "Compare", [], [], values)
    of_notes = {"from_": before, "to": after}
    root = request.root
    ways = ((after, before), (before, after))
    values.update(
        notes_of_release=list(islice(asked.objects("new", "--", before, after), MOST + 1)),
        most=MOST,
        markdown=address(f"{root}/text/new", **of_notes, markdown="1"),
        csv=address(f"{root}/csv/new", **of_notes),
        directions=[(source, target, *eligible(asked, source, target)) for source, target in ways],
        diagram=diagram_of(asked, before, after),
        swapped=address(f"{root}/compare", from_=after, to=before),
    )
    of_merges = {"show_revs": "eligible", "log": "1"}
    commands = [
        asked.command("new", targets=(before, after)),
        *(asked.command("mergeinfo", "--show-revs=eligible", "--log", targets=way) for way in ways),
        asked.command("mergeinfo", targets=(before, after)),
    ]
    addresses = [
        address(f"{root}/api/new", **of_notes),
        *(address(f"{root}/api/mergeinfo", **of_merges, path=source, target=target) for source, target in ways),
        address(f"{root}/api/mergeinfo", path=before, target=after),
    ]
    return Page("compare.html", f"{before} and {after}", commands, addresses, values)


def names_of_today(asked: Asked) -> list[str]:
    """Return the branches and tags that can be text_of_choice."""
    return [with_peg(path) for path in sorted({row["path"] for row in asked.objects("branches") if row["is_alive"]})]


def eligible(asked: Asked, source: str, target: str) -> tuple[list[dict[str, object]], str]:
    """Return the revisions of a source that are to be merged into a target, or why that can't be said."""
    try:
        words = ("--show-revs=eligible", "--log", "--", source, target)
        return list(islice(asked.objects("mergeinfo", *words), MOST + 1)), ""
    except Denied as error:
        return [], str(error)


def diagram_of(asked: Asked, before: str, after: str) -> str:
    """Return the diagram that `svn mergeinfo` prints, or why there is none."""
    try:
        given = asked.given("mergeinfo", ["--", before, after], is_json=False)
        return b"".join(asked.lines(given)).decode("utf-8", "surrogateescape")
    except Denied as error:
        return str(error)
