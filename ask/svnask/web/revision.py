"""The page of a revision: what it changed, who has it, and where it was merged."""
from __future__ import annotations

import bisect

from svnask.asking.verb import Object
from svnask.digits import number
from svnask.picture.graph import Graph, LaneMerge
from svnask.texts import decoded
from svnask.web.asked import Asked
from svnask.web.overview import PLAIN, ShownMerge, picture_of, shown_merge
from svnask.web.request import Request
from svnask.web.site import Page, address

# How many changed paths a page has.
MOST_PATHS = 1000


def revision(asked: Asked, request: Request) -> Page:
    """Return a revision, and what else is known of it."""
    text = request.parts[1] if len(request.parts) == 2 else ""
    (found,) = asked.objects("show", "--", text)
    rev = found["revision"]
    # The picture of all is that of the first page.
    picture = picture_of(asked, PLAIN, request.root)
    here, there = ([], []) if picture is None or picture.whole is None else merges_at(asked, picture.whole, rev)
    values = {
        "rev": rev,
        "found": found,
        **page_of_changes(asked, request, found),
        "holders": list(asked.objects("contains", "--", str(rev))) if rev else [],
        "merged_here": here,
        "merged_there": there,
    }
    commands = [asked.command("show", str(rev)), asked.command("contains", str(rev)), asked.command("graph")]
    addresses = [address(f"{request.root}/api/{verb}", rev=rev) for verb in ("show", "contains")]
    return Page("revision.html", f"r{rev}", commands, addresses, values)


def page_of_changes(asked: Asked, request: Request, found: Object) -> dict[str, object]:
    """Return the changed paths of a revision after as many as a query says, each with where it is, and the addresses of
    those before and after them."""
    rev, count = found["revision"], len(found["changes"])
    text = request.value("after")
    begin = min(number(text), count) if text.isdecimal() and text.isascii() else 0
    shown = slice(begin, begin + MOST_PATHS)
    places = asked.history.places_of_changes(rev, asked.history.changes(rev)[shown])

    def page_after(place: int) -> str:
        return address(f"{request.root}/revision/{rev}", after=place or None) + "#paths"

    return {
        "changes": zip(found["changes"][shown], [(decoded(path), at) for path, at in places]),
        "first": begin + 1,
        "last": min(begin + MOST_PATHS, count),
        "before_these": page_after(max(begin - MOST_PATHS, 0)) if begin else None,
        "after_these": page_after(begin + MOST_PATHS) if begin + MOST_PATHS < count else None,
    }


def merges_at(asked: Asked, graph: Graph, rev: int) -> tuple[list[ShownMerge], list[ShownMerge]]:
    """Return what was merged in a revision, but for what another merge carried along, and where it was merged."""
    here = (each for each in graph.merges if each.rev == rev and not each.is_carried)
    there = (each for each in graph.merges if has_merged(each, rev))
    return [shown_merge(asked, graph, each) for each in here], [shown_merge(asked, graph, each) for each in there]


def has_merged(merge: LaneMerge, rev: int) -> bool:
    at = bisect.bisect_left(merge.revisions, rev)
    return at < len(merge.revisions) and merge.revisions[at] == rev
