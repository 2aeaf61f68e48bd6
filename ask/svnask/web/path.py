"""The page of a path in a revision: its log, where it was, what became of it, and its mergeinfo."""
from __future__ import annotations

import bisect
import re
from collections.abc import Iterable, Iterator
from itertools import islice
from urllib.parse import quote

from svnask.asking.verb import Object
from svnask.errors import Denied
from svnask.history.targets import Target, known, revision_of
from svnask.paths import joined, with_peg
from svnask.texts import decoded, encoded
from svnask.web.asked import Asked
from svnask.web.overview import PLAIN, ShownMerge, picture_of, shown_merge
from svnask.web.request import Request
from svnask.web.site import Page, address

# How many revisions a page of the log has, how many with those that were merged, and how many names below a directory.
MOST, MOST_MERGED, MOST_NAMES = 50, 200, 1000
RUN = re.compile(r"([0-9]+)(?:-([0-9]+))?(\*?)")


def path(asked: Asked, request: Request) -> Page:
    """Return what is known of a path in the revision that a query names, or else in the youngest one."""
    place = place_asked(asked, request)
    target = with_peg(decoded(place.path), place.rev)
    # Where it was comes first: it says whether there is such a path.
    segments = list(asked.objects("segments", "--", target))
    is_old = place.rev < asked.history.head
    values = {
        "path": decoded(place.path),
        "rev": place.rev,
        "kind": asked.history.kind(place.path, place.rev),
        "segments": segments,
        "heirs": list(asked.objects("heirs", "--", target)) if is_old else [],
        "mergeinfo": list(sources_in_words(asked, target)),
        "merges": merges_into(asked, request, place),
        **page_of_names(asked, request, place),
    }
    words = words_of_log(request)
    values.update(page_of_log(asked, request, place, [*words, "--", target]))
    others = ("segments", *["heirs"] * is_old, "mergeinfo")
    merges = ["merges"] * bool(values["merges"])
    # A limit counts revisions before they are searched.
    limit = None if request.value("search") else MOST
    commands = [asked.command("log", *[f"--limit={limit}"] * bool(limit), *words, targets=[target])]
    commands += [asked.command(verb, targets=[target]) for verb in others]
    commands += [asked.command(verb, targets=[decoded(place.path)]) for verb in merges]
    addresses = [address_of_log(request, target, limit)]
    addresses += [address(f"{request.root}/api/{verb}", path=target) for verb in others]
    addresses += [address(f"{request.root}/api/{verb}", pattern=decoded(place.path)) for verb in merges]
    return Page("path.html", target, commands, addresses, values)


def place_asked(asked: Asked, request: Request) -> Target:
    """Return the path and the revision of an address."""
    text = request.value("rev").strip()
    rev = known(asked.history, revision_of(asked.history, text)) if text else asked.history.head
    return Target(encoded("/" + "/".join(part for part in request.parts[1:] if part)), rev)


def words_of_log(request: Request) -> list[str]:
    """Return the options of the log that a query chooses."""
    pattern, before = request.value("search"), request.value("before")
    return [
        *["--use-merge-history"] * ("merged" in request.query),
        *[f"--search={pattern}"] * bool(pattern),
        *[f"--revision={before}:1"] * bool(before),
    ]


def address_of_log(request: Request, target: str, limit: int | None) -> str:
    """Return the address of the objects of the log that a query chooses."""
    before = request.value("before")
    return address(
        f"{request.root}/api/log",
        path=target,
        search=request.value("search") or None,
        use_merge_history="" if "merged" in request.query else None,
        revision=f"{before}:1" if before else None,
        limit=limit,
    )


def page_of_log(asked: Asked, request: Request, place: Target, words: list[str]) -> dict[str, object]:
    """Return a page of the log, with the addresses of the newest one and of the one after it."""
    pattern, has_merged = request.value("search"), "merged" in request.query
    limit = [] if pattern else [f"--limit={MOST + 1}"]
    entries, older, cut = page_of(asked.objects("log", *limit, *words))
    chosen: dict[str, str | int | None] = {"rev": place.rev, "search": pattern or None}
    chosen["merged"] = "1" if has_merged else None
    front = f"{request.root}/path{quote(place.path)}"
    return {
        "entries": entries,
        "cut": cut,
        "has_merged": has_merged,
        "pattern": pattern,
        "older": None if older is None else address(front, **chosen, before=older),
        "newest": address(front, **chosen) if request.value("before") else None,
    }


def page_of(entries: Iterable[Object]) -> tuple[list[Object], int | None, int | None]:
    """Return the entries of a page, with those that were merged in them, the first revision after them, and the one of
    which some that were merged are left out."""
    found: list[Object] = []
    count = 0
    for entry in entries:
        via = entry.get("merged_via")
        count += not via
        if count > MOST:
            return found, entry["revision"], None
        if via and len(found) >= MOST_MERGED:
            return found, via[0] - 1 or None, via[0]
        found.append(entry)
    return found, None, None


def sources_in_words(asked: Asked, target: str) -> Iterator[tuple[str, str]]:
    """Yield the sources of the mergeinfo of a path, with their revisions in words."""
    try:
        for each in asked.objects("mergeinfo", "--", target):
            yield each["path"], in_words(each["ranges"])
    except Denied as error:
        yield "", str(error)


def in_words(ranges: str) -> str:
    """Return a rangelist in words.

    >>> in_words("3-5,7*")
    'r3 to r5, r7 (not for what is below)'
    """
    found = []
    for first, last, star in RUN.findall(ranges):
        run = f"r{first} to r{last}" if last else f"r{first}"
        found.append(run + " (not for what is below)" * bool(star))
    return ", ".join(found)


def merges_into(asked: Asked, request: Request, place: Target) -> list[ShownMerge]:
    """Return the newest merges into a path up to a revision, or into what is below it, if it is a branch."""
    picture = picture_of(asked, PLAIN, request.root)
    graph = None if picture is None else picture.whole
    if graph is None:
        return []
    lanes = {number for number, lane in enumerate(graph.lanes) for life in lane.lives if life.path == place.path}
    merges = (each for each in reversed(graph.merges) if each.target in lanes and each.rev <= place.rev)
    return [shown_merge(asked, graph, each) for each in islice((each for each in merges if not each.is_carried), MOST)]


def page_of_names(asked: Asked, request: Request, place: Target) -> dict[str, object]:
    """Return the names of what is in a directory from the one that a query names, with the address of those after them."""
    first = encoded(request.value("names"))
    found = list(islice(names_below(asked, place, first), MOST_NAMES + 1))
    front = f"{request.root}/path{quote(place.path)}"
    after = address(front, rev=place.rev, names=decoded(found[MOST_NAMES])) if len(found) > MOST_NAMES else None
    return {"names": list(map(decoded, found[:MOST_NAMES])), "names_after": after, "has_first": not first}


def names_below(asked: Asked, place: Target, first: bytes) -> Iterator[bytes]:
    """Yield the names of what is in a directory, in their order from the first one."""
    tree = asked.history.tree
    names = sorted(tree.names(place.path))
    for name in names[bisect.bisect_left(names, first) :]:
        if tree.exists(joined(place.path, name), place.rev):
            yield name
