"""The page of all branches and tags, with their picture."""
from __future__ import annotations

from collections.abc import Sequence
from itertools import groupby
from typing import NamedTuple

from markupsafe import Markup
from svnask.asking.verb import Object, shown
from svnask.paths import with_peg
from svnask.picture.branch_merges import named
from svnask.picture.graph import Graph, LaneMerge
from svnask.picture.options import HEIGHT, drawn_of
from svnask.picture.svg import svg_of
from svnask.projects import trunk_of
from svnask.texts import decoded, encoded
from svnask.web.asked import Asked
from svnask.web.request import Request
from svnask.web.site import OwnLinks, Page, address

TABLE, PLAIN = ("branches", "--ahead-behind=", "--log"), ["graph"]
# What may be chosen of the picture.
CHOSEN = ("since", "until", "height", "width")


def overview(asked: Asked, request: Request) -> Page:
    """Return the branches and tags by their projects, and the picture that a query chooses."""
    chosen = {name: request.value(name) for name in CHOSEN if request.value(name)}
    flags = [name for name in ("by-time", "unfolded") if name in request.query]
    words = [*PLAIN, *(f"--{name}={value}" for name, value in chosen.items()), *(f"--{name}" for name in flags)]
    rows = rows_of(asked)
    of_picture = {**chosen, **{name: "1" for name in flags}}
    picture = picture_of(asked, words, request.root)
    left = None if picture is None else picture.left
    values = {
        "projects": None if rows is None else by_project(rows),
        "compared": lambda row, trunk: address(
            f"{request.root}/compare", from_=with_peg(trunk), to=with_peg(row["path"])
        ),
        "picture": picture and picture.svg,
        "chosen": of_picture,
        "height": HEIGHT,
        "needed": left,
        "more": left and address(request.root + "/", **{**of_picture, "height": str(left)}) + "#picture",
    }
    commands = [asked.command("branches", "--ahead-behind", "--log"), asked.command(*words)]
    addresses = [
        address(f"{request.root}/api/branches", ahead_behind="", log="1"),
        address(f"{request.root}/api/graph", since=chosen.get("since"), until=chosen.get("until")),
    ]
    return Page("overview.html", "Branches and tags", commands, addresses, values)


def rows_of(asked: Asked) -> list[Object] | None:
    """Return the branches and tags, at first perhaps without how far they are from their trunks."""
    plain = None
    if not asked.has("counted"):
        plain = asked.kept("branches", lambda about: list(about.objects("branches", "--log")))
    return asked.kept("counted", lambda about: list(about.objects(*TABLE))) or plain


class ShownPicture(NamedTuple):
    """A picture, how high one is that leaves nothing out of it, and if nothing was chosen the graph of all."""

    svg: Markup
    left: int | None
    whole: Graph | None


class ShownMerge(NamedTuple):
    """A merge: the revision that made it and who did, from where and into what, and how it counts."""

    rev: int
    author: str | None
    source: str
    target: str
    revisions: Sequence[int]
    how: str


def shown_merge(asked: Asked, graph: Graph, merge: LaneMerge) -> ShownMerge:
    """Return a merge by the paths that its branches had then."""
    parts = [
        *["only recorded"] * merge.is_record_only,
        *["with another merge"] * merge.is_carried,
        *([] if merge.lost is None else [f"taken back in r{merge.lost}"]),
    ]
    found = named(graph, merge, ", ".join(parts) or "merged")
    author = shown(asked.history.revision(found.rev).author)
    return ShownMerge(found.rev, author, decoded(found.of), decoded(found.into), found.revisions, found.how)


class ProjectRows(NamedTuple):
    """The directory of a project, its trunk of today, and its branches and tags with that."""

    path: str
    trunk: str | None
    rows: list[Object]


def by_project(rows: list[Object]) -> list[ProjectRows]:
    """Return the projects, each with what there is today first, and the trunk before all others."""

    def directory(row: Object) -> str:
        trunk = trunk_of(encoded(row["path"]))
        return "/" if trunk is None else trunk.decode("utf-8", "surrogateescape").rpartition("/")[0] or "/"

    ordered = sorted(rows, key=lambda row: (directory(row), row["kind"] != "trunk", not row["is_alive"], row["path"]))
    projects = ((name, list(found)) for name, found in groupby(ordered, directory))
    return [ProjectRows(name, trunk_in(found), found) for name, found in projects]


def trunk_in(rows: list[Object]) -> str | None:
    """Return the path of the trunk of today that some rows have."""
    return next((row["path"] for row in rows if row["kind"] == "trunk" and row["is_alive"]), None)


def picture_of(asked: Asked, words: list[str], root: str) -> ShownPicture | None:
    """Return the picture by some options, whose marks link to pages."""
    return asked.kept(f"{root} {words}", lambda about: drawn(about, words, root))


def drawn(asked: Asked, words: list[str], root: str) -> ShownPicture:
    whole, fitted = drawn_of(asked.history, [], asked.given(words[0], words[1:], is_json=False))
    pieces = svg_of(asked.history, fitted, OwnLinks(root), has_style=False)
    svg = Markup(b"".join(pieces).decode("utf-8"))
    # Of the graphs of chosen pictures, which are large, none is asked for.
    return ShownPicture(svg, fitted.left and fitted.left.height, whole if words == PLAIN else None)
