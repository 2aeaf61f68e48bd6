"""`graph`."""
from __future__ import annotations

import os
from argparse import ArgumentParser, Namespace
from collections.abc import Iterable, Iterator

from svnask.asking.verb import Object, Verb, add_patterns, counted, object_of_life, patterns_of, shown
from svnask.errors import Failed, Usage
from svnask.files import replaced
from svnask.history.open_history import OpenHistory
from svnask.links import Links
from svnask.picture.options import HEIGHT, WIDTH, drawable_of, drawn_of
from svnask.picture.svg import svg_of

OF_LINK = "what a mark or a name links to, with {revision} and {path}, as in 'https://host/viewvc?revision={revision}'"


class GraphVerb(Verb):
    def arguments(self, parser: ArgumentParser) -> None:
        add_patterns(parser, "**")
        parser.add_argument("-o", "--output", metavar="FILE", help="where to write it, in place of the standard output")
        parser.add_argument("--since", metavar="REV", help="the first revision that is drawn, or its {DATE}")
        parser.add_argument("--until", metavar="REV", help="the last revision that is drawn, or its {DATE}")
        parser.add_argument("--by-time", action="store_true", help="place revisions by their time, not by their number")
        parser.add_argument(
            "--width",
            type=counted,
            metavar="PIXELS",
            help=f"the greatest width of the revisions, without the names at the left; {WIDTH} if it is not given",
        )
        parser.add_argument(
            "--height",
            type=counted,
            metavar="PIXELS",
            help="the greatest height of the lines, above which those with the fewest revisions and merges are left out, "
            f"and merges that came with another one; {HEIGHT} if it is not given",
        )
        parser.add_argument("--unfolded", action="store_true", help="a line of its own for each branch and tag")
        parser.add_argument("--link", metavar="ADDRESS", help=OF_LINK)

    def text(self, history: OpenHistory, given: Namespace) -> Iterator[bytes]:
        if given.output is not None and history.is_read_from(given.output):
            raise Usage(f"-o {given.output} would overwrite the dump")
        if given.output == "":
            raise Usage("-o takes the name of a file")
        links = None if given.link is None else Links(given.link)
        pieces = svg_of(history, drawn_of(history, patterns_of(history, given), given).fitted, links)
        if given.output is None:
            yield from pieces
        else:
            write(given.output, pieces)

    def objects(self, history: OpenHistory, given: Namespace) -> Iterator[Object]:
        for option, value in (
            ("-o", given.output),
            ("--by-time", given.by_time or None),
            ("--width", given.width),
            ("--height", given.height),
            ("--unfolded", given.unfolded or None),
            ("--link", given.link),
        ):
            if value is not None:
                raise Usage(f"{option} is for the picture: --json prints objects")
        whole = drawable_of(history, patterns_of(history, given), given)
        found = whole.graph(whole.lanes)
        for number, lane in enumerate(found.lanes):
            lives = [object_of_life(life) for life in lane.lives]
            yield {"type": "lane", "lane": number, "kind": lane.kind, "lives": lives, "revisions": lane.revisions}
        for copy in found.copies:
            yield dict(object_of_life(copy.life), type="copy", lane=copy.lane, source_lane=copy.source)
        for merge in found.merges:
            yield {
                "type": "merge",
                "source_lane": merge.source,
                "lane": merge.target,
                "revision": merge.rev,
                "merged": [*merge.revisions],
                "lost": merge.lost,
                "is_carried": merge.is_carried,
                "is_record_only": merge.is_record_only,
                "of": shown(merge.of),
                "into": shown(merge.into),
            }


def write(name: str, pieces: Iterable[bytes]) -> None:
    """Write a file, whole or not at all, but for a device or a pipe."""
    final = os.path.realpath(name)
    try:
        if os.path.isfile(final) or not os.path.exists(final):
            with replaced(final) as beside, open(beside, "wb") as file:
                file.writelines(pieces)
        else:
            with open(final, "wb") as file:
                file.writelines(pieces)
    except OSError as error:
        raise Failed(f"cannot write {name}: {error.strerror}") from error


VERB = GraphVerb()
