"""The graph of branches and tags, and its picture."""
from __future__ import annotations

import html
import json
import os
import re
import shutil
import time
import unittest
from collections.abc import Sequence
from pathlib import Path
from xml.etree import ElementTree

from dev import running, shapes
from dev.dumps import (
    FILE,
    Dump,
    Node,
    Revision,
    added,
    changed,
    copied,
    deleted,
    dump_of,
    mergeinfo,
    revision_properties,
    section,
)
from dev.tree import DOCS
from svnask.history.open_history import OpenHistory
from svnask.picture import svg as picture
from svnask.picture.fitting import fitted
from svnask.picture.graph import MOST_OTHERS, Graph, LaneMerge, View, drawable, graph_of
from svnask.picture.layout import NARROWEST, Layout, shortened, width_of
from svnask.picture.svg import arrows_of
from svnask.texts import readable
from tests.ask import base
from tests.ask.drawn_repositories import drawn as drawn_dump

F, B, D = b"trunk/f", b"branches/b", b"/trunk/d"
# The mergeinfo of all changes of the trunk since it was copied.
M = mergeinfo(b"/trunk:4-5")
SVG = "{http://www.w3.org/2000/svg}"
PATTERNS: list[list[bytes]] = [[], [b"/*", b"/*/*"]]
LEFT_OUT = re.compile(
    r">left out: ([0-9]+) branches and tags with the fewest revisions and merges.*; --height ([0-9]+) "
)
SHOWN_LANE = re.compile(r"</title><path class=\"line\"[^>]*stroke-width=\"(?:4|2.5|1.5)\" d=\"M[0-9. ]+ H")
# Puts in the place of a page how many texts its picture has, and those that overlap.
OVERLAPS = """<script>
const boxes = [...document.querySelectorAll("svg text")].map(each => [each.textContent, each.getBoundingClientRect()]);
boxes.sort((one, other) => one[1].left - other[1].left);
const found = [];
boxes.forEach(([text, box], at) => {
  for (const [other, next] of boxes.slice(at + 1)) {
    if (next.left >= box.right - 1) break;
    if (box.top < next.bottom - 1 && next.top < box.bottom - 1) found.push(text + " and " + other);
  }
});
document.body.textContent = JSON.stringify([boxes.length, found]);
</script>"""


def drawn(history: OpenHistory, patterns: Sequence[bytes] = (), view: View = View()) -> ElementTree.Element:
    return ElementTree.fromstring(b"".join(picture.svg_of(history, graph_of(history, patterns, view))))


def titles(svg: ElementTree.Element) -> list[str]:
    return [each.text or "" for each in svg.iter(SVG + "title")]


def parted(*later: list[Node]) -> bytes:
    """A dump with a trunk, a branch of it, changes of a file and of one in a directory in r4 and r5, and these."""
    first = [*map(added, (b"trunk", b"trunk/d", b"branches", b"tags")), added(F, FILE), added(b"trunk/d/g", FILE)]
    change = [[changed(F, text=b"4")], [changed(b"trunk/d/g", text=b"5")]]
    return dump_of(first, [changed(F, text=b"2")], [copied(B, b"trunk", 2)], *change, *later)


def names(graph: Graph) -> list[list[bytes]]:
    return [[life.path for life in lane.lives] for lane in graph.lanes]


def repository(count: int) -> bytes:
    """A dump with a trunk, and branches that each begin, get a change and a merge from the trunk, and end or stay."""
    changes: list[list[Node]] = [[*map(added, (b"trunk", b"branches", b"tags")), added(F, FILE)]]
    for number in range(count):
        path, rev = b"branches/b%d" % number, len(changes)
        changes += [[copied(path, b"trunk", rev)], [changed(F)], [changed(path, mergeinfo(b"/trunk:%d" % (rev + 2)))]]
        changes.append([deleted(path) if number % 2 else copied(b"tags/t%d" % number, path, rev + 3)])
    return dump_of(*changes)


class Graphs(base.Case):
    def graph(self, name: str, patterns: Sequence[bytes] = ()) -> Graph:
        return graph_of(self.history(base.dump_of(name)), patterns)

    def test_lanes_copies_and_merges(self) -> None:
        graph = self.graph("merges")
        self.assertEqual(names(graph), [[b"/trunk"], [b"/branches/three"], [b"/branches/two"], [b"/branches/one"]])
        self.assertEqual([lane.kind for lane in graph.lanes], ["trunk", "branch", "branch", "branch"])
        self.assertEqual(
            [(copy.life.first, copy.lane, copy.source) for copy in graph.copies], [(17, 1, 0), (3, 2, 0), (2, 3, 0)]
        )
        self.assertEqual(
            graph.merges,
            [
                LaneMerge(0, 3, 7, [4, 5, 6], 18, False),
                LaneMerge(0, 2, 8, [5], None, False),
                LaneMerge(0, 2, 9, [6], None, False, True),
                LaneMerge(3, 0, 11, [2, 7, 10], 12, False),
                LaneMerge(0, 2, 13, [4], None, False),
                LaneMerge(0, 2, 15, [14], None, False, False, b"/trunk/dir", b"/branches/two/dir"),
                LaneMerge(0, 1, 19, [14], None, False, True),
            ],
        )
        self.assertEqual(graph.columns, list(range(1, 20)))

    def test_a_moved_branch_goes_on_in_its_lane(self) -> None:
        graph = self.graph("inherited")
        first = [[b"/trunk"], [b"/branches/lib"], [b"/branches/one"], [b"/branches/one", b"/branches/two"]]
        # The root was copied to /all, with all that was in it.
        self.assertEqual([each for each in names(graph) if not each[0].startswith(b"/all/")], first)
        moved = [title for title in titles(drawn(self.history(base.dump_of("inherited")))) if "moved from" in title]
        self.assertEqual(len(moved), 1)
        self.assertTrue(moved[0].endswith("r13: moved from /branches/one to /branches/two"), moved)

    def test_a_merge_of_mergeinfo_alone_is_record_only(self) -> None:
        property_of_dir = section({b"svn:ignore": b"x"})
        rows = (
            ("mergeinfo alone", [changed(B, M)], True),
            ("with a text", [changed(B, M), changed(B + b"/f", text=b"x")], False),
            ("with an addition", [changed(B, M), added(B + b"/new", FILE)], False),
            ("with another property below", [changed(B, M), changed(B + b"/d", property_of_dir)], False),
            ("with mergeinfo below", [changed(B, M), changed(B + b"/d", mergeinfo(b"/trunk/d:5"))], True),
            ("with a change elsewhere", [changed(B, M), added(b"tags/t")], True),
            ("into a directory", [changed(B + b"/d", mergeinfo(b"/trunk/d:5"))], True),
            (
                "into a directory, with a text",
                [changed(B + b"/d", mergeinfo(b"/trunk/d:5")), changed(B + b"/d/g", text=b"x")],
                False,
            ),
            ("into a file", [changed(B + b"/f", mergeinfo(b"/trunk/f:4"), b"x")], False),
        )
        for name, nodes, is_record_only in rows:
            with self.subTest(name):
                history = self.history(self.made("dump", parted(nodes)))
                (merge,) = graph_of(history, []).merges
                self.assertEqual(merge.is_record_only, is_record_only)
                svg = drawn(history)
                heads = [each for each in svg.iter(SVG + "path") if each.get("class") == "head open"]
                self.assertEqual(len(heads), 2 * is_record_only)
                self.assertEqual("only recorded as merged" in "".join(svg.itertext()), is_record_only)
                said = [title for title in titles(svg) if title.endswith(", only recorded as merged")]
                self.assertEqual(bool(said), is_record_only)

    def test_merges_below_a_branch(self) -> None:
        d = B + b"/d"
        rows: tuple[tuple[str, list[list[Node]], list[LaneMerge]], ...] = (
            (
                "into a directory",
                [[changed(d, mergeinfo(b"/trunk/d:4-5"))]],
                [LaneMerge(0, 1, 6, [5], None, False, True, D, b"/" + d)],
            ),
            (
                "and taken back",
                [[changed(d, mergeinfo(b"/trunk/d:5"))], [changed(d, mergeinfo(b""))]],
                [LaneMerge(0, 1, 6, [5], 7, False, True, D, b"/" + d)],
            ),
            (
                "of a directory into a branch",
                [[changed(B, mergeinfo(b"/trunk/d:5"))]],
                [LaneMerge(0, 1, 6, [5], None, False, True, D)],
            ),
            (
                "of all, recorded below, too",
                [[changed(B, M), changed(d, mergeinfo(b"/trunk/d:5"))]],
                [LaneMerge(0, 1, 6, [4, 5], None, False, True)],
            ),
            (
                "inherited before",
                [[changed(B, M)], [changed(d, mergeinfo(b"/trunk/d:5,7"))]],
                [LaneMerge(0, 1, 6, [4, 5], None, False, True)],
            ),
            ("of what is no branch", [[changed(d, mergeinfo(b"/vendor/d:5"))]], []),
            ("malformed", [[changed(d, mergeinfo(b"/trunk/d"))]], []),
            ("by an addition", [[deleted(d), added(d, properties=mergeinfo(b"/trunk/d:5"))]], []),
        )
        for name, later, wanted in rows:
            with self.subTest(name):
                graph = graph_of(self.history(self.made("dump", parted(*later))), [])
                self.assertEqual(graph.merges, wanted)

    def test_what_a_merge_of_a_directory_brings_along_is_carried(self) -> None:
        other = b"branches/c"
        dump = parted(
            [copied(other, b"trunk", 2)],
            [changed(B, M), changed(B + b"/d/g")],
            [changed(other + b"/d", mergeinfo(b"/branches/b/d:7\n/trunk/d:5")), changed(other + b"/d/g", text=b"x")],
        )
        graph = graph_of(self.history(self.made("dump", dump)), [])
        found = {(names(graph)[each.source][0], each.rev): each.is_carried for each in graph.merges}
        self.assertEqual(found, {(b"/trunk", 7): False, (b"/trunk", 8): True, (b"/branches/b", 8): False})

    def test_merges_of_many_files_are_one_arrow(self) -> None:
        nodes = [changed(B + b"/" + name, mergeinfo(b"/trunk/%s:6" % name)) for name in (b"d", b"f")]
        history = self.history(self.made("dump", parted([changed(F), changed(b"trunk/d/g")], nodes)))
        self.assertEqual([each.into for each in graph_of(history, []).merges], [b"/" + B + b"/d", b"/" + B + b"/f"])
        (said,) = [title for title in titles(drawn(history)) if title.startswith("r7: ")]
        self.assertEqual(
            said.splitlines(),
            [f"r7: r6 of /trunk/{name} into /branches/b/{name}, only recorded as merged" for name in ("d", "f")],
        )

    def test_a_copy_of_a_part_begins_at_the_lane_of_the_whole(self) -> None:
        graph = self.graph("inherited")
        self.assertEqual([copy.source for copy in graph.copies if copy.life.path == b"/branches/lib"], [0])

    def test_each_operative_revision_is_in_one_dot(self) -> None:
        graph = graph_of(self.history(self.made("dump", repository(300))), [b"/trunk"])
        self.assertEqual(sorted(rev for dot in graph.dots for rev in dot.revisions), graph.lanes[0].revisions)
        long = dump_of([added(b"trunk"), added(F, FILE)], *([changed(F)] for _ in range(2, 3000)))
        graph = graph_of(self.history(self.made("long", long)), [])
        self.assertEqual([rev for dot in graph.dots for rev in dot.revisions], list(range(1, 3000)))
        self.assertLessEqual(len(graph.dots), MOST_OTHERS + 2)

    def test_lanes_of_a_row_do_not_overlap(self) -> None:
        for content in (repository(60), None):
            history = self.history(self.made("dump", content) if content else base.dump_of("again"))
            graph = graph_of(history, [] if content else [b"/*", b"/*/*"])
            layout = Layout(graph)
            for row in layout.rows:
                places = [
                    (layout.at(lane, graph.lanes[lane].lives[0].first).x, layout.end(lane)) for lane in row.lanes[::-1]
                ]
                self.assertEqual(places, sorted(places))
                for one, other in zip(places, places[1:]):
                    self.assertLess(one[1], other[0])
            self.assertEqual(sorted(lane for row in layout.rows for lane in row.lanes), list(range(len(graph.lanes))))

    def test_tags_are_below_their_branches(self) -> None:
        graph = graph_of(self.history(self.made("dump", repository(40))), [])
        layout = Layout(graph)
        tags = [copy for copy in graph.copies if graph.lanes[copy.lane].kind == "tag"]
        self.assertEqual(len(tags), 20)
        for tag in tags:
            self.assertIsNotNone(tag.source)
            self.assertLess(abs(layout.y(tag.source or 0) + 27 - layout.y(tag.lane)), 30)

    def test_of_many_branches_those_of_today_make_room(self) -> None:
        graph = graph_of(self.history(self.made("dump", repository(40))), [])
        layout = Layout(graph)
        self.assertLess(len(layout.rows), 10)
        cut = [lane for lane in range(len(graph.lanes)) if layout.is_cut(lane)]
        self.assertGreater(len(cut), 15)
        for lane in cut:
            self.assertTrue(graph.lanes[lane].lives[-1].is_alive)
            self.assertGreater(layout.end(lane), layout.at(lane, graph.lanes[lane].revisions[-1]).x)
        few = graph_of(self.history(self.made("few", repository(9))), [])
        self.assertEqual([lane for lane in range(len(few.lanes)) if Layout(few).is_cut(lane)], [])

    def test_names_are_within_the_picture(self) -> None:
        dump = dump_of(
            [added(b"trunk"), added(b"tags")],
            [copied(b"tags/one", b"trunk", 1)],
            [copied(b"tags/" + b"long" * 20, b"trunk", 2)],
        )
        layout = Layout(graph_of(self.history(self.made("dump", dump)), []))
        for lane in range(3):
            for place, name in layout.names_on_line(lane):
                self.assertLess(place.x + 0.8 * width_of(name), layout.width)

    def test_there_may_be_no_lane(self) -> None:
        for view in (View(), View(since=7), View(is_by_time=True)):
            history = self.history(base.dump_of("merges"))
            graph = graph_of(history, [b"/nothing*"], view)
            self.assertEqual((graph.lanes, graph.dots, graph.columns), ([], [], []))
            self.assertIn("no path matches", "".join(drawn(history, [b"/nothing*"], view).itertext()))


class Views(base.Case):
    def graph(self, view: View, count: int = 60) -> Graph:
        return graph_of(self.history(self.made("dump", repository(count))), [], view)

    def test_columns_are_joined_where_there_are_too_many(self) -> None:
        for view in (View(most=50), View(most=50, is_by_time=True), View(most=50, since=100)):
            graph = self.graph(view)
            self.assertLessEqual(len(graph.columns), 51)
            self.assertEqual(graph.columns[-1], 241)
            self.assertLess(Layout(graph).right - Layout(graph).left, 51 * NARROWEST + 60)
            for number, lane in enumerate(graph.lanes):
                dots = [rev for dot in graph.dots if dot.lane == number for rev in dot.revisions]
                self.assertEqual(dots, lane.revisions)
            drawn(self.history(self.folder / "dump"), [], view)
        self.assertEqual(self.graph(View(), 60), self.graph(View(most=1000), 60)._replace(view=View()))

    def test_only_a_part_is_drawn(self) -> None:
        for since in (1, 2, 100, 122, 241):
            whole, part = self.graph(View()), self.graph(View(since=since))
            for lane in part.lanes:
                (same,) = [each for each in whole.lanes if each.lives[-1] == lane.lives[-1]]
                self.assertEqual(lane.revisions, [rev for rev in same.revisions if rev >= since])
            shown = {lane.lives[-1].path for lane in part.lanes}
            changed_since = {lane.lives[-1].path for lane in whole.lanes if lane.revisions[-1] >= since}
            self.assertLessEqual(changed_since, shown)
            self.assertEqual(
                [(each.rev, each.revisions) for each in part.merges],
                [(each.rev, each.revisions) for each in whole.merges if each.rev >= since],
            )
            self.assertEqual(
                {copy.life for copy in part.copies}, {copy.life for copy in whole.copies if copy.life.first >= since}
            )
            self.assertEqual(part.columns[0], max(since - 1, 1))
        self.assertLess(len(self.graph(View(since=200)).lanes), 30)

    def test_the_graph_until_a_revision_is_that_of_an_older_dump(self) -> None:
        patterns = [b"/trunk*", b"/b*", b"/tags/*", b"/branches/*"]

        def check(dump: Path) -> None:
            whole = self.history(dump)
            for rev in range(1, whole.head, 3):
                before = dump.read_bytes().partition(b"Revision-number: %d\n" % (rev + 1))[0]
                older = self.history(self.made(f"{dump.name}-{rev}", before))
                # Some patterns match nothing in some of them.
                whole.notice = older.notice = lambda text: None
                graph = graph_of(whole, patterns, View(until=rev))._replace(view=View())
                self.assertEqual(graph, graph_of(older, patterns), rev)

        self.drawn(15, drawn_dump, check)

    def test_a_column_is_a_part_of_the_time(self) -> None:
        days = (1, 2, 2, 20, 21, 31)
        revisions = [Revision(0, (), revision_properties(b"", b"", b"2024-01-01T00:00:00.000000Z"))]
        for number, day in enumerate(days, 1):
            nodes = [added(b"trunk"), added(F, FILE)] if number == 1 else [changed(F)]
            date = b"2024-01-%02dT00:00:00.000000Z" % day
            revisions.append(Revision(number, nodes, revision_properties(b"", b"", date)))
        graph = graph_of(self.history(self.made("dump", bytes(Dump(revisions)))), [], View(is_by_time=True, most=30))
        self.assertEqual((graph.columns, graph.places), ([3, 4, 5, 6], [0, 18, 19, 29]))

    def test_dates_may_lack_or_fall(self) -> None:
        fourth = b"2024-01-04T00:00:00.000000Z"
        falling: list[bytes | None] = [b"2024-%02d-01T00:00:00.000000Z" % month for month in range(12, 3, -1)]
        rows: list[list[bytes | None]] = [[None] * 9, [None, fourth, None, b"x", b"", None], [fourth] * 5, falling]
        for dates in rows:
            revisions = [Revision(0)]
            for number, date in enumerate(dates, 1):
                nodes = [added(b"trunk"), added(F, FILE)] if number == 1 else [changed(F)]
                revisions.append(Revision(number, nodes, {} if date is None else {b"svn:date": date}))
            graph = graph_of(self.history(self.made("dump", bytes(Dump(revisions)))), [], View(is_by_time=True))
            self.assertEqual([rev for dot in graph.dots for rev in dot.revisions], list(range(1, len(dates) + 1)))
            self.assertEqual(graph.columns[-1], len(dates))
            self.assertEqual(graph.places, sorted(set(graph.places)))

    def test_each_lane_has_a_row_where_none_is_folded(self) -> None:
        layout = Layout(self.graph(View(is_folded=False)))
        self.assertEqual([len(row.lanes) for row in layout.rows], [1] * 91)
        self.assertGreater(len({layout.y(lane) for lane in range(91)}), 90)
        self.assertLess(len(Layout(self.graph(View())).rows), 20)

    def test_the_legend_has_room(self) -> None:
        for name in base.names():
            svg = drawn(self.history(base.dump_of(name)))
            marks = [
                tuple(map(float, str(mark.get("transform"))[10:-1].split()))
                for mark in svg
                if mark.get("class") == "mark"
            ]
            says = [each for each in svg if each.tag == SVG + "text"][-len(marks) :] if marks else []
            for (x, y), said in zip(marks, says):
                self.assertEqual((float(said.get("x", 0)), float(said.get("y", 0))), (x + 34, y + 4))
                # No letter of a usual font is wider on average than 0.7 of the size, which is 11 pixels.
                end = x + 34 + 0.7 * 11 * len(said.text or "")
                self.assertLessEqual(end, float(svg.get("width", 0)))
                self.assertEqual([each for each in marks if each[1] == y and x < each[0] < end], [])
                self.assertLess(y + 5, float(svg.get("height", 0)))


class Pictures(base.Case):
    def test_each_repository_has_a_picture(self) -> None:
        for name in base.names():
            history = self.history(base.dump_of(name))
            for patterns in PATTERNS:
                with self.subTest(name=name, patterns=patterns):
                    svg = drawn(history, patterns)
                    self.assertEqual(svg.tag, SVG + "svg")
                    self.assertEqual(len(list(svg.iter(SVG + "desc"))), 1)
                    self.assertEqual([each for each in svg.iter() if each.tag.endswith(("script", "image", "use"))], [])

    def test_the_example_is_what_is_drawn(self) -> None:
        shown = (DOCS / "merges.svg").read_bytes()
        self.assertEqual(base.run(base.dump_of("merges"), "graph").output, shown)

    def test_marks_tell_of_revisions_copies_and_merges(self) -> None:
        found = titles(drawn(self.history(base.dump_of("merges"))))
        self.assertIn("r7: r4, r5, r6 of /trunk into /branches/one, no longer merged from r18 on", found)
        self.assertIn("r17: /branches/three is a copy of /trunk@11", found)
        dots = [title for title in found if "\nr13 | bob | 2024-01-01 00:13:00 +0000 (Mon, 01 Jan 2024)\n" in title]
        self.assertEqual(len(dots), 1)
        self.assertTrue(dots[0].endswith("\nr13: r4 of /trunk into /branches/two"), dots)

    def test_texts_may_be_any_bytes(self) -> None:
        odd = base.as_bytes("a<b>&\"'\udcff\u202e\uffff]]>")
        dump = Dump(
            [
                Revision(0),
                Revision(1, [added(b"trunk"), added(b"b")], base.named(1, "\x00\x01", "\x1b<&")),
                Revision(2, [copied(b"b/" + odd, b"trunk", 1)], base.named(2, "\n <!-- &amp;\x07\udc80 --> ]]>\rmore")),
                Revision(3, [copied(b"b/" + odd + b"\x01\x7f", b"b/" + odd, 2)]),
                Revision(4, [changed(b"trunk", mergeinfo(b"/b/%s:2" % odd))]),
                Revision(5, [added(b"b/" + b"w" * 900), added(b"b/" + "\u6f22".encode() * 300)]),
            ]
        )
        found = titles(drawn(self.history(self.made("dump", bytes(dump))), [b"/trunk", b"/b/*"]))
        self.assertIn("r4: r2 of /b/a<b>&\"'\\xff\u202e\\uffff]]> into /trunk, only recorded as merged", found)
        self.assertTrue(any("\n<!-- &amp;\\x07\\x80 --> ]]>" in title for title in found))
        self.assertTrue(any("\nr1 | \\x1b<& | " in title for title in found))

    def test_readable_texts(self) -> None:
        for text, wanted in (
            (b"\xc3\xb6\xff\t\r", "\u00f6\\xff\\t\\r"),
            (b"\xed\xa0\x80", "\\xed\\xa0\\x80"),
            (b"", ""),
            (b"\xef\xbf\xbe\xc2\x85", "\\ufffe\\x85"),
            (b"\xf0\x9f\x98\x80", "\U0001f600"),
        ):
            self.assertEqual(readable(text), wanted)

    def test_long_names_are_shortened(self) -> None:
        for text in ("x" * 500, "\u6f22" * 90, "i" * 900):
            self.assertLessEqual(width_of(shortened(text, 200)), 220)
        self.assertEqual(shortened("short", 200), "short")

    def test_many_branches_are_drawn_soon(self) -> None:
        dump = self.made("dump", repository(400))
        begun = time.monotonic()
        svg = ElementTree.fromstring(base.run(dump, "graph", "--height", "9999").output)
        self.assertLess(time.monotonic() - begun, 5)
        self.assertIn("401 branches and 200 tags", next(svg.iter(SVG + "desc")).text or "")


class Verb(base.Case):
    def test_a_file_is_written_whole(self) -> None:
        path = self.made("merges.svg", b"before")
        done = base.run(base.dump_of("merges"), "graph", "-o", path)
        self.assertEqual((done.status, done.output, done.said), (0, b"", ""))
        self.assertEqual(path.read_bytes(), base.run(base.dump_of("merges"), "graph").output)
        self.assertEqual([name for name in os.listdir(self.folder) if "svg" in name], ["merges.svg"])

    def test_the_dump_is_not_overwritten(self) -> None:
        whole = base.content_of("merges")
        dump = self.made("merges.dump", whole)
        link = self.folder / "link"
        link.symlink_to(dump)
        for name in (str(dump), str(link), f"{self.folder}/./merges.dump"):
            done = base.called(dump, "graph", "-o", name)
            self.assertEqual((done.status, done.output, done.said.count("\n")), (2, b"", 1))
            self.assertEqual(base.run("-", "graph", "-o", name, given=dump).status, 2)
        self.assertEqual(dump.read_bytes(), whole)

    @unittest.skipUnless(os.geteuid() == 0, "only the administrator gives files to others")
    def test_a_file_keeps_its_owner(self) -> None:
        path = self.made("merges.svg", b"before")
        os.chown(path, 54321, 54322)
        self.assertEqual(base.called(base.dump_of("merges"), "graph", "-o", path).status, 0)
        self.assertEqual((os.stat(path).st_uid, os.stat(path).st_gid), (54321, 54322))

    def test_no_link_is_followed_and_the_mode_of_the_file_is_kept(self) -> None:
        path = self.made("merges.svg", b"before")
        other = self.made("other", b"kept")
        path.chmod(0o640)
        Path(f"{path}.{os.getpid()}.new").symlink_to(other)
        self.assertEqual(base.called(base.dump_of("merges"), "graph", "-o", path).status, 0)
        self.assertEqual(path.stat().st_mode & 0o777, 0o640)
        self.assertEqual(other.read_bytes(), b"kept")
        new = self.folder / "new.svg"
        mask = os.umask(0o027)
        self.addCleanup(os.umask, mask)
        self.assertEqual(base.called(base.dump_of("merges"), "graph", "-o", new).status, 0)
        self.assertEqual(new.stat().st_mode & 0o777, 0o640)
        self.assertEqual([name for name in os.listdir(self.folder) if name.startswith(".")], [])

    def test_a_file_that_cannot_be_written_has_status_3(self) -> None:
        for path in (self.folder / "none" / "x.svg", Path("/dev/full"), self.folder):
            done = base.run(base.dump_of("merges"), "graph", "-o", path)
            self.assertEqual(done.status, 3, path)
            self.assertIn(f"cannot write {path}: ", done.said)

    def test_a_refused_dump_leaves_the_file_alone(self) -> None:
        content = base.content_of("merges").replace(b"Node-path: trunk\n", b"Node-path: other\n", 1)
        faulty = self.made("faulty", content)
        path = self.made("merges.svg", b"before")
        for verb in (["graph", "-o", str(path)], ["branches"], ["unmerged"]):
            self.assertEqual(base.run(faulty, *verb).status, 1, verb)
        self.assertEqual(path.read_bytes(), b"before")

    def test_options(self) -> None:
        dump = base.dump_of("merges")
        rows: list[tuple[list[str], int, str]] = [
            (["--since", "7"], 0, ""),
            (["--since", "{2024-01-01T00:07:30Z}", "--by-time"], 0, ""),
            (["--since", "HEAD", "--width", "200", "--unfolded"], 0, ""),
            (["--until", "7", "--since", "7"], 0, ""),
            (["--until", "6", "--since", "7"], 2, "--until is an older revision than --since"),
            (["--since", "20"], 1, "E160006"),
            (["--until", "20"], 1, "E160006"),
            (["--since", "x"], 1, "E205000"),
            (["--width", "199"], 2, "--width takes 200 pixels or more"),
            (["--width", "-5"], 2, "--width"),
            (["--height", "199"], 2, "--height takes 200 pixels or more"),
            (["--height", "99999999999999999999"], 0, ""),
            (["--width", "99999999999999999999"], 0, ""),
        ]
        for words, status, said in rows:
            done = base.called(dump, "graph", *words)
            self.assertEqual(done.status, status, (words, done.said))
            self.assertIn(said, done.said)
            self.assertEqual(bool(done.output), status == 0)
        objects = base.objects(dump, "graph", "--since", "14")
        self.assertEqual([each["revision"] for each in objects if each["type"] == "merge"], [15, 19])
        self.assertEqual(
            [(each["lives"][0]["path"], each["revisions"]) for each in objects if each["type"] == "lane"],
            [("/trunk", [14]), ("/branches/three", [17, 19]), ("/branches/two", [15, 16]), ("/branches/one", [18])],
        )

    def test_objects(self) -> None:
        objects = base.objects(base.dump_of("merges"), "graph")
        self.assertEqual([each["type"] for each in objects], ["lane"] * 4 + ["copy"] * 3 + ["merge"] * 7)
        self.assertEqual(
            objects[7],
            {
                "type": "merge",
                "source_lane": 0,
                "lane": 3,
                "revision": 7,
                "merged": [4, 5, 6],
                "lost": 18,
                "is_carried": False,
                "is_record_only": False,
                "of": None,
                "into": None,
            },
        )
        self.assertEqual([each["revision"] for each in objects[7:] if each["is_record_only"]], [9, 19])
        self.assertEqual(
            [(each["of"], each["into"]) for each in objects[7:] if each["revision"] == 15],
            [("/trunk/dir", "/branches/two/dir")],
        )
        for words in (["-o", "x"], ["--by-time"], ["--width", "900"], ["--height", "900"], ["--unfolded"]):
            self.check_unanswered(2, "", base.dump_of("merges"), "graph", "--json", *words)


class Fitted(base.Case):
    """Pictures leave out what they have no room for."""

    def picture(self, dump: Path, *words: str) -> str:
        done = base.called(dump, "graph", *words)
        self.assertEqual(done.status, 0, done)
        return done.output.decode()

    def test_a_line_says_how_much_and_by_what_it_comes_back(self) -> None:
        dump = self.made("dump", repository(300))
        part = self.picture(dump, "--height", "400")
        found = LEFT_OUT.search(part)
        assert found is not None
        lanes = len(graph_of(self.history(dump), []).lanes)
        shown = len(SHOWN_LANE.findall(part))
        self.assertEqual(shown + int(found[1]), lanes)
        self.assertGreater(shown, 20)
        for height, is_whole in (((found[2]), True), (str(int(found[2]) - 1), False)):
            again = self.picture(dump, "--height", height)
            self.assertEqual((LEFT_OUT.search(again) is None, len(SHOWN_LANE.findall(again)) == lanes), (is_whole,) * 2)

    def test_what_came_with_another_merge_is_left_out_first(self) -> None:
        carried = [[copied(b"branches/c%d" % number, b"trunk", 2)] for number in range(80)]
        dump = self.made("dump", parted([changed(B, M)], [copied(b"branches/d", b"trunk", 2)], *carried))
        history = self.history(dump)
        found = drawable(history, [])
        part = fitted(found, found.graph(found.lanes), 200)
        self.assertEqual((part.lanes[0].kind, {each.kind for each in part.lanes}), ("trunk", {"trunk", "branch"}))
        # The branch with a merge is one of the busiest.
        self.assertIn([b"/" + B], names(part))
        whole = fitted(found, found.graph(found.lanes), 10000)
        self.assertEqual((whole.left, len(whole.lanes)), (None, 83))

    def test_arrows_are_joined_where_there_are_too_many(self) -> None:
        graph = graph_of(self.history(self.made("dump", shapes.merges(600))), [])
        whole = arrows_of(graph, 10000)
        self.assertGreater(len(whole), 300)
        for most in (300, 60, 1):
            arrows = arrows_of(graph, most)
            self.assertLessEqual(len(arrows), most)
            self.assertEqual(sorted(merge.rev for arrow in arrows for merge in arrow), [m.rev for m in graph.merges])
            self.assertEqual([arrow[0].rev for arrow in arrows], [max(m.rev for m in arrow) for arrow in arrows])


class InBrowser(base.Case):
    """Names do not overlap, with the letters of a browser. How such pictures look is kept in the folder `pictures`."""

    def overlapping(self, svg: str) -> list[str]:
        page = self.made("page.html", f"<!DOCTYPE html><meta charset=utf-8><body>{svg}{OVERLAPS}".encode())
        words = ["chromium", "--headless", "--no-sandbox", "--disable-gpu", f"--user-data-dir={self.folder}/chromium"]
        done = running.run([*words, "--dump-dom", page.as_uri()], environment={"HOME": str(self.folder)})
        found = re.search(r"<body>(\[.*\])</body>", done.output.decode(), re.DOTALL)
        assert found is not None, done.shown()
        count, pairs = json.loads(html.unescape(found[1]))
        self.assertGreater(count, 20)
        return [str(pair) for pair in pairs]

    def test_no_names_overlap(self) -> None:
        if shutil.which("chromium") is None:
            self.skipTest("Chromium is not installed")
        renamed = [[copied(b"branches/name%d" % number, b"trunk", 1)] for number in range(30)]
        for number in range(30):
            before, after = b"branches/name%d" % number, b"branches/other%d" % number
            renamed.insert(2 * number + 1, [copied(after, before, 2 * number + 2), deleted(before)])
        dumps = {f"{4 * count + 1}-revisions": repository(count) for count in (8, 75, 3000)}
        dumps["renames"] = dump_of([added(b"trunk"), added(b"branches")], *renamed)
        for name, content in dumps.items():
            done = base.called(self.made(name, content), "graph")
            self.assertEqual(self.overlapping(done.output.decode()), [], name)
