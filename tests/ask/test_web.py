"""`web`: the pages and the answers over HTTP say what the verbs say, whatever they are asked, and to nobody else."""
from __future__ import annotations

import importlib.util
import json
import random
import signal
import subprocess
import sys
import threading
import time
import unittest
from collections.abc import Iterator
from contextlib import closing
from functools import partial
from html.parser import HTMLParser
from pathlib import Path
from typing import TYPE_CHECKING, Any, NamedTuple
from unittest import mock
from urllib.parse import quote, unquote_to_bytes, urlencode

from dev import running
from dev.dumps import Dump, Revision, added, changed, copied, dump_of, mergeinfo
from dev.tree import SVNASK
from svnask.asking.parser import parsed, parser_of_verb
from svnask.asking.words import joined_options
from svnask.cli.verbs import web
from svnask.errors import Failed
from svnask.lazy import Lazy
from svnask.sources.opening import source_of
from svnask.sources.progress import Progress
from tests.ask import base, fuzz
from tests.ask.drawn_repositories import drawn
from tests.ask.questions import ALL

if TYPE_CHECKING:
    from svnask.web import asked, hosts, overview
    from svnask.web import path as path_page
    from svnask.web import renewed, site
    from svnask.web import words as page_words
    from svnask.web import wsgi
else:
    names = ("asked", "hosts", "overview", "path", "renewed", "site", "words", "wsgi")
    asked, hosts, overview, path_page, renewed, site, page_words, wsgi = (Lazy(f"svnask.web.{name}") for name in names)

ADDRESS = "127.0.0.1:8080"
LACKING = [name for name in web.NEEDED if importlib.util.find_spec(name) is None]
# What a page may have of others: nothing of these is in a template.
OF_OTHERS = ("script", "b", "img", "iframe", "object", "embed", "style", "base", "meta")
MARKUP = "</pre><script>alert(1)</script><b onclick='x'>\"'&lt;\x1b[2J\u202e"
PAGES = ("", "revision", "path", "compare", "checks", "search")
# What a page has that is not there yet.
AT_ONCE = b'http-equiv="refresh" content="0"'


class Got(NamedTuple):
    """The status of a response, its headers, and what follows."""

    status: int
    headers: dict[str, str]
    content: bytes

    @property
    def text(self) -> str:
        return self.content.decode("utf-8")


class Reader(HTMLParser):
    """The elements of a page, the texts of its tables, and where its links lead."""

    def __init__(self, text: str) -> None:
        super().__init__()
        self.elements: list[str] = []
        self.attributes: list[str] = []
        self.links: list[str] = []
        self.choices: list[str] = []
        self.commands: list[str] = []
        self.rows: list[list[str]] = []
        self._open: list[str] = []
        self.feed(text)
        self.close()

    def handle_starttag(self, tag: str, attrs: list[tuple[str, str | None]]) -> None:
        self.elements.append(tag)
        self.attributes += [name for name, _ in attrs]
        self.links += [value or "" for name, value in attrs if name in ("href", "src", "action")]
        self.choices += [value or "" for name, value in attrs if (tag, name) == ("option", "value")]
        if tag == "tr":
            self.rows.append([])
        if tag in ("td", "th"):
            self.rows[-1].append("")
        self._open.append(tag)

    def handle_endtag(self, tag: str) -> None:
        while self._open and self._open.pop() != tag:
            pass

    def handle_data(self, data: str) -> None:
        if self._open[-1:] == ["pre"] and data.startswith("svnask "):
            self.commands.append(data)
        if self.rows and self.rows[-1] and {"td", "th"} & set(self._open):
            self.rows[-1][-1] += data


def query_of(words: list[str]) -> str:
    """Return the query of an address that asks what a command line asks."""
    actions = parser_of_verb(words[0]).actions
    found: list[tuple[str, str]] = []
    places = [action for action in actions if not action.option_strings]
    for word in joined_options(words[1:]):
        if word.startswith("-") and word != "-":
            option, _, value = word.partition("=")
            named = next(action for action in actions if option in action.option_strings)
            found.append((asked.name_of(named), value))
        else:
            found.append((asked.name_of(places[0]), word))
            places = places[places[0].nargs != "*" :]
    return urlencode(found, errors="surrogateescape")


@unittest.skipIf(LACKING, f"not installed: {', '.join(LACKING)}")
class Web(base.Case):
    def opened(self, source: Path | str, *words: str) -> wsgi.Application:
        made = wsgi.application(str(source), *words)
        self.addCleanup(made.close)
        return made

    def got(self, opened: wsgi.Application, address: str, method: str = "GET", **environ: str) -> Got:
        """Return what an application answers, as soon as a page is there."""
        while AT_ONCE in (found := self.got_first(opened, address, method, **environ)).content:
            pass
        return found

    def got_first(self, opened: wsgi.Application, address: str, method: str = "GET", **environ: str) -> Got:
        path, _, query = address.partition("?")
        begun: list[Any] = []
        whole: dict[str, Any] = {
            "REQUEST_METHOD": method,
            "PATH_INFO": unquote_to_bytes(base.as_bytes(path)).decode("latin-1"),
            "QUERY_STRING": query,
            "HTTP_HOST": ADDRESS,
            **environ,
        }
        pieces = opened(whole, lambda status, headers: begun.extend((status, headers)))
        content = b"".join(pieces)
        return Got(int(begun[0].split()[0]), dict(begun[1]), content)

    def rows(self, opened: wsgi.Application, address: str) -> list[list[str]]:
        return Reader(self.got(opened, address).text).rows

    def test_answers_are_what_the_command_prints(self) -> None:
        for name in ("branches", "merges"):
            dump = base.dump_of(name)
            opened = self.opened(dump)
            for words in ALL:
                if words[0] not in asked.VERBS or {"--json", "-o", "--issue"} & set(words):
                    continue
                for form, option in (("api", "--json"), ("csv", "--csv"), ("text", "")):
                    done = base.called(*filter(None, [option]), dump, *words)
                    got = self.got(opened, f"/{form}/{words[0]}?{query_of(words)}")
                    if done.output or done.status == 0:
                        self.assertEqual((got.status, got.content), (200, done.output), (form, words))
                    else:
                        self.assertIn(got.status, (400, 404), (form, words))
                        self.assertIn(json.loads(got.content)["error"].splitlines()[0], done.said)

    def test_each_value_is_taken_as_what_it_is(self) -> None:
        opened = self.opened(base.dump_of("branches"))
        # fmt: off
        rows = (
            ("where?path=trunk&rev=--", 400, "E205000: Syntax error in revision argument '--'"),
            ("mergeinfo?path=trunk&target=--", 404, "path '/--'"), ("heirs?path=trunk&rev=-x", 400, "'-x'"),
            ("contains?rev=5&pattern=--", 404, "'/--'"), ("log?path=--", 404, "path '/--'"),
            ("log?path=trunk&limit=--", 400, "E205000: "), ("show?rev=--", 400, "argument '--'"),
            ("mergeinfo?target=trunk", 400, "takes one path"), ("where?path=trunk&path=3", 400, "takes one path"),
            ("where?rev=3", 400, "takes one path"), ("new?from=trunk", 400, "takes one to"),
        )
        # fmt: on
        for query, status, said in rows:
            got = self.got(opened, f"/api/{query}")
            self.assertEqual(got.status, status, query)
            self.assertIn(said, json.loads(got.content)["error"])

    def test_the_table_of_branches(self) -> None:
        for name in base.names():
            dump = base.dump_of(name)
            found = [row for row in self.rows(self.opened(dump), "/") if len(row) == 10 and row[0] != "Name"]
            wanted = []
            for each in base.objects(dump, "branches", "--ahead-behind"):
                counts = ["" if count is None else str(count) for count in (each["ahead"], each["behind"])]
                wanted.append([each["path"], f"r{each['last_change']}", *counts])
            self.assertEqual(sorted([row[0], row[3], *row[7:9]] for row in found), sorted(wanted), name)

    def test_each_revision(self) -> None:
        for name in base.names():
            dump = base.dump_of(name)
            opened = self.opened(dump)
            merges = [each for each in base.objects(dump, "graph") if each["type"] == "merge"]
            for rev in range(1, self.history(dump).head + 1):
                rows = self.rows(opened, f"/revision/{rev}")
                (shown,) = base.objects(dump, "show", str(rev))
                for change in shown["changes"]:
                    self.assertIn(change["path"], [row[1] for row in rows if len(row) == 5], (name, rev))
                lines = base.called(dump, "contains", str(rev)).output.decode("utf-8", "surrogateescape").splitlines()
                held = [[site.printable(word) for word in line.split("\t")] for line in lines]
                self.assertEqual([row for row in rows if len(row) == 2][1:], held)
                merged = [f"r{each['revision']}" for each in merges if rev in each["merged"]]
                arrows = [row for row in rows if len(row) == 6 and row[0].startswith("r")]
                self.assertEqual(sorted(row[0] for row in arrows if f"r{rev}" in row[4].split()), sorted(merged))

    def test_the_page_of_a_path(self) -> None:
        dump = base.dump_of("merges")
        opened = self.opened(dump)
        rows = self.rows(opened, "/path/branches/two?merged=1")
        log = base.objects(dump, "log", "-g", "branches/two")
        listed = [row[0] for row in rows if len(row) == 4 and row[0].startswith("r")]
        self.assertEqual(listed, [f"r{each['revision']}" for each in log])
        self.assertIn(["/trunk", "r4 to r6"], rows)
        old = self.got(opened, "/path/trunk?rev=2").text
        self.assertIn("What became of it", old)
        self.assertIn('href="/path/branches/two?rev=19"', old)
        self.assertEqual(self.got(opened, "/path/none").status, 404)
        self.assertEqual(self.got(opened, "/path/trunk?rev=99").status, 404)
        self.assertEqual(self.got(opened, "/path/trunk?rev=soon").status, 400)

    def test_a_log_comes_by_pages(self) -> None:
        dump = self.made("dump", dump_of([added(b"trunk")], *[[changed(b"trunk")] for _ in range(129)]))
        opened = self.opened(dump)
        for query in ("?x=1", "?merged=1", "?search=message"):
            address, seen = f"/path/trunk{query}", []
            for _ in range(3):
                page = Reader(self.got(opened, address).text)
                seen += [row[0] for row in page.rows if len(row) == 4 and row[0].startswith("r")]
                address = next((link for link in page.links if "before=" in link), "").partition("#")[0]
            self.assertEqual(seen, [f"r{rev}" for rev in range(130, 0, -1)] if "search" not in query else seen)
            self.assertEqual(address, "")

    def test_a_page_has_a_part_of_what_was_merged(self) -> None:
        """The rest is not looked for."""
        changes = [[changed(b"b")] for _ in range(path_page.MOST_MERGED + 100)]
        last = len(changes) + 2
        merge = [changed(b"trunk", mergeinfo(b"/b:2-%d" % last))]
        dump = self.made("dump", dump_of([added(b"trunk")], [copied(b"b", b"trunk", 1)], *changes, merge))
        page = Reader(self.got(self.opened(dump), "/path/trunk?merged=1").text)
        listed = [row[0] for row in page.rows if len(row) == 4 and row[0].startswith("r")]
        self.assertEqual(listed, [f"r{rev}" for rev in range(last + 1, last + 1 - path_page.MOST_MERGED, -1)])
        self.assertIn(f"/path/trunk?rev={last + 1}&merged=1&before={last}#log", page.links)

    def test_the_log_of_a_page_is_that_of_its_address(self) -> None:
        dump = base.dump_of("merges")
        opened = self.opened(dump)
        for query in ("", "?merged=1", "?search=merge", "?before=9&merged=1", "?rev=12&search=o"):
            page = Reader(self.got(opened, f"/path/branches/two{query}").text)
            listed = [row[0] for row in page.rows if len(row) == 4 and row[0].startswith("r")]
            link = next(link for link in page.links if link.startswith("/api/log"))
            objects = self.got(opened, link).text.splitlines()
            self.assertEqual([f"r{json.loads(line)['revision']}" for line in objects], listed, query)
            self.assertTrue(listed, query)

    def test_a_page_that_takes_long_says_so(self) -> None:
        opened, find, is_over = self.opened(base.dump_of("branches")), asked.Asked.objects, threading.Event()

        def late(about: asked.Asked, *words: str) -> Iterator[dict[str, Any]]:
            is_over.wait()
            return find(about, *words)

        with mock.patch.object(asked.Asked, "objects", late):
            self.assertIn(AT_ONCE, self.got_first(opened, "/path/trunk").content)
            is_over.set()
            self.assertIn("/trunk", self.got(opened, "/path/trunk").text)

    def test_a_page_that_lacks_something_is_made_again(self) -> None:
        is_ready, draw = threading.Event(), overview.drawn
        self.addCleanup(is_ready.set)

        def late(*words: Any) -> overview.ShownPicture:
            is_ready.wait()
            return draw(*words)

        opened = self.opened(base.dump_of("merges"))
        with mock.patch("svnask.web.overview.drawn", late):
            page = self.got(opened, "/path/trunk").text
            self.assertIn("This page is not complete", page)
            self.assertNotIn("Merges into it", page)
            is_ready.set()
            base.wait_for(lambda: "Merges into it" in self.got(opened, "/path/trunk").text)
            self.assertNotIn("This page is not complete", self.got(opened, "/path/trunk").text)

    def test_few_answers_are_found_at_once(self) -> None:
        answers, is_over, index = renewed.KeptAnswers(), threading.Event(), self.history(base.dump_of("branches")).index
        found: list[int] = []

        def begin(number: int) -> renewed.Make:
            def make() -> renewed.KeptAnswer:
                found.append(number)
                is_over.wait()
                return renewed.KeptAnswer(number, [], None, index)

            return make

        def asked_for(number: int, patience: float) -> object:
            answer = answers.of(str(number), index, partial(begin, number), patience)
            return None if answer is None else answer.value

        numbers = range(renewed.MOST_FOUND + 5)
        self.assertEqual([asked_for(number, 0.01) for number in numbers], [None] * len(numbers))
        self.assertEqual(found, [*range(renewed.MOST_FOUND)])
        is_over.set()
        self.assertEqual([asked_for(number, 60) for number in numbers], [*numbers])

    def test_a_failure_is_told_once(self) -> None:
        opened = self.opened(base.dump_of("branches"))
        with mock.patch.object(asked.Asked, "objects", side_effect=Failed("gone")):
            self.assertEqual(self.got(opened, "/").status, 502)
        self.assertEqual(self.got(opened, "/").status, 200)

    def test_a_comparison(self) -> None:
        dump, pair = base.dump_of("merges"), ("/branches/one", "/branches/two")
        opened = self.opened(dump)
        text = self.got(opened, "/compare?from=/branches/one&to=/branches/two").text
        page = Reader(text)
        new = [f"r{each['revision']}" for each in base.objects(dump, "new", *pair)]
        listed = [row[0] for row in page.rows if len(row) == 4]
        self.assertEqual(listed[1 : 1 + len(new)], new)
        markdown = next(link for link in page.links if "markdown" in link)
        self.assertEqual(self.got(opened, markdown).content, base.called(dump, "new", *pair, "--markdown").output)
        for paths in (pair, pair[::-1]):
            for line in base.called(dump, "mergeinfo", "--show-revs=eligible", *paths).output.decode().split():
                self.assertIn(line.rstrip("*"), listed)
        self.assertIn(base.called(dump, "mergeinfo", *pair).output.decode(), text)
        self.assertEqual(self.got(opened, "/compare").status, 200)
        self.assertEqual(self.got(opened, "/compare?from=none&to=trunk").status, 404)

    def test_a_search(self) -> None:
        dump = base.dump_of("branches")
        opened = self.opened(dump)
        for query, words in (("q=copy", ["--search=copy"]), ("q=/tags/begun&paths=1", ["-v", "--search=/tags/begun"])):
            log = base.objects(dump, "log", *words)
            rows = self.rows(opened, f"/search?{query}")
            self.assertEqual([row[0] for row in rows[1:]], [f"r{each['revision']}" for each in log])
            self.assertTrue(log)
        found = self.got(opened, "/search?q=r5")
        self.assertEqual((found.status, found.headers["Location"]), (303, "/revision/5"))
        self.assertIn("No revision matches", self.got(opened, "/search?q=nothing-has-this").text)

    def test_checks(self) -> None:
        for name in base.names():
            dump = base.dump_of(name)
            rows = self.rows(self.opened(dump), "/checks")
            events = sum(len(tag["events"]) for tag in base.objects(dump, "changed-tags"))
            self.assertEqual(len([row for row in rows if len(row) == 7]), events + bool(events))
            unsound = base.objects(dump, "check-mergeinfo")
            self.assertEqual(len([row for row in rows if len(row) == 4]), len(unsound) + bool(unsound))

    def test_all_links_lead_somewhere(self) -> None:
        for name in ("branches", "merges", "names"):
            opened = self.opened(base.dump_of(name))
            left, seen = ["/"], {"/"}
            while left and len(seen) < 300:
                address = left.pop(0)
                got = self.got(opened, address.partition("#")[0])
                # Two paths may have no common history, which the page of their comparison says.
                is_of_two = address.startswith("/api/mergeinfo")
                self.assertIn(got.status, (200, 303, *[400] * is_of_two), (name, address))
                for link in Reader(got.text).links if got.headers["Content-Type"].startswith("text/html") else ():
                    if link.startswith("/") and link not in seen:
                        seen.add(link)
                        left.append(link)

    def check_commands(self, opened: wsgi.Application, address: str) -> None:
        """Check that each command on a page has an answer, the same as that of the address beside it."""
        page = Reader(self.got(opened, address).text)
        for line in page.commands:
            done = base.called(*base.words_of(line))
            self.assertIn(done.status, (0, 1 if "check-mergeinfo" in line else 0), (line, done.said))

    def test_names_that_are_not_shown(self) -> None:
        """Names with a peg, with a blank at the end, or with what no page shows."""
        names = ["rel", "rel@4", "rel@", "end ", " a'b\\", "\u202ea", "\u2066", "\x85", "a\x01", "a\rb", "\udcff", "é"]
        made = [copied(b"branches/" + base.as_bytes(name), b"trunk", 1) for name in names]
        first = [added(b"trunk"), added(b"branches"), added(b"trunk/f", b"file")]
        steps = enumerate((first, made, [changed(b"trunk/f")]), 1)
        dump = self.made("dump", bytes(Dump([Revision(0), *(Revision(rev, nodes) for rev, nodes in steps)])))
        opened = self.opened(dump)
        choices = Reader(self.got(opened, "/compare").text).choices
        self.assertEqual(len(choices), len(names) + 1)
        paths = {base.objects(dump, "segments", page_words.text_of_choice(each))[0]["path"] for each in choices}
        self.assertEqual(paths, {"/trunk", *(f"/branches/{name}" for name in names)})
        compared = [link for link in Reader(self.got(opened, "/").text).links if "/compare?" in link]
        self.assertEqual(len(set(compared)), len(names))
        for address in (*compared, *(f"/compare?{urlencode({'from': 'trunk', 'to': each})}" for each in choices)):
            got = self.got(opened, address)
            # Each of them lacks the last revision.
            self.assertEqual((got.status, got.text.count("Nothing is left.")), (200, 1 + ("trunk" in address[-5:])))
            self.check_commands(opened, address)
        for name in names:
            self.check_commands(opened, f"/path/branches/{quote(base.as_bytes(name))}")

    def test_a_path_deleted_in_a_copy(self) -> None:
        links = Reader(self.got(self.opened(base.dump_of("copies")), "/revision/13").text).links
        self.check_links("copies", [link for link in links if link.startswith("/path")])

    def check_links(self, name: str, links: list[str]) -> None:
        opened = self.opened(base.dump_of(name))
        self.assertTrue(links)
        for link in links:
            self.assertEqual(self.got(opened, link).status, 200, link)

    def test_long_lists_come_by_pages(self) -> None:
        paths = [b"trunk/%04d" % number for number in range(2500)]
        nodes = [added(b"trunk"), *(added(path, b"file") for path in paths)]
        opened = self.opened(self.made("dump", bytes(Dump([Revision(0), Revision(1, nodes)]))))
        for begin, part in (("/path/trunk", "names="), ("/revision/1", "after=")):
            found: list[str] = []
            address: str | None = begin
            while address is not None:
                page = Reader(self.got(opened, address.partition("#")[0]).text)
                found += [link for link in page.links if link.startswith("/path/trunk/")]
                later = [link for link in page.links if part in link]
                address = later[-1] if len(found) < len(paths) else None
            self.assertEqual(found, [f"/path/{path.decode()}?rev=1" for path in paths])

    def test_a_path_with_a_long_address(self) -> None:
        name = b"\xc3\xa9" * 5000
        dump = self.made("dump", bytes(Dump([Revision(0), Revision(1, [added(b"trunk"), added(b"trunk/" + name)])])))
        opened = self.opened(dump)
        links = [link for link in Reader(self.got(opened, "/path/trunk").text).links if "%" in link]
        self.assertEqual([self.got(opened, link).status for link in links if link.startswith("/path")], [200])

    def test_pages_below_another_path(self) -> None:
        opened = self.opened(base.dump_of("branches"))
        links = Reader(self.got(opened, "/", SCRIPT_NAME="/history").text).links
        self.assertEqual([link for link in links if not link.startswith("/history/")], [])

    def test_links_to_a_viewer(self) -> None:
        dump = base.dump_of("branches")
        opened = self.opened(dump)
        self.assertNotIn("viewer", Reader(self.got(opened, "/").text).attributes)
        linked = wsgi.Application(
            parsed([str(dump), "web", "--link", "https://host/view{path}?r={revision}&x=1"]), hosts.Hosts()
        )
        self.addCleanup(linked.close)
        self.assertIn("https://host/view/trunk?r=13&x=1", Reader(self.got(linked, "/").text).links)
        self.assertIn("https://host/view/?r=9&x=1", Reader(self.got(linked, "/revision/9").text).links)
        for form in ("javascript:{path}", "//host/{path}", "https://host/", ""):
            self.check_unanswered(2, "", dump, "graph", "--link", form)
        picture = base.called(dump, "graph", "--link", "https://host/view{path}?r={revision}&x=1").output
        self.assertIn(b'<a href="https://host/view/trunk?r=13&amp;x=1">', picture)

    def test_who_may_ask(self) -> None:
        opened = self.opened(base.dump_of("branches"))
        for host in ("localhost:8080", "127.0.0.1", "[::1]:80", "LOCALHOST"):
            self.assertEqual(self.got(opened, "/api/info", HTTP_HOST=host).status, 200, host)
        for host in ("", "evil.example", "evil.example:8080", "127.0.0.1.evil.example", "0.0.0.0", "10.0.0.1"):
            self.assertEqual(self.got(opened, "/api/info", HTTP_HOST=host).status, 403, host)
        everywhere = hosts.Hosts(["0.0.0.0"])
        self.assertTrue(
            everywhere.has("10.0.0.1:80") and everywhere.has("[fe80::1]") and not everywhere.has("evil.example")
        )
        named = hosts.Hosts(["svn.example.org"])
        self.assertTrue(named.has("SVN.example.org:8080") and not named.has("localhost") and not named.has("10.0.0.1"))
        for method in ("POST", "PUT", "DELETE", "OPTIONS", "TRACE"):
            self.assertEqual(self.got(opened, "/", method).status, 405, method)
        got = self.got(opened, "/", "HEAD")
        self.assertEqual((got.status, got.content), (200, b""))
        self.assertIn("default-src 'none'", got.headers["Content-Security-Policy"])
        self.assertNotIn("unsafe-inline", got.headers["Content-Security-Policy"])

    def test_no_file_of_the_host_is_read_or_written(self) -> None:
        dump = base.dump_of("branches")
        opened, text = self.opened(dump), self.made("text", b"trunk\n")
        for verb in ("", *"export check-git ask serve update forget sources stop shell web none".split()):
            self.assertEqual(self.got(opened, f"/api/{verb}").status, 400, verb)
        files = (f"log?targets={text}", f"graph?output={self.folder / 'made'}")
        for query in (*files, "log?help=1", "log?json=1", "log?diff=1", "new?from=trunk&to=tags/begun@11&issue=x"):
            self.assertEqual(self.got(opened, f"/text/{query}").status, 400, query)
        self.assertFalse((self.folder / "made").exists())
        for path in "/static/../wsgi.py /static/..%2fwsgi.py /static/ /static //etc/passwd /static/svnask.js/x".split():
            self.assertEqual(self.got(opened, path).status, 404, path)

    def check_page(self, got: Got, about: object) -> None:
        """Check that a page has nothing of others in it, and is no fault."""
        self.assertIn(got.status, (200, 303, 400, 404), about)
        self.assertNotIn("Traceback", got.text)
        self.assertNotIn("a fault of svnask", got.text)
        if got.headers["Content-Type"].startswith("text/html"):
            page = Reader(got.text)
            own = {"script": 1, "meta": 3}
            for name in OF_OTHERS:
                self.assertEqual(page.elements.count(name), own.get(name, 0), (about, name))
            self.assertEqual([name for name in page.attributes if name.startswith("on")], [], about)
            self.assertEqual([link for link in page.links if not link.startswith(("/", "#"))], [], about)
            self.assertNotRegex(got.text, "[\x00-\x08\x0b-\x1f\x7f-\x9f\u202e]")

    def test_names_and_messages_are_no_markup(self) -> None:
        name = MARKUP.replace("/", "").encode("utf-8")
        paths = (b"trunk", b"branches", b"tags", b"branches/" + name, b"branches/" + name + b"/" + name)
        changes = (
            [added(path) for path in paths],
            [copied(b"tags/" + name, b"branches/" + name, 1)],
            [changed(b"tags/" + name + b"/" + name)],
        )
        revisions = [Revision(rev, nodes, base.named(rev, MARKUP, MARKUP)) for rev, nodes in enumerate(changes, 1)]
        dump = self.made("dump", bytes(Dump([Revision(0), *revisions])))
        opened = self.opened(dump)
        below = quote(b"/branches/" + name)
        of_paths = (f"/path{below}", f"/path{below}?rev=1", f"/compare?from={below}&to=/tags/{quote(name)}")
        for address in ("/", "/revision/1", *of_paths, "/checks", "/search?q=alert"):
            got = self.got(opened, address)
            self.assertEqual(got.status, 200, address)
            self.check_page(got, address)
            self.assertIn("&lt;script&gt;", got.text)

        def check(dump: Path) -> None:
            opened = self.opened(dump)
            for address in ("/", "/revision/2", "/path/", "/checks", "/search?q=a&paths=1"):
                self.check_page(self.got(opened, address), address)

        self.drawn(10, drawn, check)

    def test_mutated_requests(self) -> None:
        opened = self.opened(base.dump_of("branches"))
        for seed in range(2000):
            address = mutated(random.Random(seed))
            got = self.got(opened, address)
            if got.headers["Content-Type"].startswith("text/html"):
                self.check_page(got, (seed, address))
            else:
                self.assertIn(got.status, (200, 303, 400, 404), (seed, address, got.content[:200]))
                self.assertNotIn(b"a fault of svnask", got.content)

    def test_what_is_new_is_shown(self) -> None:
        content = base.content_of("branches")
        dump = self.made("dump", content[: content.index(b"Revision-number: 9\n")])
        opened = self.opened(dump)
        now = time.monotonic()
        with mock.patch.object(time, "monotonic", side_effect=lambda: now):
            self.assertIn('"youngest": 8,', self.got(opened, "/api/info").text)
            dump.write_bytes(content)
            self.assertIn('"youngest": 8,', self.got(opened, "/api/info").text)
            now += renewed.PAUSE
            self.assertIn('"youngest": 13,', self.got(opened, "/api/info").text)
            dump.unlink()
            now += renewed.PAUSE
            self.assertEqual(self.got(opened, "/").status, 502)
            dump.write_bytes(content)
            now += renewed.PAUSE
            self.assertEqual(self.got(opened, "/").status, 200)

    def test_a_view_stays_as_it_is(self) -> None:
        content = base.content_of("branches")
        dump = self.made("dump", content[: content.index(b"Revision-number: 9\n")])
        history = self.history(dump)
        with history.view() as view:
            dump.write_bytes(content)
            with closing(source_of(str(dump))) as source:
                history.renew(source, Progress())
            self.assertEqual((history.head, view.head), (13, 8))
            self.assertEqual(view.revision(8).number, 8)
            self.assertEqual(view.log(b"trunk", 8).revisions, history.log(b"trunk", 8).revisions)
            self.assertEqual(
                [change.path for change in view.changes(8)], [change.path for change in history.changes(8)]
            )
        self.assertEqual(history.log(b"trunk", 13).revisions, [5, 2, 1])

    def test_a_reader_who_goes_ends_nothing_of_others(self) -> None:
        dump = self.made("dump", dump_of([added(b"trunk")], *[[changed(b"trunk")] for _ in range(2000)]))
        opened = self.opened(dump)
        environ = {"REQUEST_METHOD": "GET", "PATH_INFO": "/api/log", "HTTP_HOST": ADDRESS, "QUERY_STRING": "verbose=1"}
        pieces = iter(opened(environ, lambda status, headers: None))
        self.assertTrue(next(pieces))
        other = self.got(opened, "/api/segments?path=trunk")
        self.assertEqual(other.status, 200)
        pieces.close()  # type: ignore[attr-defined]
        self.assertEqual(self.got(opened, "/api/segments?path=trunk"), other)

    def test_many_at_once(self) -> None:
        opened = self.opened(base.dump_of("merges"))
        addresses = [
            f"/api/{words[0]}?{query_of(words)}" for words in ALL if words[0] in asked.VERBS and "--json" not in words
        ] + ["/", "/checks"]
        wanted = [self.got(opened, address) for address in addresses]
        found: dict[int, list[Got]] = {}

        def ask(number: int) -> None:
            found[number] = [self.got(opened, address) for address in addresses[number:] + addresses[:number]]

        threads = [threading.Thread(target=ask, args=(number,)) for number in range(16)]
        for thread in threads:
            thread.start()
        for thread in threads:
            thread.join()
        for number in range(16):
            self.assertEqual(found[number], wanted[number:] + wanted[:number])

    def test_a_damaged_copy_is_read_again(self) -> None:
        dump = base.dump_of("branches")
        opened = self.opened(dump)
        self.assertEqual(self.got(opened, "/revision/9").status, 200)
        for path in self.cache.rglob("dump.*"):
            content = path.read_bytes()
            with open(path, "r+b") as file:
                file.write(content.replace(b"alice", b"malic"))
        statuses = [self.got(opened, "/revision/9").status for _ in range(3)]
        self.assertEqual(statuses[-1], 200)

    def test_a_refused_dump(self) -> None:
        dump = self.made("dump", base.content_of("branches").replace(b"Node-action: add", b"Node-action: mad", 1))
        opened = self.opened(dump)
        got = self.got(opened, "/")
        self.assertEqual(got.status, 502)
        self.assertIn("dump refused", got.text)
        self.assertEqual(self.got(opened, "/api/info").status, 502)

    def served(self, *words: str) -> Iterator[subprocess.Popen[bytes]]:
        """A server that runs."""
        with base.signals_end(), subprocess.Popen(
            [sys.executable, SVNASK, *words], stdout=subprocess.PIPE, stderr=subprocess.PIPE
        ) as process:
            try:
                yield process
            finally:
                process.kill()

    def test_the_server(self) -> None:
        dump = base.dump_of("branches")
        for process in self.served(str(dump), "web", "--listen", "127.0.0.1:0"):
            assert process.stdout is not None and process.stderr is not None
            line = process.stdout.readline().decode()
            self.assertRegex(line, r"\Aserving http://127\.0\.0\.1:[0-9]+/\n\Z")
            address = line.split()[1]
            done = running.run(["curl", "-s", "-i", f"{address}api/log?limit=1"])
            self.assertIn(base.called("--json", dump, "log", "-l", "1").output, done.output)
            other = base.run(dump, "web", "--listen", address[len("http://") : -1])
            self.assertEqual((other.status, other.output), (3, b""))
            self.assertIn("cannot listen on", other.said)
            process.send_signal(signal.SIGTERM)
            self.assertEqual(process.wait(30), -signal.SIGTERM)
            self.assertEqual(process.stderr.read(), b"")

    def test_who_may_read_it_is_said(self) -> None:
        for process in self.served(str(base.dump_of("branches")), "--json", "web", "--listen", "0.0.0.0:0"):
            assert process.stdout is not None and process.stderr is not None
            self.assertEqual(json.loads(process.stdout.readline())["source"], str(base.dump_of("branches")))
            self.assertIn(b"may read this history", process.stderr.readline())

    def test_wrong_arguments(self) -> None:
        dump = base.dump_of("branches")
        for text in ("8080", "host:", "host:x", "host:70000", ":"):
            self.assertEqual(base.called(dump, "web", "--listen", text).status, 2, text)
        self.assertEqual(base.called("-", "web").status, 2)
        with mock.patch.object(web, "server") as server:
            server.serve_pages.side_effect = ModuleNotFoundError("no", name="waitress")
            done = base.called(dump, "web")
        self.assertEqual((done.status, done.said), (3, f"svnask: {web.LACKING}\n"))


def mutated(chance: random.Random) -> str:
    """Return an address that may mean anything."""
    words = fuzz.PATHS + fuzz.REVISIONS + fuzz.PATTERNS + fuzz.SEARCHED + (MARKUP,)
    verb = chance.choice([*asked.VERBS, "export", ""])
    front = chance.choice(
        [
            f"/{chance.choice(PAGES)}",
            f"/{chance.choice(('api', 'csv', 'text'))}/{verb}",
            f"/path/{chance.choice(words)}",
            "/",
        ]
    )
    if chance.random() < 0.3:
        front += "/" + chance.choice(words)
    names = "rev path target from to q before search merged since until height limit pattern revision x".split()
    asked_of = [
        (chance.choice(names), chance.choice(words) + chance.choice(fuzz.PEGS)) for _ in range(chance.randrange(4))
    ]
    query = urlencode(asked_of, errors="surrogateescape")
    return f"{front}?{query}" if query else front
