"""`log --search`: how patterns match, how texts are folded, and which entries are printed."""
from __future__ import annotations

import random
from unittest import mock

from svnask.log import search
from tests.ask import base


class Search(base.Case):
    def test_patterns_match_anywhere(self) -> None:
        """As `apr_fnmatch` has it with a star at both ends."""
        # fmt: off
        rows = (
            (b"", b"", True), (b"b", b"abc", True), (b"B", b"abc", False), (b"a?c", b"xa/c", True), (b"a?c", b"ac", False),
            (b"a*c", b"a\n/.c", True), (b"[a-c]x", b"bx", True), (b"[!a-c]x", b"bx", False), (b"[^a-c]x", b"dx", True),
            (b"[]]", b"]", True), (b"[]", b"[]", True), (b"[a", b"x[a", True), (b"[\\]]", b"]", True),
            (b"\\*", b"a*b", True), (b"\\*", b"ab", False), (b"\\", b"*", True), (b"\\", b"\\", False),
            (b"[a-]x", b"-x", True), (b"[b-a]", b"ab", False), (b"[!b-a]", b"\xff", True), (b"[a\\-c]", b"b", False),
            (b"aab*aab", b"aaabxaab", True), (b"ab*ab", b"ab", False),
        )
        # fmt: on
        for pattern, text, wanted in rows:
            self.assertEqual(search.Glob(pattern).matches(text), wanted, (pattern, text))

    def test_case_and_accents_are_dropped(self) -> None:
        # fmt: off
        rows = (
            ("R\u00c9SUM\u00c9", "resume"), ("e\u0301", "e"), ("\u00df", "ss"), ("\ufb01", "fi"), ("\u0130", "i"),
            ("\u1e9e", "ss"), ("\u0391\u0345", "\u03b1"), ("\uac00", "\uac00"), ("\u00c5", "a"), ("\u03a3\u03c2", "\u03c3\u03c3"),
        )
        # fmt: on
        for text, wanted in rows:
            self.assertEqual(search.folded(text.encode()), wanted.encode(), text)
        self.assertIsNone(search.folded(b"a\xff"))

    def test_entries_that_match_some_group_are_printed(self) -> None:
        # fmt: off
        rows: tuple[tuple[list[str], list[int]], ...] = (
            (["--search", "COPY", "--search-and", "one"], [11, 10, 6, 3]),
            (["--search-and", "copy 5", "--search", "the branch"], [10, 8]),
            (["--search", "copy", "-l", "4"], [13, 11, 10]), (["--search", "copy", "-q"], []),
            (["--search", "/tags/", "-q"], []), (["--search", "/tags/begun", "-q", "-v"], [13, 12, 4]),
            (["--search", "2024-01-01 00:08"], [8]), (["--search=-5x"], []), (["--search", "-01-01", "-l", "1"], [13]),
        )
        # fmt: on
        for words, wanted in rows:
            self.assertEqual(self.revisions(base.dump_of("branches"), *words), wanted, words)

    def test_nothing_that_matches_is_sieved_out(self) -> None:
        """A pattern is a part of what is printed, perhaps with stars, in other letters."""
        chance = random.Random(1)
        for name in ("branches", "merges", "names", "properties"):
            dump = base.dump_of(name)
            for form in ("-g", "--xml", "--quiet"):
                printed = base.called(dump, "log", "-v", form).output
                for _ in range(8):
                    at = chance.randrange(len(printed))
                    word = printed[at : at + chance.choice((2, 4, 9))].decode("utf-8", "replace").swapcase()
                    others = chance.choice(("", f"{word[1:]}*{word[:1]}", "a[bc]d"))
                    words = [f"--search={each}" for each in (word, others) if each]
                    asked = ["log", form, *["-v"] * chance.randrange(2), *words]
                    found = base.called(dump, *asked)
                    with mock.patch("svnask.log.forms.sieve_of", return_value=lambda rev: True):
                        self.assertEqual(found, base.called(dump, *asked), (name, asked))

    def test_a_sieve_looks_for_what_a_pattern_needs(self) -> None:
        rows: tuple[tuple[bytes, bytes | None], ...] = (
            (b"proj-3", b"proj-3"),
            (b"a*bcd?e", b"bcd"),
            (b"/trunk/f", b"trunk"),
            (b"xy[z", b"xy"),
            (b"xy\\z", b"xy"),
            (b"*", None),
            (b"mon", None),
            (b"monday", b"monday"),
            (b"2024-01-01 00:", None),
            (b"no author", None),
        )
        for pattern, wanted in rows:
            self.assertEqual(search.Glob(pattern).literal, wanted, pattern)
        sieve = search.Sieve([[search.Glob(b"proj-3")], [search.Glob(b"bug")]])
        texts = ((b"see PROJ-31", True), (b"a Bug", True), (b"proj 3", False), (b"bu\xc3\xa9", True))
        self.assertEqual([sieve.may_match(text) for text, _ in texts], [wanted for _, wanted in texts])

    def test_a_pattern_is_utf_8(self) -> None:
        done = base.called(base.dump_of("branches"), "log", "--search", "\udcff")
        self.assertEqual((done.status, done.output, done.said[:15]), (1, b"", "svnask: E000022"))
