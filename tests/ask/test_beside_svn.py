"""Some of the drawn questions of `beside_svn.py`."""
from __future__ import annotations

from tests.ask import base, beside_svn, grown


class BesideSvn(base.Case):
    def check(self, last: int, by: str) -> None:
        grown.need("svn", "svnadmin", "svnserve")
        for seed, compared in beside_svn.compared(sorted(beside_svn.KINDS), 1, last, self.folder, by):
            self.assertNotEqual(compared.outcome, beside_svn.OTHER, f"{seed}: {compared.words}\n{compared.shown()}")

    def test_what_svn_prints_is_printed(self) -> None:
        self.check(24, "file")

    def test_what_svn_prints_of_what_grows_is_printed(self) -> None:
        self.check(9, "growing")
