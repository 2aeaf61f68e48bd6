"""`check-mergeinfo`."""
from __future__ import annotations

from unittest import mock

from dev.dumps import FILE, added, changed, copied, deleted, dump_of, mergeinfo
from svnask.merges import soundness
from tests.ask import base

F, G = b"trunk/lib/f", b"b/one/lib/f"
# Revision 6 is of the file on the branch alone, and 8 of nothing that was merged.
REVISIONS = [
    [*map(added, (b"trunk", b"trunk/lib", b"b", b"other")), added(F, FILE)],
    [copied(b"b/one", b"trunk", 1)],
    [changed(G)],
    [added(b"b/two")],
    [deleted(b"b/two")],
    [changed(G)],
    [changed(F)],
    [changed(b"other")],
]


class Soundness(base.Case):
    def found(self, *values: tuple[bytes, bytes], words: tuple[str, ...] = ()) -> base.Done:
        last = [changed(path, mergeinfo(text)) for path, text in values]
        return base.called(self.made("dump", dump_of(*REVISIONS, last)), "check-mergeinfo", *words)

    def test_each_finding(self) -> None:
        never, gone, idle = (
            "there never was such a path",
            "the path is not in these revisions",
            "nothing was changed there",
        )
        lacking, same = "is lacking, and /trunk has it", "is the same as what /trunk gives, and could go"
        # fmt: off
        rows: tuple[tuple[list[tuple[bytes, bytes]], list[str]], ...] = (
            ([], []),
            ([(b"trunk", b"/b/one:2-6")], []),
            ([(b"trunk", b"/nowhere:3-9999")], [f"/trunk\t/nowhere:3-9999 {never}"]),
            ([(b"trunk", b"/b/one:2-9999")], [f"/trunk\t/b/one:10-9999 {gone}"]),
            ([(b"trunk", b"/b/one:1-3")], [f"/trunk\t/b/one:1 {gone}"]),
            ([(b"trunk", b"/b/two:3-7")], [f"/trunk\t/b/two:3,5-7 {gone}"]),
            ([(b"trunk", b"/b/one:4-5,6,7-8")], [f"/trunk\t/b/one:4-5,7-8 {idle}"]),
            ([(b"trunk", b"no colon"), (b"b", b"/other:8 ")], ["/b\tcan't be read", "/trunk\tcan't be read"]),
            ([(b"trunk", b"/b/one:3-6"), (b"trunk/lib", b"/b/one/lib:3")],
             [f"/trunk/lib\t/b/one/lib:6 {lacking}"]),
            ([(b"trunk", b"/b/one:3-6"), (b"trunk/lib", b"/b/one/lib:3,6")], [f"/trunk/lib\t{same}"]),
            ([(b"trunk", b"/b/one:3-6"), (b"trunk/lib", b"/b/one/lib:3,6*")], []),
            ([(b"trunk", b"/b/one:3-6*"), (b"trunk/lib", b"/b/one/lib:3")], []),
            ([(b"trunk", b""), (b"trunk/lib", b"")], [f"/trunk/lib\t{same}"]),
            ([(b"b/one", b"/b/one:3,6\n/trunk:1")], ["/b/one\t/b/one:3,6 is the history of the path itself"]),
        )
        # fmt: on
        for most in (soundness.MOST_SOURCES, 1):
            for values, wanted in rows:
                with mock.patch.object(soundness, "MOST_SOURCES", most):
                    done = self.found(*values)
                self.assertEqual((done.output.decode().splitlines(), done.said), (wanted, ""), values)
                self.assertEqual(done.status, 1 if wanted else 0, values)

    def test_patterns_and_objects(self) -> None:
        values = (b"trunk", b"/nowhere:3"), (b"other", b"/nowhere:4")
        done = self.found(*values, words=("/oth*",))
        self.assertEqual(done.output, b"/other\t/nowhere:4 there never was such a path\n")
        done = self.found(*values, words=("--json", "trunk"))
        wanted = {"path": "/trunk", "source": "/nowhere", "ranges": "3", "reason": "there never was such a path"}
        self.assertEqual(done.objects, [wanted])
        self.assertEqual(done.status, 1)
