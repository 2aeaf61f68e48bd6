"""Asks svnhist-live the questions of docs/questions.md. Each talk is compared as a whole."""
from __future__ import annotations

from collections.abc import Sequence

from dev import dialogue
from dev.checks import Check
from dev.dialogue import Step
from dev.dumps import DIR, END, FILE, Node, Revision, added, changed, copied, deleted, dump_of, mergeinfo
from dev.running import SECONDS, Outcome, Words, run
from tests.base import ProgramTest

WORKERS = 8
# A turn, and the reply to it without the number of an answer and without the lines at its end.
Turn = tuple[bytes, bytes]

MERGED = mergeinfo(b"/x:1")
# Trunk is copied, and the copy is moved.
MOVED = dump_of([added(b"trunk")], [copied(b"b", b"trunk", 1)], [deleted(b"b"), copied(b"c", b"b", 2)])
# What ends a life of `d` and of what is in it, and what does not.
ENDS = dump_of(
    [added(b"d"), added(b"d/f", FILE)],
    [changed(b"d", MERGED), changed(b"d/f", text=b"x")],
    [copied(b"d", b"d", 2, b"replace")],
    [deleted(b"d"), copied(b"d", b"d", 3)],
    [Node(b"d/f", b"replace", FILE)],
    [copied(b"kept", b"d", 5), copied(b"d", b"d", 4, b"replace")],
    [deleted(b"d")],
    [],
    [added(b"d"), added(b"d/f"), added(b"e")],
    [copied(b"d", b"e", 9, b"replace")],
)
# Where paths went, and from where they came.
WAYS = dump_of(
    [added(b"d"), added(b"d/f", FILE), added(b"m"), added(b"x")],
    [copied(b"m/d", b"d", 1), copied(b"m-d", b"d", 1), deleted(b"d")],
    [deleted(b"m-d")],
    [copied(b"late", b"m-d", 2)],
    [deleted(b"m"), copied(b"n", b"m", 4)],
    [copied(b"y", b"x", 1), deleted(b"x")],
    [deleted(b"y"), copied(b"y", b"n", 6), deleted(b"y/d"), deleted(b"n")],
    [copied(b"v", b"late", 7), copied(b"w", b"late", 7), deleted(b"v"), added(b"v"), deleted(b"late")],
    [copied(b"all", b"", 8)],
)
# Of a branch, revisions were merged into the trunk as a whole, in part, and into a file of it.
MERGES = dump_of(
    [added(b"trunk"), added(b"trunk/f", FILE)],
    [copied(b"b", b"trunk", 1)],
    [changed(b"b/f", text=b"x")],
    [changed(b"trunk", mergeinfo(b"/b:3"))],
    [changed(b"b"), changed(b"b/f", text=b"y")],
    [changed(b"trunk", mergeinfo(b"/b:3,5*"))],
    [changed(b"b/f", text=b"z")],
    [changed(b"trunk/f", mergeinfo(b"/b/f:7"))],
    [changed(b"b/f", mergeinfo(b"x"))],
    [changed(b"trunk", mergeinfo(b"x"))],
)
# In the order of their bytes.
# fmt: off
NAMES = [b" ", b"-", b"A", b"B", b"_", b"a", b"a b", b"a-b", b"a.b", b"a0", b"aB", b"ab", b"\x7f", b"\x80", b"\xc3\xa9",
         b"\xff"]
# fmt: on
FIRST_NAMES, LATER_NAMES = NAMES[::2], NAMES[1::2]
# Lines that begin with the word of a question, and others that are nearly questions.
# fmt: off
BAD = [
    b"ask", b"ask\t", b"ask\tlives", b"ask\tlist\t", b"ask\tentry\ta", b"ask\tlives\ta@", b"ask\tlives\ta@1\t",
    b"ask\tlives\ta@1\t1", b"ask\tlist\t@1\t@1", b"ask\t\tlives\t@1", b"ask\tlist\ta/../b@1", b"ask\tlives\t.@1",
    b"ask\tentry\t/./@0", b"ask\tblame\ta@1", b"ask\tlog\t@1", b"ask\tsegments\t@1", b"ask\tlocate\t@1\t1",
    b"ask\tLives\t@1", b"ask\tlivess\t@1", b"ask\tentry \t@1", b"ask\tlist\t@1\r", b"ask\tlist\t@ 1", b"ask\tlist\t@-1",
    b"ask\tlist\t@HEAD", b"ask\tlives\t@2147483648", b"ask\tlives\t@4294967297", b"asking\tlives\t@1", b"ask lives @1",
    b"ask \tlives\t@1", b" ask\tlives\t@1", b"\task\tlives\t@1", b"Ask\tlives\t@1", b"ask\r\tlives\t@1", b"lives\t@1",
    b"list\t@1", b"entry\t@1", b"ask\tholds\t@1", b"ask\tholds\t@1\t1", b"ask\tholds\t@1\t1:0", b"ask\tholds\t0:1\t@1",
    b"ask\tholds\t@1\t0:1\t", b"ask\tholds\t@1\t0:2147483648", b"ask\tholds\t@1\t@1", b"ask\tancestor\t@1",
    b"ask\tancestor\t@1\t@1\t@1", b"ask\tancestor\t@1\t0:1", b"ask\tancestor\t@1\t./@1", b"ask\texplicit\t@1\t@1",
    b"ask\texplicit\t", b"explicit\t@1", b"ancestor\t@1\t@1", b"holds\t@1\t0:1", b"ask\tnew\t@1",
    b"ask\tnew\t@1\t@1\t", b"ask\tnew\t@1\t@1\t0:1\t1\t", b"ask\tnew\t@1\t@1\t1:0", b"ask\tnew\t@1\t@1\t1",
    b"ask\tnew\t@1\t@1\t0:1\t1,", b"ask\tnew-range\t@1\t@1", b"ask\tnew-ranges\t@1\t@1\t\t1", b"ask\tdistance\t@1",
    b"ask\tdistance\t@1\t", b"ask\tdistance\t@1\t@1\t@1", b"ask\tdescendants\t@1", b"ask\tdescendants\t@1\t@1",
    b"ask\tdescendants\t@1\t1\t1", b"new\t@1\t@1", b"distance\t@1\t\t@1", b"descendants\t@1\t1",
]
# fmt: on


def piece(*blocks: Node | Revision) -> bytes:
    text = b"".join(map(bytes, blocks))
    return b"piece %d\n" % len(text) + text


def replies_to(turns: Sequence[Turn]) -> list[bytes]:
    """The replies to turns, with the numbers of answers, without the lines at their ends."""
    found: list[bytes] = []
    count = 0
    for _, reply in turns:
        is_answer = not reply.startswith(b"ready ")
        count += is_answer
        found.append(b"#%d %s" % (count, reply) if is_answer else reply)
    return found


def asked(verb: bytes, replies: dict[bytes, bytes]) -> list[Turn]:
    """A question about each peg, with its reply."""
    return [(b"ask\t%s\t%s\n" % (verb, peg), reply) for peg, reply in replies.items()]


class Questions(ProgramTest):
    needed = ("svnhist_live",)

    def talk(self, dump: bytes, given: bytes, workers: int) -> Outcome:
        words: Words = [self.programs.svnhist_live, self.made("dump", dump), str(workers)]
        return dialogue.run(words, [Step(given)], SECONDS)

    def check_talk(self, dump: bytes, turns: Sequence[Turn], workers: int = 1) -> None:
        """A talk to its end, whose turns come at once."""
        ready = b"ready %d" % (dump.count(b"Revision-number: ") - 1)
        found = self.talk(dump, b"".join(text for text, _ in turns), workers)
        texts = found.output.split(b"\n\n")
        self.compare("the end", (0, b"", len(turns) + 2, b""), (found.status, found.errors, len(texts), texts[-1]))
        names = ["the dump", *(repr(text) for text, _ in turns)]
        self.check_all(map(Check, names, [ready, *replies_to(turns)], texts))

    def test_entry(self) -> None:
        dump = dump_of(
            [added(b"d", DIR, MERGED), added(b"d/f", FILE), added(b"d/own", DIR, MERGED)],
            [added(b"d/empty", DIR, mergeinfo(b"")), changed(b"d/f", MERGED), changed(b"d/own", END)],
            [copied(b"e", b"d", 2), changed(b"d", END)],
            [deleted(b"d")],
        )
        replies = {
            b"@0": b"ok\ndir",
            b"d@1": b"ok\ndir mergeinfo",
            # It inherits mergeinfo.
            b"d/f@1": b"ok\nfile",
            b"d/f@2": b"ok\nfile mergeinfo",
            b"d/own@1": b"ok\ndir mergeinfo",
            b"d/own@2": b"ok\ndir",
            b"d/empty@2": b"ok\ndir mergeinfo",
            b"d@3": b"ok\ndir",
            b"d/f@3": b"ok\nfile mergeinfo",
            # It came with a copy.
            b"e@3": b"ok\ndir mergeinfo",
            b"/e//f/@04": b"ok\nfile mergeinfo",
            b"e/own@4": b"ok\ndir",
            b"d@0": b"no-such-path",
            b"d/empty@1": b"no-such-path",
            b"d/f/x@1": b"no-such-path",
            b"d@4": b"no-such-path",
            b"d@5": b"no-such-revision",
            b"x@2147483647": b"no-such-revision",
        }
        self.check_talk(dump, asked(b"entry", replies))

    def test_list(self) -> None:
        dump = dump_of(
            [added(b"d"), *(added(b"d/" + name, FILE) for name in reversed(LATER_NAMES))],
            [added(b"d/" + name, DIR) for name in FIRST_NAMES] + [added(b"d/A/in", FILE)],
            [copied(b"e", b"d", 2)],
            [deleted(b"d/a-b"), Node(b"d/A", b"replace", FILE)],
        )
        first = b"ok" + b"".join(b"\nfile " + name for name in LATER_NAMES)
        both = b"ok" + b"".join((b"\ndir " if name in FIRST_NAMES else b"\nfile ") + name for name in NAMES)
        last = both.replace(b"\nfile a-b", b"").replace(b"\ndir A", b"\nfile A")
        replies = {
            b"@0": b"ok",
            b"@1": b"ok\ndir d",
            b"d@1": first,
            b"d@2": both,
            b"@3": b"ok\ndir d\ndir e",
            b"e@3": both,
            b"d@4": last,
            b"e@4": both,
            b"e/A@4": b"ok\nfile in",
            # An empty directory, and files.
            b"d/a b@4": b"ok",
            b"d/A@4": b"ok",
            b"d/\xff@1": b"ok",
            b"d@0": b"no-such-path",
            b"d/a-b@4": b"no-such-path",
            b"d@5": b"no-such-revision",
        }
        self.check_talk(dump, asked(b"list", replies))

    def test_lives_of_a_copy_that_is_moved(self) -> None:
        replies = {
            b"b@3": b"ok\n2-2 dir\nfrom 1 /trunk\nto 3 /c",
            b"b@2": b"ok\n2-2 dir\nfrom 1 /trunk",
            b"c@3": b"ok\n3-3 dir\nfrom 2 /b",
            b"/trunk/@03": b"ok\n1-3 dir",
            b"@0": b"ok\n0-0 dir",
            b"@3": b"ok\n0-3 dir",
            b"b@1": b"no-such-path",
            b"c@2": b"no-such-path",
            b"x@3": b"no-such-path",
            b"b@4": b"no-such-revision",
            b"x@4": b"no-such-revision",
        }
        self.check_talk(MOVED, asked(b"lives", replies))

    def test_what_ends_a_life(self) -> None:
        """A change does not, nor does a copy of a path onto itself from the revision before."""
        first, new, old = b"\n1-4 file", b"\n5-5 file", b"\n6-6 file\nfrom 4 /d/f"
        replies = {
            b"d@3": b"ok\n1-3 dir",
            b"d/f@4": b"ok" + first,
            b"d/f@5": b"ok" + new + first,
            b"d/f@6": b"ok" + old + new + first,
            b"d@8": b"ok\n6-6 dir\nfrom 4 /d\n1-5 dir",
            b"d/f@8": b"ok" + old + new + first,
            b"d/f@9": b"ok\n9-9 dir" + old + new + first,
            b"d@10": b"ok\n10-10 dir\nfrom 9 /e\n9-9 dir\n6-6 dir\nfrom 4 /d\n1-5 dir",
            b"d/f@10": b"ok\n9-9 dir" + old + new + first,
            b"kept/f@10": b"ok\n6-10 file\nfrom 5 /d/f",
        }
        self.check_talk(ENDS, asked(b"lives", replies))

    def test_where_a_path_went(self) -> None:
        replies = {
            b"d@1": b"ok\n1-1 dir",
            # The first of two in the order of the bytes.
            b"d@2": b"ok\n1-1 dir\nto 2 /m-d",
            b"d/f@9": b"ok\n1-1 file\nto 2 /m-d/f",
            # It was copied only later.
            b"m-d@9": b"ok\n2-2 dir\nfrom 1 /d",
            b"m/d/f@5": b"ok\n2-4 file\nfrom 1 /d/f\nto 5 /n/d/f",
            # The copy is of an older revision.
            b"x@6": b"ok\n1-5 dir",
            b"n@6": b"ok\n5-6 dir\nfrom 4 /m",
            b"n@7": b"ok\n5-6 dir\nfrom 4 /m\nto 7 /y",
            # What the copy brought along was deleted.
            b"n/d@7": b"ok\n5-6 dir\nfrom 4 /m/d",
            # It was replaced.
            b"y@7": b"ok\n7-7 dir\nfrom 6 /n\n6-6 dir\nfrom 1 /x",
            b"late@8": b"ok\n4-7 dir\nfrom 2 /m-d\nto 8 /w",
            b"all@9": b"ok\n9-9 dir\nfrom 8 /",
            b"all/w@9": b"ok\n9-9 dir\nfrom 8 /w",
        }
        self.check_talk(WAYS, asked(b"lives", replies))

    def test_explicit(self) -> None:
        """A value is printed as the dump has it. One that was copied counts, and one that was taken away does not."""
        dump = dump_of(
            [added(b"t", DIR, mergeinfo(b"/b:4*,1-2\n/a:3\n")), added(b"t/d"), added(b"t/d/f", FILE, mergeinfo(b"")),
             added(b"t-x", DIR, MERGED), added(b"t/bad", FILE, mergeinfo(b"x\n\ny")), added(b"p"), added(b"p/f", FILE)],
            [copied(b"p/c", b"t", 1), changed(b"t/bad", END)],
            [deleted(b"p/c/d"), changed(b"t", END), changed(b"t/d", MERGED)],
        )  # fmt: skip
        top, bad = b"mergeinfo %s\n /b:4*,1-2\n /a:3\n ", b"\nmergeinfo %s/bad\n x\n \n y"
        empty = b"\nmergeinfo %s/d/f\n "
        replies = {
            b"@0": b"ok",
            b"@1": b"ok\n" + top % b"/t" + b"\nmergeinfo /t-x\n /x:1" + bad % b"/t" + empty % b"/t",
            b"t@1": b"ok\n" + top % b"/t" + bad % b"/t" + empty % b"/t",
            b"t/d@1": b"ok\nmergeinfo /t/d/f\n ",
            b"t/d/f@1": b"ok\nmergeinfo /t/d/f\n ",
            b"p@1": b"ok",
            b"p@2": b"ok\n" + top % b"/p/c" + bad % b"/p/c" + empty % b"/p/c",
            b"t@2": b"ok\n" + top % b"/t" + empty % b"/t",
            b"p/c@3": b"ok\n" + top % b"/p/c" + bad % b"/p/c",
            b"t@3": b"ok\nmergeinfo /t/d\n /x:1\nmergeinfo /t/d/f\n ",
            b"t/d@0": b"no-such-path",
            b"p/c/d@3": b"no-such-path",
            b"t@4": b"no-such-revision",
        }
        self.check_talk(dump, asked(b"explicit", replies))

    def test_ancestor(self) -> None:
        replies = {
            b"trunk@3\tb@2": b"ok\n1 /trunk",
            b"c@3\ttrunk@3": b"ok\n1 /trunk",
            b"c@3\tb@2": b"ok\n2 /b",
            b"b@2\tc@3": b"ok\n2 /b",
            b"trunk@1\ttrunk@3": b"ok\n1 /trunk",
            b"trunk@3\ttrunk@3": b"ok\n3 /trunk",
            b"trunk@3\t@3": b"ok\n-",
            b"@0\t@3": b"ok\n0 /",
            b"b@3\tx@4": b"no-such-path",
            b"trunk@3\tb@3": b"no-such-path",
            b"c@3\tx@4": b"no-such-revision",
        }
        self.check_talk(MOVED, asked(b"ancestor", replies))

    def test_holds(self) -> None:
        of_branch = b"\n7 history\n5 history\n3 history\n2 history\n1 history"
        replies = {
            b"trunk@8\t0:8": b"ok\n8 history\n7 in-part-below /trunk/f\n6 history\n5 in-part\n4 history\n3 merged\n"
            b"1 history",
            b"trunk@8\t7:7": b"ok\n7 in-part-below /trunk/f",
            b"trunk@8\t2:2": b"ok",
            b"trunk@8\t3:5": b"ok\n5 in-part\n4 history\n3 merged",
            b"trunk@8\t8:2147483647": b"ok\n8 history",
            b"trunk@8\t9:9": b"ok",
            b"trunk@5\t0:10": b"ok\n4 history\n3 merged\n1 history",
            b"trunk@3\t0:10": b"ok\n1 history",
            # Its own mergeinfo counts, and before that what it inherited of what is inheritable.
            b"trunk/f@8\t0:8": b"ok\n8 history\n7 merged\n1 history",
            b"trunk/f@6\t0:8": b"ok\n3 merged\n1 history",
            b"b@8\t0:8": b"ok" + of_branch,
            # What is below can't be read.
            b"b@9\t0:8": b"ok" + of_branch,
            b"b/f@9\t0:8": b"malformed-mergeinfo",
            b"trunk@10\t0:0": b"malformed-mergeinfo",
            b"@0\t0:0": b"ok",
            b"x@8\t0:8": b"no-such-path",
            b"trunk@11\t0:8": b"no-such-revision",
        }
        self.check_talk(MERGES, asked(b"holds", replies))

    def test_new(self) -> None:
        """What is held in part is new where more of it is held than before."""
        all_of_trunk = b"ok\n8 history\n6 history\n4 history"
        replies = {
            b"trunk@8\tb@8": b"ok\n7 history\n5 history\n2 history",
            b"b@8\ttrunk@8": all_of_trunk,
            b"b@8\ttrunk@8\t0:2147483647": all_of_trunk,
            b"b@8\ttrunk@8\t4:7": b"ok\n6 history\n4 history",
            b"b@8\ttrunk@8\t0:8\t": all_of_trunk,
            b"b@8\ttrunk@8\t0:8\t5-6,8*": b"ok\n4 history",
            b"trunk@3\ttrunk@8": b"ok\n8 history\n7 in-part-below /trunk/f\n6 history\n5 in-part\n4 history\n3 merged",
            b"trunk/f@8\ttrunk@8": b"ok\n6 history\n5 in-part\n4 history\n3 merged",
            b"b@8\ttrunk@3": b"ok",
            b"trunk@8\ttrunk@8": b"ok",
            # The first path is looked at as a whole before the second one, and the rangelist before both.
            b"trunk@10\tx@8": b"malformed-mergeinfo",
            b"x@8\ttrunk@99": b"no-such-path",
            b"trunk@8\ttrunk@11": b"no-such-revision",
            b"trunk@8\ttrunk@10": b"malformed-mergeinfo",
            b"x@8\ttrunk@8\t0:8\t0": b"bad-query",
        }
        self.check_talk(MERGES, asked(b"new", replies))

    def test_new_ranges(self) -> None:
        replies = {
            b"trunk@3\ttrunk@8": b"ok\n3-4,5*,6,7*,8",
            b"trunk@3\ttrunk@8\t4:7\t6": b"ok\n4,5*,7*",
            b"b@8\ttrunk@8": b"ok\n4,6,8",
            b"@0\tb@8": b"ok\n1-3,5,7",
            b"trunk@8\ttrunk@8": b"ok",
            b"trunk@8\tx@8": b"no-such-path",
        }
        self.check_talk(MERGES, asked(b"new-ranges", replies))

    def test_distance(self) -> None:
        """What is wrong with one path is said in its line."""
        replies = {
            b"trunk@8\t\tb@8\ttrunk@3\ttrunk@8": b"ok\n3 3\n0 6\n0 0",
            b"b@8\t5-6,8\ttrunk@8\tx@8\ttrunk@10\ttrunk@11\tx\t": b"ok\n1 2\nno-such-path\nmalformed-mergeinfo\n"
            b"no-such-revision\nbad-query\nbad-query",
            b"trunk@10\t\tb@8": b"malformed-mergeinfo",
            b"x@8\t\tb@8": b"no-such-path",
            b"trunk@8\t3,\tb@8": b"bad-query",
        }
        self.check_talk(MERGES, asked(b"distance", replies))

    def test_descendants(self) -> None:
        replies = {
            b"x@1\t0": b"ok",
            b"x@1\t1": b"ok\n/x",
            b"x@1\t5": b"ok\n/x",
            b"x@1\t6": b"ok\n/y",
            # It was deleted, and another one has its name.
            b"x@1\t7": b"ok",
            b"d@1\t2": b"ok\n/m-d\n/m/d",
            b"d@1\t4": b"ok\n/late\n/m/d",
            b"d@1\t9": b"ok\n/all/w\n/w",
            b"d/f@1\t7": b"ok\n/late/f",
            b"@0\t9": b"ok\n/\n/all",
            b"@8\t9": b"ok\n/\n/all",
            b"x@1\t10": b"no-such-revision",
            b"q@1\t99": b"no-such-path",
            b"x@10\t9": b"no-such-revision",
        }
        self.check_talk(WAYS, asked(b"descendants", replies))

    def test_lines_that_are_no_questions(self) -> None:
        self.check_talk(MOVED, [(line + b"\n", b"bad-query") for line in BAD])

    def test_questions_between_queries_and_pieces(self) -> None:
        """By one worker and by several. The last piece has another record of the youngest revision."""
        dump = dump_of([added(b"trunk")], [copied(b"b", b"trunk", 1)])
        turns = [
            (b"ask\tlives\tb@2\n", b"ok\n2-2 dir\nfrom 1 /trunk"),
            (b"ask\tlives\tb@4\n", b"no-such-revision"),
            (b"log\ttrunk@2\n", b"ok\nr1 /trunk"),
            (piece(Revision(3, [changed(b"trunk", MERGED)]), Revision(4)), b"ready 4"),
            (b"ask\tlives\tb@4\n", b"ok\n2-4 dir\nfrom 1 /trunk"),
            (b"ask\tlives\tc@4\n", b"no-such-path"),
            (b"ask\tentry\ttrunk@4\n", b"ok\ndir mergeinfo"),
            (piece(Revision(5, [deleted(b"b"), copied(b"c", b"b", 4)])), b"ready 5"),
            (b"ask\tlives\tb@5\n", b"ok\n2-4 dir\nfrom 1 /trunk\nto 5 /c"),
            (b"ask\tlives\tb@4\n", b"ok\n2-4 dir\nfrom 1 /trunk"),
            (b"ask\tlives\tc@5\n", b"ok\n5-5 dir\nfrom 4 /b"),
            (b"ask\tlist\t@4\n", b"ok\ndir b\ndir trunk"),
            (b"ask\tlist\t@5\n", b"ok\ndir c\ndir trunk"),
            (b"ask\tentry\tb@5\n", b"no-such-path"),
            (b"ask\n", b"bad-query"),
            (b"ask\tlives\ttrunk@5\n", b"ok\n1-5 dir"),
            (piece(deleted(b"trunk")), b"ready 5"),
            (b"ask\tlives\ttrunk@5\n", b"ok\n1-4 dir"),
            (b"ask\tlist\t@5\n", b"ok\ndir c"),
            (b"segments\tc@5\n", b"ok\n5-5 /c\n2-4 /b\n1-1 /trunk"),
        ]
        for workers in (1, WORKERS):
            with self.subTest(workers=workers):
                self.check_talk(dump, turns, workers)


class InReports(ProgramTest):
    def test_questions_are_bad_queries(self) -> None:
        lines = [b"ask\tentry\t@1", b"ask\tlist\t@1", b"ask\tlives\t@1", *BAD]
        queries = self.made("queries", b"".join(line + b"\n" for line in lines))
        report = b"".join(b"#%d bad-query\n" % number for number in range(1, len(lines) + 1))
        found = run([self.programs.svnhist, self.made("dump", MOVED), queries, "0", "1"])
        self.assertEqual(found, Outcome(0, report, b""))
