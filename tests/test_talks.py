"""Runs svnhist-live, which answers questions as they come and takes further pieces of its dump.

The talks are about the example of docs/queries.md. Its answers are those of svnhist on the same dump.
"""
from __future__ import annotations

import itertools
import os
import subprocess
from collections.abc import Sequence
from pathlib import Path

from dev import dialogue
from dev.dialogue import Step
from dev.dumps import Revision, added, deleted, first_lines
from dev.running import SECONDS, Outcome, Word, run
from tests.base import ProgramTest, example

# Where the example is cut: the talk begins with the revisions up to the first number, and two pieces have the others.
CUTS = (3, 5, 7)
USAGE = "usage: svnhist-live DUMP WORKERS"
CUT = "standard input ends within a turn"
LONG = 1000000
# How many bytes of a long line are written at a time.
WRITTEN = 1000
MANY = 1000
WORKERS = 8
QUERY = b"log\ttrunk@1\n"
ANSWER = b"#1 ok\nr1 /trunk\n\n"


def ready(revision: int) -> bytes:
    return b"ready %d\n\n" % revision


def parts_of(dump: bytes) -> list[bytes]:
    """The dump up to the end of each of the revisions at which it is cut."""
    begins = [dump.index(b"Revision-number: %d\n" % (revision + 1)) for revision in CUTS[:-1]]
    return [dump[low:high] for low, high in zip([0, *begins], [*begins, len(dump)])]


def turn(piece: bytes) -> bytes:
    return b"piece %d\n" % len(piece) + piece


FIRST, SECOND, THIRD = parts_of(example("branch.dump"))
PIECES = turn(SECOND) + turn(THIRD)
# What is said where both pieces come.
GROWN = b"".join(map(ready, CUTS))


def wanted(status: int, said: bytes, line: str = "") -> Outcome:
    return Outcome(status, said, b"svnhist: %s\n" % line.encode() if line else b"")


def spaced(report: bytes) -> bytes:
    """A report with an empty line after each answer."""
    return report.replace(b"\n#", b"\n\n#") + b"\n"


class Talks(ProgramTest):
    needed = ("svnhist", "svnhist_live")

    def setUp(self) -> None:
        super().setUp()
        self.dump = self.made("dump", FIRST)
        self.missing = self.folder / "missing"

    def words(self, workers: int = 1) -> list[Word]:
        return [self.programs.svnhist_live, self.dump, str(workers)]

    def talk(self, steps: Sequence[Step], workers: int = 1) -> Outcome:
        return dialogue.run(self.words(workers), steps, SECONDS)

    def check_talk(self, name: str, given: bytes, said: bytes, line: str = "") -> None:
        """A talk whose input comes at once: what is said, and why it is refused, if it is."""
        self.compare(name, wanted(1 if line else 0, said, line), self.talk([Step(given)]))

    def check_call(self, name: str, words: Sequence[Word], status: int, line: str, said: bytes = b"") -> None:
        """A call with these arguments, whose input is one question."""
        found = dialogue.run([self.programs.svnhist_live, *words], [Step(QUERY)], SECONDS)
        self.compare(name, wanted(status, said, line), found)

    def test_inputs(self) -> None:
        zeros = b"piece 000%d\n" % len(SECOND) + SECOND
        above = b"piece 9223372036854775808\n" + turn(SECOND)
        again = ready(3) + ANSWER + ready(5) + ANSWER.replace(b"#1", b"#2")
        self.check_talk("no input", b"", ready(3))
        self.check_talk("pieces", PIECES, GROWN)
        self.check_talk("an empty piece", b"piece 0\n" + PIECES, ready(3) + GROWN)
        self.check_talk("leading zeros before a piece", zeros, ready(3) + ready(5))
        self.check_talk("a length above the greatest", above, ready(3) + b"#1 bad-query\n\n" + ready(5))
        self.check_talk("the same question before and after a piece", QUERY + turn(SECOND) + QUERY, again)

    def test_inputs_that_end_within_a_turn(self) -> None:
        answered, most = ready(3) + ANSWER, b"piece 9223372036854775807\n"
        self.check_talk("in the middle of a line", QUERY + b"log\ttr", answered, CUT)
        self.check_talk("in the line before a piece", b"piece 1", ready(3), CUT)
        self.check_talk("after the line before a piece", QUERY + b"piece 1\n", answered, CUT)
        self.check_talk("in the middle of a piece", turn(SECOND)[:-40], ready(3), CUT)
        self.check_talk("a piece that claims the greatest length", most + SECOND, ready(3), CUT)

    def test_pieces_whose_line_has_another_length(self) -> None:
        new, rest = bytes(Revision(4)), b"\n" + bytes(added(b"branches/new")) + QUERY
        bad = b"".join(b"#%d bad-query\n\n" % number for number in range(1, 6))
        said = ready(3) + ready(4) + bad + ANSWER.replace(b"#1", b"#6")
        header = f"dump refused: 3 Header at byte {len(FIRST + new)}"
        with_query = b"piece %d\n" % len(new + QUERY) + new + QUERY
        self.check_talk("a longer piece", turn(new) + rest, said)
        self.check_talk("a shorter piece", b"piece %d\n" % (len(new) + 1) + new, ready(3), CUT)
        self.check_talk("a question after a piece", with_query, ready(3), header)
        self.check_talk("an early end after what is refused", b"piece 1000\n" + new + b"x\n", ready(3), header)

    def test_pieces_that_do_not_follow_the_dump(self) -> None:
        new, place = bytes(Revision(4)), f"at byte {len(FIRST)}"
        faulty = turn(new + bytes(deleted(b"x"))) + QUERY
        self.check_talk("no end of the last block", turn(new[:-1]), ready(3), f"dump refused: 5 Truncated {place}")
        self.check_talk("a first line", turn(first_lines() + SECOND), ready(3), f"dump refused: 7 BadRecord {place}")
        said = ready(3) + ANSWER
        self.check_talk("no next revision", QUERY + turn(THIRD) + QUERY, said, f"dump refused: 8 Revision {place}")
        self.check_talk("a faulty record", faulty, ready(3), "dump refused: 18 Missing at record 5")

    def test_wrong_arguments(self) -> None:
        """Nothing is said then."""
        self.check_call("no arguments", [], 2, USAGE)
        self.check_call("one argument", [self.dump], 2, USAGE)
        self.check_call("three arguments", [self.dump, "1", "1"], 2, USAGE)
        self.check_call("WORKERS 0 and no dump", [self.missing, "0"], 2, USAGE)
        for workers in ("0", "65", "x", "-1", ""):
            self.check_call(f"WORKERS {workers}", [self.dump, workers], 2, USAGE)
        self.check_call("WORKERS 064", [self.dump, "064"], 0, "", ready(3) + ANSWER)

    def test_dumps_that_are_not_read(self) -> None:
        unread, header = "cannot read the dump", f"dump refused: 3 Header at byte {len(FIRST)}"
        refused, faulty = self.made("refused", FIRST + b"x\n"), self.made("faulty", FIRST + bytes(deleted(b"x")))
        self.check_call("no dump", [self.missing, "1"], 3, unread)
        self.check_call("a directory", [self.folder, "1"], 3, unread)
        self.check_call("an empty dump", [os.devnull, "1"], 1, "dump refused: 1 Magic at byte 0")
        self.check_call("a refused dump", [refused, "1"], 1, header)
        self.check_call("a faulty dump", [faulty, "1"], 1, "dump refused: 18 Missing at record 5")

    def check_streams(self, name: str, redirected: str, right: Outcome) -> None:
        """A talk by sh, with its streams redirected. The folder is the fourth argument."""
        command = f'"$1" "$2" "$3" {redirected}'
        found = run(["sh", "-c", command, "sh", *self.words(), self.folder], Path(os.devnull))
        self.compare(name, right, found)

    def test_standard_streams_that_fail(self) -> None:
        unwritten, unread = wanted(3, b"", "cannot write the report"), wanted(3, ready(3), "cannot read standard input")
        self.check_streams("a full disk", ">/dev/full", unwritten)
        self.check_streams("a closed output", ">&-", unwritten)
        self.check_streams("a directory as the input", '<"$4"', unread)
        # The dump is opened in its place, and has ended when turns are read.
        self.check_streams("a closed input", "<&-", wanted(0, ready(3)))

    def test_an_output_that_nobody_reads(self) -> None:
        reader, writer = os.pipe()
        os.close(reader)
        with open(writer, "wb") as output, subprocess.Popen(
            self.words(), stdin=subprocess.DEVNULL, stdout=output, stderr=subprocess.PIPE
        ) as process:
            _, errors = process.communicate(timeout=SECONDS)
        self.assertEqual((process.returncode, errors), (3, b"svnhist: cannot write the report\n"))

    def test_replies_come_before_more_is_written(self) -> None:
        """Also where what was written ends within a turn."""
        turns = [b"", QUERY, turn(SECOND), turn(THIRD), QUERY]
        replies = [ready(3), ANSWER, ready(5), ready(7), ANSWER.replace(b"#1", b"#2")]
        sizes = list(itertools.accumulate(map(len, replies)))
        given, half = b"".join(turns), len(SECOND) // 2
        bounds = [min(end + half, len(given)) for end in itertools.accumulate(map(len, turns))]
        late = [Step(given[low:high], size) for low, high, size in zip([0, *bounds], bounds, sizes)]
        right = wanted(0, b"".join(replies))
        self.compare("at the end of each turn", right, self.talk(list(map(Step, turns, sizes))))
        self.compare("while the next turn has begun", right, self.talk(late))

    def test_a_refusal_comes_while_more_of_the_piece_is_to_come(self) -> None:
        refused = Step(b"piece 1000\nRevision-number: 9\n\n", len(ready(3)), True)
        line = f"dump refused: 8 Revision at byte {len(FIRST)}"
        self.assertEqual(self.talk([refused]), wanted(1, ready(3), line))

    def test_a_long_line_in_small_writes(self) -> None:
        line = b"log\t" + b"a" * (LONG - len(b"log\t@1")) + b"@1"
        given = line + b"\n" + QUERY
        steps = [Step(given[at : at + WRITTEN]) for at in range(0, len(given), WRITTEN)]
        right = wanted(0, ready(3) + b"#1 no-such-path\n\n" + ANSWER.replace(b"#1", b"#2"))
        self.assertEqual(self.talk(steps), right)

    def test_many_queries_at_once(self) -> None:
        """With several workers and with one."""
        queries = b"".join(itertools.islice(itertools.cycle(example("branch.queries").splitlines(True)), MANY))
        whole = self.made("whole", FIRST + SECOND + THIRD)
        report = run([self.programs.svnhist, whole, self.made("queries", queries), "0", "1"])
        right = report._replace(output=GROWN + spaced(report.output))
        for workers in (1, WORKERS):
            self.compare(f"workers: {workers}", right, self.talk([Step(PIECES + queries)], workers))
