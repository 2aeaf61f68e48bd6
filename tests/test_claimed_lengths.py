"""Runs the program on dumps that claim far longer bodies than they have, with less memory than they claim.

A length is a number in a header, and only the bytes that come may take room. So each run must end with the refusal of
its dump. One that asked for the room in advance would end with status 4.
"""
from __future__ import annotations

import os
from collections.abc import Iterator

from dev.checks import Check
from dev.dumps import END, FILE, Node, dump_of
from dev.running import Limits, Outcome, Words, run
from tests.base import ProgramTest

# The greatest length that a dump may claim, and one that a machine grants where nothing limits a run.
LENGTHS = ((1 << 63) - 1, 1 << 30)
# A quarter of the smaller claim, and far more than a refused dump of some lines takes.
LIMITS = Limits(memory=256 << 20)
BEFORE = dump_of([])
RECORD = b"".join(line + b"\n" for line in Node(b"a", b"add", FILE).lines())
TRUNCATED = b"5 Truncated"
PROPS = b"6 Props"
HEADERS = (b"Content-length", b"Prop-content-length", b"Text-content-length")


def claims_of(length: int) -> Iterator[tuple[str, bytes, bytes]]:
    """The last blocks of dumps, which claim a length, each after its name and before the reason why it is refused."""
    value = b"K 13\nsvn:mergeinfo\nV %d\n/b:1\n" % length + END
    name = b"K %d\nsvn:mergeinfo\nV 4\n/b:1\n" % length + END
    sections = [
        (f"a section of {length} with a value", length, value, TRUNCATED),
        (f"a section of {length} with a name", length, name, TRUNCATED),
        (f"a value of {length} in a whole section", len(value), value, PROPS),
        (f"a name of {length} in a whole section", len(name), name, PROPS),
    ]
    for header in HEADERS:
        yield f"{header.decode()}: {length}", RECORD + b"%s: %d\n\n" % (header, length) + b"x" * 100, TRUNCATED
    for title, claimed, section, reason in sections:
        yield title, RECORD + b"Prop-content-length: %d\n\n" % claimed + section, reason


class ClaimedLengths(ProgramTest):
    def checks(self, length: int) -> Iterator[Check]:
        """Each dump is given as a file and in a bundle."""
        program = self.programs.svnhist
        for name, block, reason in claims_of(length):
            dump = BEFORE + block
            words: Words = [program, self.made("dump", dump), os.devnull, "0", "1"]
            wanted = Outcome(1, b"", b"svnhist: dump refused: %s at byte %d\n" % (reason, len(BEFORE)))
            yield Check(name, wanted, run(words, limits=LIMITS))
            yield Check(f"{name}, in a bundle", wanted, run([program], b"0 1 0\n" + dump, limits=LIMITS))

    def test_the_greatest_length(self) -> None:
        self.check_all(self.checks(LENGTHS[0]))

    def test_a_length_that_a_machine_grants(self) -> None:
        self.check_all(self.checks(LENGTHS[1]))
