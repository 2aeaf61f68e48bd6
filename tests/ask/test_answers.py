"""Answers, read from the lines of a report."""
from __future__ import annotations

import random
import unittest

from svnask import Log

# fmt: off
PATHS = [
    b"/", b"/trunk", b"/branches/1.8", b"/a b", b"/a /trunk", b"/r1 /2", b"/ ", b"/x,1", b"/[3]", b"/\xc2\x85", b"/8",
]
# fmt: on


class Logs(unittest.TestCase):
    def test_the_numbers_of_a_log_are_those_before_its_paths(self) -> None:
        chance = random.Random(1)
        for _ in range(2000):
            paths = chance.sample(PATHS, chance.randint(1, 4))
            revisions = [chance.randint(0, 12) for _ in range(chance.randint(0, 6))]
            lines = [b"r%d %s" % (rev, chance.choice(paths)) for rev in revisions]
            answer = Log(b"trunk", 8).answer("ok", b"\n".join(lines))
            self.assertEqual(answer.revisions, revisions, lines)
