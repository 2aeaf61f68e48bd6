"""The outputs of `svn` itself, as `interop/record --outputs` recorded them, and what svnask prints of several projects."""
from __future__ import annotations

from dev.tree import INTEROP
from interop import outputs
from svnask.asking.parser import parser
from svnask.asking.running import answer_lines
from svnask.asking.verbs import HELP, verb_named
from svnask.errors import Error
from svnask.history.open_history import OpenHistory
from tests.ask import base

PROJECTS = INTEROP / "projects.svnask"


def output_of(history: OpenHistory, arguments: list[str]) -> outputs.Output:
    """Return what svnask prints, in the form of a recorded output."""
    try:
        words = parser(arguments[0]).parse_args(["DUMP"] + arguments)
        return outputs.Output(arguments, 0, b"".join(answer_lines(history, words)))
    except Error as error:
        return outputs.Output(arguments, error.status, str(error).partition(":")[0].encode())


class Outputs(base.Case):
    def test_each_command_prints_what_svn_printed(self) -> None:
        count = 0
        for name in base.names():
            history = self.history(base.dump_of(name))
            for wanted in outputs.read(str(INTEROP / f"{name}.svn")):
                with self.subTest(name=name, arguments=wanted.arguments):
                    self.assertEqual(output_of(history, wanted.arguments), wanted)
                count += 1
        self.assertGreater(count, 700)

    def test_each_verb_prints_what_it_printed_of_several_projects(self) -> None:
        """The answers were looked at one by one. What takes or makes a file has tests of its own."""
        recorded = list(outputs.read(PROJECTS))
        for wanted in recorded:
            with self.subTest(arguments=wanted.arguments):
                done = base.called(base.dump_of("projects"), *wanted.arguments)
                self.assertEqual((done.status, done.output + done.said.encode()), (wanted.status, wanted.text))
        asked = {each.arguments[0] for each in recorded}
        self.assertEqual(
            {name for name in HELP if verb_named(name).needs_history} - asked, {"ask", "check-git", "export"}
        )
